/* Records of oscore_store.h in flash, which is simulated: an erase sets bits, a program clears them and is of erased bytes alone, and a cut
   leaves any part of either done. Each status of each call; records that aren't the next one, and two peers behind one record; slots that are
   passed over; a cut at each program and each erase, and at any, over turns of both sectors. */
#define OSCORE_STORE_WITHOUT_FILES
#include "tried.h"

enum { MOST_SECTOR = 512, HOWS = 6, TURNS = 3 };
typedef struct chip {
    uint8_t bytes[2][MOST_SECTOR];
    uint32_t programmed[2][MOST_SECTOR]; /* in which save each byte was, 0 where in none since it was erased */
    oscore_flash flash;
    uint32_t slot, slots, save, erases, steps;
    uint32_t left;   /* after how many steps more the power is cut */
    int how;         /* and how much of that step is done */
    bool off, lies, unread;
    uint32_t reads;  /* how many reads more are answered, where one is refused */
    uint64_t known;  /* the greatest generation of a record that was loaded or saved */
} chip;

static const uint32_t NEVER = UINT32_MAX;

/* Which bits of a byte are done of a step that is cut. */
static uint8_t done(const chip *it, uint32_t at, uint32_t len) {
    static const uint8_t same[4] = {0, 0xff, 0x55, 0xaa};
    return it->how < 4 ? same[it->how] : it->how == 4 ? (at < (len + 1) / 2 ? 0xff : 0) : (uint8_t)draw();
}

/* Whether this step is one that is cut. */
static bool cut(chip *it) {
    it->steps++;
    if (it->left != NEVER && it->left-- == 0) it->off = true;
    return it->off;
}

static bool read_flash(void *user, uint32_t which, uint32_t at, uint8_t *bytes, uint32_t len) {
    chip *it = user;
    CHECK(which < 2 && at + len <= it->flash.sector);
    if (it->off || (it->unread && it->reads-- == 0)) return it->unread = false;
    memcpy(bytes, it->bytes[which] + at, len);
    return true;
}

static bool erase_flash(void *user, uint32_t which) {
    chip *it = user;
    CHECK(which < 2);
    if (it->off) return false;
    bool stops = cut(it);
    for (uint32_t i = 0; i < it->flash.sector; i++) it->bytes[which][i] |= stops ? done(it, i, it->flash.sector) : 0xff;
    if (!stops) memset(it->programmed[which], 0, sizeof it->programmed[which]), it->erases++;
    return !stops;
}

/* A slot is programmed in one save alone, unless no bit of it says so, and each of its units once, in ascending order. */
static bool program_flash(void *user, uint32_t which, uint32_t at, const uint8_t *bytes, uint32_t len) {
    chip *it = user;
    CHECK(which < 2 && len == it->flash.unit && at % len == 0 && at + len <= it->flash.sector);
    if (it->off) return false;
    for (uint32_t i = 0; i < len; i++) CHECK(it->bytes[which][at + i] == 0xff);
    for (uint32_t i = at / it->slot * it->slot; i < (at / it->slot + 1) * it->slot; i++)
        CHECK(it->bytes[which][i] == 0xff || it->programmed[which][i] == it->save);
    for (uint32_t i = at / it->slot * it->slot; i < at; i++) CHECK(it->programmed[which][i] == it->save);
    bool stops = cut(it);
    for (uint32_t i = 0; i < len; i++) {
        it->bytes[which][at + i] &= (uint8_t)(bytes[i] | ~(stops ? done(it, i, len) : it->lies ? 0xfe : 0xff));
        it->programmed[which][at + i] = it->save;
    }
    return !stops;
}

/* An erased chip with so many slots in a sector, and a rest that is too short for one. */
static chip chip_of(uint32_t unit, uint32_t slots) {
    chip it;
    memset(&it, 0, sizeof it), memset(it.bytes, 0xff, sizeof it.bytes);
    it.slot = unit == 32 ? 64 : unit == 5 ? 50 : 48;
    it.flash.unit = unit, it.flash.sector = slots * it.slot + unit;
    it.flash.read = read_flash, it.flash.erase = erase_flash, it.flash.program = program_flash;
    it.slots = slots, it.left = NEVER;
    return it;
}

static oscore_flash_store flashed;

/* What is loaded isn't of a lower generation than any record before. */
static oscore_stored open_store(chip *it, oscore_flash_store *into, bool provision, oscore_peer_record *record) {
    it->flash.user = it, it->save++;
    oscore_stored stored = oscore_flash_open(into, &it->flash, provision, LOCK, record);
    if (stored > OSCORE_STORE_EMPTY) return stored;
    CHECK(record->generation >= it->known && (record->generation == 0) == (stored == OSCORE_STORE_EMPTY));
    it->known = record->generation;
    return stored;
}

static oscore_stored open_flash(chip *it, bool provision, oscore_peer_record *record) {
    return open_store(it, &flashed, provision, record);
}

/* What is saved is of a greater generation than all before. */
static oscore_stored save_record(chip *it, oscore_flash_store *into, const oscore_peer_record *record) {
    it->save++, it->flash.user = it, into->flash = &it->flash; /* a chip may be a copy */
    oscore_stored stored = oscore_flash_save(into, record);
    if (stored != OSCORE_STORED) return stored;
    CHECK(record->generation > it->known);
    it->known = record->generation;
    return stored;
}

/* The next record, by its generation. */
static oscore_stored save_flash(chip *it, oscore_flash_store *into, uint64_t own, uint64_t received) {
    const oscore_peer_record record = record_of(into->record.generation + 1, own, received);
    return save_record(it, into, &record);
}

/* A chip whose store made so many saves, of 1 and 2, 2 and 4, and so on. */
static chip chip_after(uint32_t unit, uint32_t slots, uint64_t count) {
    chip it = chip_of(unit, slots);
    oscore_peer_record record;
    CHECK(open_flash(&it, true, &record) == OSCORE_STORE_EMPTY && is(&record, 0, 0, 0));
    for (uint64_t number = 1; number <= count; number++) CHECK(!save_flash(&it, &flashed, number, 2 * number));
    CHECK(it.known == count);
    return it;
}

/* Whether a record has these numbers, of whichever generation. */
static bool has(const oscore_peer_record *record, uint64_t own, uint64_t received) {
    return is(record, record->generation, own, received);
}

static void reopen_flash(chip *it, uint64_t own, uint64_t received) {
    oscore_peer_record record;
    it->off = false, it->left = NEVER;
    CHECK(open_flash(it, false, &record) == (own > 0 ? OSCORE_STORED : OSCORE_STORE_EMPTY) && has(&record, own, received));
}

/* The save of this number is cut at each of its steps: then the one before it is there, or it is, and the next one goes on from there. */
static void cut_a_save(const chip *before, uint64_t number) {
    chip whole = *before;
    reopen_flash(&whole, number - 1, 2 * (number - 1));
    uint32_t begun = whole.steps;
    CHECK(!save_flash(&whole, &flashed, number, 2 * number));
    for (uint32_t step = 0; step < whole.steps - begun; step++)
        for (int how = 0; how < HOWS; how++) {
            chip it = *before;
            oscore_peer_record record;
            reopen_flash(&it, number - 1, 2 * (number - 1));
            it.left = step, it.how = how;
            CHECK(save_flash(&it, &flashed, number, 2 * number) == OSCORE_STORE_FAILED && it.off);
            CHECK(save_flash(&it, &flashed, number, 2 * number) == OSCORE_STORE_FAILED);
            it.off = false, it.left = NEVER;
            CHECK(open_flash(&it, false, &record) <= OSCORE_STORE_EMPTY);
            CHECK(has(&record, number - 1, 2 * (number - 1)) || has(&record, number, 2 * number));
            /* It is new only where the last unit has its bits. */
            if (step + 1 < whole.steps - begun && it.flash.unit > 1) CHECK(record.sender == number - 1);
            if (step + 1 == whole.steps - begun && how == 1) CHECK(record.sender == number);
            CHECK(!save_flash(&it, &flashed, number + 1, 2 * number + 2));
            reopen_flash(&it, number + 1, 2 * number + 2);
        }
}

static void cut_in_flash(uint32_t unit, uint32_t slots, uint32_t saves) {
    chip it = chip_after(unit, slots, 0);
    uint32_t most = unit == 1 ? saves / 20 : saves / 10;
    for (uint64_t number = 1; number <= most; number++) {
        cut_a_save(&it, number);
        reopen_flash(&it, number - 1, 2 * (number - 1));
        CHECK(!save_flash(&it, &flashed, number, 2 * number));
    }
    /* The provision takes a slot, as each save does. */
    CHECK(it.erases == most / slots && it.erases >= TURNS);
}

/* Saves, of which one in three is cut anywhere, with any bits; and so are provisions. */
static void cut_at_random(uint32_t unit, uint32_t slots, uint32_t saves) {
    chip it = chip_of(unit, slots);
    oscore_peer_record record;
    uint64_t number = 0;
    it.how = 5, it.left = slots > 1 ? 0 : NEVER; /* there is no slot behind the only one */
    CHECK(open_flash(&it, true, &record) == (slots > 1 ? OSCORE_STORE_FAILED : OSCORE_STORE_EMPTY));
    it.off = false, it.left = NEVER;
    CHECK(open_flash(&it, true, &record) == OSCORE_STORE_EMPTY);
    for (uint32_t round = 0; round < 2 * saves; round++) {
        uint64_t next = number + draw() % 3;
        it.left = draw() % 3 ? NEVER : (uint32_t)(draw() % (LEN / unit + 1));
        oscore_stored stored = save_flash(&it, &flashed, next, 2 * next);
        CHECK(stored == (it.off ? OSCORE_STORE_FAILED : OSCORE_STORED));
        it.off = false, it.left = NEVER;
        if (stored || draw() % 2) {
            CHECK(open_flash(&it, false, &record) <= OSCORE_STORE_EMPTY);
            CHECK(has(&record, next, 2 * next) || (stored && has(&record, number, 2 * number)));
            number = record.sender;
        } else {
            number = next;
        }
    }
    CHECK(it.erases >= TURNS);
}

static void opens_flash(void) {
    oscore_peer_record record = record_of(76, 77, 78);
    chip it = chip_of(8, 4), begun;
    CHECK(open_flash(&it, false, &record) == OSCORE_STORE_BROKEN && is(&record, 76, 77, 78) && it.steps == 0);
    CHECK(save_flash(&it, &flashed, 1, 1) == OSCORE_STORE_FAILED);
    /* A provision that is cut is made again; nothing is erased by it. */
    for (uint32_t step = 0; step < 6; step++)
        for (int how = 0; how < HOWS; how++) {
            begun = chip_of(8, 4);
            begun.left = step, begun.how = how;
            CHECK(open_flash(&begun, true, &record) == OSCORE_STORE_FAILED);
            begun.off = false, begun.left = NEVER;
            CHECK(open_flash(&begun, true, &record) == OSCORE_STORE_EMPTY && is(&record, 0, 0, 0) && begun.erases == 0);
        }
    CHECK(open_flash(&it, true, &record) == OSCORE_STORE_EMPTY && open_flash(&it, true, &record) == OSCORE_STORE_EMPTY);
    CHECK(oscore_flash_open(&flashed, &it.flash, false, METER, &record) == OSCORE_STORE_OTHER);
    reopen_flash(&it, 0, 0);
    CHECK(!save_flash(&it, &flashed, 1, 2));
    record = record_of(76, 77, 78);
    CHECK(oscore_flash_open(&flashed, &it.flash, true, METER, &record) == OSCORE_STORE_OTHER);
    CHECK(open_flash(&it, true, &record) == OSCORE_STORE_THERE && is(&record, 76, 77, 78));
    CHECK(save_flash(&it, &flashed, 5, 5) == OSCORE_STORE_FAILED);
    /* Sectors that hold something else aren't provisioned. */
    it = chip_of(8, 4);
    it.bytes[1][7] = 0xfe;
    CHECK(open_flash(&it, true, &record) == OSCORE_STORE_BROKEN);
    it = chip_of(8, 4);
    it.bytes[0][3 * LEN + 7] = 0xfe;
    CHECK(open_flash(&it, true, &record) == OSCORE_STORE_BROKEN && it.steps == 0);
    /* No such flash. */
    it = chip_after(8, 4, 1);
    it.flash.unit = 0;
    CHECK(open_flash(&it, false, &record) == OSCORE_STORE_FAILED);
    it.flash.unit = 33;
    CHECK(open_flash(&it, false, &record) == OSCORE_STORE_FAILED);
    it.flash.unit = 8, it.flash.sector = LEN - 1;
    CHECK(open_flash(&it, false, &record) == OSCORE_STORE_FAILED);
    for (uint32_t reads = 0; reads < 8; reads++) {
        it = chip_after(8, 4, 1);
        it.unread = true, it.reads = reads;
        CHECK(open_flash(&it, false, &record) == OSCORE_STORE_FAILED && !it.unread);
    }
}

static void refuses_in_flash(void) {
    oscore_peer_record record = record_of(7, 9, 18);
    chip it = chip_after(8, 4, 6);
    CHECK(save_flash(&it, &flashed, 5, 18) == OSCORE_STORE_LOWER && save_flash(&it, &flashed, 9, 11) == OSCORE_STORE_LOWER);
    record.name = METER;
    CHECK(save_record(&it, &flashed, &record) == OSCORE_STORE_OTHER);
    record.generation = 9;
    CHECK(save_record(&it, &flashed, &record) == OSCORE_STORE_OTHER && !save_flash(&it, &flashed, 6, 12));
    /* What doesn't stand there isn't saved, nor what can't be read. */
    it.lies = true;
    CHECK(save_flash(&it, &flashed, 9, 18) == OSCORE_STORE_FAILED && save_flash(&it, &flashed, 9, 18) == OSCORE_STORE_FAILED);
    it.lies = false;
    reopen_flash(&it, 6, 12);
    for (uint64_t at = 1; at < 9; at++)
        for (uint32_t reads = 0; reads < 3; reads++) {
            it = chip_after(8, 4, at);
            it.unread = true, it.reads = reads;
            CHECK(save_flash(&it, &flashed, at + 1, 2 * at + 2) == OSCORE_STORE_FAILED);
            CHECK(save_flash(&it, &flashed, at + 1, 2 * at + 2) == OSCORE_STORE_FAILED);
        }
    /* Who is behind by any number of saves writes nothing, and erases nothing. */
    for (uint64_t at = 0; at < 9; at++)
        for (uint64_t more = 1; more < 12; more++) {
            it = chip_after(8, 4, at);
            oscore_flash_store slow = flashed;
            reopen_flash(&it, at, 2 * at);
            for (uint64_t i = 1; i <= more; i++) CHECK(!save_flash(&it, &flashed, at + i, 2 * (at + i)));
            uint32_t steps = it.steps;
            CHECK(save_flash(&it, &slow, 90, 180) == OSCORE_STORE_BEHIND && save_flash(&it, &slow, 0, 0) == OSCORE_STORE_BEHIND && it.steps == steps);
        }
}

/* Saves this record, which is behind: nothing is programmed or erased. */
static void is_behind(chip *it, oscore_flash_store *into, uint64_t generation, uint64_t number) {
    const oscore_peer_record record = record_of(generation, number, 2 * number);
    uint32_t steps = it->steps;
    CHECK(save_record(it, into, &record) == OSCORE_STORE_BEHIND && it->steps == steps);
}

/* A record that isn't the next one, by its generation, is behind, whatever its numbers are; so is that of the second of two peers that began
   behind one record, over the same store, over one that was open before, and over one that is opened later. The first peer goes on. */
static void not_the_next_in_flash(void) {
    for (uint64_t at = 0; at < 9; at++) {
        const uint64_t wrong[] = {0, at - 1, at, at + 2, at + 3, UINT64_MAX};
        chip it = chip_after(8, 4, at);
        oscore_flash_store second;
        oscore_peer_record record;
        for (size_t i = 0; i < sizeof wrong / sizeof wrong[0]; i++) is_behind(&it, &flashed, wrong[i], at + 1), is_behind(&it, &flashed, wrong[i], 0);
        CHECK(open_store(&it, &second, false, &record) <= OSCORE_STORE_EMPTY && is(&record, at, at, 2 * at));
        record = record_of(at + 1, at + 1, 2 * at + 2);
        CHECK(!save_record(&it, &flashed, &record));
        is_behind(&it, &flashed, at + 1, at + 1), is_behind(&it, &second, at + 1, at + 1);
        CHECK(open_store(&it, &second, false, &record) == OSCORE_STORED && is(&record, at + 1, at + 1, 2 * at + 2));
        is_behind(&it, &second, at + 1, at + 1);
        CHECK(!save_flash(&it, &flashed, at + 2, 2 * at + 4));
        reopen_flash(&it, at + 2, 2 * at + 4);
    }
}

/* Slots that a cut spoilt are passed over, with their generations. The peer doesn't see that, and saves its own next record, and the one behind
   it. Who opens the store later has the generation of the slot, above all before; whoever knows the old one alone is behind. */
static void passes_over(void) {
    for (uint64_t at = 0; at < 9; at++)
        for (uint64_t cuts = 0; cuts < 6; cuts++) {
            /* Each cut spoils a slot behind the last record, until the sector is full: then the other one is erased each time. */
            uint64_t left = 3 - at % 4, passed = cuts < left ? cuts : left;
            chip it = chip_after(8, 4, at);
            oscore_peer_record record;
            for (uint64_t i = 0; i < cuts; i++) {
                it.left = 3, it.how = 1;
                CHECK(save_flash(&it, &flashed, at + 1, 2 * at + 2) == OSCORE_STORE_FAILED && it.off);
                reopen_flash(&it, at, 2 * at);
            }
            CHECK(it.known == at);
            for (uint64_t number = at + 1; number < at + 3; number++) {
                is_behind(&it, &flashed, number + 1, number), is_behind(&it, &flashed, number - 1, number);
                record = record_of(number, number, 2 * number);
                CHECK(!save_record(&it, &flashed, &record));
            }
            CHECK(open_flash(&it, false, &record) == OSCORE_STORED && is(&record, at + 2 + passed, at + 2, 2 * at + 4));
            if (passed > 0) is_behind(&it, &flashed, at + 3, at + 3);
            record = record_of(at + 3 + passed, at + 3, 2 * at + 6);
            CHECK(!save_record(&it, &flashed, &record));
            reopen_flash(&it, at + 3, 2 * at + 6);
        }
}

/* Behind the last generation nothing is saved, nor where a slot would have one behind it. */
static void ends_in_flash(void) {
    for (uint64_t below = 0; below < 3; below++)
        for (uint64_t spoilt = 0; spoilt < 2; spoilt++) {
            chip it = chip_of(8, 4);
            const oscore_peer_record last = record_of(UINT64_MAX - below, 5, 10);
            oscore_record_write(&last, last.generation, it.bytes[0]);
            if (spoilt) it.bytes[0][LEN] = 0;
            reopen_flash(&it, 5, 10);
            CHECK(save_flash(&it, &flashed, 5, 10) == (below > spoilt ? OSCORE_STORED : OSCORE_STORE_FAILED));
            CHECK(below > spoilt || it.steps == 0);
            reopen_flash(&it, 5, 10);
        }
}

static void spoilt_in_flash(void) {
    oscore_peer_record record;
    for (uint64_t at = 1; at < 9; at++)
        for (uint32_t bit = 0; bit < 8 * LEN; bit++) {
            chip it = chip_after(16, 4, at);
            it.bytes[flashed.which][flashed.slot * it.slot + bit / 8] ^= (uint8_t)(1 << bit % 8);
            it.known = 0; /* what goes bad later isn't told from what a cut spoilt */
            reopen_flash(&it, at - 1, 2 * (at - 1));
            for (uint32_t i = 0; i < 2 * it.slots; i++) it.bytes[i % 2][i / 2 * it.slot] = 0;
            CHECK(open_flash(&it, false, &record) == OSCORE_STORE_BROKEN);
        }
    /* A slot that was half written reads as whole later: what was saved behind it counts all the same. */
    for (uint64_t at = 0; at < 9; at++) {
        chip it = chip_after(16, 4, at), whole = it;
        reopen_flash(&whole, at, 2 * at);
        CHECK(!save_flash(&whole, &flashed, at + 64, 2 * at));
        uint32_t which = flashed.which, place = flashed.slot * it.slot;
        reopen_flash(&it, at, 2 * at);
        it.left = whole.steps - it.steps - 1, it.how = 0;
        CHECK(save_flash(&it, &flashed, at + 64, 2 * at) == OSCORE_STORE_FAILED);
        reopen_flash(&it, at, 2 * at);
        CHECK(!save_flash(&it, &flashed, at + 1, 2 * at + 2));
        if (flashed.which != which || flashed.slot * it.slot != place) memcpy(it.bytes[which] + place, whole.bytes[which] + place, it.slot);
        reopen_flash(&it, at + 1, 2 * at + 2);
    }
}

void tries_flash(uint32_t saves) {
    static const uint32_t UNITS[] = {1, 4, 5, 8, 16, 32};
    opens_flash(), refuses_in_flash(), not_the_next_in_flash(), passes_over(), ends_in_flash(), spoilt_in_flash();
    for (size_t i = 0; i < sizeof UNITS / sizeof UNITS[0]; i++) {
        cut_in_flash(UNITS[i], 3, saves);
        for (uint32_t slots = 1; slots <= 7; slots += 3) cut_at_random(UNITS[i], slots, saves);
    }
}

/* A peer whose record is kept in two sectors of flash (oscore_store.h), and whose power is cut: at each program and each erase of a scenario,
   one after the other. The flash is simulated, and it alone outlives a cut. A scenario provisions the store and has some lives, each of which
   loads the record, begins behind it, and answers a client, whose power isn't cut. A life that is cut is lived again. Over all lives of a
   scenario the store opens with the record that was saved last, or with one whose save was cut; nothing is sealed twice under one nonce; and
   no request is delivered twice. A second peer that began behind the same record saves nothing. The first thing that is wrong ends the run.
   -DREUSES, -DFORGETS and -DSENDS_FIRST are mistakes, to be found. */
#include "board.h"
#include "oscore.h"
#include "oscore_store.h"
extern void *memcpy(void *, const void *, size_t);
extern void *memset(void *, int, size_t);

#ifndef UNIT
#define UNIT 8 /* how many bytes of the flash are programmed at once */
#endif
/* A sector has so many slots of a record; a scenario so many lives. In the first one nobody asks, so the second one challenges. In each one but
   the first so many requests are delivered, and what the client seals comes AGAIN; in the second one its first request comes so OFTEN that it
   takes more challenges than there are numbers in a save. No number comes to MOST. */
enum { SLOTS = 2, SLOT = (OSCORE_RECORD_LEN + UNIT - 1) / UNIT * UNIT, SECTOR = SLOTS * SLOT, LIVES = 4, ASKED = 2, AGAIN = 2, OFTEN = 65 };
enum { MOST = 1024 };
static const uint8_t SECRET[16] = {1, 2, 3, 4, 5, 6, 7, 8, 9, 10, 11, 12, 13, 14, 15, 16}, OURS[1] = {1};
static const uint8_t PLAIN[] = {0x60, 0x45, 0, 0, 0xff, 's', 'h', 'u', 't'}, PING[] = {0x40, 0, 0, 1};

/* What outlives a cut: the flash, and which of its steps is cut. */
static struct {
    uint8_t bytes[2][SECTOR];
    uint32_t steps, cut_at;
    bool off;
} chip;

/* All that the device has beside it, and that a cut takes. `closed` says that it challenges, and `owed` is the record that a mistake saves too
   late. */
static struct {
    oscore_flash_store store;
    oscore_context context;
    oscore_peer_record record, owed;
    oscore_peer peer, second;
    oscore_option options[4];
    oscore_opened opened;
    oscore_ticket ticket;
    oscore_status status;
    oscore_size out_len, reply_len, detail;
    uint64_t now;
    bool closed, owes;
    uint8_t datagram[96], out[64], reply[96];
} device;

/* The client, and what is known of all lives of a scenario: `handed` was handed to a save last, and `kept` is the last record that was loaded,
   or of which a save said that it is done. Whoever overhears has the client's last request, `sealed`, which `answers` a challenge of this life
   or doesn't. */
static struct {
    oscore_context client;
    oscore_peer_record kept, handed;
    uint64_t next, number;
    uint8_t sent[MOST / 8], sent_for[MOST / 8], delivered[MOST / 8]; /* by a number of the device, by a request's, and requests */
    uint8_t sealed[96], echo[8], token;
    oscore_size sealed_len;
    bool answers;
} world;
static uint32_t cuts, lives, requests, numbers;

static void say_number(uint32_t n) {
    char text[11], *at = text + sizeof text;
    *--at = 0;
    do *--at = (char)('0' + n % 10); while ((n /= 10) > 0);
    board_say(at);
}

static void must(const char *what, bool holds) {
    if (holds) return;
    board_say("WRONG, cut at step "), say_number(chip.cut_at), board_say(": "), board_say(what), board_say("\n");
    board_end(1);
}

/* Puts a number into a set, in which it wasn't. */
static void once(const char *what, uint8_t *set, uint64_t number) {
    must("a number is too large for this test", number < MOST);
    must(what, !(set[number / 8] >> number % 8 & 1));
    set[number / 8] |= (uint8_t)(1 << number % 8);
}

/* ---- the flash: an erase sets bits, and a program clears them, in erased bytes alone */

/* Which bits of a byte are done by a step that is cut: none, all, every other one, those of the first half of the bytes, or any. */
static uint8_t done(uint32_t at, uint32_t len) {
    static const uint8_t same[3] = {0, 0xff, 0x55};
    uint32_t how = chip.steps % 5;
    return how < 3 ? same[how] : how == 3 ? (at < len / 2 ? 0xff : 0) : (uint8_t)((at + chip.steps) * 2654435761u >> 24);
}

/* Counts a step, and says whether the power is cut in it. */
static bool cut(void) {
    return chip.off = ++chip.steps == chip.cut_at;
}

static bool read_flash(void *user, uint32_t which, uint32_t at, uint8_t *bytes, uint32_t len) {
    (void)user;
    must("a read lies in the flash", which < 2 && at + len <= SECTOR);
    memcpy(bytes, chip.bytes[which] + at, len);
    return !chip.off;
}

static bool erase_flash(void *user, uint32_t which) {
    (void)user;
    must("an erase lies in the flash", which < 2);
    if (chip.off) return false;
    bool stops = cut();
    for (uint32_t i = 0; i < SECTOR; i++) chip.bytes[which][i] |= stops ? done(i, SECTOR) : 0xff;
    return !stops;
}

static bool program_flash(void *user, uint32_t which, uint32_t at, const uint8_t *bytes, uint32_t len) {
    (void)user;
    must("a program is of a unit of the flash", which < 2 && len == UNIT && at % len == 0 && at + len <= SECTOR);
    if (chip.off) return false;
    for (uint32_t i = 0; i < len; i++) must("a program is of erased bytes", chip.bytes[which][at + i] == 0xff);
    bool stops = cut();
    for (uint32_t i = 0; i < len; i++) chip.bytes[which][at + i] &= (uint8_t)(bytes[i] | ~(stops ? done(i, len) : 0xff));
    return !stops;
}

static const oscore_flash FLASH = {SECTOR, UNIT, read_flash, erase_flash, program_flash, NULL};

/* ---- the device */

/* The power is on again, and nothing is there but the flash. What the library's header says is zero at first is set so. */
static void boots(void) {
    chip.off = false;
    memset(&device, 0xa5, sizeof device);
    memset(&device.context, 0, sizeof device.context), memset(&device.peer, 0, sizeof device.peer), memset(device.options, 0, sizeof device.options);
    memset(&device.opened, 0, sizeof device.opened), memset(&device.ticket, 0, sizeof device.ticket);
    device.now = 0, device.owes = false;
}

/* Saves a record in the flash. False where the power was cut, here and below. */
static bool keeps(const oscore_peer_record *record) {
    world.handed = *record;
#ifndef FORGETS
    oscore_stored stored = oscore_flash_save(&device.store, record);
    must("a save is done, or its power was cut", stored == (chip.off ? OSCORE_STORE_FAILED : OSCORE_STORED));
    if (chip.off) return false;
#endif
    world.kept = *record;
    return true;
}

/* Saves the record that a call asked for, and tells the peer. */
static bool saves(void) {
#ifdef SENDS_FIRST
    if (device.owes && !keeps(&device.owed)) return false;
    device.owed = device.record, device.owes = true;
#else
    if (!keeps(&device.record)) return false;
#endif
    must("the peer is told", oscore_peer_saved(&device.peer, &device.record) == OSCORE_DONE);
    return true;
}

/* A datagram of the device is sent: one that is protected, under a nonce of which nothing was sent before. That is made of the device's number
   where its OSCORE option has one, and else of the number of the request. */
static void sends(const uint8_t *datagram, oscore_size len, uint64_t request) {
    oscore_size at = 4 + (datagram[0] & 15u);
    for (uint32_t option = 0; at < len && datagram[at] != 0xff;) {
        uint32_t delta = datagram[at] >> 4, value_len = datagram[at] & 15;
        must("an option of the device is short", delta < 14 && value_len < 13);
        at++;
        option += delta < 13 ? delta : 13u + datagram[at++];
        if (option == 9) {
            uint64_t number = 0;
            uint32_t own_len = value_len > 0 ? datagram[at] & 7 : 0;
            for (uint32_t i = 1; i <= own_len; i++) number = number << 8 | datagram[at + i];
            if (own_len > 0) once("a number is sent twice", world.sent, number), numbers++;
            else once("a request's nonce is sent twice", world.sent_for, request);
        }
        at += value_len;
    }
    if (device.owes) device.owes = false, keeps(&device.owed);
}

static oscore_status take_once(oscore_peer *peer, oscore_size len) {
    return oscore_peer_take(peer, device.now, (uint16_t)device.now, device.datagram, len, device.options, OSCORE_COUNT(device.options),
                            &device.opened, &device.ticket, device.out, &device.out_len, &device.record, &device.detail);
}

/* The device takes a datagram, and saves first where it has to. */
static bool takes(const uint8_t *datagram, oscore_size len) {
    memcpy(device.datagram, datagram, len);
    device.now++;
    while ((device.status = take_once(&device.peer, len)) == OSCORE_SAVE_FIRST)
        if (!saves()) return false;
    if (device.status == OSCORE_DONE) once("a request is delivered twice", world.delivered, device.opened.number), requests++;
    sends(device.out, device.out_len, MOST);
    return !chip.off;
}

static oscore_status reply_once(bool own) {
    return oscore_peer_reply(&device.peer, &device.ticket, own, (uint16_t)device.now, PLAIN, sizeof PLAIN, device.reply, sizeof device.reply,
                             &device.reply_len, &device.record, &device.detail);
}

static bool replies(bool own) {
    while ((device.status = reply_once(own)) == OSCORE_SAVE_FIRST)
        if (!saves()) return false;
    must("a reply is sealed", device.status == OSCORE_DONE);
    sends(device.reply, device.reply_len, device.ticket.number);
    return !chip.off;
}

/* The second peer has to save the record that the device saved, and takes nothing. */
static void second_is_refused(void) {
    memcpy(device.datagram, PING, sizeof PING);
    must("a second peer has to save first", take_once(&device.second, sizeof PING) == OSCORE_SAVE_FIRST);
    must("a second peer's record is refused", oscore_flash_save(&device.store, &device.record) == OSCORE_STORE_BEHIND);
}

/* ---- the client */

/* Seals GET /lock, with the Echo value of the last challenge where it answers that. */
static void asks(bool answers) {
    const oscore_option options[2] = {{11, (const uint8_t *)"lock", 4}, {252, world.echo, sizeof world.echo}};
    uint8_t plain[32];
    oscore_size plain_len = 0, detail = 0;
    world.token++, world.number = world.next++, world.answers = answers;
    must("a request is written", oscore_write_message(0, 1, world.token, &world.token, 1, options, answers ? 2 : 1, NULL, 0, plain, sizeof plain,
                                                      &plain_len, &detail) == OSCORE_DONE);
    must("a request is sealed", oscore_seal_request(&world.client, world.number, plain, plain_len, world.sealed, sizeof world.sealed,
                                                    &world.sealed_len, &detail) == OSCORE_DONE);
}

/* Opens what the device sent to the last request, of this code. An Echo value is kept. */
static void hears(uint8_t *datagram, oscore_size len, uint8_t code) {
    static oscore_option options[4];
    static oscore_opened opened;
    oscore_size detail;
    must("the client opens what the device sent", oscore_open_response(&world.client, world.number, datagram, len, options, OSCORE_COUNT(options),
                                                                       &opened, &detail) == OSCORE_DONE && opened.code == code);
    for (uint32_t i = 0; i < opened.option_count; i++)
        if (options[i].number == 252 && options[i].value_len == sizeof world.echo) memcpy(world.echo, options[i].value, sizeof world.echo);
}

/* ---- a scenario */

/* By tables, since nobody measures here. */
static void derives(bool server, oscore_context *context) {
    oscore_parameters parameters = OSCORE_ZERO;
    parameters.secret = SECRET, parameters.secret_len = sizeof SECRET, parameters.tables = 1;
    if (server) parameters.sender_id = OURS, parameters.sender_id_len = sizeof OURS;
    else parameters.recipient_id = OURS, parameters.recipient_id_len = sizeof OURS;
    must("a context is derived", oscore_derive_from(context, &parameters) == OSCORE_DONE);
}

/* Opens the store by the context's name. */
static oscore_stored opens(bool provision) {
    uint64_t name = 0;
    derives(true, &device.context);
    must("a context has a name", oscore_peer_name(&device.context, &name) == OSCORE_DONE);
    return oscore_flash_open(&device.store, &FLASH, provision, name, &device.record);
}

/* Whether this record was loaded. Its generation may be that of a slot behind others that a cut spoilt. */
static bool is_loaded(const oscore_peer_record *record) {
    return device.record.sender == record->sender && device.record.received == record->received && device.record.generation >= record->generation;
}

/* Loads the record, and begins the peer behind it; and a second one beside it, as a task that was believed dead. */
static void begins(void) {
    oscore_stored stored = opens(false);
    must("the store opens", stored == OSCORE_STORED || stored == OSCORE_STORE_EMPTY);
    must("the record that was saved is loaded", is_loaded(&world.kept) || is_loaded(&world.handed));
    must("a store that nothing was saved in says so", (stored == OSCORE_STORE_EMPTY) == (device.record.generation == 0));
    world.kept = world.handed = device.record, world.answers = false;
    device.closed = stored == OSCORE_STORED && device.record.received == 0;
#ifdef REUSES
    if (device.record.sender > 64) device.record.sender -= 64;
#endif
    must("a peer begins", (stored == OSCORE_STORED ? oscore_peer_begin_again(&device.peer, &device.context, &device.record, 32, 0)
        : oscore_peer_begin_first(&device.peer, &device.context, 32, 0)) == OSCORE_DONE);
    device.second = device.peer;
}

/* The client's last request comes so often, from the client or from whoever overheard it. It is delivered where it is new, once; a life that
   challenges doesn't know that, but of one that answers it. */
static bool comes(uint32_t often, bool own) {
    for (uint32_t i = 0; i < often; i++) {
        bool is_new = device.closed ? world.answers : world.number >= device.peer.received;
        if (!takes(world.sealed, world.sealed_len)) return false;
        if (is_new) {
            must("a new request is delivered", device.status == OSCORE_DONE && device.opened.code == 1);
            device.closed = false;
            if (!replies(own)) return false;
            hears(device.reply, device.reply_len, 69);
        } else if (device.closed) {
            must("a request is challenged", device.status == OSCORE_CHALLENGE);
            hears(device.out, device.out_len, 129);
        } else {
            must("a request that comes again is a replay", device.status == OSCORE_REPLAY);
        }
    }
    return true;
}

/* One life. Before anything else it saves a record, whatever comes first; then nothing of a second peer is saved. What was overheard before
   comes again. Of so many requests the first one comes so often. */
static bool lives_through(uint32_t asked, uint32_t often) {
    lives++;
    boots();
    begins();
    if (!takes(PING, sizeof PING)) return false;
    must("a ping is no request", device.status == OSCORE_NOT_THAT_KIND && device.out_len == 0);
    second_is_refused();
    if (world.sealed_len > 0 && !comes(AGAIN, false)) return false;
    for (uint32_t i = 0; i < asked; i++) {
        asks(false);
        if (!comes(i == 0 ? often : AGAIN, i == 0)) return false;
        if (!device.closed) continue;
        asks(true);
        if (!comes(AGAIN, i == 0)) return false;
    }
    return true;
}

/* Makes the store. Where that is cut, it is made again; until then the store is broken, or it is there. */
static void provisions(void) {
    boots();
    oscore_stored stored = opens(true);
    if (chip.off) {
        boots();
        stored = opens(false);
        must("a store that isn't provisioned is broken, or empty", stored == OSCORE_STORE_BROKEN || stored == OSCORE_STORE_EMPTY);
        stored = opens(true);
    }
    must("a store is provisioned", stored == OSCORE_STORE_EMPTY && is_loaded(&world.kept) && device.record.generation == 0);
}

/* A scenario, of which this step is cut. Answers whether it has so many. */
static bool has_step(uint32_t step) {
    memset(&chip, 0, sizeof chip), memset(chip.bytes, 0xff, sizeof chip.bytes), memset(&world, 0, sizeof world);
    chip.cut_at = step;
    derives(false, &world.client);
    provisions();
    for (uint32_t life = 0; life < LIVES;)
        if (lives_through(life == 0 ? 0 : ASKED, life == 1 ? OFTEN : AGAIN)) life++;
    return chip.steps >= step;
}

int main(void) {
    while (has_step(cuts + 1)) cuts++;
    board_say("cuts "), say_number(cuts), board_say(", lives "), say_number(lives), board_say(", requests "), say_number(requests);
    board_say(", numbers "), say_number(numbers), board_say("\n");
    return 0;
}

/* What a peer that serves has to save: which record, before which call, in which order among the statuses, and that nothing goes on before; RFC
   8613, C.4, C.7 and C.8, and an observation, by tables and in constant time; a life behind another, which delivers nothing twice; tickets of
   other peers and other lives; records of other contexts, and old ones; names; the last numbers and the last record; spoilt bytes. All that is
   handed in lies against a guard page. Built with the sanitizers by .ci/run, and run under valgrind's memcheck with fewer rounds, which its
   only word says. */
#include "guarded.h"
#include "peer_bytes.h"

#define CHECK(holds) do { if (!(holds)) { printf("peer.c:%d: %s\n", __LINE__, #holds); exit(1); } } while (0)

/* RFC 8613, C.4: the request with the number 20, GET coap://localhost/tv1. C.7 and C.8: its responses, the plain one, those without
   and with a Partial IV of their own. */
static const char *REQUEST = "44015d1f00003974396c6f63616c686f737483747631";
static const char *SEALED = "44025d1f00003974396c6f63616c686f7374620914ff612f1092f1776f1c1668b3825e";
static const char *ANSWER = "64455d1f00003974ff48656c6c6f20576f726c6421";
static const char *SEALED_ANSWERS[2] = {"64445d1f0000397490ffdbaad1e9a7e7b2a813d3c31524378303cdafae119106",
                                        "64445d1f00003974920100ff4d4c13669384b67354b2b6175ff4b8658c666a6cf88e"};
/* The number 20, and a plaintext of the code 45 alone, which is a response's. */
static const char *INNER = "44025d1f00003974920914ff256a22a25470d7a3b9";
/* A registration with the number 20, two notifications of it, and its last answer: those of observe.c. */
static const char *SEALED_REGISTRATION = "410501014a60320914ff61fc3090a5ed1bf69f1d661cf04b96";
static const char *STATES[2] = {"60450101610160ff32302e31", "50457001610260ff32302e32"};
static const char *NOTIFICATIONS[2] = {"614501014a6101320100ff4dd33bfccdd8f762dd9be55ed4da0a72", "514570014a6102320101ff5283c3f4e0130f5955ca70f2ac7560ba"};
static const char *GONE = "50840005";

enum { NOW = 1000, LIFE = 5000, MID = 0x1234, BATCH = 64 };
/* What is handed in, each at a place of its own. */
enum { CONTEXT, OWN, PEER, OPTIONS, OPENED, TICKET, OUT, SEALED_LEN, REPLY, REPLY_LEN, RECORD, DETAIL, PLAIN, DATAGRAM, SECRET, SALT, ONE,
    GIVEN, NAME };
static const uint64_t NUMBERS = 1ull << 40;
static bool tables, observe;
static oscore_context *context, *own;
static oscore_peer *peer;
static oscore_option *options;
static oscore_opened *opened;
static oscore_ticket *ticket;
static oscore_peer_record *record;
static uint8_t *out, *reply, *datagram;
static oscore_size *out_len, *reply_len, *detail;
static int rounds = 20000;

static void lay_out(bool before) {
    guarded_before = before;
    context = guarded(CONTEXT, sizeof *context);
    own = guarded(OWN, sizeof *own);
    peer = guarded(PEER, sizeof *peer);
    options = guarded(OPTIONS, 4 * sizeof *options);
    opened = guarded(OPENED, sizeof *opened);
    ticket = guarded(TICKET, sizeof *ticket);
    record = guarded(RECORD, sizeof *record);
    out_len = guarded_room(SEALED_LEN, sizeof *out_len);
    reply_len = guarded_room(REPLY_LEN, sizeof *reply_len);
    detail = guarded_room(DETAIL, sizeof *detail);
}

static oscore_size hex(const char *text, uint8_t *bytes) {
    oscore_size len = 0;
    unsigned byte;
    for (; *text; text += 2, bytes[len++] = (uint8_t)byte) CHECK(sscanf(text, "%2x", &byte) == 1);
    return len;
}

static bool is(const uint8_t *bytes, oscore_size len, const char *text) {
    uint8_t wanted[128];
    return hex(text, wanted) == len && !memcmp(bytes, wanted, len);
}

/* The context of RFC 8613, C.1, for both ends; with another Master Salt, or with none. */
static void derive_with(const char *salted) {
    uint8_t bytes[16], one = 1;
    const uint8_t *secret = guarded_copy(SECRET, bytes, hex("0102030405060708090a0b0c0d0e0f10", bytes));
    oscore_size len = hex(salted, bytes);
    const uint8_t *salt = guarded_copy(SALT, bytes, len), *id = guarded_copy(ONE, &one, 1);
    CHECK(!oscore_derive(context, secret, 16, salt, len, false, NULL, 0, NULL, 0, id, 1, tables, false, observe));
    CHECK(!oscore_derive(own, secret, 16, salt, len, false, NULL, 0, id, 1, NULL, 0, tables, false, observe));
}

static void derive(void) {
    derive_with("9e7ca92223786340");
}

static bool is_record(uint64_t generation, uint64_t sender, uint64_t received) {
    return record->name == peer->name && record->generation == generation && record->sender == sender && record->received == received;
}

static const oscore_peer_record *given(uint64_t name, uint64_t generation, uint64_t sender, uint64_t received) {
    oscore_peer_record it = {name, generation, sender, received};
    return guarded_copy(GIVEN, &it, sizeof it);
}

/* ---- the calls */

/* Behind each refusal but those of the library's core, all is as it was; `record` is written at OSCORE_SAVE_FIRST alone. */
static uint32_t take(const uint8_t *bytes, oscore_size len) {
    oscore_peer before = *peer;
    static const oscore_opened none_opened;
    static const oscore_option none_options[4];
    static const oscore_ticket none_ticket;
    static const oscore_peer_record none_record;
    memset(options, 0, sizeof none_options), memset(opened, 0, sizeof none_opened), memset(ticket, 0, sizeof none_ticket);
    memset(record, 0, sizeof *record);
    datagram = guarded_copy(DATAGRAM, bytes, len);
    reply = guarded(REPLY, 64);
    *reply_len = 99;
    uint32_t status = oscore_peer_take(peer, NOW, MID, datagram, len, options, 4, opened, ticket, reply, reply_len, record, detail);
    CHECK(*reply_len <= 64 && peer->reserved == before.reserved && peer->received == before.received);
    CHECK(!status || (!memcmp(opened, &none_opened, sizeof none_opened) && !memcmp(options, none_options, sizeof none_options)
        && !memcmp(ticket, &none_ticket, sizeof none_ticket)));
    CHECK((status == OSCORE_SAVE_FIRST) == !!memcmp(record, &none_record, sizeof none_record));
    CHECK(status || (ticket->context == peer->name && ticket->life == peer->life && ticket->number < peer->received));
    if (status != OSCORE_SAVE_FIRST && status != OSCORE_BAD_HANDLE && status != OSCORE_LIVES_EXHAUSTED) return status;
    CHECK(same_peers(peer, &before) && !memcmp(datagram, bytes, len) && *reply_len == 0 && *detail == 0);
    for (oscore_size i = 0; i < 64; i++) CHECK(!reply[i]);
    return status;
}

static uint32_t take_text(const char *text) {
    uint8_t bytes[128];
    return take(bytes, hex(text, bytes));
}

/* A request that the other end seals under a number. */
static uint32_t take_sealed(const char *text, uint64_t under) {
    uint8_t plain[64], sealed[128];
    oscore_size len = hex(text, plain);
    out = guarded_room(OUT, sizeof sealed);
    CHECK(!oscore_seal_request(context, under, guarded_copy(PLAIN, plain, len), len, out, sizeof sealed, out_len, detail));
    memcpy(sealed, out, *out_len);
    return take(sealed, *out_len);
}

/* A refusal leaves the peer and the room. */
static uint32_t is_left(uint32_t status, const oscore_peer *before, oscore_size room) {
    for (oscore_size i = status ? 0 : *out_len; i < room; i++) CHECK(!out[i]);
    CHECK(!status || (same_peers(peer, before) && *out_len == 99));
    CHECK((status == OSCORE_SAVE_FIRST) == (record->generation != 0));
    CHECK(peer->reserved == before->reserved && peer->received == before->received);
    return status;
}

static uint32_t answer(const char *text, bool by_own, oscore_size room) {
    uint8_t bytes[64];
    oscore_size len = hex(text, bytes);
    oscore_peer before = *peer;
    out = guarded(OUT, room);
    *out_len = 99;
    memset(record, 0, sizeof *record);
    return is_left(oscore_peer_reply(peer, ticket, by_own, MID, guarded_copy(PLAIN, bytes, len), len, out, room, out_len, record, detail), &before, room);
}

static uint32_t notify(const char *text, oscore_size room) {
    uint8_t bytes[64];
    oscore_size len = hex(text, bytes);
    oscore_peer before = *peer;
    out = guarded(OUT, room);
    *out_len = 99;
    memset(record, 0, sizeof *record);
    return is_left(oscore_peer_notify(peer, ticket, guarded_copy(PLAIN, bytes, len), len, out, room, out_len, record, detail), &before, room);
}

/* Saves the record that was asked for. Any other one that is near it is refused, but one with a greater received number. */
static void saves(uint64_t generation, uint64_t sender, uint64_t received) {
    oscore_peer_record asked = *record;
    CHECK(is_record(generation, sender, received));
    oscore_peer before = *peer;
    const oscore_peer_record others[] = {
        {asked.name + 1, generation, sender, received}, {asked.name, generation - 1, sender, received},
        {asked.name, generation + 1, sender, received}, {asked.name, generation, sender + 1, received},
        {asked.name, generation, sender - 1, received}, {asked.name, generation, sender + BATCH, received},
        {asked.name, generation, sender, before.received - 1}, {asked.name, generation, sender, NUMBERS + 1},
        {asked.name, generation, NUMBERS + 1, received}};
    for (oscore_size i = 0; i < sizeof others / sizeof others[0]; i++) {
        if (i == 6 && before.received == 0) continue;
        CHECK(oscore_peer_saved(peer, guarded_copy(GIVEN, &others[i], sizeof others[i])) == OSCORE_BAD_NUMBER && same_peers(peer, &before));
    }
    CHECK(!oscore_peer_saved(peer, guarded_copy(GIVEN, &asked, sizeof asked)));
    before.reserved = sender, before.received = received, before.generation = generation;
    CHECK(same_peers(peer, &before));
    CHECK(oscore_peer_saved(peer, guarded_copy(GIVEN, &asked, sizeof asked)) == OSCORE_BAD_NUMBER && same_peers(peer, &before));
}

static void begin_first(void) {
    derive();
    CHECK(!oscore_peer_begin_first(peer, own, 32, LIFE));
    CHECK(peer->received == 0 && peer->reserved == 0 && peer->life == 1 && peer->generation == 0 && peer->life_ms == LIFE);
}

static void begin_saved(void) {
    begin_first();
    CHECK(take_text(SEALED) == OSCORE_SAVE_FIRST);
    saves(1, BATCH, 0);
}

static void begin_again(uint64_t generation, uint64_t sender, uint64_t received) {
    uint64_t *name = guarded(NAME, sizeof *name);
    derive();
    CHECK(!oscore_peer_name(own, name) && !oscore_peer_begin_again(peer, own, given(*name, generation, sender, received), 32, LIFE));
    CHECK(peer->received == received && peer->reserved == sender && peer->life == generation + 1 && peer->generation == generation);
    CHECK(peer->name == *name && peer->server.clock == 0 && peer->clock == 0 && peer->server.unanswered.mask == 0);
}

/* ---- what it answers */

static void begins(void) {
    begin_first();
    oscore_peer before = *peer;
    uint64_t name = peer->name;
    CHECK(oscore_peer_begin_first(peer, own, 33, LIFE) == OSCORE_BAD_NUMBER && same_peers(peer, &before));
    CHECK(oscore_peer_begin_again(peer, own, given(name + 1, 1, BATCH, 0), 33, LIFE) == OSCORE_BAD_NUMBER && same_peers(peer, &before));
    const oscore_peer_record old[] = {{name + 1, 1, BATCH, 0}, {name, 0, BATCH, 0}, {name, UINT64_MAX, BATCH, 0}, {name, 1, NUMBERS + 1, 0},
                                      {name, 1, BATCH, NUMBERS + 1}};
    for (oscore_size i = 0; i < sizeof old / sizeof old[0]; i++)
        CHECK(oscore_peer_begin_again(peer, own, guarded_copy(GIVEN, &old[i], sizeof old[i]), 32, LIFE) == OSCORE_OLD_RECORD && same_peers(peer, &before));
    CHECK(oscore_peer_begin_again(peer, own, given(name, 1, NUMBERS, 0), 32, LIFE) == OSCORE_SEQUENCE_EXHAUSTED && same_peers(peer, &before));
    CHECK(!oscore_peer_begin_again(peer, own, given(name, UINT64_MAX - 1, NUMBERS - 1, NUMBERS), 64, LIFE) && peer->server.context.places == 64);
    /* The other end, and another salt, have other names. */
    CHECK(!oscore_peer_begin_first(peer, context, 1, LIFE) && peer->name != name);
    derive_with("9e7ca92223786341");
    CHECK(!oscore_peer_begin_first(peer, own, 1, LIFE) && peer->name != name);
    before = *peer;
    own->sender_len = 8;
    CHECK(oscore_peer_begin_first(peer, own, 33, LIFE) == OSCORE_BAD_HANDLE && same_peers(peer, &before));
    CHECK(oscore_peer_begin_again(peer, own, given(name + 1, 0, NUMBERS, 0), 33, LIFE) == OSCORE_BAD_HANDLE && same_peers(peer, &before));
}

/* The name is the peer's, and another context has another one. */
static void names(void) {
    uint64_t *name = guarded(NAME, sizeof *name);
    begin_first();
    CHECK(!oscore_peer_name(own, name) && *name == peer->name && !oscore_peer_name(context, name) && *name != peer->name);
    *name = 7;
    own->sender_len = 8;
    CHECK(oscore_peer_name(own, name) == OSCORE_BAD_HANDLE && *name == 7);
}

static void serves_first(void) {
    for (int by_own = 0; by_own < 2; by_own++) {
        begin_first();
        /* Nothing is taken or sealed before the first save, whatever it is. */
        CHECK(take_text("4001") == OSCORE_SAVE_FIRST && is_record(1, BATCH, 0) && take_text(SEALED) == OSCORE_SAVE_FIRST);
        saves(1, BATCH, 0);
        CHECK(take_text("4001") == OSCORE_SHORT && take_text(INNER) == OSCORE_INNER);
        begin_saved();
        /* Nothing is delivered before its number is saved. */
        CHECK(take_text(SEALED) == OSCORE_SAVE_FIRST && is_record(2, BATCH, 21) && take_text(SEALED) == OSCORE_SAVE_FIRST);
        saves(2, BATCH, 21);
        CHECK(!take_text(SEALED) && opened->number == 20 && !*reply_len && ticket->number == 20);
        CHECK(!answer(ANSWER, by_own, 64) && is(out, *out_len, SEALED_ANSWERS[by_own]));
        CHECK(peer->server.context.next == (uint64_t)by_own && answer(ANSWER, by_own, 64) == OSCORE_TICKET_SPENT);
        CHECK(take_text(SEALED) == OSCORE_REPLAY && *reply_len && peer->server.context.context.tables == tables);
        /* Below the saved number nothing has to be saved; above it each has. */
        CHECK(!take_sealed(REQUEST, 19) && take_sealed(REQUEST, 21) == OSCORE_SAVE_FIRST);
        saves(3, BATCH, 22);
        CHECK(!take_sealed(REQUEST, 21));
        /* What was saved in advance needs no save. */
        CHECK(!oscore_peer_saved(peer, given(peer->name, 4, BATCH, 30)) && !take_sealed(REQUEST, 29) && take_sealed(REQUEST, 30) == OSCORE_SAVE_FIRST);
        CHECK(is_record(5, BATCH, 31));
    }
}

/* What isn't delivered needs no save but the first. */
static void refuses_datagrams(void) {
    begin_saved();
    CHECK(take_text(REQUEST) == OSCORE_NO_OSCORE && !*reply_len && take_text(ANSWER) == OSCORE_NOT_THAT_KIND && !*reply_len);
    /* Its kid is 01, and a flag of its option is one that isn't known. */
    CHECK(take_text("44025d1f00003974396c6f63616c686f737463091401ff612f1092f1776f1c1668b3825e") == OSCORE_NO_CONTEXT && *reply_len);
    CHECK(take_text("44025d1f00003974396c6f63616c686f7374628914ff612f1092f1776f1c1668b3825e") == OSCORE_UNDECODABLE && *reply_len);
    CHECK(take_text("44025d1f00003974396c6f63616c686f7374620914ff612f1092f1776f1c1668b3825f") == OSCORE_TAG && *reply_len);
}

/* A life behind another delivers without a challenge what is above the saved number, and nothing below it. */
static void serves_again(void) {
    begin_again(2, BATCH, 21);
    CHECK(take_text("4001") == OSCORE_SAVE_FIRST && take_text(SEALED) == OSCORE_SAVE_FIRST);
    saves(3, 2 * BATCH, 21);
    CHECK(peer->life == 3 && take_text(SEALED) == OSCORE_REPLAY && take_sealed(REQUEST, 21) == OSCORE_SAVE_FIRST);
    saves(4, 2 * BATCH, 22);
    CHECK(!take_sealed(REQUEST, 21) && !answer(ANSWER, true, 64) && peer->server.context.next == BATCH + 1);
    CHECK(take_sealed(REQUEST, 21) == OSCORE_REPLAY);
    /* Where none was saved, it asks for the number with which the challenge is sealed. */
    begin_again(1, BATCH, 0);
    CHECK(take_text(SEALED) == OSCORE_SAVE_FIRST);
    saves(2, 2 * BATCH, 0);
    CHECK(take_text(SEALED) == OSCORE_CHALLENGE && *reply_len && peer->server.context.next == BATCH + 1);
    char echoed[96];
    snprintf(echoed, sizeof echoed, "%sd8e4%016x", REQUEST, (unsigned)BATCH);
    CHECK(take_sealed(echoed, 21) == OSCORE_SAVE_FIRST);
    saves(3, 2 * BATCH, 22);
    CHECK(!take_sealed(echoed, 21) && opened->option_count == 2);
    /* A record for each 64 challenges. */
    begin_again(1, BATCH, 0);
    CHECK(take_text(SEALED) == OSCORE_SAVE_FIRST);
    saves(2, 2 * BATCH, 0);
    for (int i = 0; i < BATCH; i++) CHECK(take_text(SEALED) == OSCORE_CHALLENGE);
    CHECK(take_text("4001") == OSCORE_SAVE_FIRST && is_record(3, 3 * BATCH, 0) && take_text(SEALED) == OSCORE_SAVE_FIRST);
    /* Where no number was reserved either, the context was never used. */
    begin_again(1, 0, 0);
    CHECK(take_text(SEALED) == OSCORE_SAVE_FIRST && !oscore_peer_saved(peer, given(peer->name, 2, BATCH, 21)) && !take_text(SEALED));
}

/* Sender Sequence Numbers come to their end: a record for each 64. */
static void replies(void) {
    begin_saved();
    CHECK(!oscore_peer_saved(peer, given(peer->name, 2, BATCH, 100)));
    for (uint64_t under = 0; under < BATCH; under++) CHECK(!take_sealed(REQUEST, under) && !answer(ANSWER, true, 64));
    CHECK(peer->server.context.next == BATCH && !take_sealed(REQUEST, BATCH));
    CHECK(answer("604500", true, 64) == OSCORE_SHORT && *detail == 0 && answer("60450001d10e06", true, 64) == OSCORE_SAVE_FIRST);
    CHECK(answer(ANSWER, true, 64) == OSCORE_SAVE_FIRST && is_record(3, 2 * BATCH, 100));
    oscore_ticket kept = *ticket;
    ticket->number = 5;
    CHECK(answer(ANSWER, true, 64) == OSCORE_SAVE_FIRST && answer(ANSWER, false, 64) == OSCORE_TICKET_SPENT);
    /* Another life, and another peer. */
    *ticket = kept, ticket->life++;
    CHECK(answer(ANSWER, true, 64) == OSCORE_STALE_TICKET && answer(ANSWER, false, 64) == OSCORE_STALE_TICKET && answer("604500", true, 64) == OSCORE_SHORT);
    *ticket = kept, ticket->context++;
    CHECK(answer(ANSWER, true, 64) == OSCORE_STALE_TICKET && answer(ANSWER, false, 64) == OSCORE_STALE_TICKET && *detail == 0);
    *ticket = kept, ticket->kind = 4;
    CHECK(answer("604500", true, 64) == OSCORE_BAD_HANDLE && *detail == 0);
    *ticket = kept;
    CHECK(answer(ANSWER, true, 64) == OSCORE_SAVE_FIRST);
    saves(3, 2 * BATCH, 100);
    CHECK(answer("60450001d10e06", true, 64) == OSCORE_UNSUPPORTED && *detail == 27 && !answer(ANSWER, true, 64) && peer->server.context.next == BATCH + 1);
    CHECK(!take_sealed(REQUEST, BATCH + 1) && !answer(ANSWER, false, 64) && peer->server.context.next == BATCH + 1);
}

/* A ticket of this context answers in no other life, though a request in it has the same number. */
static void tells_tickets_apart(void) {
    begin_saved();
    CHECK(take_text(SEALED) == OSCORE_SAVE_FIRST);
    saves(2, BATCH, 21);
    CHECK(!take_text(SEALED));
    oscore_ticket kept = *ticket;
    uint64_t name = peer->name;
    begin_again(2, BATCH, 21);
    CHECK(take_text("4001") == OSCORE_SAVE_FIRST);
    saves(3, 2 * BATCH, 21);
    *ticket = kept;
    CHECK(answer(ANSWER, false, 64) == OSCORE_STALE_TICKET && answer(ANSWER, true, 64) == OSCORE_STALE_TICKET && notify(STATES[0], 64) == OSCORE_STALE_TICKET);
    /* Another context with a delivered request of this number. */
    derive_with("");
    CHECK(!oscore_peer_begin_first(peer, own, 32, LIFE) && peer->name != name && take_text("4001") == OSCORE_SAVE_FIRST);
    saves(1, BATCH, 0);
    CHECK(take_sealed(REQUEST, 20) == OSCORE_SAVE_FIRST);
    saves(2, BATCH, 21);
    CHECK(!take_sealed(REQUEST, 20) && ticket->number == kept.number && ticket->life == kept.life);
    oscore_ticket other = *ticket;
    *ticket = kept;
    CHECK(answer(ANSWER, false, 64) == OSCORE_STALE_TICKET);
    *ticket = other;
    CHECK(!answer(ANSWER, false, 64));
}

/* Each notification needs a number, and so does the last answer, whatever `own` says; in the order of the reasons. */
static void notifies(void) {
    observe = true;
    begin_saved();
    CHECK(!oscore_peer_saved(peer, given(peer->name, 2, BATCH, 21)) && !take_text(SEALED_REGISTRATION) && ticket->observes == 1);
    oscore_ticket observing = *ticket;
    for (unsigned i = 0; i < 2; i++) CHECK(!notify(STATES[i], 64) && is(out, *out_len, NOTIFICATIONS[i]));
    while (peer->server.context.next < BATCH) CHECK(!notify(STATES[1], 64));
    CHECK(notify("60450101", 64) == OSCORE_SAVE_FIRST && is_record(3, 2 * BATCH, 21) && notify(STATES[0], 0) == OSCORE_SAVE_FIRST);
    CHECK(answer(GONE, false, 64) == OSCORE_SAVE_FIRST && answer(GONE, true, 64) == OSCORE_SAVE_FIRST && is_record(3, 2 * BATCH, 21));
    CHECK(notify("604501", 64) == OSCORE_SHORT && *detail == 0 && notify("604501016101ff", 64) == OSCORE_EMPTY_PAYLOAD && *detail == 6);
    ticket->life++;
    CHECK(notify(STATES[0], 64) == OSCORE_STALE_TICKET && *detail == 0 && notify("604501", 64) == OSCORE_SHORT);
    *ticket = observing, ticket->context--;
    CHECK(notify(STATES[0], 64) == OSCORE_STALE_TICKET);
    *ticket = observing, ticket->observes = 0;
    CHECK(notify(STATES[0], 64) == OSCORE_SAVE_FIRST);
    ticket->observes = 2;
    CHECK(notify(STATES[0], 64) == OSCORE_BAD_HANDLE && *detail == 0 && notify("604501", 64) == OSCORE_BAD_HANDLE);
    *ticket = observing;
    CHECK(notify(STATES[0], 64) == OSCORE_SAVE_FIRST);
    saves(3, 2 * BATCH, 21);
    CHECK(notify(GONE, 64) == OSCORE_NOT_NOTIFICATION && *detail == 0);
    CHECK(!answer(GONE, false, 64) && peer->server.context.next == BATCH + 1 && answer(GONE, false, 64) == OSCORE_TICKET_SPENT);
    observe = false;
}

static void comes_to_its_last_numbers(void) {
    begin_again(1, NUMBERS - 2, 0);
    CHECK(take_text(SEALED) == OSCORE_SAVE_FIRST);
    saves(2, NUMBERS, 0);
    CHECK(take_text(SEALED) == OSCORE_CHALLENGE && take_text(SEALED) == OSCORE_CHALLENGE && peer->server.context.next == NUMBERS);
    CHECK(take_text(SEALED) == OSCORE_SEQUENCE_EXHAUSTED && !*reply_len);
    /* The last request that there can be. */
    begin_again(1, BATCH, NUMBERS - 1);
    CHECK(take_text("4001") == OSCORE_SAVE_FIRST);
    saves(2, 2 * BATCH, NUMBERS - 1);
    CHECK(take_sealed(REQUEST, NUMBERS - 1) == OSCORE_SAVE_FIRST);
    saves(3, 2 * BATCH, NUMBERS);
    CHECK(!take_sealed(REQUEST, NUMBERS - 1) && take_sealed(REQUEST, NUMBERS - 1) == OSCORE_REPLAY);
    /* The last record that there can be. */
    begin_again(UINT64_MAX - 1, BATCH, 21);
    CHECK(take_text("4001") == OSCORE_SAVE_FIRST);
    saves(UINT64_MAX, 2 * BATCH, 21);
    CHECK(take_text("4001") == OSCORE_SHORT && take_sealed(REQUEST, 21) == OSCORE_LIVES_EXHAUSTED && take_text(SEALED) == OSCORE_REPLAY);
    memset(ticket, 0, sizeof *ticket);
    ticket->context = (oscore_size)peer->name, ticket->life = peer->life;
    peer->server.context.next = peer->reserved;
    CHECK(answer(ANSWER, true, 64) == OSCORE_LIVES_EXHAUSTED && *detail == 0 && answer(ANSWER, false, 64) == OSCORE_TICKET_SPENT);
    ticket->observes = 1;
    CHECK(notify(STATES[0], 64) == OSCORE_LIVES_EXHAUSTED && *detail == 0);
}

/* Whatever is killed, no life delivers what one before it delivered, nor uses a number that one before it used. */
static void lives(void) {
    oscore_peer_record store = OSCORE_ZERO;
    uint64_t delivered = 0, used = 0, sealed = 0;
    bool any = false, any_used = false;
    derive();
    for (int life = 0; life < 40; life++) {
        if (store.generation == 0) CHECK(!oscore_peer_begin_first(peer, own, 32, LIFE));
        else CHECK(!oscore_peer_begin_again(peer, own, guarded_copy(GIVEN, &store, sizeof store), 32, LIFE));
        char echoed[96];
        snprintf(echoed, sizeof echoed, "%s", REQUEST);
        /* It is killed at a moment: before a save, between a save and its word, or behind a delivery. */
        for (int steps = rand() % 200; steps > 0; steps--) {
            uint64_t before = peer->server.context.next;
            uint32_t status = take_sealed(echoed, sealed);
            CHECK(status == OSCORE_SAVE_FIRST || status == OSCORE_REPLAY || status == OSCORE_CHALLENGE || status == OSCORE_DONE);
            if (status == OSCORE_SAVE_FIRST) {
                CHECK(record->generation > store.generation && record->sender >= store.sender && record->received >= store.received);
                store = *record;
                if (steps > 1) CHECK(!oscore_peer_saved(peer, guarded_copy(GIVEN, &store, sizeof store)));
                continue;
            }
            if (status == OSCORE_CHALLENGE) snprintf(echoed, sizeof echoed, "%sd8e4%016llx", REQUEST, (unsigned long long)before);
            if (status == OSCORE_DONE) {
                CHECK(!any || sealed > delivered);
                any = true, delivered = sealed;
                if (answer(ANSWER, true, 64) == OSCORE_SAVE_FIRST) {
                    store = *record;
                    CHECK(!oscore_peer_saved(peer, guarded_copy(GIVEN, &store, sizeof store)) && !answer(ANSWER, true, 64));
                }
            }
            if (peer->server.context.next > before) {
                CHECK((!any_used || before > used) && before < store.sender);
                any_used = true, used = peer->server.context.next - 1;
            }
            sealed += status != OSCORE_CHALLENGE;
        }
    }
    CHECK(any && delivered > 100 && any_used);
}

static void refuses_bytes(void) {
    begin_saved();
    oscore_peer kept = *peer;
    memset(ticket, 0, sizeof *ticket);
    for (int spoil = 0; spoil < 4; spoil++) {
        *peer = kept;
        if (spoil == 0) peer->received = NUMBERS + 1;
        if (spoil == 1) peer->reserved = NUMBERS + 1;
        if (spoil == 2) peer->server.context.gate = 4;
        if (spoil == 3) peer->server.context.next = BATCH + 1;
        CHECK(take_text(SEALED) == OSCORE_BAD_HANDLE && answer(ANSWER, false, 64) == OSCORE_BAD_HANDLE && notify(STATES[0], 64) == OSCORE_BAD_HANDLE);
        CHECK(answer("604500", true, 64) == OSCORE_BAD_HANDLE && notify("604501", 64) == OSCORE_BAD_HANDLE);
        CHECK(oscore_peer_saved(peer, given(kept.name, 2, BATCH, 0)) == OSCORE_BAD_HANDLE);
    }
}

/* Whatever the bytes are, nothing is delivered that isn't below `received`, and no number used that isn't below `reserved`. */
static void spoils_peers(void) {
    for (int i = 0; i < rounds; i++) {
        begin_again(2, BATCH, i % 3 ? 20 : 0);
        CHECK(take_text(SEALED) == OSCORE_SAVE_FIRST && !oscore_peer_saved(peer, given(peer->name, 3, 2 * BATCH, i % 2 ? 21 : 20)));
        ((uint8_t *)peer)[(oscore_size)rand() % offsetof(oscore_peer, busy)] = (uint8_t)rand();
        bool is_none = !can_be_peer(peer);
        uint32_t status = take_text(SEALED);
        CHECK((status == OSCORE_BAD_HANDLE) == is_none && (is_none || can_be_peer(peer)) && (status || peer->received > 20));
    }
}

int main(int count, char **words) {
    srand(1);
    if (count > 1) rounds = atoi(words[1]);
    for (int before = 0; before < 2; before++) {
        lay_out(before);
        for (int ciphers = 0; ciphers < 2; ciphers++) {
            tables = ciphers == 0;
            serves_first();
            notifies();
        }
        begins();
        names();
        refuses_datagrams();
        serves_again();
        replies();
        tells_tickets_apart();
        comes_to_its_last_numbers();
        lives();
        refuses_bytes();
        spoils_peers();
    }
    printf("peer: C.4, C.7 and C.8, an observation, records, statuses, tickets, lives; behind a guard page and before one %d spoilt peers\n",
           2 * rounds);
    return 0;
}

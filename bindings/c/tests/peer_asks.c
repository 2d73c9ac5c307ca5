/* A peer that asks: RFC 8613, C.4, C.7 and C.8, and an observation, by tables and in constant time; the statuses of its calls, in order, and
   what they leave; places handed in, none or few or more than eight, how long a request stays in one, places that no call can have written;
   one source of numbers for what it asks and what it answers, over lives that are killed anywhere; spoilt peers, places and datagrams. All that is
   handed in lies against a guard page. Built with the sanitizers by .ci/run, and run under valgrind's memcheck with fewer rounds, which
   its only word says. */
#include "guarded.h"
#include "peer_bytes.h"

#define CHECK(holds) do { if (!(holds)) { printf("peer_asks.c:%d: %s\n", __LINE__, #holds); exit(1); } } while (0)

/* RFC 8613, C.4: the request with the number 20, GET coap://localhost/tv1. C.7 and C.8: its responses, one without a Partial IV of its
   own and one with the Partial IV 0. */
static const char *REQUEST = "44015d1f00003974396c6f63616c686f737483747631";
static const char *SEALED = "44025d1f00003974396c6f63616c686f7374620914ff612f1092f1776f1c1668b3825e";
static const char *ANSWERS[2] = {"64445d1f0000397490ffdbaad1e9a7e7b2a813d3c31524378303cdafae119106",
                                 "64445d1f00003974920100ff4d4c13669384b67354b2b6175ff4b8658c666a6cf88e"};
/* The plaintext 01, a request's code, sealed as that response by another AES-CCM (Python's cryptography), which seals C.7 as printed. */
static const char *SEALED_GET = "64445d1f0000397490ff9f1ea60c8c8dee1b7a";
/* A registration with the number 20 and two notifications of it: those of observe.c. */
static const char *REGISTRATION = "410101014a605474656d70", *SEALED_REGISTRATION = "410501014a60320914ff61fc3090a5ed1bf69f1d661cf04b96";
static const char *NOTIFICATIONS[2] = {"614501014a6101320100ff4dd33bfccdd8f762dd9be55ed4da0a72", "514570014a6102320101ff5283c3f4e0130f5955ca70f2ac7560ba"};

enum { NOW = 1000, LIFE = 5000, MID = 0x1234, BATCH = 64, MOST = 20 };
/* What is handed in, each at a place of its own. */
enum { CONTEXT, OTHER, PEER, PENDING, COUNT, OPTIONS, OPENED, TICKET, OUT, SEALED_LEN, RECORD, DETAIL, NUMBER, PLAIN, DATAGRAM, TOKEN, SECRET, SALT, ONE,
    GIVEN, REPLY, REPLY_LEN };
static const uint64_t NUMBERS = 1ull << 40;
static bool tables, observe;
static oscore_context *context, *other;
static oscore_peer *peer;
static oscore_pending *pending;
static oscore_size room, *count, *out_len, *detail, *reply_len;
static oscore_option *options;
static oscore_opened *opened;
static oscore_ticket *ticket;
static oscore_peer_record *record;
static uint8_t *out, *datagram, *reply;
static uint64_t *number;
static int rounds = 20000;

static void lay_out(bool before) {
    guarded_before = before;
    context = guarded(CONTEXT, sizeof *context);
    other = guarded(OTHER, sizeof *other);
    peer = guarded(PEER, sizeof *peer);
    count = guarded(COUNT, sizeof *count);
    options = guarded(OPTIONS, 4 * sizeof *options);
    opened = guarded(OPENED, sizeof *opened);
    ticket = guarded(TICKET, sizeof *ticket);
    record = guarded(RECORD, sizeof *record);
    out_len = guarded_room(SEALED_LEN, sizeof *out_len);
    reply_len = guarded_room(REPLY_LEN, sizeof *reply_len);
    detail = guarded_room(DETAIL, sizeof *detail);
    number = guarded_room(NUMBER, sizeof *number);
}

static oscore_size hex(const char *text, uint8_t *bytes) {
    oscore_size len = 0;
    unsigned byte;
    for (; *text; text += 2, bytes[len++] = (uint8_t)byte) CHECK(sscanf(text, "%2x", &byte) == 1);
    return len;
}

static bool is(const uint8_t *bytes, oscore_size len, const char *text) {
    uint8_t wanted[128];
    return hex(text, wanted) == len && !memcmp(bytes, wanted, len);
}

/* The context of RFC 8613, C.1, for the peer and for the other end. */
static void derive(void) {
    uint8_t bytes[16], one = 1;
    const uint8_t *secret = guarded_copy(SECRET, bytes, hex("0102030405060708090a0b0c0d0e0f10", bytes));
    const uint8_t *salt = guarded_copy(SALT, bytes, hex("9e7ca92223786340", bytes)), *id = guarded_copy(ONE, &one, 1);
    CHECK(!oscore_derive(context, secret, 16, salt, 8, false, NULL, 0, NULL, 0, id, 1, tables, false, observe));
    CHECK(!oscore_derive(other, secret, 16, salt, 8, false, NULL, 0, id, 1, NULL, 0, tables, false, observe));
}

static const oscore_peer_record *given(uint64_t generation, uint64_t sender, uint64_t received) {
    oscore_peer_record it = {peer->name, generation, sender, received};
    return guarded_copy(GIVEN, &it, sizeof it);
}

/* A peer behind a record, with so many places, and nothing pending. */
static void begin_unsaved(uint64_t sender, oscore_size places) {
    derive();
    CHECK(!oscore_peer_begin_first(peer, context, 32, LIFE));
    if (sender > 0) CHECK(!oscore_peer_begin_again(peer, context, given(1, sender, 1), 32, LIFE));
    room = places;
    pending = guarded(PENDING, room * sizeof *pending);
    *count = 0;
}

static void save(void) {
    oscore_peer_record asked = *record;
    CHECK(record->generation == peer->generation + 1 && !oscore_peer_saved(peer, guarded_copy(GIVEN, &asked, sizeof asked)));
}

/* ---- the calls */

static oscore_peer kept;
static oscore_pending kept_pending[MOST];
static oscore_size kept_count;

static void keep(void) {
    kept = *peer, kept_count = *count;
    memcpy(kept_pending, pending, room * sizeof *pending);
    memset(record, 0, sizeof *record);
}

static bool same_peer(void) {
    return same_peers(peer, &kept);
}

/* The same but for the clock, which is at this moment or at a later one that was given before, and for so many numbers that were used. */
static bool is_moved(uint64_t now, uint64_t used) {
    oscore_peer wanted = kept;
    wanted.clock = now > kept.clock ? now : kept.clock;
    wanted.server.context.next += used;
    return same_peers(peer, &wanted);
}

static bool same_places(void) {
    return *count == kept_count && !memcmp(pending, kept_pending, room * sizeof *pending);
}

/* A refusal leaves the room, and the peer and its places where nothing was judged of the message. */
static uint32_t ask(uint64_t now, const char *text, oscore_size filled, oscore_size out_room) {
    uint8_t bytes[64];
    oscore_size len = hex(text, bytes);
    uint8_t *plain = guarded_room(PLAIN, len + filled);
    memcpy(plain, bytes, len);
    memset(plain + len, 'x', filled);
    keep();
    out = guarded(OUT, out_room);
    *out_len = 99;
    uint32_t status = oscore_peer_request(peer, pending, room, count, now, plain, len + filled, out, out_room, out_len, record, detail);
    for (oscore_size i = status ? 0 : *out_len; i < out_room; i++) CHECK(!out[i]);
    CHECK(!status || *out_len == 99);
    CHECK((status == OSCORE_SAVE_FIRST) == (record->generation != 0));
    bool early = status == OSCORE_SAVE_FIRST || status == OSCORE_LIVES_EXHAUSTED || status == OSCORE_BAD_HANDLE
        || (status >= OSCORE_DATAGRAM_TOO_LONG && status <= OSCORE_EMPTY_PAYLOAD);
    CHECK(early ? same_peer() && same_places() : is_moved(now, !status));
    return status;
}

/* A GET with a token of one byte. */
static uint32_t ask_with(uint64_t now, unsigned token) {
    char text[16];
    snprintf(text, sizeof text, "410100%02x%02x", token, token);
    return ask(now, text, 0, OSCORE_ROOM(5));
}

/* Where the payload was decrypted it isn't what came, and its head, its tag and nothing else is; any other refusal leaves the datagram. */
static bool is_left(uint32_t status, const uint8_t *before, oscore_size len) {
    if (status != OSCORE_DONE && status != OSCORE_INNER) return !memcmp(datagram, before, len);
    return memcmp(datagram, before, len) && !memcmp(datagram, before, 4) && !memcmp(datagram + len - 8, before + len - 8, 8);
}

static uint32_t hear_bytes(uint64_t now, const uint8_t *bytes, oscore_size len) {
    static const oscore_opened none_opened;
    static const oscore_option none_options[4];
    memset(options, 0, sizeof none_options), memset(opened, 0, sizeof none_opened);
    datagram = guarded_copy(DATAGRAM, bytes, len);
    keep();
    *number = 99;
    uint32_t status = oscore_peer_hear(peer, pending, room, count, now, datagram, len, options, 4, opened, number, detail);
    CHECK(is_left(status, bytes, len));
    CHECK(!status || (*number == 99 && !memcmp(opened, &none_opened, sizeof none_opened) && !memcmp(options, none_options, sizeof none_options)));
    CHECK(status == OSCORE_BAD_HANDLE ? same_peer() && same_places() : is_moved(now, 0));
    return status;
}

static uint32_t hear(uint64_t now, const char *text) {
    uint8_t bytes[128];
    return hear_bytes(now, bytes, hex(text, bytes));
}

static uint32_t forget(uint8_t token) {
    keep();
    uint32_t status = oscore_peer_forget(peer, pending, room, count, guarded_copy(TOKEN, &token, 1), 1);
    CHECK(same_peer() && (!status || same_places()) && *count + !status == kept_count);
    return status;
}

static void begin(uint64_t sender, oscore_size places) {
    begin_unsaved(sender, places);
    CHECK(ask(NOW, REQUEST, 0, 64) == OSCORE_SAVE_FIRST);
    save();
    CHECK(peer->clock == 0 && *count == 0);
}

/* ---- what it asks and hears */

static void exchanges(void) {
    for (int own = 0; own < 2; own++) {
        begin_unsaved(20, 1);
        /* Nothing is sealed before the record of this life is saved. */
        CHECK(ask(NOW, REQUEST, 0, 64) == OSCORE_SAVE_FIRST && ask(NOW, REQUEST, 0, 64) == OSCORE_SAVE_FIRST && *detail == 0);
        CHECK(record->name == peer->name && record->generation == 2 && record->sender == 20 + BATCH && record->received == 1);
        save();
        CHECK(!ask(NOW, REQUEST, 0, 35) && is(out, *out_len, SEALED) && *count == 1 && peer->clock == NOW);
        CHECK(pending[0].number == 20 && pending[0].moment == NOW && pending[0].from == 0 && pending[0].observes == 0);
        CHECK(pending[0].token_len == 4 && is(pending[0].token, 8, "0000397400000000"));
        CHECK(!hear(NOW, ANSWERS[own]) && *number == 20 && *count == 0);
        CHECK(opened->kind == 2 && opened->code == 0x45 && opened->message_id == 0x5d1f && opened->has_number == own && opened->number == 0);
        CHECK(opened->payload_len == 12 && !memcmp(opened->payload, "Hello World!", 12) && !opened->option_count && !opened->is_notification);
        CHECK(is(opened->token, opened->token_len, "00003974") && !opened->has_more_options && !opened->has_uri_host && !opened->has_uri_port);
        CHECK(hear(NOW, ANSWERS[own]) == OSCORE_UNKNOWN_TOKEN && *detail == 0 && peer->server.context.context.tables == tables);
    }
}

/* A registration that is notified stays pending, whatever time passes, and an older notification isn't delivered. */
static void is_notified(void) {
    observe = true;
    begin(20, 2);
    CHECK(!ask(NOW, REGISTRATION, 0, 64) && is(out, *out_len, SEALED_REGISTRATION) && pending[0].observes == 1 && !ask_with(NOW, 1));
    for (unsigned i = 0; i < 2; i++) {
        CHECK(!hear(NOW, NOTIFICATIONS[i]) && opened->is_notification && opened->number == i && *number == 20);
        CHECK(*count == 2 && pending[0].from == i + 2 && opened->payload_len == 4);
    }
    CHECK(hear(NOW, NOTIFICATIONS[0]) == OSCORE_OLD && hear(NOW, NOTIFICATIONS[1]) == OSCORE_OLD && *detail == 0);
    CHECK(hear(NOW + LIFE + 1, NOTIFICATIONS[1]) == OSCORE_OLD && *count == 1 && pending[0].number == 20);
    CHECK(!forget(0x4a) && *count == 0 && hear(NOW, NOTIFICATIONS[1]) == OSCORE_UNKNOWN_TOKEN);
    observe = false;
}

/* The statuses in the order in which they are judged. */
static void refuses(void) {
    begin_unsaved(20, 1);
    CHECK(ask(NOW, "400100", 0, 64) == OSCORE_SHORT && *detail == 0 && ask(NOW, "40010001b161ff", 0, 64) == OSCORE_EMPTY_PAYLOAD && *detail == 6);
    CHECK(ask(NOW, "60450001", 0, 64) == OSCORE_SAVE_FIRST && *detail == 0);
    save();
    CHECK(ask(NOW, "60450001", 0, 64) == OSCORE_NOT_THAT_KIND && *detail == 0 && peer->clock == NOW);
    CHECK(ask(NOW + 1, "40010001d10e06", 0, 64) == OSCORE_UNSUPPORTED && *detail == 27);
    CHECK(ask(NOW + 2, "40010001ff", 65530, 65600) == OSCORE_TOO_LONG && ask(NOW + 3, REQUEST, 0, 34) == OSCORE_NO_ROOM && *detail == 0 && *count == 0);
    CHECK(!ask(NOW + 4, REQUEST, 0, 64) && ask(NOW + 5, REQUEST, 0, 0) == OSCORE_TOKEN_IN_USE && *detail == 0);
    CHECK(ask_with(NOW + 6, 1) == OSCORE_PENDING_FULL && ask(NOW + 6, "40010001d10e06", 0, 64) == OSCORE_UNSUPPORTED);
    CHECK(hear(NOW, "64445d1f00003974b161ff") == OSCORE_EMPTY_PAYLOAD && *detail == 10);
    CHECK(hear(NOW, SEALED) == OSCORE_NOT_THAT_KIND && hear(NOW, "64455d1f00003975ff01") == OSCORE_UNKNOWN_TOKEN && *detail == 0);
    CHECK(hear(NOW, "64455d1f00003974ff01") == OSCORE_NO_OSCORE && hear(NOW, "64445d1f0000397491e0ff01") == OSCORE_UNDECODABLE);
    CHECK(hear(NOW, "64445d1f0000397490ffdbaad1e9a7e7b2a813d3c31524378303cdafae119107") == OSCORE_TAG && *count == 1);
    CHECK(hear(NOW, SEALED_GET) == OSCORE_INNER && *detail == 0 && *count == 1);
    /* An empty ACK and an RST of the request's message ID. */
    CHECK(hear(NOW, "60005d1f") == OSCORE_NOT_THAT_KIND && hear(NOW, "70005d1f") == OSCORE_NOT_THAT_KIND && *count == 1);
    CHECK(!hear(NOW, ANSWERS[0]) && *count == 0 && forget(9) == OSCORE_NOT_PENDING);
    for (oscore_size places = 1; places <= 2; places++) {
        begin(NUMBERS - 1, places);
        CHECK(!ask_with(NOW, 1) && ask(NOW, REQUEST, 0, 0) == (places == 1 ? OSCORE_PENDING_FULL : OSCORE_SEQUENCE_EXHAUSTED) && *count == 1);
        CHECK(ask_with(NOW, 1) == OSCORE_TOKEN_IN_USE && *detail == 0);
    }
    /* The last record that there can be. */
    begin_unsaved(1, 1);
    CHECK(!oscore_peer_begin_again(peer, context, given(UINT64_MAX - 1, BATCH, 1), 32, LIFE) && ask_with(NOW, 1) == OSCORE_SAVE_FIRST);
    save();
    for (unsigned i = 0; i < BATCH; i++) CHECK(!ask_with(NOW, 1) && !forget(1));
    CHECK(ask_with(NOW, 1) == OSCORE_LIVES_EXHAUSTED && *detail == 0);
}

/* As many requests are pending as there are places, in the order in which they were sealed; one more moves nothing but the clock. */
static void counts_places(void) {
    const oscore_size all[] = {0, 1, 2, 8, MOST};
    for (oscore_size i = 0; i < sizeof all / sizeof all[0]; i++) {
        begin(1, all[i]);
        for (unsigned token = 0; token < all[i]; token++) CHECK(!ask_with(NOW + token, token) && *count == token + 1);
        CHECK(ask_with(NOW + MOST, 99) == OSCORE_PENDING_FULL && same_places() && peer->clock == NOW + MOST);
        for (oscore_size at = 0; at < *count; at++) CHECK(pending[at].number == at + 1 && pending[at].moment == NOW + at && pending[at].token[0] == at);
        CHECK(forget(99) == OSCORE_NOT_PENDING && hear(NOW, ANSWERS[0]) == OSCORE_UNKNOWN_TOKEN);
    }
    CHECK(!forget(3) && *count == MOST - 1 && forget(3) == OSCORE_NOT_PENDING);
    for (oscore_size at = 0; at < *count; at++) CHECK(pending[at].number == at + (at < 3 ? 1 : 2));
    /* Each is pending for LIFE milliseconds and no longer; the clock doesn't go back. */
    CHECK(hear(NOW + 2 + LIFE, "40010001") == OSCORE_NOT_THAT_KIND && *count == MOST - 3 && pending[0].number == 3);
    CHECK(hear(NOW + 4 + LIFE, "4001") == OSCORE_SHORT && *count == MOST - 4 && pending[0].number == 5);
    CHECK(hear(0, "40010001") && peer->clock == NOW + 4 + LIFE && *count == MOST - 4);
    CHECK(!ask_with(0, 99) && pending[MOST - 4].moment == NOW + 4 + LIFE && *count == MOST - 3);
    /* A token may have no byte, or eight: a longer one is none. */
    CHECK(!ask(0, "40010001", 0, 64) && !ask(0, "48010001" "0102030405060708", 0, 64) && *count == MOST - 1 && pending[MOST - 3].token_len == 0);
    CHECK(!oscore_peer_forget(peer, pending, room, count, NULL, 0) && *count == MOST - 2 && pending[MOST - 4].token[0] == 99);
    const uint8_t longer[9] = {1, 2, 3, 4, 5, 6, 7, 8, 9};
    CHECK(oscore_peer_forget(peer, pending, room, count, guarded_copy(TOKEN, longer, 9), 9) == OSCORE_NOT_PENDING && *count == MOST - 2);
    CHECK(!oscore_peer_forget(peer, pending, room, count, guarded_copy(TOKEN, longer, 8), 8) && *count == MOST - 3);
}

/* A moment from far ahead ends all that is pending, and stays: what is sealed behind it is pending until the time has come there. */
static void stands_at_a_far_moment(void) {
    begin(1, 2);
    CHECK(!ask_with(NOW, 1) && hear(UINT64_MAX, "40010001") == OSCORE_NOT_THAT_KIND && *count == 0);
    CHECK(!ask_with(NOW, 2) && peer->clock == UINT64_MAX && pending[0].moment == UINT64_MAX);
    CHECK(hear(NOW + 1000 * LIFE, "40010001") == OSCORE_NOT_THAT_KIND && *count == 1 && peer->server.clock == 0);
}

/* Places that no call can have written, and more of them than there are. What lies behind the count may be anything. */
static void refuses_places(void) {
    for (int spoil = 0; spoil < 8; spoil++) {
        begin(20, 3);
        CHECK(!ask_with(NOW, 1) && !ask_with(NOW, 2));
        memset(&pending[2], 0xff, sizeof pending[2]);
        CHECK(hear(NOW, "4001") == OSCORE_SHORT && *count == 2);
        if (spoil == 0) *count = 4;
        if (spoil == 1) *count = (oscore_size)-1;
        if (spoil == 2) *count = 3;
        if (spoil == 3) pending[1].token_len = 9;
        if (spoil == 4) pending[1].number = NUMBERS;
        if (spoil == 5) pending[1].observes = 2;
        if (spoil == 6) pending[1].from = 1;
        if (spoil == 7) pending[1].token[0] = 1;
        CHECK(ask_with(NOW, 3) == OSCORE_BAD_HANDLE && *detail == 0 && ask(NOW, "4001", 0, 64) == OSCORE_BAD_HANDLE);
        CHECK(hear(NOW, ANSWERS[0]) == OSCORE_BAD_HANDLE && *detail == 0 && forget(1) == OSCORE_BAD_HANDLE);
    }
    begin(20, 1);
    peer->received = NUMBERS + 1;
    CHECK(ask_with(NOW, 3) == OSCORE_BAD_HANDLE && hear(NOW, "4001") == OSCORE_BAD_HANDLE && forget(1) == OSCORE_BAD_HANDLE);
}

/* ---- both roles */

/* The other end's request under a number, to the peer. Answers the status; where a record is asked for, it is saved first. */
static uint32_t take_from_other(uint64_t under) {
    uint8_t plain[] = {0x40, 1, 0, 1}, bytes[64];
    uint32_t status;
    out = guarded_room(OUT, sizeof bytes);
    CHECK(!oscore_seal_request(other, under, guarded_copy(PLAIN, plain, sizeof plain), sizeof plain, out, sizeof bytes, out_len, detail));
    oscore_size len = *out_len;
    memcpy(bytes, out, len);
    datagram = guarded_copy(DATAGRAM, bytes, len);
    reply = guarded(REPLY, 64);
    while ((status = oscore_peer_take(peer, NOW, MID, datagram, len, options, 4, opened, ticket, reply, reply_len, record, detail)) == OSCORE_SAVE_FIRST) save();
    return status;
}

/* A reply under an own number. */
static uint32_t answer_other(void) {
    uint8_t plain[] = {0x60, 0x45, 0, 1};
    uint32_t status;
    out = guarded(OUT, 64);
    while ((status = oscore_peer_reply(peer, ticket, true, MID, guarded_copy(PLAIN, plain, sizeof plain), sizeof plain, out, 64, out_len, record, detail))
           == OSCORE_SAVE_FIRST)
        save();
    return status;
}

/* What it asks and what it answers count the same numbers, and neither touches the other. */
static void plays_both_roles(void) {
    begin(20, 2);
    CHECK(!ask_with(NOW, 1) && !take_from_other(5) && !answer_other() && peer->server.context.next == 22);
    CHECK(!ask_with(NOW, 2) && pending[1].number == 22 && !take_from_other(6) && *count == 2 && !answer_other());
    /* The other end sees the Partial IV 23 in the option of that answer, and opens it. */
    oscore_size len = *out_len;
    uint8_t bytes[64];
    memcpy(bytes, out, len);
    CHECK(peer->server.context.next == 24 && take_from_other(6) == OSCORE_REPLAY && answer_other() == OSCORE_TICKET_SPENT);
    datagram = guarded_copy(DATAGRAM, bytes, len);
    CHECK(!oscore_open_response(other, 6, datagram, len, options, 4, opened, detail) && opened->has_number && opened->number == 23);
    /* Its own requests wait all the same. A request that comes in isn't a response, nor the other way round. */
    CHECK(hear(NOW, SEALED) == OSCORE_NOT_THAT_KIND && *count == 2 && pending[0].number == 20 && !forget(2) && !forget(1));
    datagram = guarded_copy(DATAGRAM, bytes, hex(ANSWERS[0], bytes));
    CHECK(oscore_peer_take(peer, NOW, MID, datagram, 32, options, 4, opened, ticket, guarded(REPLY, 64), reply_len, record, detail)
          == OSCORE_NOT_THAT_KIND);
}

/* Whatever life asks or answers, each number is used once. Each life is killed somewhere, before or behind a save. */
static void lives(void) {
    static uint8_t used[1 << 14];
    oscore_peer_record store = OSCORE_ZERO;
    uint64_t under = 0;
    unsigned asked = 0, answered = 0;
    memset(used, 0, sizeof used);
    for (int life = 0; life < 60; life++) {
        begin_unsaved(0, 4);
        if (store.generation > 0) CHECK(!oscore_peer_begin_again(peer, context, guarded_copy(GIVEN, &store, sizeof store), 32, LIFE));
        for (int steps = life == 0 ? 50 : rand() % 120; steps > 0; steps--) {
            uint64_t next = peer->server.context.next;
            bool asks = rand() % 2;
            uint32_t status = asks ? ask_with(NOW, 7) : take_from_other(under++);
            if (status == OSCORE_SAVE_FIRST) {
                store = *record;
                if (steps > 1) save();
                continue;
            }
            if (asks) {
                CHECK(!status && !forget(7));
                asked++;
            } else {
                CHECK(!status && !answer_other());
                answered++;
            }
            if (record->generation > store.generation) store = *record;
            for (; next < peer->server.context.next; next++) CHECK(next < sizeof used && next < store.sender && !used[next]++);
        }
    }
    CHECK(asked > 500 && answered > 500);
}

/* ---- whatever bytes there are */

/* What isn't protected may be turned: the kind, the code, the message ID. The token may not, nor what is protected. */
static void spoils_datagrams(void) {
    uint8_t sealed[64], before[64];
    oscore_size len = hex(ANSWERS[0], sealed);
    for (int i = 0; i < rounds; i++) {
        if (i % 16 == 0) begin(20, 1);
        if (*count == 0) {
            peer->server.context.next = 20;
            CHECK(!ask(NOW, REQUEST, 0, 64));
        }
        oscore_size cut = i % 2 ? len : (oscore_size)rand() % (len + 1);
        memcpy(before, sealed, cut);
        if (i % 2) before[(oscore_size)rand() % cut] ^= (uint8_t)(1 << rand() % 8);
        bool opens = cut == len && !memcmp(before + 4, sealed + 4, len - 4);
        uint32_t status = hear_bytes(NOW, before, cut);
        bool refused = (status >= OSCORE_DATAGRAM_TOO_LONG && status <= OSCORE_EMPTY_PAYLOAD)
            || (status >= OSCORE_NOT_THAT_KIND && status <= OSCORE_UNDECODABLE) || status == OSCORE_TAG;
        CHECK((refused || (opens && status == OSCORE_DONE)) && *count == (status ? 1 : 0));
        CHECK(status == OSCORE_DONE || cut < len || memcmp(before, sealed, len));
    }
}

/* Places that no call can have written, by a reading of the test's own. */
static bool are_none(void) {
    bool none = *count > room;
    for (oscore_size i = 0; !none && i < *count; i++) {
        const oscore_pending *a = &pending[i];
        none = a->number >= NUMBERS || a->token_len > 8 || a->observes > 1 || (!a->observes && a->from);
        for (oscore_size j = 0; !none && j < i; j++)
            none = a->token_len == pending[j].token_len && !memcmp(a->token, pending[j].token, a->token_len);
    }
    return none;
}

static void spoils_places(void) {
    for (int i = 0; i < rounds; i++) {
        begin(20, 3);
        CHECK(!ask_with(NOW, 0) && !ask_with(NOW, 1));
        if (i % 8 == 0) *count = (oscore_size)rand() % 6;
        else ((uint8_t *)pending)[(oscore_size)rand() % (room * sizeof *pending)] = (uint8_t)rand();
        bool none = are_none();
        uint32_t status = i % 2 ? ask_with(NOW, 2) : hear(NOW, ANSWERS[0]);
        CHECK(none == (status == OSCORE_BAD_HANDLE) && *count <= (none ? kept_count : room));
    }
}

/* One byte of a peer. Its calls agree on what is a peer; and no number is used that isn't below `reserved`. */
static void spoils_peers(void) {
    int bad = 0;
    for (int i = 0; i < rounds; i++) {
        begin(20, 2);
        CHECK(!ask(NOW, REQUEST, 0, 64));
        ((uint8_t *)peer)[(oscore_size)rand() % offsetof(oscore_peer, busy)] = (uint8_t)rand();
        bool none = !can_be_peer(peer);
        uint32_t status = i % 3 == 0 ? ask_with(NOW, 7) : i % 3 == 1 ? hear(NOW, ANSWERS[0]) : forget(7);
        CHECK(none == (status == OSCORE_BAD_HANDLE) && (none ? same_peer() && same_places() : can_be_peer(peer)));
        bad += none;
    }
    CHECK(bad > rounds / 40);
}

int main(int words_count, char **words) {
    srand(1);
    if (words_count > 1) rounds = atoi(words[1]);
    for (int before = 0; before < 2; before++) {
        lay_out(before);
        for (int ciphers = 0; ciphers < 2; ciphers++) {
            tables = ciphers == 0;
            exchanges();
            is_notified();
        }
        refuses();
        counts_places();
        stands_at_a_far_moment();
        refuses_places();
        plays_both_roles();
        lives();
        spoils_datagrams();
        spoils_places();
        spoils_peers();
    }
    printf("peer_asks: C.4, C.7 and C.8, an observation, statuses, places, both roles, lives; behind a guard page and before one %d spoilt datagrams, %d spoilt places, %d spoilt peers\n",
           2 * rounds, 2 * rounds, 2 * rounds);
    return 0;
}

/* Several peers of one device: which one a request is for, by its kid and its kid context; and RFC 8613, C.4 to C.8, between peers of the three
   contexts of C.1 to C.3, each of which is found, answers for itself alone, and hears what it asked for alone. Which context a peer, its
   records and its tickets are of, which its name says. All that is handed in lies against a guard page. Built with the sanitizers by .ci/run,
   and run under valgrind's memcheck. */
#include "guarded.h"
#include "peer_bytes.h"

#define CHECK(holds) do { if (!(holds)) { printf("peer_finds.c:%d: %s\n", __LINE__, #holds); exit(1); } } while (0)

enum { C1, C2, C3, CONTEXTS, NOW = 1000, LIFE = 5000, MID = 0x1234, NUMBER = 20 };
/* What is handed in, each at a place of its own. */
enum { CONTEXT, PEER, PEERS, OPTIONS, OPENED, TICKET, OUT, OUT_LEN, RECORD, DETAIL, DATAGRAM, PLAIN, SECRET, SALT, ID_CONTEXT, SENDER, RECIPIENT, NAME,
    INDEX, PENDING, COUNT, REQUEST };
static bool tables;
static oscore_context *context;
static oscore_peer *peer;
static oscore_option *options;
static oscore_opened *opened;
static oscore_ticket *ticket;
static oscore_peer_record *record;
static uint8_t *out, *datagram;
static oscore_size *out_len, *detail, *index_of, *pending_count;
static oscore_pending *pending;
static uint64_t *request;

static void lay_out(bool before) {
    guarded_before = before;
    context = guarded(CONTEXT, sizeof *context);
    peer = guarded(PEER, sizeof *peer);
    options = guarded(OPTIONS, 4 * sizeof *options);
    opened = guarded(OPENED, sizeof *opened);
    ticket = guarded(TICKET, sizeof *ticket);
    record = guarded(RECORD, sizeof *record);
    out_len = guarded_room(OUT_LEN, sizeof *out_len);
    detail = guarded_room(DETAIL, sizeof *detail);
    index_of = guarded_room(INDEX, sizeof *index_of);
    pending = guarded(PENDING, sizeof *pending);
    pending_count = guarded(COUNT, sizeof *pending_count);
    request = guarded_room(REQUEST, sizeof *request);
}

static oscore_size hex(const char *text, uint8_t *bytes) {
    oscore_size len = 0;
    unsigned byte;
    for (; *text; text += 2, bytes[len++] = (uint8_t)byte) CHECK(sscanf(text, "%2x", &byte) == 1);
    return len;
}

static bool is(const uint8_t *bytes, oscore_size len, const char *text) {
    uint8_t wanted[128];
    return hex(text, wanted) == len && !memcmp(bytes, wanted, len);
}

/* ---- which peer a request is for */

/* A peer of a context with this Recipient ID, and with this ID Context, or without one where that is 0. */
static oscore_peer begun(uint8_t recipient, uint8_t id_context) {
    uint8_t secret[16] = {1}, server = 0xaa;
    const uint8_t *named = guarded_copy(ID_CONTEXT, &id_context, id_context > 0), *other = guarded_copy(RECIPIENT, &recipient, 1);
    CHECK(!oscore_derive(context, guarded_copy(SECRET, secret, 16), 16, NULL, 0, id_context > 0, named, id_context > 0,
                         guarded_copy(SENDER, &server, 1), 1, other, 1, tables, false, false));
    CHECK(!oscore_peer_begin_first(peer, context, 32, LIFE));
    return *peer;
}

/* A refusal leaves the index, and either leaves peers and datagram. */
static uint32_t find_bytes(const oscore_peer *peers, oscore_size count, const uint8_t *bytes, oscore_size len) {
    const oscore_peer *laid = count > 0 ? guarded_copy(PEERS, peers, count * sizeof *peers) : NULL;
    datagram = guarded_copy(DATAGRAM, bytes, len);
    *index_of = 99;
    uint32_t status = oscore_peer_find(laid, count, datagram, len, index_of, detail);
    CHECK((status == OSCORE_DONE) == (*index_of != 99) && !memcmp(datagram, bytes, len));
    CHECK(count == 0 || !memcmp(laid, peers, count * sizeof *peers));
    return status;
}

static uint32_t find(const oscore_peer *peers, oscore_size count, const char *text) {
    uint8_t bytes[64];
    oscore_size len = hex(text, bytes);
    return find_bytes(peers, count, bytes, len);
}

/* Of peers, the first whose context a request names: by its kid, and by its kid context where it has one. Those that were never begun are
   passed over. The requests here have a Partial IV 0, and a ciphertext that is none: nothing is opened. */
static void finds(void) {
    static oscore_peer peers[6];
    peers[1] = begun(2, 0), peers[2] = begun(1, 0), peers[3] = begun(1, 9), peers[4] = begun(1, 9), peers[5] = begun(3, 0);
    CHECK(!find(peers, 6, "4002000193090002ffee") && *index_of == 1 && !find(peers, 6, "4002000193090001ffee") && *index_of == 2);
    CHECK(!find(peers, 6, "4002000193090003ffee") && *index_of == 5 && find(peers, 5, "4002000193090003ffee") == OSCORE_NO_CONTEXT && *detail == 0);
    CHECK(!find(peers, 6, "40020001951900010901ffee") && *index_of == 3 && find(peers, 3, "40020001951900010901ffee") == OSCORE_NO_CONTEXT);
    CHECK(find(peers, 6, "40020001951900010801ffee") == OSCORE_NO_CONTEXT && find(peers, 6, "40020001951900010902ffee") == OSCORE_NO_CONTEXT);
    /* A kid of no byte: no context here has it, nor do the zeros. */
    CHECK(find(peers, 6, "40020001920900ffee") == OSCORE_NO_CONTEXT && find(NULL, 0, "4002000193090002ffee") == OSCORE_NO_CONTEXT);
    CHECK(find(peers, 6, "4002") == OSCORE_SHORT && *detail == 0 && find(peers, 6, "40020001ff") == OSCORE_EMPTY_PAYLOAD && *detail == 4);
    CHECK(find(peers, 6, "60440001ffee") == OSCORE_NOT_THAT_KIND && find(peers, 6, "40020001ffee") == OSCORE_NO_OSCORE && *detail == 0);
    CHECK(find(peers, 6, "4002000193890002ffee") == OSCORE_UNDECODABLE && *detail == 0);
    /* Spoilt contexts are passed over, and the one behind is found. */
    peers[3].server.context.context.recipient_len = 8;
    CHECK(!find(peers, 6, "40020001951900010901ffee") && *index_of == 4);
    /* The other bytes of a peer aren't looked at. */
    peers[4].received = (1ull << 40) + 1;
    CHECK(!find(peers, 6, "40020001951900010901ffee") && *index_of == 4);
}

/* ---- RFC 8613, C.1 to C.8 */

static const struct { const char *salt, *id_context, *client, *server; } DERIVED[CONTEXTS] = {
    {"9e7ca92223786340", "", "", "01"}, {"", "", "00", "01"}, {"9e7ca92223786340", "37cbf3210017a2d3", "", "01"}};
/* C.4 to C.6: requests with the number 20, GET coap://localhost/tv1. */
static const struct { const char *plain, *sealed; } REQUESTS[CONTEXTS] = {
    {"44015d1f00003974396c6f63616c686f737483747631", "44025d1f00003974396c6f63616c686f7374620914ff612f1092f1776f1c1668b3825e"},
    {"440171c30000b932396c6f63616c686f737483747631", "440271c30000b932396c6f63616c686f737463091400ff4ed339a5a379b0b8bc731fffb0"},
    {"44012f8eef9bbf7a396c6f63616c686f737483747631", "44022f8eef9bbf7a396c6f63616c686f73746b19140837cbf3210017a2d3ff72cd7273fd331ac45cffbe55c3"}};
/* C.7 and C.8: responses to C.4. */
static const char *ANSWER = "60450000ff48656c6c6f20576f726c6421";
static const char *SEALED_ANSWERS[2] = {"64445d1f0000397490ffdbaad1e9a7e7b2a813d3c31524378303cdafae119106",
                                        "64445d1f00003974920100ff4d4c13669384b67354b2b6175ff4b8658c666a6cf88e"};

static oscore_peer serving[CONTEXTS], asking[CONTEXTS];
static oscore_pending asked[CONTEXTS];

static void derive(int which, bool of_client) {
    uint8_t bytes[16], salt[8], id_context[8], sender[1], recipient[1];
    oscore_size salt_len = hex(DERIVED[which].salt, salt), id_context_len = hex(DERIVED[which].id_context, id_context);
    oscore_size sender_len = hex(of_client ? DERIVED[which].client : DERIVED[which].server, sender);
    oscore_size recipient_len = hex(of_client ? DERIVED[which].server : DERIVED[which].client, recipient);
    const uint8_t *secret = guarded_copy(SECRET, bytes, hex("0102030405060708090a0b0c0d0e0f10", bytes));
    CHECK(!oscore_derive(context, secret, 16, guarded_copy(SALT, salt, salt_len), salt_len, id_context_len > 0,
                         guarded_copy(ID_CONTEXT, id_context, id_context_len), id_context_len, guarded_copy(SENDER, sender, sender_len), sender_len,
                         guarded_copy(RECIPIENT, recipient, recipient_len), recipient_len, tables, false, false));
}

/* A peer, behind a record where it has a number, with its first record saved: each number counts as received. */
static oscore_peer saved_peer(int which, bool of_client, uint64_t sender) {
    uint64_t *name = guarded(NAME, sizeof *name);
    derive(which, of_client);
    CHECK(!oscore_peer_name(context, name));
    *record = (oscore_peer_record){*name, 1, sender, 0};
    CHECK(!(sender > 0 ? oscore_peer_begin_again(peer, context, record, 32, LIFE) : oscore_peer_begin_first(peer, context, 32, LIFE)));
    CHECK(peer->name == *name);
    record->generation = sender > 0 ? 2 : 1, record->sender = sender + 64;
    CHECK(!oscore_peer_saved_nowhere(peer, record));
    return *peer;
}

/* Each name is that of one end of one context. */
static void begins(void) {
    for (int which = 0; which < CONTEXTS; which++) {
        serving[which] = saved_peer(which, false, 0), asking[which] = saved_peer(which, true, NUMBER);
        CHECK(serving[which].name != asking[which].name);
        for (int other = 0; other < which; other++)
            CHECK(serving[which].name != serving[other].name && asking[which].name != asking[other].name);
    }
}

/* The request of one of them. */
static void ask(int which) {
    uint8_t bytes[64];
    oscore_size len = hex(REQUESTS[which].plain, bytes), sealed_len = strlen(REQUESTS[which].sealed) / 2;
    *peer = asking[which], *pending_count = 0;
    out = guarded_room(OUT, sealed_len);
    CHECK(!oscore_peer_request(peer, pending, 1, pending_count, NOW, guarded_copy(PLAIN, bytes, len), len, out, sealed_len, out_len, record, detail));
    CHECK(is(out, *out_len, REQUESTS[which].sealed) && pending->number == NUMBER);
    asking[which] = *peer, asked[which] = *pending;
}

static uint32_t take(oscore_peer *by, const char *text) {
    uint8_t bytes[64];
    oscore_size len = hex(text, bytes);
    *peer = *by;
    datagram = guarded_copy(DATAGRAM, bytes, len);
    uint32_t status = oscore_peer_take(peer, NOW, MID, datagram, len, options, 4, opened, ticket, guarded(OUT, 64), out_len, record, detail);
    *by = *peer;
    return status;
}

/* Hands a request to each: the one that is found delivers it, and to another it names no context. */
static void take_at_each(int which) {
    uint8_t bytes[64];
    oscore_size len = hex(REQUESTS[which].sealed, bytes);
    CHECK(!find_bytes(serving, CONTEXTS, bytes, len) && *index_of == (oscore_size)which);
    for (int by = 0; by < CONTEXTS; by++) CHECK(by == which || take(&serving[by], REQUESTS[which].sealed) == OSCORE_NO_CONTEXT);
    CHECK(!take(&serving[which], REQUESTS[which].sealed) && opened->number == NUMBER && opened->option_count == 1);
    CHECK(opened->uri_host_len == 9 && !memcmp(opened->uri_host, "localhost", 9) && ticket->context == serving[which].name);
    /* It is found all the same where it comes again. */
    CHECK(!find_bytes(serving, CONTEXTS, bytes, len) && *index_of == (oscore_size)which);
}

static uint32_t answer(int by, bool by_own) {
    uint8_t bytes[64];
    oscore_size len = hex(ANSWER, bytes);
    *peer = serving[by];
    out = guarded(OUT, 64);
    return oscore_peer_reply(peer, ticket, by_own, MID, guarded_copy(PLAIN, bytes, len), len, out, 64, out_len, record, detail);
}

/* Each answers what it delivered itself. */
static void answer_at_each(int which, bool by_own) {
    for (int by = 0; by < CONTEXTS; by++) CHECK(by == which || answer(by, by_own) == OSCORE_STALE_TICKET);
    CHECK(!answer(which, by_own) && (which != C1 || is(out, *out_len, SEALED_ANSWERS[by_own])));
}

/* Which peer a response is for its token says: no other hears it. */
static void hear_at_each(int which, const uint8_t *bytes, oscore_size len) {
    for (int by = CONTEXTS - 1; by >= 0; by--) {
        *peer = asking[by], *pending = asked[by], *pending_count = 1;
        uint32_t status = oscore_peer_hear(peer, pending, 1, pending_count, NOW, guarded_copy(DATAGRAM, bytes, len), len, options, 4, opened, request, detail);
        CHECK(status == (by == which ? OSCORE_DONE : OSCORE_UNKNOWN_TOKEN) && *pending_count == (by != which));
    }
}

static void exchanges(bool by_own) {
    begins();
    for (int which = 0; which < CONTEXTS; which++) ask(which);
    for (int which = 0; which < CONTEXTS; which++) {
        take_at_each(which);
        answer_at_each(which, by_own);
        uint8_t sealed[64];
        oscore_size len = *out_len;
        memcpy(sealed, out, len);
        hear_at_each(which, sealed, len);
        CHECK(*request == NUMBER && opened->code == 69 && opened->has_number == by_own && opened->payload_len == 12);
    }
}

int main(void) {
    for (int before = 0; before < 2; before++) {
        lay_out(before);
        for (int ciphers = 0; ciphers < 2; ciphers++) {
            tables = ciphers == 0;
            exchanges(false), exchanges(true);
        }
        finds();
    }
    puts("peer_finds: which of several peers a request is for, C.4 to C.8 between peers of three contexts; behind a guard page and before one");
    return 0;
}

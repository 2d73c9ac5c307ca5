/* A peer that serves: RFC 8613, C.4, C.7 and C.8, by tables and in constant time, as it shows them, and what it is behind them; what it sends
   back for each datagram that it refuses, byte for byte; the statuses of its replies, in order; challenges, and for how long they are good;
   windows of 1, 32 and 64 places; tickets; the last numbers; spoilt datagrams, peers and tickets. A life's first record is saved with all
   numbers received, so that none but that has to be saved: peer.c looks at records. All that is handed in lies against a guard page. Built
   with the sanitizers by .ci/run, and run under valgrind's memcheck with fewer rounds, which its only word says. */
#include "guarded.h"
#include "peer_bytes.h"

#define CHECK(holds) do { if (!(holds)) { printf("peer_serves.c:%d: %s\n", __LINE__, #holds); exit(1); } } while (0)

/* RFC 8613, C.4: the request with the number 20, GET coap://localhost/tv1. C.7 and C.8: its responses, the plain one, those without
   and with a Partial IV of their own. C.5: a request to another context. */
static const char *REQUEST = "44015d1f00003974396c6f63616c686f737483747631";
static const char *SEALED = "44025d1f00003974396c6f63616c686f7374620914ff612f1092f1776f1c1668b3825e";
static const char *ANSWER = "64455d1f00003974ff48656c6c6f20576f726c6421";
static const char *SEALED_ANSWERS[2] = {"64445d1f0000397490ffdbaad1e9a7e7b2a813d3c31524378303cdafae119106",
                                        "64445d1f00003974920100ff4d4c13669384b67354b2b6175ff4b8658c666a6cf88e"};
static const char *ELSEWHERE = "440271c30000b932396c6f63616c686f737463091400ff4ed339a5a379b0b8bc731fffb0";
/* The number 20, and a plaintext of the code 45 alone, which is a response's, as the corpus has it. */
static const char *INNER = "44025d1f00003974920914ff256a22a25470d7a3b9";

enum { NOW = 1000, LIFE = 5000, MID = 0x1234 };
/* What is handed in, each at a place of its own. */
enum { CLIENT, OWN, PEER, OPTIONS, OPENED, TICKET, OUT, SEALED_LEN, REPLY, REPLY_LEN, RECORD, DETAIL, PLAIN, DATAGRAM, ANSWERED, GIVEN, SECRET, SALT, ONE };
static const uint64_t NUMBERS = 1ull << 40;
/* Whether `derive` makes contexts that go by tables. */
static bool tables;
static oscore_context *client, *own;
static oscore_peer *peer;
static oscore_server_context *serving;
static oscore_option *options;
static oscore_opened *opened;
static oscore_ticket *ticket;
static oscore_peer_record *record;
static uint8_t *out, *reply, *datagram;
static oscore_size *out_len, *reply_len, *detail;
static int rounds = 20000;

static void lay_out(bool before) {
    guarded_before = before;
    client = guarded(CLIENT, sizeof *client);
    own = guarded(OWN, sizeof *own);
    peer = guarded(PEER, sizeof *peer);
    serving = &peer->server.context;
    options = guarded(OPTIONS, 4 * sizeof *options);
    opened = guarded(OPENED, sizeof *opened);
    ticket = guarded(TICKET, sizeof *ticket);
    record = guarded(RECORD, sizeof *record);
    out_len = guarded_room(SEALED_LEN, sizeof *out_len);
    reply_len = guarded_room(REPLY_LEN, sizeof *reply_len);
    detail = guarded_room(DETAIL, sizeof *detail);
}

static oscore_size hex(const char *text, uint8_t *bytes) {
    oscore_size len = 0;
    unsigned byte;
    for (; *text; text += 2, bytes[len++] = (uint8_t)byte) CHECK(sscanf(text, "%2x", &byte) == 1);
    return len;
}

static bool is(const uint8_t *bytes, oscore_size len, const char *text) {
    uint8_t wanted[64];
    return len == hex(text, wanted) && !memcmp(bytes, wanted, len);
}

/* The context of RFC 8613, C.1, for both ends. */
static void derive(void) {
    uint8_t bytes[16], one = 1;
    const uint8_t *secret = guarded_copy(SECRET, bytes, hex("0102030405060708090a0b0c0d0e0f10", bytes));
    const uint8_t *salt = guarded_copy(SALT, bytes, hex("9e7ca92223786340", bytes)), *id = guarded_copy(ONE, &one, 1);
    CHECK(!oscore_derive(client, secret, 16, salt, 8, false, NULL, 0, NULL, 0, id, 1, tables, false, false));
    CHECK(!oscore_derive(own, secret, 16, salt, 8, false, NULL, 0, id, 1, NULL, 0, tables, false, false));
}

/* ---- the calls */

/* Whether a datagram that wasn't decrypted is as it was, and of one that was the head and the tag are. */
static bool is_left(uint32_t status, oscore_size len, const uint8_t *before) {
    bool decrypted = status == OSCORE_DONE || status == OSCORE_INNER || status == OSCORE_CHALLENGE || status == OSCORE_SEQUENCE_EXHAUSTED;
    if (!decrypted) return !memcmp(datagram, before, len);
    return memcmp(datagram, before, len) && !memcmp(datagram, before, 4) && !memcmp(datagram + len - 8, before + len - 8, 8);
}

/* What a save changes alone, and what a peer asks with, is as it was. */
static bool is_kept(const oscore_peer *before) {
    return !memcmp(&peer->reserved, &before->reserved, offsetof(oscore_peer, busy) - offsetof(oscore_peer, reserved)) && serving->life == before->server.context.life;
}

/* Hands in a datagram. Behind the reply nothing is written; and where nothing is delivered, nothing is shown. */
static uint32_t take(uint64_t now, const uint8_t *bytes, oscore_size len) {
    static const oscore_opened none_opened;
    static const oscore_option none_options[4];
    static const oscore_ticket none_ticket;
    memset(options, 0, sizeof none_options), memset(opened, 0, sizeof none_opened), memset(ticket, 0, sizeof none_ticket);
    oscore_peer before = *peer;
    datagram = guarded_copy(DATAGRAM, bytes, len);
    reply = guarded(REPLY, 64);
    *reply_len = 99;
    uint32_t status = oscore_peer_take(peer, now, MID, datagram, len, options, 4, opened, ticket, reply, reply_len, record, detail);
    CHECK(*reply_len <= 64 && is_left(status, len, bytes) && is_kept(&before));
    for (oscore_size i = *reply_len; i < 64; i++) CHECK(!reply[i]);
    CHECK(!status || (!memcmp(opened, &none_opened, sizeof none_opened) && !memcmp(options, none_options, sizeof none_options)
        && !memcmp(ticket, &none_ticket, sizeof none_ticket)));
    return status;
}

static uint32_t take_text(const char *text) {
    uint8_t bytes[128];
    return take(NOW, bytes, hex(text, bytes));
}

/* Hands in fewer bytes than a head has. */
static uint32_t take_short(uint64_t now) {
    const uint8_t bytes[3] = {0x40, 1, 0};
    return take(now, bytes, sizeof bytes);
}

/* Seals a plain request under a number, and hands it in. */
static uint32_t take_sealed(const char *plain, uint64_t number, uint64_t now) {
    uint8_t bytes[128];
    oscore_size len = hex(plain, bytes);
    out = guarded_room(OUT, OSCORE_ROOM(len));
    CHECK(!oscore_seal_request(client, number, guarded_copy(PLAIN, bytes, len), len, out, OSCORE_ROOM(len), out_len, detail));
    memcpy(bytes, out, *out_len);
    return take(now, bytes, *out_len);
}

/* Answers the request of a ticket by a plain message, in so much room: what isn't written of it stays. */
static uint32_t reply_in(oscore_ticket *of, bool by_own, const char *text, oscore_size filled, oscore_size room) {
    uint8_t bytes[64];
    oscore_size len = hex(text, bytes);
    uint8_t *plain = guarded_room(PLAIN, len + filled);
    memcpy(plain, bytes, len);
    memset(plain + len, 'x', filled);
    oscore_peer before = *peer;
    out = guarded(OUT, room);
    oscore_ticket *used = guarded_copy(ANSWERED, of, sizeof *of);
    uint32_t status = oscore_peer_reply(peer, used, by_own, MID, plain, len + filled, out, room, out_len, record, detail);
    for (oscore_size i = status ? 0 : *out_len; i < room; i++) CHECK(!out[i]);
    CHECK(is_kept(&before) && (status || *out_len <= OSCORE_ROOM(len + filled)));
    *of = *used;
    return status;
}

static uint32_t answer(oscore_ticket *of, bool by_own) {
    return reply_in(of, by_own, ANSWER, 0, 64);
}

static uint32_t reply_with(const char *text, oscore_size filled, oscore_size room) {
    return reply_in(ticket, true, text, filled, room);
}

/* Opens a response as the client. */
static uint32_t open_response(uint64_t request, const uint8_t *bytes, oscore_size len) {
    return oscore_open_response(client, request, guarded_copy(DATAGRAM, bytes, len), len, options, 4, opened, detail);
}

/* A peer that was never used, or, with a number, behind a record of these. Its first record is saved, and that each number is received. */
static void begin_behind(uint64_t sender, uint64_t received, uint8_t places) {
    derive();
    CHECK(!oscore_peer_begin_first(peer, own, places, LIFE));
    oscore_peer_record last = {peer->name, 1, sender, received};
    if (sender > 0) CHECK(!oscore_peer_begin_again(peer, own, guarded_copy(GIVEN, &last, sizeof last), places, LIFE));
    CHECK(take_short(NOW) == OSCORE_SAVE_FIRST);
    CHECK(!oscore_peer_saved_nowhere(peer, record) && peer->server.clock == 0 && serving->life == 0);
}

static void begin(void) {
    begin_behind(0, 0, 32);
}

/* ---- what it answers */

static void exchanges(void) {
    for (int by_own = 0; by_own < 2; by_own++) {
        begin();
        CHECK(serving->places == 32 && serving->next == 0 && serving->gate == 2);
        CHECK(!take_text(SEALED) && *reply_len == 0 && peer->server.clock == NOW && peer->clock == 0);
        CHECK(opened->kind == 0 && opened->code == 1 && opened->message_id == 0x5d1f && opened->has_number && opened->number == 20);
        CHECK(is(opened->token, opened->token_len, "00003974") && !opened->payload_len && !opened->is_notification && !opened->has_uri_port);
        CHECK(opened->has_uri_host && opened->uri_host_len == 9 && !memcmp(opened->uri_host, "localhost", 9));
        CHECK(opened->option_count == 1 && options[0].number == 11 && options[0].value_len == 3 && !memcmp(options[0].value, "tv1", 3));
        CHECK(ticket->context == peer->name && ticket->life == peer->life && ticket->number == 20 && ticket->kind == 0);
        CHECK(ticket->message_id == 0x5d1f && is(ticket->token, ticket->token_len, "00003974") && ticket->observes == 0);
        CHECK(serving->gate == 3 && serving->at == 20 && serving->window_places == 32);
        CHECK(peer->server.unanswered.highest == 20 && peer->server.unanswered.mask == 1);
        CHECK(!answer(ticket, by_own) && is(out, *out_len, SEALED_ANSWERS[by_own]));
        CHECK(serving->next == (uint64_t)by_own && !peer->server.unanswered.mask && serving->context.tables == tables);
        CHECK(!open_response(20, out, *out_len) && opened->code == 69 && opened->has_number == by_own && !opened->option_count);
    }
    /* Not confirmable: reply and refusal aren't either, and their message ID is the one that was handed in. */
    CHECK(!take_sealed("54015d1f00003974", 21, NOW) && ticket->kind == 1 && !answer(ticket, false) && is(out, 4, "54441234"));
    CHECK(take_sealed("54015d1f00003974", 21, NOW) == OSCORE_REPLAY && is(reply, 4, "54811234"));
}

/* In a message of its own a reply is what it would be in the acknowledgement, but for its kind and its message ID. */
static void replies_alone(void) {
    static const char *heads[2] = {"5444abcd", "4444abcd"};
    for (int confirmable = 0; confirmable < 2; confirmable++) {
        begin();
        CHECK(!take_text(SEALED) && !answer(ticket, false) && is(out, *out_len, SEALED_ANSWERS[false]));
        size_t len = *out_len;
        uint8_t *reply_alone = guarded_copy(GIVEN, out, len);
        oscore_make_separate(reply_alone, len, confirmable, 0xabcd);
        CHECK(is(reply_alone, 4, heads[confirmable]) && !memcmp(reply_alone + 4, out + 4, len - 4));
        CHECK(!open_response(20, reply_alone, len) && opened->code == 69 && opened->kind == !confirmable && opened->message_id == 0xabcd);
        /* Three bytes are no datagram. */
        uint8_t *three = guarded_copy(GIVEN, "\x64\x44\x5d", 3);
        oscore_make_separate(three, 3, confirmable, 0xabcd);
        CHECK(is(three, 3, "64445d"));
    }
}

/* Three options, Uri-Path a, b and c, where the array has room for none, for two, and for more. */
static void counts_options(void) {
    const uint8_t plain[] = {0x40, 1, 0, 1, 0xb1, 'a', 1, 'b', 1, 'c'};
    for (oscore_size room = 0; room <= 4; room += 2) {
        begin();
        out = guarded_room(OUT, OSCORE_ROOM(sizeof plain));
        CHECK(!oscore_seal_request(client, 1, guarded_copy(PLAIN, plain, sizeof plain), sizeof plain, out, OSCORE_ROOM(sizeof plain), out_len, detail));
        datagram = guarded_copy(DATAGRAM, out, *out_len);
        oscore_option *some = room > 0 ? guarded(OPTIONS, room * sizeof *some) : NULL;
        CHECK(!oscore_peer_take(peer, NOW, MID, datagram, *out_len, some, room, opened, ticket, guarded(REPLY, 64), reply_len, record, detail));
        CHECK(opened->option_count == (room < 3 ? room : 3) && opened->has_more_options == (room < 3));
        for (oscore_size i = 0; i < opened->option_count; i++) CHECK(some[i].number == 11 && *some[i].value == 'a' + i);
        options = guarded(OPTIONS, 4 * sizeof *options);
    }
}

/* An error (RFC 8613, 7.4 and 8.2): an ACK, the code, Max-Age (14) of no byte, which is 0, and the payload. */
static bool refuses_by(const char *head, const char *text) {
    uint8_t wanted[64];
    oscore_size len = hex(head, wanted);
    len += hex("d001ff", wanted + len);
    memcpy(wanted + len, text, strlen(text));
    return *reply_len == len + strlen(text) && !memcmp(reply, wanted, *reply_len);
}

/* What refuses a datagram, in the order of the statuses. It moves the clock, and of all but the last nothing else. */
static void refuses_datagrams(void) {
    begin();
    CHECK(!take_text(SEALED));
    oscore_peer before = *peer;
    CHECK(take_short(NOW) == OSCORE_SHORT && *detail == 0 && !*reply_len);
    CHECK(take_text("40010001b161ff") == OSCORE_EMPTY_PAYLOAD && *detail == 6 && !*reply_len);
    CHECK(take_text(SEALED_ANSWERS[0]) == OSCORE_NOT_THAT_KIND && *detail == 0 && !*reply_len);
    CHECK(take_text("40005d1f") == OSCORE_NOT_THAT_KIND && !*reply_len && take_text("70005d1f") == OSCORE_NOT_THAT_KIND && !*reply_len);
    CHECK(take_text(REQUEST) == OSCORE_NO_OSCORE && !*reply_len);
    CHECK(take_text("4002000191e0ff00") == OSCORE_UNDECODABLE && refuses_by("60820001", "Failed to decode COSE"));
    CHECK(take_text(ELSEWHERE) == OSCORE_NO_CONTEXT && refuses_by("648171c30000b932", "Security context not found"));
    CHECK(take_text(SEALED) == OSCORE_REPLAY && refuses_by("64815d1f00003974", "Replay detected"));
    CHECK(take_text("44025d1f00003974920915ff612f1092f1776f1c1668b3825f") == OSCORE_TAG && refuses_by("64805d1f00003974", "Decryption failed"));
    CHECK(same_peers(peer, &before));
    before.server.context.places = serving->places = 33;
    CHECK(take_text(SEALED) == OSCORE_BAD_HANDLE && *detail == 0 && !*reply_len && same_peers(peer, &before));
    /* The clock counts each moment that was handed in, and doesn't go back. */
    begin();
    CHECK(take_short(NOW + 1) == OSCORE_SHORT && peer->server.clock == NOW + 1);
    CHECK(take_short(NOW) == OSCORE_SHORT && peer->server.clock == NOW + 1);
    /* Its number is spent. */
    begin();
    CHECK(take_text(INNER) == OSCORE_INNER && !*reply_len && take_text(SEALED) == OSCORE_REPLAY);
    /* Not where no window is open. */
    begin_behind(7, 0, 32);
    before = *peer, before.server.clock = NOW;
    CHECK(take_text(INNER) == OSCORE_INNER && !*reply_len && same_peers(peer, &before));
}

/* What refuses a reply spends neither ticket nor number. */
static void refuses_replies(void) {
    begin_behind(3, 20, 32);
    CHECK(!take_text(SEALED));
    oscore_peer before = *peer;
    oscore_ticket kept = *ticket;
    *out_len = 99;
    CHECK(reply_with("604500", 0, 64) == OSCORE_SHORT && reply_with("60450001b161f0", 0, 64) == OSCORE_NIBBLE15 && *detail == 6);
    CHECK(reply_with("60450001ff", 65531, 65600) == OSCORE_DATAGRAM_TOO_LONG && *detail == 65535);
    CHECK(reply_with(REQUEST, 0, 64) == OSCORE_NOT_THAT_KIND && *detail == 0);
    CHECK(reply_with("60450001d10e06", 0, 64) == OSCORE_UNSUPPORTED && *detail == 27);
    CHECK(reply_with("60450001ff", 65530, 65600) == OSCORE_TOO_LONG && reply_with(ANSWER, 0, 33) == OSCORE_NO_ROOM && *detail == 0);
    ticket->token_len = 9;
    CHECK(reply_with("604500", 0, 64) == OSCORE_BAD_HANDLE && *detail == 0);
    *ticket = kept, ticket->context++;
    CHECK(reply_with("604500", 0, 64) == OSCORE_SHORT && reply_with(REQUEST, 0, 64) == OSCORE_STALE_TICKET);
    *ticket = kept, ticket->life++;
    CHECK(reply_with(REQUEST, 0, 64) == OSCORE_STALE_TICKET);
    *ticket = kept, ticket->number = 19;
    CHECK(reply_with(REQUEST, 0, 64) == OSCORE_TICKET_SPENT && *detail == 0);
    CHECK(same_peers(peer, &before) && *out_len == 99);
    /* Kind, message ID and token are the request's, whatever stands in the plain head. */
    *ticket = kept;
    CHECK(!reply_with("50450000ff48656c6c6f20576f726c6421", 0, 64) && *out_len == 34 && is(out, 8, "64445d1f00003974") && serving->next == 4);
}

/* The room for an answer: 4 bytes of the head, 8 of a token that the plain message lacks, 7 of an option with a Partial IV of 5 bytes (RFC
   8613, 6.1), a marker, the code inside and the tag. */
static void fills_rooms(void) {
    begin_behind(NUMBERS - 1, 20, 32);
    CHECK(!take_sealed("48010001" "0102030405060708", 20, NOW) && ticket->token_len == 8);
    CHECK(reply_with("60450000", 0, 28) == OSCORE_NO_ROOM && !reply_with("60450000", 0, 29) && *out_len == 29);
    CHECK(is(out, 20, "68440001" "0102030405060708" "9605ffffffffff" "ff"));
}

static void counts_to_the_last_number(void) {
    begin_behind(NUMBERS - 1, 20, 32);
    CHECK(!take_sealed(REQUEST, 20, NOW) && !answer(ticket, true) && serving->next == NUMBERS);
    CHECK(!take_sealed(REQUEST, 21, NOW) && reply_with("60450001d10e06", 0, 64) == OSCORE_UNSUPPORTED);
    CHECK(reply_with(ANSWER, 0, 0) == OSCORE_SEQUENCE_EXHAUSTED && *detail == 0 && !answer(ticket, false));
    begin_behind(NUMBERS - 1, 0, 32);
    CHECK(take_sealed(REQUEST, 20, NOW) == OSCORE_CHALLENGE && *reply_len);
    CHECK(take_sealed(REQUEST, 21, NOW) == OSCORE_SEQUENCE_EXHAUSTED && !*reply_len && serving->gate == 1);
}

/* ---- challenges */

/* Opens the challenge in `reply` as the client, and answers whether it has this number, and this one as its Echo value. Outside it is 2.04. */
static bool challenges(uint64_t request, uint64_t number, uint8_t echo) {
    const uint8_t value[8] = {0, 0, 0, 0, 0, 0, 0, echo};
    CHECK(is(reply, 8, "64445d1f00003974") && !open_response(request, reply, *reply_len));
    return opened->kind == 2 && opened->code == 0x81 && opened->has_number && opened->number == number && !opened->payload_len
        && opened->option_count == 1 && options[0].number == 252 && options[0].value_len == 8 && !memcmp(options[0].value, value, 8);
}

/* The request with an Echo value. */
static uint32_t take_echoed(uint8_t echo, uint64_t number, uint64_t now) {
    char text[96];
    snprintf(text, sizeof text, "%sd8e4%016x", REQUEST, echo);
    return take_sealed(text, number, now);
}

/* Behind a record that tells of no request, the first that brings back the Echo value is delivered: the number of the first challenge, for 30
   seconds (RFC 8613, B.1.2). */
static void challenges_first(void) {
    begin_behind(7, 0, 32);
    CHECK(serving->next == 7 && serving->gate == 0);
    CHECK(take_echoed(7, 21, NOW) == OSCORE_CHALLENGE && challenges(21, 7, 7) && serving->gate == 1 && serving->at == NOW);
    CHECK(take_sealed("44015d1f00003974d7ef00000000000000", 22, NOW) == OSCORE_CHALLENGE && challenges(22, 8, 7));
    CHECK(take_echoed(8, 22, NOW + 30000) == OSCORE_CHALLENGE && challenges(22, 9, 7));
    oscore_ticket forged = {.context = (oscore_size)peer->name, .life = peer->life, .number = 22};
    CHECK(answer(&forged, false) == OSCORE_TICKET_SPENT);
    CHECK(!take_echoed(7, 23, NOW + 30000) && !*reply_len && opened->option_count == 2 && ticket->life == 2 && ticket->number == 23);
    CHECK(!answer(ticket, true) && serving->next == 11 && serving->gate == 3 && serving->at == 23);
    CHECK(take_sealed(REQUEST, 22, NOW) == OSCORE_REPLAY && peer->server.clock == NOW + 30000);
    CHECK(!take_sealed(REQUEST, 24, NOW) && !answer(ticket, false));
}

/* After 30 seconds a challenge is none, and the next has another Echo value. */
static void challenges_anew(void) {
    begin_behind(1, 0, 32);
    CHECK(take_sealed(REQUEST, 0, NOW) == OSCORE_CHALLENGE && challenges(0, 1, 1));
    CHECK(take_echoed(1, 1, NOW + 30001) == OSCORE_CHALLENGE && challenges(1, 2, 2) && serving->at == NOW + 30001);
    CHECK(take_echoed(1, 2, NOW + 30001) == OSCORE_CHALLENGE && challenges(2, 3, 2));
    CHECK(!take_echoed(2, 3, NOW + 60001));
}

/* A moment from far ahead stays, and a challenge then doesn't end. */
static void stands_at_a_far_moment(void) {
    begin_behind(1, 0, 32);
    CHECK(take_short(UINT64_MAX) == OSCORE_SHORT && peer->server.clock == UINT64_MAX);
    CHECK(take_sealed(REQUEST, 0, NOW) == OSCORE_CHALLENGE && serving->at == UINT64_MAX);
    CHECK(!take_echoed(1, 1, NOW + 1000000) && peer->server.clock == UINT64_MAX);
}

/* ---- windows and tickets */

/* Below the highest number the window has so many places, that number's among them, and each is delivered once (RFC 8613, 7.4). */
static void has_windows(void) {
    const uint8_t all[] = {1, 32, 64};
    for (oscore_size i = 0; i < sizeof all; i++) {
        uint64_t lowest = 100 - all[i] + 1u;
        begin_behind(0, 0, all[i]);
        CHECK(serving->places == all[i] && !take_sealed(REQUEST, 100, NOW) && serving->window_places == all[i]);
        CHECK(take_sealed(REQUEST, lowest - 1, NOW) == OSCORE_REPLAY && take_sealed(REQUEST, 100, NOW) == OSCORE_REPLAY);
        for (uint64_t number = lowest; number < 100; number++)
            CHECK(!take_sealed(REQUEST, number, NOW) && take_sealed(REQUEST, number, NOW) == OSCORE_REPLAY);
        CHECK(!take_sealed(REQUEST, 101, NOW) && take_sealed(REQUEST, lowest, NOW) == OSCORE_REPLAY);
        /* A record's number is a floor under it. */
        begin_behind(1, 99, all[i]);
        for (uint64_t number = 0; number < 99; number++) CHECK(take_sealed(REQUEST, number, NOW) == OSCORE_REPLAY);
        CHECK(!take_sealed(REQUEST, 100, NOW) && take_sealed(REQUEST, 98, NOW) == OSCORE_REPLAY);
        CHECK(take_sealed(REQUEST, 99, NOW) == (all[i] == 1 ? OSCORE_REPLAY : OSCORE_DONE));
    }
}

/* A request is answered once, whatever is done to its ticket. */
static void spends_tickets(void) {
    begin();
    CHECK(!take_sealed(REQUEST, 20, NOW));
    oscore_ticket copy = *ticket, altered = *ticket, forged = *ticket;
    altered.kind = 1, altered.message_id++, altered.token[0]++, altered.token_len = 8;
    CHECK(!answer(&copy, false) && copy.answered == 1 && ticket->answered == 0);
    CHECK(answer(&copy, false) == OSCORE_TICKET_SPENT && answer(ticket, true) == OSCORE_TICKET_SPENT
        && answer(&altered, true) == OSCORE_TICKET_SPENT && ticket->answered == 0);
    CHECK(!take_sealed(REQUEST, 21, NOW));
    oscore_ticket far = *ticket;
    CHECK(!take_sealed(REQUEST, 22, NOW));
    oscore_ticket near = *ticket;
    CHECK(!take_sealed(REQUEST, 85, NOW) && answer(&far, false) == OSCORE_TICKET_SPENT && !answer(&near, false) && !answer(ticket, false));
    CHECK(serving->next == 0);
    /* A request that lies far back has its answer under a number of that alone: once by a ticket, once more by a copy from before. */
    oscore_ticket far_copy = far;
    CHECK(!answer(&far, true) && serving->next == 1 && far.answered == 1 && answer(&far, true) == OSCORE_TICKET_SPENT && *detail == 0);
    CHECK(far_copy.answered == 0 && answer(&far_copy, false) == OSCORE_TICKET_SPENT && !answer(&far_copy, true) && serving->next == 2);
    uint64_t next = 2;
    for (uint64_t number = 0; number < 200; number++) {
        forged.number = number, forged.answered = 0;
        CHECK(answer(&forged, false) == OSCORE_TICKET_SPENT);
        CHECK(answer(&forged, true) == (number + 64 <= 85 ? OSCORE_DONE : OSCORE_TICKET_SPENT));
        next += number + 64 <= 85;
        CHECK(serving->next == next && forged.answered == (number + 64 <= 85));
    }
    forged.number = NUMBERS - 1, forged.answered = 0;
    CHECK(answer(&forged, true) == OSCORE_TICKET_SPENT && serving->next == next);
    forged.number = NUMBERS;
    CHECK(answer(&forged, true) == OSCORE_BAD_HANDLE);
}

/* ---- whatever bytes there are */

/* What is delivered differs from the whole one where nothing is protected. */
static void spoils_datagrams(void) {
    uint8_t sealed[64], bytes[64];
    oscore_size len = hex(SEALED, sealed);
    int delivered = 0;
    begin();
    oscore_peer before = *peer;
    before.server.clock = NOW;
    for (int i = 0; i < rounds; i++) {
        oscore_size cut = i % 4 ? (oscore_size)rand() % (len + 1) : len;
        memcpy(bytes, sealed, len);
        if (cut && i % 2) bytes[(oscore_size)rand() % cut] ^= (uint8_t)(1 << rand() % 8);
        bool whole = cut == len && !memcmp(bytes, sealed, len);
        uint32_t status = take(NOW, bytes, cut);
        bool tells = status == OSCORE_UNDECODABLE || status == OSCORE_NO_CONTEXT || status == OSCORE_TAG;
        CHECK(whole ? !status : !status || (status >= OSCORE_DATAGRAM_TOO_LONG && status <= OSCORE_EMPTY_PAYLOAD)
            || status == OSCORE_NOT_THAT_KIND || status == OSCORE_NO_OSCORE || tells);
        CHECK(tells == (*reply_len > 0));
        CHECK(status ? same_peers(peer, &before) : opened->number == 20 && opened->code == 1 && ticket->number == 20 && !opened->payload_len);
        if (!status) delivered++, *peer = before;
    }
    CHECK(delivered >= rounds / 4);
}

/* One byte of a peer that is open, or that waits for an Echo value. Its calls agree on what is a peer, and leave one. */
static void spoils_peers(void) {
    oscore_peer wholes[2];
    int bad = 0, done = 0;
    begin_behind(7, 0, 32);
    CHECK(take_sealed(REQUEST, 20, NOW) == OSCORE_CHALLENGE);
    wholes[0] = *peer;
    begin();
    CHECK(!take_text(SEALED));
    wholes[1] = *peer;
    oscore_ticket good = *ticket;
    for (int i = 0; i < rounds; i++) {
        *peer = wholes[i % 2];
        oscore_peer_record next = {peer->name, peer->generation + 1, peer->reserved, NUMBERS};
        ((uint8_t *)peer)[(oscore_size)rand() % offsetof(oscore_peer, busy)] = (uint8_t)rand();
        bool is_none = !can_be_peer(peer);
        oscore_peer before = *peer;
        int call = rand() % 4;
        oscore_ticket used = good;
        uint32_t status = call == 0 ? take_text(SEALED) : call == 1 ? take_sealed(REQUEST, 21, NOW) : call == 2 ? answer(&used, true)
            : (uint32_t)oscore_peer_saved(peer, guarded_copy(GIVEN, &next, sizeof next));
        CHECK(is_none == (status == OSCORE_BAD_HANDLE) && (!is_none || same_peers(peer, &before)) && (is_none || can_be_peer(peer)));
        CHECK(call > 1 || status || opened->number < peer->received);
        bad += is_none, done += !status;
    }
    CHECK(bad > rounds / 40 && done > rounds / 4);
}

static void spoils_tickets(void) {
    begin();
    CHECK(!take_text(SEALED));
    oscore_peer whole = *peer;
    oscore_ticket good = *ticket;
    for (int i = 0; i < rounds; i++) {
        oscore_ticket spoilt = good;
        *peer = whole;
        ((uint8_t *)&spoilt)[(oscore_size)rand() % sizeof spoilt] = (uint8_t)rand();
        bool is_none = spoilt.kind > 3 || spoilt.number >= NUMBERS || spoilt.token_len > 8 || spoilt.observes > 1;
        bool stale = spoilt.context != good.context || spoilt.life != good.life, spent = spoilt.number != 20, answered = spoilt.answered;
        uint32_t status = answer(&spoilt, i % 2);
        CHECK(status == (answered ? OSCORE_TICKET_SPENT : is_none ? OSCORE_BAD_HANDLE : stale ? OSCORE_STALE_TICKET : spent ? OSCORE_TICKET_SPENT : OSCORE_DONE));
        CHECK(!status || same_peers(peer, &whole));
        if (!status) CHECK(answer(&good, true) == OSCORE_TICKET_SPENT);
    }
}

int main(int count, char **words) {
    srand(1);
    if (count > 1) rounds = atoi(words[1]);
    for (int before = 0; before < 2; before++) {
        lay_out(before);
        for (int ciphers = 0; ciphers < 2; ciphers++) {
            tables = ciphers == 0;
            exchanges();
            replies_alone();
            challenges_first();
        }
        counts_options();
        refuses_datagrams();
        refuses_replies();
        fills_rooms();
        counts_to_the_last_number();
        challenges_anew();
        stands_at_a_far_moment();
        has_windows();
        spends_tickets();
        spoils_datagrams();
        spoils_peers();
        spoils_tickets();
    }
    printf("peer_serves: C.4, C.7 and C.8, replies to what is refused, challenges, windows, tickets; on either side of a guard page %d spoilt datagrams, peers, "
           "tickets\n", rounds);
    return 0;
}

/* One message: RFC 8613, C.1 to C.8, both ways, by tables and in constant time; each status once; the layout of the structs; spoilt
   datagrams and handles; what both ciphers seal. All that is handed in lies against a guard page. Built with the sanitizers by .ci/run,
   and run under valgrind's memcheck with fewer rounds, which its only word says. */
#include "guarded.h"
#include "../oscore.h"

#define CHECK(holds) do { if (!(holds)) { printf("messages.c:%d: %s\n", __LINE__, #holds); exit(1); } } while (0)

enum { C1, C2, C3, CONTEXTS };
/* What is handed in, each at a place of its own. */
enum { CLIENTS, SERVERS = CLIENTS + CONTEXTS, OPTIONS = SERVERS + CONTEXTS, OPENED, HEAD, OUT, SEALED_LEN, DETAIL, PLAIN, DATAGRAM, HANDLE,
    SECRET, SALT, ID_CONTEXT, SENDER, RECIPIENT, NAME, SIZES };
static oscore_context *clients[CONTEXTS], *servers[CONTEXTS];
static oscore_option *options;
static oscore_opened *opened;
static oscore_request_head *head;
static oscore_size *out_len, *detail;
static int rounds = 20000;

static void lay_out(bool before) {
    guarded_before = before;
    for (int i = 0; i < CONTEXTS; i++) {
        clients[i] = guarded(CLIENTS + i, sizeof *clients[i]);
        servers[i] = guarded(SERVERS + i, sizeof *servers[i]);
    }
    options = guarded(OPTIONS, 4 * sizeof *options);
    opened = guarded(OPENED, sizeof *opened);
    head = guarded(HEAD, sizeof *head);
    out_len = guarded_room(SEALED_LEN, sizeof *out_len);
    detail = guarded_room(DETAIL, sizeof *detail);
}

static oscore_size hex(const char *text, uint8_t *bytes) {
    oscore_size len = 0;
    unsigned byte;
    for (; *text; text += 2, bytes[len++] = (uint8_t)byte) CHECK(sscanf(text, "%2x", &byte) == 1);
    return len;
}

/* The bytes of a text, and so many times the letter x behind them, at a place. */
static uint8_t *bytes_at(oscore_size place, const char *text, oscore_size filled, oscore_size *len) {
    uint8_t bytes[128], *laid;
    *len = hex(text, bytes);
    laid = guarded_room(place, *len + filled);
    memcpy(laid, bytes, *len);
    memset(laid + *len, 'x', filled);
    *len += filled;
    return laid;
}

/* RFC 8613, C.1 to C.3: what both ends derive from, and what is printed. */
static const struct { const char *salt, *id_context, *client, *server, *client_key, *server_key, *common_iv; } DERIVED[CONTEXTS] = {
    {"9e7ca92223786340", NULL, "", "01", "f0910ed7295e6ad4b54fc793154302ff", "ffb14e093c94c9cac9471648b4f98710", "4622d4dd6d944168eefb54987c"},
    {"", NULL, "00", "01", "321b26943253c7ffb6003b0b64d74041", "e57b5635815177cd679ab4bcec9d7dda", "be35ae297d2dace910c52e99f9"},
    {"9e7ca92223786340", "37cbf3210017a2d3", "", "01", "af2a1300a5e95788b356336eeecd2b92", "e39a0c7c77b43f03b4b39ab9a268699f", "2ca58fb85ff1b81c0b7181b85e"},
};

/* RFC 8613, C.4 to C.6: requests with the number 20, GET coap://localhost/tv1. */
static const struct { const char *plain, *sealed; oscore_size kid_len; uint16_t message_id; } REQUESTS[CONTEXTS] = {
    {"44015d1f00003974396c6f63616c686f737483747631", "44025d1f00003974396c6f63616c686f7374620914ff612f1092f1776f1c1668b3825e", 0, 0x5d1f},
    {"440171c30000b932396c6f63616c686f737483747631", "440271c30000b932396c6f63616c686f737463091400ff4ed339a5a379b0b8bc731fffb0", 1, 0x71c3},
    {"44012f8eef9bbf7a396c6f63616c686f737483747631", "44022f8eef9bbf7a396c6f63616c686f73746b19140837cbf3210017a2d3ff72cd7273fd331ac45cffbe55c3", 0, 0x2f8e},
};

/* RFC 8613, C.7 and C.8: responses to C.4, one without a Partial IV of its own and one with the Partial IV 0. */
static const char *ANSWER = "64455d1f00003974ff48656c6c6f20576f726c6421";
static const char *SEALED_ANSWERS[2] = {"64445d1f0000397490ffdbaad1e9a7e7b2a813d3c31524378303cdafae119106",
                                        "64445d1f00003974920100ff4d4c13669384b67354b2b6175ff4b8658c666a6cf88e"};

static uint32_t derive_into(oscore_context *context, const uint8_t *sender, oscore_size sender_len, const uint8_t *recipient, oscore_size recipient_len,
                            int i, bool tables) {
    oscore_size secret_len, salt_len, id_context_len = 0;
    const uint8_t *secret = bytes_at(SECRET, "0102030405060708090a0b0c0d0e0f10", 0, &secret_len);
    const uint8_t *salt = bytes_at(SALT, DERIVED[i].salt, 0, &salt_len), *id_context = NULL;
    if (DERIVED[i].id_context) id_context = bytes_at(ID_CONTEXT, DERIVED[i].id_context, 0, &id_context_len);
    return oscore_derive(context, secret, secret_len, salt, salt_len, id_context, id_context, id_context_len,
                         guarded_copy(SENDER, sender, sender_len), sender_len, guarded_copy(RECIPIENT, recipient, recipient_len), recipient_len,
                         tables, false, false);
}

static void derives(bool tables) {
    uint8_t client[1], server[1], wanted[16];
    for (int i = 0; i < CONTEXTS; i++) {
        oscore_size client_len = hex(DERIVED[i].client, client), server_len = hex(DERIVED[i].server, server);
        CHECK(!derive_into(clients[i], client, client_len, server, server_len, i, tables));
        CHECK(!derive_into(servers[i], server, server_len, client, client_len, i, tables));
        CHECK(hex(DERIVED[i].client_key, wanted) == 16 && !memcmp(clients[i]->sender_key, wanted, 16)
            && !memcmp(servers[i]->recipient_key, wanted, 16));
        CHECK(hex(DERIVED[i].server_key, wanted) == 16 && !memcmp(clients[i]->recipient_key, wanted, 16)
            && !memcmp(servers[i]->sender_key, wanted, 16));
        CHECK(hex(DERIVED[i].common_iv, wanted) == 13 && !memcmp(clients[i]->common_iv, wanted, 13)
            && !memcmp(servers[i]->common_iv, wanted, 13));
        CHECK(clients[i]->sender_len == client_len && clients[i]->recipient_len == 1 && clients[i]->recipient[0] == 1);
        CHECK(clients[i]->tables == tables && servers[i]->tables == tables);
        oscore_size id_context_len = DERIVED[i].id_context ? hex(DERIVED[i].id_context, wanted) : 0;
        CHECK(clients[i]->id_context_len == id_context_len && !memcmp(clients[i]->id_context, wanted, id_context_len));
    }
}

static void exchanges_requests(void) {
    uint8_t wanted[64];
    for (int i = 0; i < CONTEXTS; i++) {
        oscore_size plain_len, len = hex(REQUESTS[i].sealed, wanted);
        uint8_t *plain = bytes_at(PLAIN, REQUESTS[i].plain, 0, &plain_len), *out = guarded_room(OUT, len);
        CHECK(!oscore_seal_request(clients[i], 20, plain, plain_len, out, len, out_len, detail));
        CHECK(*out_len == len && !memcmp(out, wanted, len) && len <= OSCORE_ROOM(plain_len));
        CHECK(!oscore_head(out, len, head, detail));
        CHECK(head->kind == 0 && head->message_id == REQUESTS[i].message_id && head->number == 20);
        CHECK(head->token_len == 4 && !memcmp(head->token, plain + 4, 4));
        CHECK(head->kid_len == REQUESTS[i].kid_len && (!head->kid_len || head->kid[0] == 0) && head->has_kid_context == (i == C3));
        CHECK(i != C3 || (head->kid_context_len == 8 && !memcmp(head->kid_context, servers[C3]->id_context, 8)));
        CHECK(!oscore_open_request(servers[i], out, len, options, 4, opened, detail));
        CHECK(opened->kind == 0 && opened->code == 1 && opened->message_id == REQUESTS[i].message_id && opened->has_number
            && opened->number == 20);
        CHECK(opened->token_len == 4 && !memcmp(opened->token, plain + 4, 4) && opened->payload_len == 0 && !opened->has_uri_port);
        CHECK(opened->has_uri_host && opened->uri_host_len == 9 && !memcmp(opened->uri_host, "localhost", 9));
        CHECK(opened->option_count == 1 && !opened->has_more_options && options[0].number == 11);
        CHECK(options[0].value_len == 3 && !memcmp(options[0].value, "tv1", 3) && options[0].value > out && options[0].value < out + len);
    }
}

static void exchanges_responses(void) {
    uint8_t wanted[64];
    for (int own = 0; own < 2; own++) {
        oscore_size plain_len, len = hex(SEALED_ANSWERS[own], wanted);
        uint8_t *plain = bytes_at(PLAIN, ANSWER, 0, &plain_len), *out = guarded_room(OUT, len);
        CHECK(!oscore_seal_response(servers[C1], 20, own, 0, plain, plain_len, out, len, out_len, detail));
        CHECK(*out_len == len && !memcmp(out, wanted, len) && len <= OSCORE_ROOM(plain_len));
        CHECK(oscore_open_response(clients[C1], 21, out, len, NULL, 0, opened, detail) == OSCORE_TAG && !memcmp(out, wanted, len));
        CHECK(!oscore_open_response(clients[C1], 20, out, len, NULL, 0, opened, detail));
        CHECK(opened->kind == 2 && opened->code == 0x45 && opened->message_id == 0x5d1f && opened->has_number == own
            && opened->number == 0);
        CHECK(opened->payload_len == 12 && !memcmp(opened->payload, "Hello World!", 12) && !opened->option_count
            && !opened->has_more_options);
    }
}

/* C.4 with Block2 0/0/64, number 23 and value 02 (RFC 7959, 2.2), sealed and opened where both ends allow blocks, and refused where the
   handle's byte is 0. The bytes are those of tests/interop/oscore_reading.py, as in the corpus. */
static void allows_blocks(void) {
    uint8_t wanted[64];
    oscore_size plain_len, len = hex("44025d1f00003974396c6f63616c686f7374620914ff612f1092f141690a7350c4cfe47765", wanted);
    uint8_t *plain = bytes_at(PLAIN, "44015d1f00003974396c6f63616c686f737483747631c102", 0, &plain_len), *out = guarded_room(OUT, len);
    CHECK(clients[C1]->blocks == 0 && servers[C1]->blocks == 0);
    CHECK(oscore_seal_request(clients[C1], 20, plain, plain_len, out, len, out_len, detail) == OSCORE_UNSUPPORTED && *detail == 23);
    memcpy(out, wanted, len);
    CHECK(oscore_open_request(servers[C1], out, len, options, 4, opened, detail) == OSCORE_INNER);
    clients[C1]->blocks = 1, servers[C1]->blocks = (uint8_t)(1 + rand() % 255);
    CHECK(!oscore_seal_request(clients[C1], 20, plain, plain_len, out, len, out_len, detail) && *out_len == len && !memcmp(out, wanted, len));
    CHECK(!oscore_open_request(servers[C1], out, len, options, 4, opened, detail) && opened->option_count == 2);
    CHECK(options[1].number == 23 && options[1].value_len == 1 && options[1].value[0] == 2);
    CHECK(!oscore_derive(clients[C1], guarded_copy(SECRET, wanted, 16), 16, NULL, 0, false, NULL, 0, NULL, 0,
                         guarded_copy(RECIPIENT, wanted, 1), 1, false, true, false));
    CHECK(clients[C1]->blocks == 1 && clients[C1]->observe == 0);
    derives(false);
}

/* A registration under C.1: GET /temp with Observe of no byte, number 20. What is sealed, and a response to it without a Partial IV of its
   own, were worked by another reading of RFC 8613, 4.1.3.5, which shares nothing with the library: as the plain message, and as 2.05 with
   Content-Format 0 and 20.5. */
static const char *REGISTRATION = "410101014a605474656d70", *REGISTERED = "410501014a60320914ff61fc3090a5ed1bf69f1d661cf04b96";

static void is_registration(void) {
    CHECK(opened->kind == 0 && opened->code == 1 && opened->message_id == 0x0101 && opened->number == 20 && opened->option_count == 2
        && !opened->has_more_options && !opened->payload_len);
    CHECK(options[0].number == 6 && options[0].value_len == 0 && options[1].number == 11 && options[1].value_len == 4
        && !memcmp(options[1].value, "temp", 4));
}

/* Sealed and opened where both ends allow Observe, and refused where the handle's byte is 0. A response with Observe is refused always. */
static void allows_observe(void) {
    uint8_t wanted[64];
    oscore_size plain_len, answer_len, len = hex(REGISTERED, wanted);
    uint8_t *plain = bytes_at(PLAIN, REGISTRATION, 0, &plain_len), *out = guarded_room(OUT, len);
    CHECK(clients[C1]->observe == 0 && servers[C1]->observe == 0);
    CHECK(oscore_seal_request(clients[C1], 20, plain, plain_len, out, len, out_len, detail) == OSCORE_UNSUPPORTED && *detail == 6);
    memcpy(out, wanted, len);
    CHECK(oscore_open_request(servers[C1], out, len, options, 4, opened, detail) == OSCORE_INNER);
    clients[C1]->observe = 1, servers[C1]->observe = (uint8_t)(1 + rand() % 255);
    CHECK(!oscore_seal_request(clients[C1], 20, plain, plain_len, out, len, out_len, detail) && *out_len == len && !memcmp(out, wanted, len));
    CHECK(!oscore_open_request(servers[C1], out, len, options, 4, opened, detail));
    is_registration();
    clients[C1]->observe = (uint8_t)(1 + rand() % 255);
    CHECK(!oscore_seal_request(clients[C1], 20, plain, plain_len, out, len, out_len, detail) && !memcmp(out, wanted, len));
    out = guarded_room(OUT, len - 1);
    CHECK(oscore_seal_request(clients[C1], 20, plain, plain_len, out, len - 1, out_len, detail) == OSCORE_NO_ROOM);
    out = guarded_room(OUT, len);
    uint8_t *answer = bytes_at(DATAGRAM, "614501014a610160ff32302e31", 0, &answer_len);
    CHECK(oscore_seal_response(servers[C1], 20, false, 0, answer, answer_len, out, len, out_len, detail) == OSCORE_UNSUPPORTED && *detail == 6);
    CHECK(!oscore_derive(clients[C1], guarded_copy(SECRET, wanted, 16), 16, NULL, 0, false, NULL, 0, NULL, 0,
                         guarded_copy(RECIPIENT, wanted, 1), 1, false, false, true));
    CHECK(clients[C1]->observe == 1 && clients[C1]->blocks == 0);
    derives(false);
}

/* A notification that another end sealed doesn't open, whatever the context allows; a plain response to a registration does. */
static void takes_no_notification(void) {
    uint8_t notified[64];
    oscore_size len = hex("614501014a6101320100ff4dd33bfccdd8f762dd9be55ed4da0a72", notified);
    for (int observe = 0; observe < 2; observe++) {
        clients[C1]->observe = observe;
        uint8_t *datagram = guarded_copy(DATAGRAM, notified, len);
        CHECK(oscore_open_response(clients[C1], 20, datagram, len, options, 4, opened, detail) == OSCORE_INNER);
    }
    derives(false);
}

/* Three options where the array has room for two: Uri-Path a, b and c. */
static void counts_options(void) {
    oscore_size len;
    uint8_t *plain = bytes_at(PLAIN, "40010001b16101620163", 0, &len), *out = guarded_room(OUT, 64);
    CHECK(!oscore_seal_request(clients[C1], 1, plain, len, out, 64, out_len, detail));
    uint8_t *datagram = guarded_copy(DATAGRAM, out, *out_len);
    options = guarded(OPTIONS, 2 * sizeof *options);
    CHECK(!oscore_open_request(servers[C1], datagram, *out_len, options, 2, opened, detail));
    CHECK(opened->option_count == 2 && opened->has_more_options && *options[0].value == 'a' && *options[1].value == 'b'
        && options[1].number == 11);
    options = guarded(OPTIONS, 4 * sizeof *options);
}

/* What isn't there, behind an opened message in which everything was. */
static void shows_what_is_not_there(void) {
    oscore_size len;
    uint8_t *plain = bytes_at(PLAIN, "40010001", 0, &len), *out = guarded_room(OUT, 64);
    CHECK(!oscore_seal_request(clients[C1], 1, plain, len, out, 64, out_len, detail));
    uint8_t *datagram = guarded_copy(DATAGRAM, out, *out_len);
    memset(opened, 0xff, sizeof *opened), memset(head, 0xff, sizeof *head);
    opened->has_uri_host = opened->has_uri_port = opened->has_more_options = opened->has_number = head->has_kid_context = true;
    CHECK(!oscore_head(datagram, *out_len, head, detail)
        && !oscore_open_request(servers[C1], datagram, *out_len, options, 4, opened, detail));
    CHECK(!opened->has_uri_host && opened->uri_host_len == 0 && !opened->has_uri_port && opened->uri_port_len == 0
        && opened->payload_len == 0);
    CHECK(!head->has_kid_context && head->kid_context_len == 0 && head->kid_len == 0);
}

static uint32_t derive(oscore_size secret, oscore_size salt, oscore_size id, oscore_size id_context) {
    static const uint8_t bytes[66] = {1};
    oscore_context *context = guarded(HANDLE, sizeof *context), none = OSCORE_ZERO;
    uint32_t status = oscore_derive(context, guarded_copy(SECRET, bytes, secret), secret, guarded_copy(SALT, bytes, salt), salt, true,
                                    guarded_copy(ID_CONTEXT, bytes, id_context), id_context, guarded_copy(SENDER, bytes, id), id,
                                    guarded_copy(RECIPIENT, bytes, 1), 1, true, false, false);
    CHECK(!memcmp(context, &none, sizeof none));
    return status;
}

static uint32_t seal(const char *text, oscore_size filled, oscore_size room) {
    oscore_size len;
    uint8_t *plain = bytes_at(PLAIN, text, filled, &len), *out = guarded(OUT, room);
    uint32_t status = oscore_seal_request(clients[C1], 20, plain, len, out, room, out_len, detail);
    for (oscore_size i = status ? 0 : *out_len; i < room; i++) CHECK(!out[i]);
    return status;
}

static uint32_t open_text(const char *text) {
    uint8_t before[64];
    oscore_size len = hex(text, before);
    uint8_t *datagram = guarded_copy(DATAGRAM, before, len);
    opened = guarded(OPENED, sizeof *opened);
    uint32_t status = oscore_open_request(servers[C1], datagram, len, options, 4, opened, detail);
    CHECK(status == OSCORE_INNER || !memcmp(datagram, before, len));
    return status;
}

static void refuses_arguments(void) {
    oscore_size len;
    oscore_context *bad = guarded_copy(HANDLE, clients[C1], sizeof *bad);
    uint8_t *plain = bytes_at(PLAIN, REQUESTS[C1].plain, 0, &len), *out = guarded_room(OUT, 64);
    bad->sender_len = 8;
    *out_len = 99;
    CHECK(oscore_seal_request(bad, 20, plain, len, out, 64, out_len, detail) == OSCORE_BAD_HANDLE && *detail == 0);
    CHECK(oscore_seal_request(clients[C1], 1ull << 40, plain, len, out, 64, out_len, detail) == OSCORE_BAD_NUMBER);
    CHECK(oscore_seal_response(servers[C1], 20, true, 1ull << 40, plain, len, out, 64, out_len, detail) == OSCORE_BAD_NUMBER
        && *out_len == 99);
    CHECK(oscore_head(plain, len, head, detail) == OSCORE_NO_OSCORE);
    CHECK(oscore_head(guarded_copy(DATAGRAM, plain, 3), 3, head, detail) == OSCORE_SHORT);
    CHECK(derive(0, 65, 8, 0) == OSCORE_SECRET_LENGTH && derive(65, 0, 0, 1) == OSCORE_SECRET_LENGTH);
    CHECK(derive(1, 65, 8, 0) == OSCORE_SALT_LENGTH && derive(1, 0, 8, 0) == OSCORE_ID_TOO_LONG);
    CHECK(derive(1, 0, 1, 0) == OSCORE_SAME_IDS && derive(1, 0, 0, 0) == OSCORE_ID_CONTEXT_LENGTH
        && derive(1, 0, 0, 33) == OSCORE_ID_CONTEXT_LENGTH);
}

/* Each status once, the faults with their places. Datagrams by RFC 7252, 3, and RFC 8613, C.4 and C.5, changed by hand. */
static void refuses_messages(void) {
    *out_len = 99;
    CHECK(seal("40010001ff", 65531, 65600) == OSCORE_DATAGRAM_TOO_LONG && *detail == 65535);
    CHECK(open_text("400100") == OSCORE_SHORT && *detail == 0);
    CHECK(open_text("80010001") == OSCORE_VERSION && *detail == 0);
    CHECK(open_text("49010001") == OSCORE_TOKEN_LENGTH && *detail == 0);
    CHECK(open_text("4000000101") == OSCORE_EMPTY_WITH_REST && *detail == 4);
    CHECK(open_text("4401000101") == OSCORE_TOKEN_CUT && *detail == 4);
    CHECK(open_text("40010001b161f0") == OSCORE_NIBBLE15 && *detail == 6);
    CHECK(open_text("40010001b161036100") == OSCORE_OPTION_CUT && *detail == 6);
    CHECK(open_text("40010001e0ffff") == OSCORE_NUMBER_TOO_LARGE && *detail == 4);
    CHECK(open_text("40010001b161ff") == OSCORE_EMPTY_PAYLOAD && *detail == 6);
    CHECK(open_text(SEALED_ANSWERS[0]) == OSCORE_NOT_THAT_KIND && *detail == 0);
    CHECK(open_text(REQUESTS[C1].plain) == OSCORE_NO_OSCORE);
    CHECK(open_text("4002000191e0ff00") == OSCORE_UNDECODABLE);
    CHECK(open_text(REQUESTS[C2].sealed) == OSCORE_WRONG_CONTEXT);
    CHECK(open_text("44025d1f00003974396c6f63616c686f7374620914ff612f1092f1776f1c1668b3825f") == OSCORE_TAG);
    CHECK(open_text("44025d1f00003974920914ff256a22a25470d7a3b9") == OSCORE_INNER && !opened->code);
    CHECK(seal("40010001d10e06", 0, 64) == OSCORE_UNSUPPORTED && *detail == 27);
    CHECK(seal("40010001ff", 65530, 65600) == OSCORE_TOO_LONG && seal(REQUESTS[C1].plain, 0, 34) == OSCORE_NO_ROOM && *out_len == 99);
    CHECK(seal(REQUESTS[C1].plain, 0, 35) == OSCORE_DONE && *out_len == 35);
}

static void names_statuses(void) {
    static const char *NAMES[] = {"Done", "Busy", "BadHandle", "BadNumber", "OldRecord", "SecretLength", "SaltLength", "IdTooLong", "SameIds", "IdContextLength",
        "DatagramTooLong", "Short", "Version", "TokenLength", "EmptyWithRest", "TokenCut", "Nibble15", "OptionCut", "NumberTooLarge",
        "EmptyPayload", "OptionOrder", "ValueTooLong", "StaleTicket", "SaveFirst", "LivesExhausted", "TicketSpent", "NotObserving",
        "NotThatKind", "UnknownToken", "NoOscore", "Undecodable", "NoContext", "WrongContext", "Replay", "Old", "Tag", "Inner", "Challenge",
        "Unsupported", "NotNotification", "TokenInUse", "PendingFull", "SequenceExhausted", "TooLong", "NoRoom", "NotPending",
        "NotOneProxyUri", "Mixed", "Scheme", "Fragment", "Character", "Authority", "Userinfo", "Host", "Port", "PartTooLong", "Asked",
        "SchemeLength", "Unknown"};
    char *name = guarded_room(NAME, 24);
    for (uint32_t status = 0; status <= OSCORE_SCHEME_LENGTH + 1; status++) {
        oscore_status_name(status, name);
        CHECK(!strcmp(name, NAMES[status]));
    }
    oscore_status_name(UINT32_MAX, name);
    CHECK(!strcmp(name, "Unknown"));
}

/* The fields' places were seen above, where each had its own value; here the sizes. */
static void has_sizes(void) {
    oscore_struct_sizes *sizes = guarded(SIZES, sizeof *sizes);
    oscore_sizes(sizes);
    CHECK(sizes->context == sizeof(oscore_context) && sizes->option == sizeof(oscore_option));
    CHECK(sizes->opened == sizeof(oscore_opened) && sizes->request_head == sizeof(oscore_request_head));
    CHECK(sizes->ticket == sizeof(oscore_ticket) && sizes->pending == sizeof(oscore_pending));
    CHECK(sizes->peer == sizeof(oscore_peer) && sizes->peer_record == sizeof(oscore_peer_record));
}

static void spoils_datagrams(void) {
    uint8_t sealed[64];
    oscore_size len = hex(REQUESTS[C1].sealed, sealed);
    for (int i = 0; i < rounds; i++) {
        oscore_size cut = (oscore_size)rand() % (len + 1), turned = cut ? (oscore_size)rand() % cut : 0;
        uint8_t *datagram = guarded_copy(DATAGRAM, sealed, cut);
        if (cut && i % 2) datagram[turned] ^= (uint8_t)(1 << rand() % 8);
        bool whole = !memcmp(datagram, sealed, cut) && cut == len;
        uint32_t status = oscore_open_request(servers[C1], datagram, cut, options, 4, opened, detail);
        bool ours = status <= OSCORE_EMPTY_PAYLOAD || (status >= OSCORE_NOT_THAT_KIND && status <= OSCORE_INNER);
        CHECK(whole ? status == OSCORE_DONE : ours && status != OSCORE_NO_CONTEXT && status != OSCORE_REPLAY);
    }
}

/* A spoilt handle is another context, or none. */
static void spoils_handles(void) {
    uint8_t sealed[64];
    oscore_size len = hex(REQUESTS[C1].sealed, sealed);
    for (int i = 0; i < rounds; i++) {
        oscore_context *spoilt = guarded_copy(HANDLE, servers[C1], sizeof *spoilt);
        ((uint8_t *)spoilt)[(oscore_size)rand() % sizeof *spoilt] = (uint8_t)rand();
        bool bad = spoilt->sender_len > 7 || spoilt->recipient_len > 7 || spoilt->id_context_len > 32
            || (spoilt->sender_len == spoilt->recipient_len && !memcmp(spoilt->sender, spoilt->recipient, spoilt->sender_len));
        uint32_t status = oscore_open_request(spoilt, guarded_copy(DATAGRAM, sealed, len), len, options, 4, opened, detail);
        CHECK(bad ? status == OSCORE_BAD_HANDLE : status == OSCORE_DONE || status == OSCORE_WRONG_CONTEXT || status == OSCORE_TAG);
    }
}

/* Both ciphers seal alike, under random keys and Common IVs, by random numbers, payloads of 1 to 100 random bytes. */
static void ciphers_agree(void) {
    uint8_t bytes[105] = {0x40, 0x01, 0, 1, 0xff}, by_tables[160];
    for (int i = 0; i < rounds / 2; i++) {
        oscore_context *context = guarded_copy(HANDLE, clients[C1], sizeof *context);
        oscore_size len = 6 + (oscore_size)rand() % 100, len_by_tables;
        uint64_t number = (uint64_t)rand();
        for (oscore_size k = 0; k < sizeof context->sender_key; k++) context->sender_key[k] = (uint8_t)rand();
        for (oscore_size k = 0; k < sizeof context->common_iv; k++) context->common_iv[k] = (uint8_t)rand();
        for (oscore_size k = 5; k < len; k++) bytes[k] = (uint8_t)rand();
        uint8_t *plain = guarded_copy(PLAIN, bytes, len), *out = guarded_room(OUT, OSCORE_ROOM(len));
        context->tables = (uint8_t)(1 + rand() % 255);
        CHECK(!oscore_seal_request(context, number, plain, len, out, OSCORE_ROOM(len), out_len, detail));
        len_by_tables = *out_len;
        memcpy(by_tables, out, len_by_tables);
        context->tables = 0;
        CHECK(!oscore_seal_request(context, number, plain, len, out, OSCORE_ROOM(len), out_len, detail));
        CHECK(*out_len == len_by_tables && !memcmp(out, by_tables, len_by_tables));
    }
}

/* Writes an option by its delta and the length of its value (RFC 7252, 3.1). */
static oscore_size put_option(uint8_t *bytes, unsigned delta, unsigned value_len) {
    unsigned parts[2] = {delta, value_len}, nibbles[2];
    oscore_size len = 1;
    for (int i = 0; i < 2; i++) {
        nibbles[i] = parts[i] < 13 ? parts[i] : parts[i] < 269 ? 13 : 14;
        if (nibbles[i] == 13) bytes[len++] = (uint8_t)(parts[i] - 13);
        if (nibbles[i] == 14) bytes[len++] = (uint8_t)((parts[i] - 269) >> 8), bytes[len++] = (uint8_t)(parts[i] - 269);
    }
    bytes[0] = (uint8_t)(nibbles[0] << 4 | nibbles[1]);
    memset(bytes + len, 'v', value_len);
    return len + value_len;
}

/* Up to the ranges of one byte, of one byte more, and of two bytes more, each as often. */
static unsigned random_part(void) {
    static const unsigned RANGES[3] = {13, 269, 700};
    return (unsigned)rand() % RANGES[rand() % 3];
}

/* A plain message of this code: a token, options that can be sealed, a payload, all at random. */
static oscore_size random_plain(uint8_t code, uint8_t *bytes) {
    unsigned token_len = (unsigned)rand() % 9, number = 0, payload_len = random_part();
    oscore_size len = 4 + token_len;
    memset(bytes, 'x', len);
    bytes[0] = (uint8_t)(0x40 | token_len), bytes[1] = code;
    for (int left = rand() % 6; left > 0; left--) {
        unsigned delta = random_part(), next = number + delta;
        if (next == 6 || next == 9 || next == 19 || next == 23 || next == 27 || next == 31 || next == 35 || next == 39) continue;
        len += put_option(bytes + len, delta, random_part());
        number = next;
    }
    if (payload_len > 0) bytes[len++] = 0xff;
    memset(bytes + len, 'p', payload_len);
    return len + payload_len;
}

/* How many bytes a message grows by, as a request or as a response, in as much room as the header says, under a context at random, or,
   with the largest number, under one with the longest identifiers. */
static oscore_size growth(const uint8_t *bytes, oscore_size len, bool request, uint64_t number) {
    uint8_t *plain = guarded_copy(PLAIN, bytes, len), *out = guarded_room(OUT, OSCORE_ROOM(len));
    oscore_context *context = guarded_copy(HANDLE, clients[C1], sizeof *context);
    context->sender_len = (uint8_t)(rand() % 8), context->recipient_len = (uint8_t)((context->sender_len + 1) % 8);
    context->id_context_len = (uint8_t)(rand() % 33);
    if (number == (1ull << 40) - 1) context->sender_len = 7, context->recipient_len = 0, context->id_context_len = 32;
    oscore_status status = request ? oscore_seal_request(context, number, plain, len, out, OSCORE_ROOM(len), out_len, detail)
        : oscore_seal_response(context, 0, rand() % 2, number, plain, len, out, OSCORE_ROOM(len), out_len, detail);
    CHECK(status == OSCORE_DONE && *out_len <= OSCORE_ROOM(len));
    return *out_len - len;
}

/* What a message without Observe grows by at most. */
enum { PLAIN_GROWTH = 60 };

/* Observe stands twice in a request where the context allows it, and takes 1 to 4 bytes more for a value of at most 3; a longer one stands
   inside alone. With the options 16, 20, 21 and 33 behind it all of the room is taken, for 3 all that the header says: inside 20 and 33 have
   deltas of 14 and 13, and in the plain message, behind 16 and 21, of 4 and 12. */
static void has_room_for_observe(void) {
    for (oscore_size value_len = 0; value_len <= 5; value_len++) {
        uint8_t bytes[16] = {0x40, 1, 0, 1, (uint8_t)(0x60 | value_len)};
        oscore_size len = 9 + value_len, twice = value_len <= 3 ? 1 + value_len : 0, most = len + PLAIN_GROWTH + twice;
        bytes[len - 4] = 0xa0, bytes[len - 3] = 0x40, bytes[len - 2] = 0x10, bytes[len - 1] = 0xc0;
        oscore_context *context = guarded_copy(HANDLE, clients[C1], sizeof *context);
        context->sender_len = 7, context->recipient_len = 0, context->id_context_len = 32, context->observe = 1;
        uint8_t *plain = guarded_copy(PLAIN, bytes, len), *out = guarded_room(OUT, most - 1);
        CHECK(oscore_seal_request(context, (1ull << 40) - 1, plain, len, out, most - 1, out_len, detail) == OSCORE_NO_ROOM);
        out = guarded_room(OUT, most);
        CHECK(!oscore_seal_request(context, (1ull << 40) - 1, plain, len, out, most, out_len, detail) && *out_len == most);
        CHECK(most <= OSCORE_ROOM(len) && (value_len != 3 || most == OSCORE_ROOM(len)));
    }
}

/* The largest growth is that of the options 4, 16, 17, 21 and 32, of which 16 and 21 stand outside, with the longest identifiers and number. */
static void has_room(void) {
    static uint8_t bytes[8192];
    oscore_size len = hex("4001000140c01040b0", bytes);
    CHECK(growth(bytes, len, true, (1ull << 40) - 1) == PLAIN_GROWTH);
    has_room_for_observe();
    for (int i = 0; i < rounds; i++) {
        uint64_t number = ((uint64_t)rand() << 20 ^ (uint64_t)rand()) % (1ull << 40) >> rand() % 40;
        len = random_plain(i % 2 ? 1 : 69, bytes);
        growth(bytes, len, i % 2, number);
    }
}

int main(int count, char **words) {
    srand(1);
    if (count > 1) rounds = atoi(words[1]);
    for (int before = 0; before < 2; before++) {
        lay_out(before);
        for (int tables = 1; tables >= 0; tables--) {
            derives(tables);
            exchanges_requests();
            exchanges_responses();
        }
        allows_blocks();
        allows_observe();
        takes_no_notification();
        counts_options();
        shows_what_is_not_there();
        refuses_arguments();
        refuses_messages();
        names_statuses();
        has_sizes();
        spoils_datagrams();
        spoils_handles();
        ciphers_agree();
        has_room();
    }
    printf("messages: C.1 to C.8, a block, a registration, each status; behind a guard page and before one %d spoilt datagrams, %d spoilt handles, %d messages by both "
           "ciphers, %d in the room that the header says\n", rounds, rounds, rounds / 2, rounds);
    return 0;
}

/* What code of oscore.h itself does, which is the program's: parameters of a context, a record that is saved nowhere, which peers may stand
   beside each other, the moments of a tick of 32 bits, and how many elements an array has. The keys are those that RFC 8613, C.3 prints.
   Built with the sanitizers by .ci/run. */
#include "guarded.h"
#include "../oscore.h"

#define CHECK(holds) do { if (!(holds)) { printf("header.c:%d: %s\n", __LINE__, #holds); exit(1); } } while (0)

/* What is handed in, each at a place of its own. */
enum { PARAMETERS, CONTEXT, SECRET_PLACE, SALT_PLACE, ID_PLACE, SERVER_PLACE, PEER, RECORD, DETAIL, PEERS, BESIDE, PENDING, COUNT, PLAIN, OUT, OUT_LEN };

static const uint8_t SECRET[16] = {1, 2, 3, 4, 5, 6, 7, 8, 9, 10, 11, 12, 13, 14, 15, 16};
static const uint8_t SALT[8] = {0x9e, 0x7c, 0xa9, 0x22, 0x23, 0x78, 0x63, 0x40}, SERVER = 1;
static const uint8_t ID_CONTEXT[8] = {0x37, 0xcb, 0xf3, 0x21, 0x00, 0x17, 0xa2, 0xd3};
/* The client's keys and the Common IV, and without the ID Context (C.1). */
static const uint8_t SENDER_KEY[2][16] = {{0xf0, 0x91, 0x0e, 0xd7, 0x29, 0x5e, 0x6a, 0xd4, 0xb5, 0x4f, 0xc7, 0x93, 0x15, 0x43, 0x02, 0xff},
                                          {0xaf, 0x2a, 0x13, 0x00, 0xa5, 0xe9, 0x57, 0x88, 0xb3, 0x56, 0x33, 0x6e, 0xee, 0xcd, 0x2b, 0x92}};
static const uint8_t RECIPIENT_KEY[2][16] = {{0xff, 0xb1, 0x4e, 0x09, 0x3c, 0x94, 0xc9, 0xca, 0xc9, 0x47, 0x16, 0x48, 0xb4, 0xf9, 0x87, 0x10},
                                             {0xe3, 0x9a, 0x0c, 0x7c, 0x77, 0xb4, 0x3f, 0x03, 0xb4, 0xb3, 0x9a, 0xb9, 0xa2, 0x68, 0x69, 0x9f}};
static const uint8_t COMMON_IV[2][13] = {{0x46, 0x22, 0xd4, 0xdd, 0x6d, 0x94, 0x41, 0x68, 0xee, 0xfb, 0x54, 0x98, 0x7c},
                                         {0x2c, 0xa5, 0x8f, 0xb8, 0x5f, 0xf1, 0xb8, 0x1c, 0x0b, 0x71, 0x81, 0xb8, 0x5e}};

static oscore_parameters *parameters;
static oscore_context *context;

/* The client of C.3, whose own identifier has no byte. */
static void begin(void) {
    static const oscore_parameters none = OSCORE_ZERO;
    parameters = guarded_copy(PARAMETERS, &none, sizeof none);
    parameters->secret = guarded_copy(SECRET_PLACE, SECRET, sizeof SECRET), parameters->secret_len = sizeof SECRET;
    parameters->salt = guarded_copy(SALT_PLACE, SALT, sizeof SALT), parameters->salt_len = sizeof SALT;
    parameters->id_context = guarded_copy(ID_PLACE, ID_CONTEXT, sizeof ID_CONTEXT), parameters->id_context_len = sizeof ID_CONTEXT;
    parameters->recipient_id = guarded_copy(SERVER_PLACE, &SERVER, 1), parameters->recipient_id_len = 1;
    context = guarded_room(CONTEXT, sizeof *context);
    memset(context, 0xee, sizeof *context);
}

static void is_printed(int with_id_context) {
    CHECK(!memcmp(context->sender_key, SENDER_KEY[with_id_context], 16));
    CHECK(!memcmp(context->recipient_key, RECIPIENT_KEY[with_id_context], 16));
    CHECK(!memcmp(context->common_iv, COMMON_IV[with_id_context], 13));
}

static void derives(void) {
    begin();
    CHECK(!oscore_derive_from(context, parameters));
    is_printed(1);
    CHECK(context->sender_len == 0 && context->recipient_len == 1 && context->recipient[0] == 1 && context->id_context_len == 8);
    CHECK(context->tables == 0 && context->blocks == 0 && context->observe == 0);
    /* Each choice is the member of its name alone. */
    for (int choice = 0; choice < 3; choice++) {
        begin();
        parameters->tables = choice == 0, parameters->blocks = choice == 1, parameters->observe = choice == 2;
        CHECK(!oscore_derive_from(context, parameters));
        is_printed(1);
        CHECK(context->tables == (choice == 0) && context->blocks == (choice == 1) && context->observe == (choice == 2));
    }
    /* The other end, whose identifiers are the other way round. */
    begin();
    parameters->sender_id = parameters->recipient_id, parameters->sender_id_len = 1;
    parameters->recipient_id = NULL, parameters->recipient_id_len = 0;
    CHECK(!oscore_derive_from(context, parameters));
    CHECK(!memcmp(context->sender_key, RECIPIENT_KEY[1], 16) && !memcmp(context->recipient_key, SENDER_KEY[1], 16));
    /* An ID Context of no byte is none. */
    begin();
    parameters->id_context = NULL, parameters->id_context_len = 0;
    CHECK(!oscore_derive_from(context, parameters));
    is_printed(0);
    CHECK(context->id_context_len == 0);
}

/* A refusal leaves the context. */
static void is_refused(oscore_status wanted) {
    CHECK(oscore_derive_from(context, parameters) == wanted);
    for (size_t i = 0; i < sizeof *context; i++) CHECK(((const uint8_t *)context)[i] == 0xee);
}

static void refuses(void) {
    /* What this header doesn't know comes before all else: each bit of each byte behind the members. */
    for (size_t at = offsetof(oscore_parameters, tables); at < sizeof(oscore_parameters); at++)
        for (int bit = at < offsetof(oscore_parameters, zero) ? 1 : 0; bit < 8; bit++) {
            begin();
            parameters->secret = guarded_copy(SECRET_PLACE, SECRET, 0), parameters->secret_len = 0;
            ((uint8_t *)parameters)[at] = (uint8_t)(1 << bit);
            is_refused(OSCORE_BAD_NUMBER);
        }
    begin();
    parameters->secret = guarded_copy(SECRET_PLACE, SECRET, 0), parameters->secret_len = 0;
    is_refused(OSCORE_SECRET_LENGTH);
    begin();
    parameters->recipient_id = guarded_copy(SERVER_PLACE, &SERVER, 0), parameters->recipient_id_len = 0;
    is_refused(OSCORE_SAME_IDS);
}

/* ---- peers */

static oscore_peer *peer;
static oscore_peer_record *record;

static void begin_peer(void) {
    begin();
    peer = guarded(PEER, sizeof *peer), record = guarded(RECORD, sizeof *record);
    CHECK(!oscore_derive_from(context, parameters) && !oscore_peer_begin_first(peer, context, 32, 1000));
}

/* Asks for a request, which needs a number. */
static oscore_status ask(void) {
    static const uint8_t plain[] = {0x40, 1, 0, 1};
    oscore_pending *pending = guarded(PENDING, sizeof *pending);
    oscore_size *count = guarded(COUNT, sizeof *count), *out_len = guarded(OUT_LEN, sizeof *out_len), *detail = guarded(DETAIL, sizeof *detail);
    uint8_t *out = guarded(OUT, OSCORE_ROOM(sizeof plain));
    return oscore_peer_request(peer, pending, 1, count, 0, guarded_copy(PLAIN, plain, sizeof plain), sizeof plain, out, OSCORE_ROOM(sizeof plain), out_len,
                               record, detail);
}

/* All numbers count as received, and nothing else changes of the record; what isn't the next one is refused. */
static void saves_nowhere(void) {
    const uint64_t numbers = (uint64_t)1 << 40;
    begin_peer();
    CHECK(ask() == OSCORE_SAVE_FIRST && record->received == 0 && record->generation == 1 && record->sender == 64);
    CHECK(!oscore_peer_saved_nowhere(peer, record) && peer->received == numbers && peer->generation == 1 && peer->reserved == 64);
    CHECK(record->received == numbers && record->generation == 1 && record->sender == 64 && record->name == peer->name && !ask());
    CHECK(oscore_peer_saved_nowhere(peer, record) == OSCORE_BAD_NUMBER && peer->generation == 1);
    for (int i = 1; i < 64; i++) CHECK(!ask());
    CHECK(ask() == OSCORE_SAVE_FIRST && !oscore_peer_saved_nowhere(peer, record) && peer->generation == 2 && peer->reserved == 128 && !ask());
    oscore_wipe(peer, sizeof *peer);
    CHECK(oscore_peer_saved_nowhere(peer, record) == OSCORE_BAD_HANDLE);
}

static oscore_peer *peers;

static bool fits(const oscore_context *other) {
    return oscore_peer_fits(peers, 2, guarded_copy(BESIDE, other, sizeof *other));
}

static bool fits_at(size_t index, const oscore_context *other) {
    return oscore_peer_fits_at(peers, 2, index, guarded_copy(BESIDE, other, sizeof *other));
}

/* A bit of these bytes, one after the other: each makes another key, or another name to be found by. */
static void each_bit_tells(oscore_context *other, uint8_t *bytes, size_t len, bool fit) {
    for (size_t bit = 0; bit < 8 * len; bit++) {
        bytes[bit / 8] ^= (uint8_t)(1 << bit % 8);
        CHECK(fits(other) == fit);
        bytes[bit / 8] ^= (uint8_t)(1 << bit % 8);
    }
}

/* Beside a peer: neither another of its Sender Key, nor one that is found by the same kid and kid context. */
static void tells_peers_apart(const oscore_context *of) {
    oscore_context other = *of;
    CHECK(!fits(&other));
    other.sender_key[0] ^= 1;
    CHECK(!fits(&other));
    each_bit_tells(&other, other.recipient, other.recipient_len, true);
    each_bit_tells(&other, other.recipient + other.recipient_len, 7u - other.recipient_len, false);
    each_bit_tells(&other, other.id_context, other.id_context_len, true);
    each_bit_tells(&other, other.id_context + other.id_context_len, 32u - other.id_context_len, false);
    other.recipient_len--;
    CHECK(fits(&other));
    other.recipient_len++, other.id_context_len--;
    CHECK(fits(&other));
    other.sender_key[0] ^= 1;
    CHECK(!fits(&other));
    each_bit_tells(&other, other.sender_key, sizeof other.sender_key, true);
    /* Two differences are no sameness. */
    other.sender_key[3] ^= 0x80, other.sender_key[7] ^= 0x80;
    CHECK(fits(&other));
}

/* In the place of one of two peers: a context of another Sender Key, though it is found as the old one was, and none of a Sender Key that
   one of the two has, nor one that is found as the other is. */
static void tells_places_apart(const oscore_peer two[2]) {
    for (size_t i = 0; i < 2; i++) {
        oscore_context other = two[i].server.context.context;
        CHECK(!fits_at(i, &other) && !fits_at(1 - i, &other));
        other.sender_key[i * 15] ^= 1;
        CHECK(fits_at(i, &other) && !fits_at(1 - i, &other) && !fits(&other));
        memcpy(other.sender_key, two[1 - i].server.context.context.sender_key, sizeof other.sender_key);
        CHECK(!fits_at(i, &other) && !fits_at(1 - i, &other));
    }
}

static void tells_apart(void) {
    static const uint8_t ids[7] = {2, 3, 4, 5, 6, 7, 8}, id_context[32] = {9};
    oscore_peer two[2];
    begin_peer();
    two[0] = *peer;
    parameters->id_context = guarded_copy(ID_PLACE, id_context, sizeof id_context), parameters->id_context_len = sizeof id_context;
    parameters->recipient_id = guarded_copy(SERVER_PLACE, ids, sizeof ids), parameters->recipient_id_len = sizeof ids;
    CHECK(!oscore_derive_from(context, parameters) && !oscore_peer_begin_first(peer, context, 32, 1000));
    two[1] = *peer;
    peers = guarded_copy(PEERS, two, sizeof two);
    for (int i = 0; i < 2; i++) tells_peers_apart(&two[i].server.context.context);
    tells_places_apart(two);
    CHECK(oscore_peer_fits(NULL, 0, context) && !oscore_peer_fits(peers, 2, context));
    peers = guarded_copy(PEERS, two, sizeof two[0]);
    CHECK(oscore_peer_fits(peers, 1, context));
    /* A peer that was never begun is none, and the one behind it is. */
    two[0] = (oscore_peer)OSCORE_ZERO;
    peers = guarded_copy(PEERS, two, sizeof two);
    CHECK(!fits(context) && fits(&two[0].server.context.context));
}

/* A tick begins anew at 0: before it, at it, and behind it, and twice. */
static void counts_moments(void) {
    oscore_clock clock = OSCORE_ZERO;
    const uint64_t round = (uint64_t)1 << 32;
    CHECK(oscore_clock_at(&clock, 7) == 7);
    CHECK(oscore_clock_at(&clock, 7) == 7);
    CHECK(oscore_clock_at(&clock, 0xfffffffe) == round - 2);
    CHECK(oscore_clock_at(&clock, 0xffffffff) == round - 1);
    CHECK(oscore_clock_at(&clock, 0) == round);
    CHECK(oscore_clock_at(&clock, 5) == round + 5);
    CHECK(oscore_clock_at(&clock, 4) == 2 * round + 4);
}

int main(void) {
    static oscore_option options[8];
    static uint8_t byte[1];
    CHECK(OSCORE_COUNT(options) == 8 && OSCORE_COUNT(byte) == 1);
    for (int before = 0; before < 2; before++) {
        guarded_before = before;
        derives(), refuses();
        saves_nowhere(), tells_apart();
    }
    counts_moments();
    puts("all as said");
    return 0;
}

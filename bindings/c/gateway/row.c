#include "row.h"
#include "bytes.h"
#include "era.h"

/* The state, in this order, each number high byte first:
       format 2
       clock 6, gate 1, Echo value 5, at 6, spent mask 8, next 6, unanswered 6 and 8
       reserved 6, name 8, life 6, generation 6
       Sender Key 16, Recipient Key 16, Common IV 13, features 1, length of the Sender ID 1 and its bytes
       era 4, effect 8
       asked 1, number 6, hash 8, length of the reply 2, and the reply where it has room here
   The format's number changes with what stands here. Six bytes are enough for a moment (era.h), for a number, which is 2^40 at most, and for a
   generation: of those a row has one for each era, and one for each 64 numbers. An Echo value is a Sender Sequence Number, in eight bytes. What all
   rows have alike doesn't stand here: read_peer says what that is. */
enum { FORMAT = 2, TABLES = 1, BLOCKS = 2, OBSERVE = 4, FEATURES_ALL = 7, OPEN_WITH_HIGHEST = 3 };
enum { NUMBER_LEN = 6, ECHO_LEN = 5, ECHO_AT = 3, ERA_LEN = 4 };
enum { ROLE_LEN = 4 * NUMBER_LEN + 1 + ECHO_LEN + 2 * 8, RECORD_LEN = 3 * NUMBER_LEN + 8, KEYS_LEN = 16 + 16 + 13 + 1 };
enum { FIXED_LEN = 1 + ROLE_LEN + RECORD_LEN + KEYS_LEN + 1 + ERA_LEN + 8 + 1 + NUMBER_LEN + 8 + 2 };

/* With the longest names there is room for a reply of some bytes. */
OSCORE_ASSERT(FIXED_LEN + 7 + KEY_MOST + 32 <= STATE_MOST, "a row has more bytes than 256");
OSCORE_ASSERT(sizeof(oscore_peer) == 232, "a peer has a field that row.c doesn't know");

bool row_key_of(row_key *key, const oscore_request_head *head) {
    if (head->kid_len > KID_MOST || head->kid_context_len > KID_CONTEXT_MOST) return false;
    cursor to = {key->bytes};
    put_number(&to, head->kid_len, 1);
    if (head->kid_len > 0) put_bytes(&to, head->kid, head->kid_len);
    if (head->has_kid_context) {
        put_number(&to, head->kid_context_len, 1);
        if (head->kid_context_len > 0) put_bytes(&to, head->kid_context, head->kid_context_len);
    }
    key->len = (uint8_t)(to.at - key->bytes);
    return true;
}

void row_key_of_context(row_key *key, const oscore_context *context) {
    const oscore_request_head head = {
        .kid = context->recipient, .kid_len = context->recipient_len,
        .has_kid_context = context->id_context_len > 0, .kid_context = context->id_context, .kid_context_len = context->id_context_len,
    };
    if (!row_key_of(key, &head)) key->len = 0;
}

int row_key_compare(const row_key *one, const row_key *other) {
    size_t len = one->len < other->len ? one->len : other->len;
    int order = memcmp(one->bytes, other->bytes, len);
    return order ? order : (int)one->len - (int)other->len;
}

/* The names of a context are those of its key. */
static bool read_key(oscore_context *context, const row_key *key) {
    if (key->len < 1 || key->bytes[0] > KID_MOST || key->len < 1 + key->bytes[0]) return false;
    reader from = {key->bytes};
    context->recipient_len = (uint8_t)get_number(&from, 1);
    get_bytes(&from, context->recipient, context->recipient_len);
    size_t left = (size_t)(key->bytes + key->len - from.at);
    if (left == 0) return true;
    context->id_context_len = (uint8_t)get_number(&from, 1);
    if (context->id_context_len < 1 || context->id_context_len > KID_CONTEXT_MOST || left != 1u + context->id_context_len) return false;
    get_bytes(&from, context->id_context, context->id_context_len);
    return true;
}

static void write_context(cursor *to, const oscore_context *of) {
    put_bytes(to, of->sender_key, 16);
    put_bytes(to, of->recipient_key, 16);
    put_bytes(to, of->common_iv, 13);
    put_number(to, (of->tables ? TABLES : 0u) | (of->blocks ? BLOCKS : 0u) | (of->observe ? OBSERVE : 0u), 1);
    put_number(to, of->sender_len, 1);
    put_bytes(to, of->sender, of->sender_len);
}

static void write_peer(cursor *to, const oscore_peer *of) {
    put_number(to, of->server.clock, NUMBER_LEN);
    put_number(to, of->server.context.gate, 1);
    put_bytes(to, of->server.context.echo + ECHO_AT, ECHO_LEN);
    put_number(to, of->server.context.at, NUMBER_LEN);
    put_number(to, of->server.context.spent_mask, 8);
    put_number(to, of->server.context.next, NUMBER_LEN);
    put_number(to, of->server.unanswered.highest, NUMBER_LEN);
    put_number(to, of->server.unanswered.mask, 8);
    put_number(to, of->reserved, NUMBER_LEN);
    put_number(to, of->name, 8);
    put_number(to, of->life, NUMBER_LEN);
    put_number(to, of->generation, NUMBER_LEN);
    write_context(to, &of->server.context.context);
}

/* The Sender ID comes behind it, where there are as many bytes as its length says. */
static bool read_context(reader *from, oscore_context *to) {
    get_bytes(from, to->sender_key, 16);
    get_bytes(from, to->recipient_key, 16);
    get_bytes(from, to->common_iv, 13);
    uint64_t features = get_number(from, 1);
    to->tables = (features & TABLES) != 0;
    to->blocks = (features & BLOCKS) != 0;
    to->observe = (features & OBSERVE) != 0;
    to->sender_len = (uint8_t)get_number(from, 1);
    return features <= FEATURES_ALL && to->sender_len <= KID_MOST;
}

/* The first record of the life is saved, by which all numbers count as received (life.h); a peer begins one life as a server, and asks nothing. */
static bool read_peer(reader *from, oscore_peer *to) {
    to->server.context.places = to->server.context.window_places = WINDOW_PLACES;
    to->received = NUMBERS;
    to->life_ms = PENDING_MS;
    to->server.clock = get_number(from, NUMBER_LEN);
    to->server.context.gate = (uint8_t)get_number(from, 1);
    get_bytes(from, to->server.context.echo + ECHO_AT, ECHO_LEN);
    to->server.context.at = get_number(from, NUMBER_LEN);
    to->server.context.spent_mask = get_number(from, 8);
    to->server.context.next = get_number(from, NUMBER_LEN);
    to->server.unanswered.highest = get_number(from, NUMBER_LEN);
    to->server.unanswered.mask = get_number(from, 8);
    to->reserved = get_number(from, NUMBER_LEN);
    to->name = get_number(from, 8);
    to->life = get_number(from, NUMBER_LEN);
    to->generation = get_number(from, NUMBER_LEN);
    return read_context(from, &to->server.context.context);
}

/* Whether the numbers are those of a peer that a call wrote. */
static bool has_numbers(const oscore_peer *of) {
    uint8_t gate = of->server.context.gate;
    return gate <= OPEN_WITH_HIGHEST && (gate < OPEN_WITH_HIGHEST || of->server.context.at < NUMBERS) && of->server.unanswered.highest < NUMBERS
        && of->server.context.next <= of->reserved && of->reserved <= NUMBERS
        && 0 < of->life && of->life <= of->generation && of->generation <= NUMBERS;
}

static bool has_two_ids(const oscore_context *of) {
    return of->sender_len != of->recipient_len || memcmp(of->sender, of->recipient, of->sender_len);
}

/* How long a reply may be to have room in the state. */
static size_t reply_room(const row *of, const row_key *key) {
    return (size_t)STATE_MOST - FIXED_LEN - of->peer.server.context.context.sender_len - key->len;
}

void row_write(const row *from, const row_key *key, row_bytes *to) {
    bool inside = from->reply_len <= reply_room(from, key);
    cursor at = {to->state};
    put_number(&at, FORMAT, 1);
    write_peer(&at, &from->peer);
    put_number(&at, from->era, ERA_LEN);
    put_number(&at, from->effect, 8);
    put_number(&at, from->asked, 1);
    put_number(&at, from->number, NUMBER_LEN);
    put_number(&at, from->hash, 8);
    put_number(&at, from->reply_len, 2);
    if (inside) put_bytes(&at, from->reply, from->reply_len);
    to->state_len = (size_t)(at.at - to->state);
    to->reply_len = inside ? 0 : from->reply_len;
    memcpy(to->reply, from->reply, to->reply_len);
}

/* The reply, in the state or beside it. */
static bool read_reply(reader *from, row *to, const row_key *key, const row_bytes *bytes) {
    size_t left = (size_t)(bytes->state + bytes->state_len - from->at);
    if (to->reply_len > DATAGRAM_MOST) return false;
    if (to->reply_len <= reply_room(to, key)) {
        if (left != to->reply_len || bytes->reply_len != 0) return false;
        get_bytes(from, to->reply, to->reply_len);
    } else {
        if (left != 0 || bytes->reply_len != to->reply_len) return false;
        memcpy(to->reply, bytes->reply, to->reply_len);
    }
    return true;
}

bool row_read(row *to, const row_key *key, const row_bytes *from) {
    if (from->state_len < FIXED_LEN || from->state_len > STATE_MOST || from->state[0] != FORMAT) return false;
    memset(&to->peer, 0, sizeof to->peer);
    oscore_context *context = &to->peer.server.context.context;
    reader at = {from->state + 1};
    if (!read_key(context, key) || !read_peer(&at, &to->peer) || !has_numbers(&to->peer)) return false;
    if (from->state_len < (size_t)FIXED_LEN + context->sender_len) return false;
    get_bytes(&at, context->sender, context->sender_len);
    to->era = get_number(&at, ERA_LEN);
    to->effect = get_number(&at, 8);
    uint64_t asked = get_number(&at, 1);
    to->asked = asked == 1;
    to->number = get_number(&at, NUMBER_LEN);
    to->hash = get_number(&at, 8);
    to->reply_len = (size_t)get_number(&at, 2);
    return has_two_ids(context) && asked <= 1 && to->number < NUMBERS && read_reply(&at, to, key, from);
}

void row_asked(row *of, uint64_t number, uint64_t hash) {
    of->asked = true;
    of->number = number;
    of->hash = hash;
    of->reply_len = 0;
}

void row_answered(row *of, uint64_t number, uint64_t hash, const uint8_t *reply, size_t len) {
    if (!of->asked || of->number != number || of->hash != hash) return;
    of->reply_len = len;
    memcpy(of->reply, reply, len);
}

oscore_status row_renew(row *of, uint64_t era) {
    oscore_context context = of->peer.server.context.context;
    uint64_t next = of->peer.server.context.next, begin = era_begin(era);
    oscore_status status = life_begin_again(&of->peer, &context, of->peer.generation, next > begin ? next : begin);
    oscore_wipe(&context, sizeof context);
    if (status != OSCORE_DONE) return status;
    of->era = era;
    of->asked = false;
    of->number = of->hash = of->reply_len = 0;
    return status;
}

/* A key that is derived from the Sender Key by HKDF, under a name that no context of RFC 8613 has both ends of. */
bool row_fingerprint(const oscore_context *context, uint8_t fingerprint[FINGERPRINT_LEN]) {
    static const uint8_t NAME[] = "gateway: fingerprint", END[] = {1};
    oscore_context of = OSCORE_ZERO;
    oscore_parameters parameters = OSCORE_ZERO;
    parameters.secret = context->sender_key, parameters.secret_len = sizeof context->sender_key;
    parameters.salt = parameters.id_context = NAME, parameters.salt_len = parameters.id_context_len = sizeof NAME - 1;
    parameters.recipient_id = END, parameters.recipient_id_len = sizeof END;
    oscore_status status = oscore_derive_from(&of, &parameters);
    if (status == OSCORE_DONE) memcpy(fingerprint, of.sender_key, FINGERPRINT_LEN);
    oscore_wipe(&of, sizeof of);
    oscore_wipe_stack();
    return status == OSCORE_DONE;
}

/* Of each datagram, so by the C library's call, which writes more than a byte at a time. */
void row_wipe(row *of) {
    explicit_bzero(&of->peer, sizeof of->peer);
}

void row_bytes_wipe(row_bytes *of) {
    explicit_bzero(of->state, sizeof of->state);
    of->state_len = 0;
}

/* The gateway's parts alone: that a row comes back as it was written, with names of all lengths and replies of any; that no row has more than
   256 bytes; how a life begins; that a peer whose bytes go through a row at each event answers what one does that is left alone; that spoilt bytes
   are refused, or read as the row that is written so; how keys are ordered; that fingerprints tell Sender Keys apart; and what the bound on
   unprotected replies and the era say. Built with the sanitizers. */
#include "../counts.h"
#include "../era.h"
#include "../row.h"
#include <arpa/inet.h>
#include <stdio.h>
#include <stdlib.h>
#include <string.h>

#define CHECK(holds) do { if (!(holds)) { printf("parts.c:%d: %s\n", __LINE__, #holds); exit(1); } } while (0)

enum { ROUNDS = 3000, SPOILT = 20000, NOW = 1000 };

static uint64_t state = 7;

static uint64_t drawn(void) {
    state = state * 6364136223846793005u + 1442695040888963407u;
    return state >> 33;
}

/* A context whose names have these lengths, of either end; the names differ. */
static oscore_context make_context(size_t own_len, size_t their_len, size_t id_len, bool client) {
    static const uint8_t SECRET[] = "a secret of this test", OWN[] = "SERVERS", THEIR[] = "clients", ID[] = "an identity context of 32 bytes!";
    oscore_context context = OSCORE_ZERO;
    CHECK(!oscore_derive(&context, SECRET, sizeof SECRET, NULL, 0, id_len > 0, ID, id_len, client ? THEIR : OWN, client ? their_len : own_len,
                         client ? OWN : THEIR, client ? own_len : their_len, false, false, false));
    return context;
}

static bool same_peer(const oscore_peer *a, const oscore_peer *b) {
    return a->server.clock == b->server.clock && !memcmp(&a->server.unanswered, &b->server.unanswered, sizeof a->server.unanswered)
        && !memcmp(&a->server.context.context, &b->server.context.context, sizeof(oscore_context))
        && a->server.context.places == b->server.context.places && a->server.context.window_places == b->server.context.window_places
        && a->server.context.gate == b->server.context.gate && !memcmp(a->server.context.echo, b->server.context.echo, 8)
        && a->server.context.at == b->server.context.at && a->server.context.spent_mask == b->server.context.spent_mask
        && a->server.context.next == b->server.context.next && a->server.context.life == b->server.context.life
        && a->reserved == b->reserved && a->received == b->received && a->life_ms == b->life_ms && a->clock == b->clock && a->name == b->name
        && a->life == b->life && a->generation == b->generation;
}

static bool same_row(const row *a, const row *b) {
    return same_peer(&a->peer, &b->peer) && a->era == b->era && a->effect == b->effect && a->asked == b->asked && a->number == b->number
        && a->hash == b->hash && a->reply_len == b->reply_len && !memcmp(a->reply, b->reply, a->reply_len);
}

/* Through its bytes and back. */
static void through(row *of, const row_key *key) {
    static row back;
    static row_bytes bytes;
    memset(&back, 0xee, sizeof back);
    memset(&bytes, 0xee, sizeof bytes);
    row_write(of, key, &bytes);
    CHECK(key->len + VERSION_LEN + FINGERPRINT_LEN + bytes.state_len <= ROW_MOST);
    CHECK(row_read(&back, key, &bytes) && same_row(of, &back));
    *of = back;
}

/* A reply lies in the state where it has room there, which is so of each one of 32 bytes. */
static bool is_inside(const row *of, const row_key *key) {
    static row_bytes bytes;
    row_write(of, key, &bytes);
    CHECK(of->reply_len > 32 || bytes.reply_len == 0);
    return bytes.reply_len == 0;
}

static void one_row(size_t own, size_t their, size_t id, size_t counted[2]) {
    static row made;
    row_key key;
    oscore_context context = make_context(own, their, id, false);
    memset(&made, 0, sizeof made);
    CHECK(!(drawn() % 2 ? life_begin_first(&made.peer, &context) : life_begin_again(&made.peer, &context, 1 + drawn(), drawn())));
    row_key_of_context(&key, &context);
    made.era = drawn(), made.effect = drawn();
    row_asked(&made, drawn(), drawn());
    through(&made, &key);
    for (size_t len = 0; len <= DATAGRAM_MOST; len += len < 100 ? 1 : 100) {
        for (size_t i = 0; i < len; i++) made.reply[i] = (uint8_t)drawn();
        row_answered(&made, made.number, made.hash, made.reply, len);
        through(&made, &key);
        bool inside = is_inside(&made, &key);
        CHECK(own != 1 || their != 4 || id > 0 || inside == (len <= 77));
        counted[inside]++;
    }
}

static void names_and_replies(void) {
    size_t counted[2] = {0, 0};
    for (size_t own = 0; own <= 7; own++)
        for (size_t their = 0; their <= 7; their++)
            for (size_t id = 0; id <= 32; id += their == own ? 1 : 8) {
                if (own + their == 0) continue;
                one_row(own, their, id, counted);
            }
    CHECK(counted[0] > 0 && counted[1] > 0);
}

/* A first life delivers at once. A later one challenges first, at whatever number it begins, and none of its numbers was used before. Each has
   its first record, by which all numbers count as received. */
static void lives(void) {
    static const uint64_t NEXT[] = {0, 1, 5000, NUMBERS - 1};
    oscore_context context = make_context(1, 4, 8, false);
    oscore_peer peer = OSCORE_ZERO;
    CHECK(!life_begin_first(&peer, &context));
    CHECK(peer.server.context.gate == 2 && peer.server.context.next == 0 && peer.life == 1 && peer.generation == 1);
    CHECK(peer.reserved > 0 && peer.received == NUMBERS);
    for (size_t i = 0; i < sizeof NEXT / sizeof NEXT[0]; i++) {
        CHECK(!life_begin_again(&peer, &context, 7, NEXT[i]));
        CHECK(peer.server.context.gate == 0 && peer.server.context.next == (i > 0 ? NEXT[i] : 1) && peer.life == 8 && peer.generation == 8);
        CHECK(peer.reserved > peer.server.context.next && peer.received == NUMBERS);
    }
    CHECK(life_begin_again(&peer, &context, 7, NUMBERS) == OSCORE_SEQUENCE_EXHAUSTED);
    CHECK(life_begin_again(&peer, &context, 0, 5) == OSCORE_OLD_RECORD);
}

/* Each number comes back where it is as great as it can be. */
static void widest(void) {
    static row made;
    row_key key;
    oscore_context context = make_context(7, 7, 32, false);
    CHECK(!life_begin_first(&made.peer, &context));
    row_key_of_context(&key, &context);
    made.peer.server.clock = made.peer.server.context.at = MOMENT_MOST;
    made.peer.server.context.gate = 1;
    for (size_t i = 3; i < 8; i++) made.peer.server.context.echo[i] = (uint8_t)(250 + i);
    made.peer.server.context.next = made.peer.reserved = made.peer.generation = made.peer.life = NUMBERS;
    made.peer.server.unanswered.highest = NUMBERS - 1;
    made.peer.server.unanswered.mask = made.peer.server.context.spent_mask = made.peer.name = made.effect = UINT64_MAX;
    made.era = ERA_MOST;
    row_asked(&made, NUMBERS - 1, UINT64_MAX);
    through(&made, &key);
}

/* Where bytes stand in the state. */
enum { GATE_AT = 7, AT_AT = 13, NEXT_AT = 27, HIGHEST_AT = 33, RESERVED_AT = 47, LIFE_AT = 61, GENERATION_AT = 67, FEATURES_AT = 118, ASKED_AT = 133,
    NUMBER_AT = 134 };

/* Each bit of the features comes back as the one field. */
static void features(void) {
    static row made;
    static row_bytes bytes;
    row_key key;
    oscore_context context = make_context(1, 4, 8, false);
    row_key_of_context(&key, &context);
    for (uint8_t bits = 0; bits < 8; bits++) {
        context.tables = bits & 1, context.blocks = bits >> 1 & 1, context.observe = bits >> 2;
        memset(&made, 0, sizeof made);
        CHECK(!life_begin_first(&made.peer, &context));
        row_write(&made, &key, &bytes);
        CHECK(bytes.state[FEATURES_AT] == bits);
        through(&made, &key);
    }
}

/* A peer that asks, one that answers and whose bytes go through a row, and one that answers and is left alone. */
typedef struct history {
    row kept;
    row_key key;
    oscore_peer alone, client;
    oscore_pending pending[1];
    oscore_size pending_count;
    uint8_t old[64][128], echo[8];
    size_t old_len[64], delivered, challenged, refused, begun, saved, stale;
    bool has_echo, has_ticket;
    oscore_ticket ticket[2]; /* of the last delivery */
} history;

static void ask(history *h, uint64_t i, uint8_t sealed[128], size_t *len) {
    uint8_t plain[40], token[] = {(uint8_t)i, (uint8_t)(i >> 8)};
    const oscore_option echo = {252, h->echo, 8};
    oscore_peer_record record = OSCORE_ZERO;
    oscore_status status;
    size_t plain_len, detail;
    CHECK(!oscore_write_message(drawn() % 2, 3, (uint16_t)i, token, 2, &echo, h->has_echo ? 1 : 0, (const uint8_t *)"a", 1, plain, sizeof plain,
                                &plain_len, &detail));
    do status = oscore_peer_request(&h->client, h->pending, 1, &h->pending_count, NOW * i, plain, plain_len, sealed, 128, len, &record, &detail);
    while (life_goes_on(&h->client, status, &record));
    CHECK(!status && !oscore_peer_forget(&h->client, h->pending, 1, &h->pending_count, token, 2));
    h->has_echo = false;
}

/* A new request, or one of before; now and then with a bit flipped. */
static size_t draw_request(history *h, uint64_t i, uint8_t sealed[128]) {
    size_t at = drawn() % 64;
    if (drawn() % 3 || h->old_len[at] == 0) ask(h, i, h->old[at], &h->old_len[at]);
    size_t len = h->old_len[at];
    memcpy(sealed, h->old[at], len);
    if (drawn() % 10 == 0) sealed[drawn() % len] ^= (uint8_t)(1 << drawn() % 8);
    return len;
}

/* What a call made, and how often a record was saved for it. */
typedef struct made {
    oscore_status status;
    uint8_t out[128];
    size_t out_len, saved;
} made;

static made reply_by(oscore_peer *peer, oscore_ticket *ticket, bool own) {
    const uint8_t reply[] = {0x60, 68, 0, 0};
    made to = OSCORE_ZERO;
    oscore_peer_record record = OSCORE_ZERO;
    size_t detail;
    do to.status = oscore_peer_reply(peer, ticket, own, 6, reply, sizeof reply, to.out, sizeof to.out, &to.out_len, &record, &detail);
    while (life_goes_on(peer, to.status, &record) && ++to.saved);
    return to;
}

static made take_by(oscore_peer *peer, uint64_t now, const uint8_t *datagram, size_t len, oscore_ticket *ticket) {
    uint8_t bytes[128];
    oscore_option options[4] = OSCORE_ZERO;
    oscore_opened opened = OSCORE_ZERO;
    made to = OSCORE_ZERO;
    oscore_peer_record record = OSCORE_ZERO;
    size_t detail;
    memcpy(bytes, datagram, len);
    do to.status = oscore_peer_take(peer, now, 5, bytes, len, options, 4, &opened, ticket, to.out, &to.out_len, &record, &detail);
    while (life_goes_on(peer, to.status, &record) && ++to.saved);
    return to;
}

static void are_alike(history *h, const made *one, const made *two) {
    CHECK(one->status == two->status && one->saved == two->saved && one->out_len == two->out_len && !memcmp(one->out, two->out, one->out_len));
    CHECK(same_peer(&h->alone, &h->kept.peer));
    h->saved += one->saved;
    through(&h->kept, &h->key);
}

/* Begins another life, in which the tickets of the one before are stale. The last one answered, which it says itself. */
static void begin_anew(history *h) {
    const oscore_context context = h->alone.server.context.context;
    uint64_t next = h->alone.server.context.next + drawn() % 9;
    CHECK(!life_begin_again(&h->alone, &context, h->alone.generation, next));
    CHECK(!life_begin_again(&h->kept.peer, &context, h->kept.peer.generation, next));
    h->begun++;
    through(&h->kept, &h->key);
    if (!h->has_ticket) return;
    made one = reply_by(&h->alone, &h->ticket[0], true), two = reply_by(&h->kept.peer, &h->ticket[1], true);
    CHECK(one.status == OSCORE_TICKET_SPENT);
    are_alike(h, &one, &two);
    h->ticket[0].answered = h->ticket[1].answered = 0;
    one = reply_by(&h->alone, &h->ticket[0], true), two = reply_by(&h->kept.peer, &h->ticket[1], true);
    CHECK(one.status == OSCORE_STALE_TICKET);
    are_alike(h, &one, &two);
    h->stale++;
}

static void one_event(history *h, uint64_t i) {
    uint8_t datagram[128];
    size_t len = draw_request(h, i, datagram);
    if (drawn() % 100 == 0) begin_anew(h);
    through(&h->kept, &h->key);
    made one = take_by(&h->alone, i, datagram, len, &h->ticket[0]), two = take_by(&h->kept.peer, i, datagram, len, &h->ticket[1]);
    are_alike(h, &one, &two);
    h->delivered += one.status == OSCORE_DONE;
    h->challenged += one.status == OSCORE_CHALLENGE;
    h->refused += one.status != OSCORE_DONE && one.status != OSCORE_CHALLENGE;
    if (one.status == OSCORE_CHALLENGE) memcpy(h->echo, h->alone.server.context.echo, 8), h->has_echo = true;
    if (one.status != OSCORE_DONE) return;
    h->has_ticket = true;
    bool own = drawn() % 4 == 0;
    one = reply_by(&h->alone, &h->ticket[0], own), two = reply_by(&h->kept.peer, &h->ticket[1], own);
    CHECK(!one.status);
    are_alike(h, &one, &two);
}

/* The two answer the same, and are the same, whatever comes. A record is saved at the begin of each life, and for each 64 numbers, and for no
   request. */
static void one_history(void) {
    static history h;
    oscore_context own = make_context(1, 4, 8, false), their = make_context(1, 4, 8, true);
    CHECK(!life_begin_first(&h.kept.peer, &own) && !oscore_peer_begin_first(&h.client, &their, 1, 1));
    h.alone = h.kept.peer;
    row_key_of_context(&h.key, &own);
    for (uint64_t i = 0; i < ROUNDS; i++) one_event(&h, i);
    CHECK(h.delivered > 100 && h.challenged > 20 && h.refused > 100 && h.stale > 5);
    CHECK(h.alone.generation == 1 + h.begun + h.saved && h.saved > 0 && h.saved <= h.alone.server.context.next / 64);
}

/* A row that no gateway wrote, by one place of its bytes: format, gate, the highest number, the next one, that of the last request that waits, how
   far numbers are reserved, life and generation, features, the Sender ID's length, whether there is a last request, and its number. */
static void refused_bytes(void) {
    static const struct { size_t at, len; uint64_t good, bad; } ROWS[] = {
        {0, 1, 2, 1}, {0, 1, 2, 3}, {GATE_AT, 1, 2, 4}, {AT_AT, 6, NUMBERS - 1, NUMBERS}, {NEXT_AT, 6, 64, 65}, {HIGHEST_AT, 6, NUMBERS - 1, NUMBERS},
        {RESERVED_AT, 6, NUMBERS, NUMBERS + 1}, {LIFE_AT, 6, 1, 0}, {LIFE_AT, 6, 1, 2}, {GENERATION_AT, 6, NUMBERS, NUMBERS + 1},
        {FEATURES_AT, 1, 7, 8}, {FEATURES_AT + 1, 1, 1, 8}, {ASKED_AT, 1, 1, 2}, {NUMBER_AT, 6, NUMBERS - 1, NUMBERS},
    };
    static row made, read;
    static row_bytes bytes, spoilt;
    row_key key;
    oscore_context context = make_context(1, 4, 8, false);
    CHECK(!life_begin_first(&made.peer, &context));
    made.peer.server.context.gate = 3;
    row_key_of_context(&key, &context);
    row_write(&made, &key, &bytes);
    for (size_t i = 0; i < sizeof ROWS / sizeof ROWS[0]; i++)
        for (int bad = 0; bad < 2; bad++) {
            spoilt = bytes;
            cursor at = {spoilt.state + ROWS[i].at};
            put_number(&at, bad ? ROWS[i].bad : ROWS[i].good, ROWS[i].len);
            bool is_read = row_read(&read, &key, &spoilt);
            if (is_read == bad) printf("the row %zu with %s\n", i, bad ? "what is bad" : "what is good");
            CHECK(is_read == !bad);
        }
    const row_key other = {{1, 's'}, 2}, same_ids = {{1, 'S'}, 2};
    CHECK(row_read(&read, &other, &bytes) && !row_read(&read, &same_ids, &bytes));
}

static void spoilt_bytes(void) {
    static row made, read;
    static row_bytes bytes, spoilt, again;
    row_key key;
    oscore_ticket ticket = OSCORE_ZERO;
    oscore_context context = make_context(7, 7, 32, false);
    size_t accepted = 0;
    CHECK(!life_begin_first(&made.peer, &context));
    row_key_of_context(&key, &context);
    row_asked(&made, 1, 2);
    row_answered(&made, 1, 2, made.reply, 30);
    row_write(&made, &key, &bytes);
    for (int i = 0; i < SPOILT; i++) {
        row_key other = key;
        spoilt = bytes;
        for (uint64_t n = drawn() % 4; n > 0; n--) spoilt.state[drawn() % spoilt.state_len] = (uint8_t)drawn();
        if (drawn() % 4 == 0) spoilt.state_len = drawn() % (STATE_MOST + 1);
        if (drawn() % 8 == 0) spoilt.reply_len = drawn() % (DATAGRAM_MOST + 1);
        if (drawn() % 8 == 0) other.bytes[drawn() % key.len] = (uint8_t)drawn();
        if (drawn() % 8 == 0) other.len = (uint8_t)(drawn() % (KEY_MOST + 1));
        if (!row_read(&read, &other, &spoilt)) continue;
        accepted++;
        row_write(&read, &other, &again);
        CHECK(other.len + VERSION_LEN + FINGERPRINT_LEN + again.state_len <= ROW_MOST);
        CHECK(again.state_len == spoilt.state_len && !memcmp(again.state, spoilt.state, again.state_len));
        CHECK(again.reply_len == spoilt.reply_len && !memcmp(again.reply, spoilt.reply, again.reply_len));
        CHECK(take_by(&read.peer, 1, spoilt.state, 0, &ticket).status == OSCORE_SHORT);
    }
    CHECK(accepted > 0 && accepted < SPOILT);
}

/* As a database sorts them: by their bytes, and of two that begin alike the shorter one is first. */
static void order_of_keys(void) {
    const row_key ascending[] = {{{0}, 1}, {{0, 1, 5}, 3}, {{1, 0}, 2}, {{1, 0, 1, 5}, 4}, {{1, 0, 2, 0, 0}, 5}, {{1, 200}, 2}, {{2, 0, 0}, 3}};
    const int count = sizeof ascending / sizeof ascending[0];
    for (int i = 0; i < count; i++)
        for (int j = 0; j < count; j++) {
            int order = row_key_compare(&ascending[i], &ascending[j]);
            CHECK((order < 0) == (i < j) && (order > 0) == (i > j));
        }
}

static void fingerprints(void) {
    uint8_t a[FINGERPRINT_LEN], b[FINGERPRINT_LEN];
    oscore_context one = make_context(1, 2, 0, false), two = make_context(1, 3, 0, false), three = make_context(2, 1, 0, false);
    CHECK(row_fingerprint(&one, a) && row_fingerprint(&two, b) && !memcmp(a, b, sizeof a)); /* one Sender ID of one secret: one Sender Key */
    CHECK(row_fingerprint(&three, b) && memcmp(a, b, sizeof a));
    CHECK(memcmp(a, one.sender_key, sizeof a));
}

static void bound(void) {
    counts *made = counts_make();
    CHECK(made);
    struct sockaddr_in at[2] = {{.sin_family = AF_INET, .sin_port = 1}, {.sin_family = AF_INET, .sin_port = 1}};
    address hosts[2];
    memset(hosts, 0, sizeof hosts);
    for (int i = 0; i < 2; i++) {
        at[i].sin_addr.s_addr = htonl(0x7f000001u + (uint32_t)i);
        memcpy(&hosts[i].bytes, &at[i], sizeof at[i]);
    }
    CHECK(!counts_allow(made, &hosts[0], 0, 8));
    for (uint64_t second = 8; second < 11; second++)
        for (int i = 0; i < 100; i++) CHECK(counts_allow(made, &hosts[0], 10, second) == (i < 10));
    CHECK(counts_allow(made, &hosts[1], 10, 10));
    CHECK(!counts_end(made));
}

static void eras(void) {
    uint64_t moment = (YEAR_2026 + 1000ull) * 1000;
    CHECK(era_at(moment) == 1060 && era_at(5) == 0 && era_begin(1060) == 1060 * 256);
    CHECK(own_number_allowed(era_begin(1060) - 1, moment) && !own_number_allowed(era_begin(1060), moment) && !own_number_allowed(0, 5));
    CHECK(era_begin(ERA_MOST) < 1ull << 40);
}

/* A row's new life begins above all numbers that were used before the era, in the row and out of it. */
static void renewals(void) {
    static row made;
    oscore_context context = make_context(1, 2, 0, false);
    CHECK(!life_begin_first(&made.peer, &context));
    row_asked(&made, 1, 2);
    CHECK(!row_renew(&made, 3) && made.era == 3 && made.peer.server.context.next == 768 && made.peer.server.context.gate == 0 && !made.asked);
    CHECK(made.peer.life == 2 && made.peer.generation == 2 && !memcmp(&made.peer.server.context.context, &context, sizeof context));
    made.peer.server.context.next = made.peer.reserved = 5000;
    CHECK(!row_renew(&made, 4) && made.peer.server.context.next == 5000 && made.peer.life == 3);
    made.peer.server.context.next = made.peer.reserved = NUMBERS;
    CHECK(row_renew(&made, 5) == OSCORE_SEQUENCE_EXHAUSTED && made.era == 4);
}

/* Moments have room in a row. */
static void moments(void) {
    const struct { time_t seconds; uint64_t ms; } ROWS[] = {
        {-1, 0}, {0, 7}, {5, 5007}, {(time_t)(MOMENT_MOST / 1000) - 1, (MOMENT_MOST / 1000 - 1) * 1000 + 7},
        {(time_t)(MOMENT_MOST / 1000), MOMENT_MOST}, {INT64_MAX, MOMENT_MOST},
    };
    for (size_t i = 0; i < sizeof ROWS / sizeof ROWS[0]; i++) {
        const struct timespec moment = {.tv_sec = ROWS[i].seconds, .tv_nsec = 7999999};
        CHECK(ms_of(&moment) == ROWS[i].ms && ms_of(&moment) < 1ull << 48);
    }
}

int main(void) {
    names_and_replies();
    widest();
    lives();
    features();
    one_history();
    refused_bytes();
    spoilt_bytes();
    order_of_keys();
    fingerprints();
    bound();
    eras();
    renewals();
    moments();
    return 0;
}

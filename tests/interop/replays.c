/* Each request that a peer gets is handed in again under other message IDs, in many orders: oscore_peer_take delivers each number once, and
   refuses what isn't new as a replay. Of the table's orders a row says by hand what has to come; of the others, which are made at random, the
   peer's numbers in a list say it. By that list a number is new where it is above all that were seen, or is none of these and less than the
   window's size below the highest (RFC 8613, 3.2.2 and 7.4), and isn't below the one by which the life was opened. The rows are compared with
   the list too. A replay to CON is answered by 4.01 without protection (RFC 8613, 8.2). A record has to be saved before a number is delivered
   that isn't below the received one, and for nothing else. A challenge asks for the number with which the first one of its life was sealed;
   an Echo value of which one byte is another, or that an earlier life asked for, delivers nothing.

       replays [ORDERS [SEED]] */
#include "oscore.h"
#include <stdio.h>
#include <stdlib.h>
#include <string.h>

enum { CIPHERS = 2, MOST_NUMBERS = 200, MOST_STEPS = 64, GET = 1, UNAUTHORIZED = 129, ECHO = 252, ECHO_LEN = 8, LIFE_MS = 60000, BATCH = 64 };
/* Each number is below this one. */
#define NUMBERS (UINT64_C(1) << 40)

/* How a life begins: as the first of its context; behind a record by which nothing was delivered yet, so that a number's request has to bring
   its Echo value back (RFC 8613, B.1.2); behind the record that was saved last. */
typedef enum beginning { FRESH, ECHOED, SAVED } beginning;
static const char *const BEGINNINGS[] = {"fresh", "challenged", "behind what was saved"};

typedef struct row {
    uint8_t places;
    beginning how;
    int lost;            /* a life before this one delivered all numbers below this one */
    const char *numbers; /* in the order in which they come */
    const char *wanted;  /* D delivered, R replay */
} row;

static const row ROWS[] = {
    {32, FRESH, 0, "0", "D"},
    {32, FRESH, 0, "0 0", "DR"},
    {32, FRESH, 0, "0 2 0", "DDR"},
    {32, FRESH, 0, "4 2 4", "DDR"},
    {32, FRESH, 0, "4 2 4 2", "DDRR"},
    {32, FRESH, 0, "1 0", "DD"},
    {32, FRESH, 0, "1 0 1 0", "DDRR"},
    /* Of 32 places the last one is 31 below the highest number: seen or not, it is still told. */
    {32, FRESH, 0, "0 31 0", "DDR"},
    {32, FRESH, 0, "31 0 31", "DDR"},
    {32, FRESH, 0, "31 0 31 0", "DDRR"},
    {32, FRESH, 0, "32 1 0", "DDR"},
    {32, FRESH, 0, "32 0 32 1", "DRRD"},
    {32, FRESH, 0, "0 199 168 167", "DDDR"},
    /* One place: numbers are delivered in order alone. */
    {1, FRESH, 0, "5 7 6 7 8", "DDRRD"},
    {1, FRESH, 0, "0 0 1", "DRD"},
    {64, FRESH, 0, "0 2 0", "DDR"},
    {64, FRESH, 0, "31 0 31 0", "DDRR"},
    {64, FRESH, 0, "32 0 32 0", "DDRR"},
    {64, FRESH, 0, "0 63 0", "DDR"},
    {64, FRESH, 0, "63 0 63", "DDR"},
    {64, FRESH, 0, "63 0 63 0", "DDRR"},
    {64, FRESH, 0, "64 1 0", "DDR"},
    {64, FRESH, 0, "64 0 64 1", "DRRD"},
    {64, FRESH, 0, "0 199 136 135", "DDDR"},
    /* Behind a challenge what was seen before is below the number that brought the value back, which was the first. */
    {32, ECHOED, 2, "0 1 2", "RRR"},
    {32, ECHOED, 2, "2 3 2 3", "RDRR"},
    {32, ECHOED, 40, "39 40 41 39 41", "RRDRR"},
    {32, ECHOED, 40, "71 41 40 41 71", "DDRRR"},
    {32, ECHOED, 40, "73 41 42 41", "DRDR"},
    {64, ECHOED, 2, "0 1 2 3 3", "RRRDR"},
    {1, ECHOED, 40, "39 40 42 41 43", "RRDRD"},
    {64, ECHOED, 40, "103 41 40 41 103", "DDRRR"},
    /* Behind the record that was saved last, whose received number is above what was delivered, the first that is new is delivered at once. */
    {32, SAVED, 2, "0 1 2 2", "RRDR"},
    {32, SAVED, 2, "1 3 2 3 2 0", "RDDRRR"},
    {32, SAVED, 40, "39 40 41 39 41", "RDDRR"},
    {32, SAVED, 40, "71 40 39 40 71", "DDRRR"},
    {32, SAVED, 40, "72 40 41 39", "DRDR"},
    {1, SAVED, 40, "39 40 42 41 43", "RDDRD"},
    {64, SAVED, 40, "103 40 40 39", "DDRR"},
    {64, SAVED, 40, "104 40 41", "DRD"},
    /* Where nothing was delivered, the record that was saved last is one that challenges. */
    {32, SAVED, 0, "0 1 0", "RDR"},
};

static const uint8_t SECRET[] = "a secret for a test", CLIENT[] = {1}, SERVER[] = {2};
/* The number of a second life's first challenge, the first that the record before it doesn't reserve, high byte first. */
static const uint8_t CHALLENGE[ECHO_LEN] = {0, 0, 0, 0, 0, 0, 0, BATCH};

typedef struct datagram {
    uint8_t bytes[64];
    size_t len;
} datagram;

/* A peer, and what it has to say: the numbers that it took, in a list. */
typedef struct trial {
    oscore_peer peer;
    bool ahead; /* its records count as saved with all received numbers */
    bool seen[MOST_NUMBERS];
    int highest, floor;
    uint8_t places;
    int delivered[MOST_NUMBERS];
} trial;

static oscore_context client, servers[CIPHERS];
static oscore_option options[4];
static oscore_opened opened;
/* Each number's request, and one that brings the Echo value back. (No client may seal both under one number: who has both can tell what differs.) */
static datagram requests[MOST_NUMBERS], echoing[MOST_NUMBERS];
/* A request that brings a value back of which one byte is another, for each of its bytes. */
static datagram spoilt[ECHO_LEN];
static uint16_t next_mid;
static uint64_t chance;
static long steps;

static void fail(const char *where, int number, const char *wanted, const char *came) {
    printf("replays: %s, number %d: wanted %s, came %s\n", where, number, wanted, came);
    exit(1);
}

static void need(oscore_status status, const char *what) {
    char name[24];
    oscore_status_name(status, name);
    if (status != OSCORE_DONE) fail(what, 0, "Done", name);
}

/* A CON request, with an Echo option (252, a delta of 13 and 239) where there is a value. */
static void seal(datagram *sealed, uint64_t number, const uint8_t *echo) {
    uint8_t plain[32] = {0x41, GET, 0, 0, (uint8_t)number};
    size_t len = 5, detail;
    if (echo) {
        plain[len++] = 0xd0 | ECHO_LEN, plain[len++] = 239;
        memcpy(plain + len, echo, ECHO_LEN);
        len += ECHO_LEN;
    }
    need(oscore_seal_request(&client, number, plain, len, sealed->bytes, sizeof sealed->bytes, &sealed->len, &detail), "sealing");
}

static void prepare(void) {
    need(oscore_derive(&client, SECRET, sizeof SECRET, NULL, 0, false, NULL, 0, CLIENT, 1, SERVER, 1, false, false, false), "the client");
    for (int cipher = 0; cipher < CIPHERS; cipher++)
        need(oscore_derive(&servers[cipher], SECRET, sizeof SECRET, NULL, 0, false, NULL, 0, SERVER, 1, CLIENT, 1, cipher == 1, false, false),
             "a server's context");
    for (uint64_t number = 0; number < MOST_NUMBERS; number++) {
        seal(&requests[number], number, NULL);
        seal(&echoing[number], number, CHALLENGE);
    }
    for (int place = 0; place < ECHO_LEN; place++) {
        uint8_t echo[ECHO_LEN];
        memcpy(echo, CHALLENGE, ECHO_LEN);
        echo[place] ^= 1;
        seal(&spoilt[place], MOST_NUMBERS, echo);
    }
}

static oscore_status hand_in(trial *at, datagram *request, datagram *reply, oscore_peer_record *record) {
    oscore_ticket ticket = OSCORE_ZERO;
    size_t detail;
    oscore_status status = oscore_peer_take(&at->peer, 0, next_mid, request->bytes, request->len, options, 4, &opened, &ticket, reply->bytes,
                                            &reply->len, record, &detail);
    if (status == OSCORE_DONE && opened.message_id != next_mid) fail("the message ID", opened.message_id, "the new one", "another");
    return status;
}

/* Hands a copy of a request in, under a message ID that is new: it stands outside, so whoever overheard the request can change it. Where a
   record has to be saved first, it counts as saved, and the same is handed in again. */
static oscore_status take(trial *at, const datagram *request, datagram *reply) {
    datagram copy = *request;
    oscore_peer_record record;
    next_mid++, steps++;
    copy.bytes[2] = (uint8_t)(next_mid >> 8), copy.bytes[3] = (uint8_t)next_mid;
    oscore_status status = hand_in(at, &copy, reply, &record);
    if (status != OSCORE_SAVE_FIRST) return status;
    need(at->ahead ? oscore_peer_saved_nowhere(&at->peer, &record) : oscore_peer_saved(&at->peer, &record), "a record");
    return hand_in(at, &copy, reply, &record);
}

static bool is_new(const trial *at, int number) {
    if (number < at->floor) return false;
    return number > at->highest || (!at->seen[number] && at->highest - number < at->places);
}

static void mark(trial *at, int number) {
    at->seen[number] = true;
    if (number > at->highest) at->highest = number;
}

/* Hands a request in. What comes has to be this status, and a record has to be saved where a number is delivered that isn't below the received
   one. A replay gets 4.01. */
static void compare(trial *at, const char *where, int number, const datagram *request, oscore_status wanted, datagram *reply) {
    char name[24], wanted_name[24];
    const oscore_peer before = at->peer;
    bool saves = wanted == OSCORE_DONE && (uint64_t)number >= before.received;
    uint64_t received = !saves ? before.received : at->ahead ? NUMBERS : (uint64_t)number + 1;
    oscore_status status = take(at, request, reply);
    oscore_status_name(status, name), oscore_status_name(wanted, wanted_name);
    if (status != wanted) fail(where, number, wanted_name, name);
    if (at->peer.generation != before.generation + saves) fail(where, number, saves ? "a record" : "no record", saves ? "none" : "one");
    if (at->peer.received != received) fail(where, number, "a record of this number", "another");
    if (status == OSCORE_REPLAY && (reply->len < 4 || reply->bytes[1] != UNAUTHORIZED)) fail(where, number, "4.01", "another reply");
}

/* Hands a number in, and compares with the list, and with the table's letter where there is one. */
static void step(trial *at, const char *where, int number, char letter) {
    datagram reply;
    bool delivers = is_new(at, number);
    if (letter && delivers != (letter == 'D')) fail(where, number, letter == 'D' ? "D by the row" : "R by the row", "another by the list");
    compare(at, where, number, &requests[number], delivers ? OSCORE_DONE : OSCORE_REPLAY, &reply);
    if (!delivers) return;
    if (++at->delivered[number] > 1) fail(where, number, "one delivery", "a second one");
    mark(at, number);
}

/* The challenge to a number's request: sealed with the last number, and its Echo value is that of the first challenge. */
static void read_challenge(const trial *at, const char *where, int number, datagram *reply) {
    size_t detail;
    need(oscore_open_response(&client, (uint64_t)number, reply->bytes, reply->len, options, 4, &opened, &detail), "a challenge");
    if (opened.number + 1 != at->peer.server.context.next) fail(where, number, "a challenge of its own number", "another");
    if (opened.code != UNAUTHORIZED || opened.option_count != 1 || options[0].number != ECHO || options[0].value_len != ECHO_LEN
        || memcmp(options[0].value, CHALLENGE, ECHO_LEN))
        fail(where, number, "4.01 with the first challenge's number", "another reply");
}

/* A life that challenges delivers nothing before a request brings its Echo value back; that request's number is the first that was seen. */
static void open_by_echo(trial *at, const char *where, int number) {
    datagram reply;
    for (int other = 0; other < MOST_NUMBERS; other += 67) {
        compare(at, where, other, &requests[other], OSCORE_CHALLENGE, &reply);
        read_challenge(at, where, other, &reply);
    }
    for (int place = 0; place < ECHO_LEN; place++) compare(at, where, MOST_NUMBERS, &spoilt[place], OSCORE_CHALLENGE, &reply);
    compare(at, where, number, &echoing[number], OSCORE_DONE, &reply);
    at->floor = number;
    at->delivered[number]++;
    mark(at, number);
}

/* The first call of a life asks for a record, whatever comes. */
static void claim(trial *at, const char *where) {
    static const datagram NOTHING;
    datagram reply;
    const oscore_peer before = at->peer;
    if (take(at, &NOTHING, &reply) != OSCORE_SHORT) fail(where, 0, "Short", "another status of no byte");
    if (at->peer.generation != before.generation + 1 || at->peer.reserved != before.reserved + BATCH) fail(where, 0, "a record", "another");
}

/* A life behind a record that has this received number, and else is as the last one that was saved. */
static void restart(trial *at, const char *where, int cipher, uint64_t received) {
    const oscore_peer_record record = {at->peer.name, at->peer.generation, at->peer.reserved, received};
    need(oscore_peer_begin_again(&at->peer, &servers[cipher], &record, at->places, LIFE_MS), "a restart");
    claim(at, where);
    at->floor = received < MOST_NUMBERS ? (int)received : MOST_NUMBERS;
}

/* A life in which the numbers below a row's were delivered, and one behind it, or a fresh one. */
static void begin(trial *at, const char *where, int cipher, const row *life, bool ahead) {
    memset(at, 0, sizeof *at);
    at->places = life->places, at->highest = -1, at->ahead = ahead;
    need(oscore_peer_begin_first(&at->peer, &servers[cipher], life->places, LIFE_MS), "a peer");
    claim(at, where);
    if (life->how == FRESH) return;
    for (int number = 0; number < life->lost; number++) step(at, where, number, 'D');
    restart(at, where, cipher, life->how == ECHOED ? 0 : at->peer.received);
    if (at->floor == 0) open_by_echo(at, where, life->lost);
}

static void try_row(const row *tried, int cipher, bool ahead) {
    static trial at;
    char where[128];
    snprintf(where, sizeof where, "window of %d, %s %s%s%s", tried->places, BEGINNINGS[tried->how], tried->numbers,
             cipher == 1 ? ", by tables" : "", ahead ? ", ahead" : "");
    begin(&at, where, cipher, tried, ahead);
    const char *rest = tried->numbers;
    for (const char *letter = tried->wanted; *letter; letter++) {
        char *behind;
        step(&at, where, (int)strtol(rest, &behind, 10), *letter);
        rest = behind;
    }
    if (*rest) fail(where, 0, "a letter for each number", "fewer");
}

/* By both ciphers, and with records as they are asked for, or ahead. Behind a record that is ahead nothing is new, whatever a row says. */
static void try_rows(size_t count) {
    for (size_t at = 0; at < count * CIPHERS * 2; at++) {
        const row *tried = &ROWS[at / (CIPHERS * 2)];
        bool ahead = at / CIPHERS % 2 == 1;
        if (!ahead || tried->how != SAVED) try_row(tried, (int)(at % CIPHERS), ahead);
    }
}

/* The value that one life asked for opens no later one. */
static void try_old_value(int cipher) {
    static trial at;
    const row life = {32, ECHOED, 3, NULL, NULL};
    const char *where = cipher == 1 ? "an old Echo value, by tables" : "an old Echo value";
    datagram reply;
    begin(&at, where, cipher, &life, false);
    restart(&at, where, cipher, 0);
    compare(&at, where, 5, &echoing[5], OSCORE_CHALLENGE, &reply);
    compare(&at, where, 5, &echoing[5], OSCORE_CHALLENGE, &reply);
}

/* A generator of our own, so that a seed gives the same orders everywhere (xorshift64). */
static int below(int most) {
    chance ^= chance << 13, chance ^= chance >> 7, chance ^= chance << 17;
    return (int)(chance % (uint64_t)most);
}

static const uint8_t SIZES[] = {1, 32, 64};

/* Numbers near the highest so far, around the window's edge, or anywhere; each comes again, and half of the lives are behind another. */
static void try_at_random(long order) {
    static trial at;
    char where[64];
    beginning how = below(2) ? FRESH : below(2) ? ECHOED : SAVED;
    const row life = {SIZES[below(3)], how, below(MOST_NUMBERS), NULL, NULL};
    snprintf(where, sizeof where, "order %ld, %s", order, BEGINNINGS[how]);
    begin(&at, where, below(CIPHERS), &life, below(4) == 0);
    for (int left = below(MOST_STEPS); left > 0; left--) {
        int where_to = below(3), number = at.highest + (where_to == 0 ? below(3) - at.places : below(8) - 4);
        if (where_to == 2 || number < 0 || number >= MOST_NUMBERS) number = below(MOST_NUMBERS);
        step(&at, where, number, 0);
        if (below(2)) step(&at, where, number, 'R');
    }
}

int main(int count, char **words) {
    long orders = count > 1 ? atol(words[1]) : 10000;
    unsigned long long seed = count > 2 ? strtoull(words[2], NULL, 10) : 7;
    size_t row_count = sizeof ROWS / sizeof ROWS[0];
    printf("replays: seed %llu\n", seed);
    chance = seed * 2 + 1;
    prepare();
    try_rows(row_count);
    for (int cipher = 0; cipher < CIPHERS; cipher++) try_old_value(cipher);
    for (long order = 0; order < orders; order++) try_at_random(order);
    printf("replays: %zu rows by both ciphers and %ld orders, %ld datagrams: each number delivered once\n", row_count, orders, steps);
    return 0;
}

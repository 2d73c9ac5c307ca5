/* Datagrams of somebody who has no key, whose numbers are as high as there are: they are refused, and change nothing for who has the key.
   At a peer that serves the next number is delivered still, the one before is a replay still, no record has to be saved, and in a life that
   began with a challenge the Echo value that was asked for is taken still; at a peer that asks the request stays pending, and its response
   opens still. RFC 8613, 8.2, has a server update its window where a request decrypts, and answer 4.00 where it doesn't (own rule: to NON
   too); what doesn't decrypt at a client is no response (8.4).

       forged [ROUNDS [SEED]] */
#include "oscore.h"
#include <stdio.h>
#include <stdlib.h>
#include <string.h>

enum { CONTEXTS = 3, CIPHERS = 2, MOST = 160, GET = 1, POST = 2, CHANGED = 68, BAD_REQUEST = 128, ECHO = 252, ECHO_LEN = 8, PLACES = 8,
    LIFE_MS = 60000 };
#define MOST_NUMBER ((UINT64_C(1) << 40) - 1)

/* How a life begins: as the first of its context; behind a record by which nothing was delivered yet, so that it asks for an Echo value; behind
   the one that was saved last. */
typedef enum life { FIRST, CHALLENGING, GOING_ON } life;

typedef struct datagram {
    uint8_t bytes[MOST];
    size_t len;
} datagram;

static const uint8_t SECRET[] = "a secret for a test";
/* Identifiers of client and server, and the ID Context. */
static const struct {
    const char *client, *server, *id_context;
} NAMES[CONTEXTS] = {{"c", "s", ""}, {"client7", "", "8 bytes."}, {"", "s", "an ID Context of thirty-two bytes"}};

static oscore_option options[8];
static oscore_opened opened;
static oscore_ticket ticket;
/* The requests of the client that wait. */
static oscore_pending pending[PLACES];
static size_t pending_count;
static uint64_t chance;
static long refused;
static char where[80];

static _Noreturn void fail(const char *what, const char *wanted, oscore_status came) {
    char name[24];
    oscore_status_name(came, name);
    printf("forged: %s, %s: wanted %s, came %s\n", where, what, wanted, name);
    exit(1);
}

static void need(const char *what, oscore_status wanted, oscore_status came) {
    char name[24];
    oscore_status_name(wanted, name);
    if (came != wanted) fail(what, name, came);
}

/* A generator of our own, so that a seed gives the same everywhere (xorshift64). */
static uint64_t draw(void) {
    chance ^= chance << 13, chance ^= chance >> 7, chance ^= chance << 17;
    return chance;
}

static uint8_t len_of(const char *text) {
    size_t len = strlen(text);
    return (uint8_t)(len > 32 ? 32 : len);
}

static void derive(oscore_context *context, const char *own, const char *their, const char *id_context, bool tables) {
    need("a context", OSCORE_DONE,
         oscore_derive(context, SECRET, sizeof SECRET, NULL, 0, *id_context != 0, (const uint8_t *)id_context, len_of(id_context),
                       (const uint8_t *)own, len_of(own), (const uint8_t *)their, len_of(their), tables, false, false));
}

/* The highest numbers, those around the edges of their lengths in bytes, and any. */
static uint64_t high_number(void) {
    uint64_t edge = UINT64_C(1) << (8 * (1 + draw() % 5));
    switch (draw() % 4) {
    case 0: return MOST_NUMBER - draw() % 70;
    case 1: return edge - 1;
    case 2: return edge > MOST_NUMBER ? MOST_NUMBER : edge;
    default: return 64 + draw() % (MOST_NUMBER - 63);
    }
}

static void append(datagram *to, const void *bytes, size_t len) {
    if (len > 0) memcpy(to->bytes + to->len, bytes, len);
    to->len += len;
}

/* A message of this kind, code and token, with an OSCORE option of this number, and of the kid where it is a request, over a payload at
   random, which protects nothing. */
static datagram forge(uint8_t kind, uint8_t code, const uint8_t *token, uint8_t token_len, uint64_t number, const oscore_context *client) {
    datagram forged = {.bytes = {(uint8_t)(0x40 | kind << 4 | token_len), code, (uint8_t)draw(), (uint8_t)draw()}, .len = 4};
    uint8_t value[64], value_len = 1, piv_len = 1, payload_len = (uint8_t)(9 + draw() % 40);
    append(&forged, token, token_len);
    while (piv_len < 5 && number >> (8 * piv_len)) piv_len++;
    for (int byte = piv_len; byte > 0; byte--) value[value_len++] = (uint8_t)(number >> (8 * (byte - 1)));
    value[0] = (uint8_t)(piv_len | (client ? 8 : 0) | (client && client->id_context_len ? 16 : 0));
    if (client && client->id_context_len) {
        value[value_len++] = client->id_context_len;
        memcpy(value + value_len, client->id_context, client->id_context_len), value_len = (uint8_t)(value_len + client->id_context_len);
    }
    if (client) memcpy(value + value_len, client->sender, client->sender_len), value_len = (uint8_t)(value_len + client->sender_len);
    if (value_len < 13) append(&forged, (uint8_t[]){(uint8_t)(0x90 | value_len)}, 1);
    else append(&forged, (uint8_t[]){0x9d, (uint8_t)(value_len - 13)}, 2);
    append(&forged, value, value_len);
    append(&forged, (uint8_t[]){0xff}, 1);
    while (payload_len-- > 0) append(&forged, (uint8_t[]){(uint8_t)draw()}, 1);
    return forged;
}

/* Whether a call asks for a record, which then counts as saved, so that the call is made again. Twice in a call is the most: as the first
   of its life, and for what it is to deliver. */
static bool saves(oscore_peer *peer, const oscore_peer_record *record, oscore_status came) {
    static int in_a_row;
    in_a_row = came == OSCORE_SAVE_FIRST ? in_a_row + 1 : 0;
    if (in_a_row > 2) fail("a call", "two records at most", came);
    if (came == OSCORE_SAVE_FIRST) need("a record", OSCORE_DONE, oscore_peer_saved(peer, record));
    return came == OSCORE_SAVE_FIRST;
}

/* A request of the client's next number, with an Echo value where there is one. */
static datagram ask(oscore_peer *client, const uint8_t *echo) {
    datagram sealed;
    uint64_t next = client->server.context.next;
    uint8_t plain[32] = {0x42, GET, 0, (uint8_t)next, (uint8_t)(next >> 8), (uint8_t)next};
    size_t len = 6, detail;
    oscore_peer_record record;
    oscore_status came;
    if (echo) plain[len++] = 0xd8, plain[len++] = ECHO - 13, memcpy(plain + len, echo, ECHO_LEN), len += ECHO_LEN;
    do came = oscore_peer_request(client, pending, PLACES, &pending_count, 0, plain, len, sealed.bytes, MOST, &sealed.len, &record, &detail);
    while (saves(client, &record, came));
    need("a request", OSCORE_DONE, came);
    return sealed;
}

static oscore_status hear(oscore_peer *client, datagram *response, uint64_t *number) {
    size_t detail;
    return oscore_peer_hear(client, pending, PLACES, &pending_count, 0, response->bytes, response->len, options, 8, &opened, number, &detail);
}

/* Hands a copy in, under a message ID of its own. Its reply is left in `reply`. */
static oscore_status take(oscore_peer *server, const datagram *request, datagram *reply) {
    datagram copy = *request;
    oscore_peer_record record;
    oscore_status came;
    size_t detail;
    copy.bytes[2] ^= 0x40;
    do came = oscore_peer_take(server, 0, 7, copy.bytes, copy.len, options, 8, &opened, &ticket, reply->bytes, &reply->len, &record, &detail);
    while (saves(server, &record, came));
    return came;
}

static bool has_same_numbers(const oscore_peer *peer, const oscore_peer *before) {
    return peer->generation == before->generation && peer->received == before->received && peer->reserved == before->reserved
        && peer->server.context.next == before->server.context.next;
}

static void forge_requests(oscore_peer *server, const oscore_context *client) {
    for (int left = (int)(draw() % 8); left >= 0; left--) {
        oscore_peer before = *server;
        uint8_t token_len = (uint8_t)(draw() % 6);
        datagram reply = {.len = 0}, forged = forge(draw() % 2, POST, (const uint8_t *)"token", token_len, high_number(), client);
        need("a forged request", OSCORE_TAG, take(server, &forged, &reply));
        if (reply.len < 4 || reply.bytes[1] != BAD_REQUEST) fail("a forged request", "4.00", OSCORE_TAG);
        if (!has_same_numbers(server, &before)) fail("a forged request", "no number of its own, and no record", OSCORE_TAG);
        refused++;
    }
}

static void forge_responses(oscore_peer *client, const datagram *request) {
    uint64_t number;
    for (int left = (int)(draw() % 8); left >= 0; left--) {
        oscore_peer before = *client;
        datagram forged = forge((uint8_t)(draw() % 3), CHANGED, request->bytes + 4, 2, high_number(), NULL);
        need("a forged response", OSCORE_TAG, hear(client, &forged, &number));
        if (pending_count != 1 || !has_same_numbers(client, &before)) fail("a forged response", "one pending request", OSCORE_TAG);
        refused++;
    }
}

/* The server's answer to what was delivered, taken by the client. */
static void answer(oscore_peer *server, oscore_peer *client, uint64_t number) {
    static const uint8_t PLAIN[] = {0x60, CHANGED, 0, 0, 0xff, 'y', 'e', 's'};
    bool own = draw() % 2;
    datagram sealed;
    oscore_peer_record record;
    oscore_status came;
    uint64_t request;
    size_t detail;
    do came = oscore_peer_reply(server, &ticket, own, 9, PLAIN, sizeof PLAIN, sealed.bytes, MOST, &sealed.len, &record, &detail);
    while (saves(server, &record, came));
    need("an answer", OSCORE_DONE, came);
    need("its response", OSCORE_DONE, hear(client, &sealed, &request));
    if (request != number || opened.payload_len != 3) fail("its response", "that of the request", OSCORE_DONE);
}

/* Hands a request in, and hears its challenge, which is left in `options`: the number with which it was sealed, high byte first. */
static void be_challenged(oscore_peer *server, oscore_peer *client, const datagram *request, uint8_t echo[ECHO_LEN]) {
    uint64_t asked, value = 0;
    datagram reply;
    need("a request that is challenged", OSCORE_CHALLENGE, take(server, request, &reply));
    need("the challenge", OSCORE_DONE, hear(client, &reply, &asked));
    if (opened.option_count != 1 || options[0].number != ECHO || options[0].value_len != ECHO_LEN) fail("the challenge", "Echo", OSCORE_DONE);
    memcpy(echo, options[0].value, ECHO_LEN);
    for (int byte = 0; byte < ECHO_LEN; byte++) value = value << 8 | echo[byte];
    if (!opened.has_number || opened.number != value) fail("the challenge", "its number as the Echo value", OSCORE_DONE);
}

/* The next request, with forged ones around it. Where it is challenged, it is asked anew. */
static datagram next_request(oscore_peer *server, oscore_peer *client, bool is_challenged) {
    uint8_t echo[ECHO_LEN];
    datagram request = ask(client, NULL);
    forge_requests(server, &client->server.context.context);
    if (!is_challenged) return request;
    be_challenged(server, client, &request, echo);
    forge_requests(server, &client->server.context.context);
    return ask(client, echo);
}

/* Requests and their answers, with forged ones around each. What a life before this one delivered is a replay too. */
static void live(oscore_peer *server, oscore_peer *client, life how) {
    static datagram before;
    datagram reply;
    if (how == FIRST) before.len = 0;
    for (int at = 0; at < 3; at++) {
        datagram request = next_request(server, client, how == CHALLENGING && at == 0);
        uint64_t number = client->server.context.next - 1;
        forge_responses(client, &request);
        need("the next request", OSCORE_DONE, take(server, &request, &reply));
        answer(server, client, number);
        forge_requests(server, &client->server.context.context);
        need("the same once more", OSCORE_REPLAY, take(server, &request, &reply));
        if (before.len > 0) need("the one before", OSCORE_REPLAY, take(server, &before, &reply));
        before = request;
    }
}

/* Begins a life, and saves its first record, which is asked for whatever comes first. */
static void begin(oscore_peer *server, const oscore_context *context, life how) {
    static const datagram NOTHING;
    const oscore_peer_record record = {server->name, server->generation, server->reserved, how == CHALLENGING ? 0 : server->received};
    uint8_t places = draw() % 2 ? 32 : 64;
    datagram reply;
    if (how == FIRST) need("a server", OSCORE_DONE, oscore_peer_begin_first(server, context, places, LIFE_MS));
    else need("a restart", OSCORE_DONE, oscore_peer_begin_again(server, context, &record, places, LIFE_MS));
    uint64_t generation = server->generation;
    need("no byte", OSCORE_SHORT, take(server, &NOTHING, &reply));
    if (server->generation != generation + 1) fail("the first call of a life", "a record", OSCORE_SHORT);
}

/* All lives of a context. The client goes on over those of the server. */
static void try_context(const oscore_context *serving, const oscore_context *asking, const char *which, long round) {
    static const char *const LIVES[] = {"fresh", "challenging", "going on"};
    static oscore_peer server, client;
    memset(pending, 0, sizeof pending), pending_count = 0;
    need("a client", OSCORE_DONE, oscore_peer_begin_first(&client, asking, 32, LIFE_MS));
    for (int how = FIRST; how <= GOING_ON; how++) {
        snprintf(where, sizeof where, "%s, round %ld, %s", which, round, LIVES[how]);
        begin(&server, serving, (life)how);
        live(&server, &client, (life)how);
    }
}

int main(int count, char **words) {
    long rounds = count > 1 ? atol(words[1]) : 2000;
    chance = (count > 2 ? strtoull(words[2], NULL, 10) : 7) * 2 + 1;
    for (int at = 0; at < CONTEXTS * CIPHERS; at++) {
        int context = at / CIPHERS, cipher = at % CIPHERS;
        char which[32];
        snprintf(which, sizeof which, "context %d%s", context, cipher == 1 ? " by tables" : "");
        oscore_context client = OSCORE_ZERO, server = OSCORE_ZERO;
        derive(&client, NAMES[context].client, NAMES[context].server, NAMES[context].id_context, cipher == 1);
        derive(&server, NAMES[context].server, NAMES[context].client, NAMES[context].id_context, cipher == 1);
        for (long round = 0; round < rounds; round++) try_context(&server, &client, which, round);
    }
    printf("forged: %ld datagrams of high numbers refused, by both ciphers under %d contexts, and each exchange between them went on\n",
           refused, CONTEXTS);
    return 0;
}

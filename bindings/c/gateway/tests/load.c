/* Many clients in one process: each seals requests by the library, over a network that this program spoils, and looks at each reply.

       load LINES PORT [NAME=VALUE ..]

   requests=N, or seconds=S with no loss; outstanding=64; next=0, each client's first number; of a hundred datagrams lose=0 are lost, both
   ways, double=0 come twice, late=0 come late, and behind replay=0 one of before comes again; of a hundred requests own=0 ask for a reply
   with a Partial IV of its own, long=0 have a text of 100 bytes, non=0 are NON, and observe=0 register an observation, which the built-in
   application refuses; keep=FILE keeps what was sent, again=FILE sends that first; results=FILE says what each context came to; seed=1.

   Each client is a peer, whose records are saved nowhere: no other life begins behind them.

   The status is 1 where a reply is wrong: its text isn't that of its request, or it says of two requests that each was, say, the third. */
#include "lines.h"
#include "../bytes.h"
#include <arpa/inet.h>
#include <poll.h>
#include <sys/socket.h>
#include <time.h>
#include <unistd.h>

enum { SLOTS = 512, LATE_ROOM = 128, OLD_ROOM = 2048, TRIES = 7, WAIT_MS = 500, DATAGRAM = 256, TEXT_ROOM = 128, LONG_TEXT = 100 };
enum { CON = 0, NON = 1, GET = 1, PUT = 3, CHANGED = 68, NOT_ALLOWED = 133, OBSERVE = 6, URI_PATH = 11, ECHO = 252, UNAUTHORIZED = 129 };
enum { PLACES = 8, OPTIONS = 8, PENDING_MS = 600000 };
enum { REQUESTS, SECONDS_OF_LOAD, OUTSTANDING, NEXT, LOSE, DOUBLE, LATE, REPLAY, OWN, LONG, NON_SHARE, OBSERVE_SHARE, SEED, NUMBERS };

/* A peer that asks, and its requests that wait. */
typedef struct client {
    oscore_peer peer;
    oscore_pending pending[PLACES];
    oscore_size pending_count;
} client;

typedef struct sent {
    uint8_t bytes[DATAGRAM];
    size_t len;
} sent;

/* A request that waits for its reply. */
typedef struct slot {
    bool used, observes;
    uint32_t client;
    uint8_t token[8];
    uint64_t number, last_ms, first_us;
    int tries;
    char text[TEXT_ROOM];
    sent datagram;
} slot;

/* What a client came to: so many requests answered, challenged and given up; and of which counts a reply spoke. */
typedef struct tally {
    uint64_t answered, challenged, lost, counts;
    uint8_t key[48];
    size_t key_len;
} tally;

typedef struct load {
    uint64_t number[NUMBERS];
    const char *keep, *again, *results;
    FILE *kept;
    int udp;
    size_t clients;
    client *client;
    tally *tally;
    slot slots[SLOTS];
    sent late[LATE_ROOM], old[OLD_ROOM];
    size_t late_count, old_count;
    uint64_t random, serial, begun, sent, answered, challenged, lost, passed_over, wrong, waited_us;
} load;

static const char *const NAMES[NUMBERS] = {"requests", "seconds", "outstanding", "next", "lose", "double", "late", "replay", "own", "long", "non",
                                           "observe", "seed"};

static _Noreturn void stop(const char *why) {
    fprintf(stderr, "load: %s\n", why);
    exit(2);
}

static uint64_t now_us(void) {
    struct timespec now;
    if (clock_gettime(CLOCK_MONOTONIC, &now)) stop("no clock");
    return (uint64_t)now.tv_sec * 1000000 + (uint64_t)now.tv_nsec / 1000;
}

static uint64_t drawn(load *l) {
    l->random = l->random * 6364136223846793005u + 1442695040888963407u;
    return l->random >> 33;
}

static bool chance(load *l, int percent) {
    return drawn(l) % 100 < l->number[percent];
}

static void put_out(load *l, const sent *datagram) {
    l->sent++;
    if (l->kept && (fputc((int)datagram->len, l->kept) == EOF || fwrite(datagram->bytes, 1, datagram->len, l->kept) != datagram->len))
        stop("not kept");
    if (send(l->udp, datagram->bytes, datagram->len, 0) < 0) l->passed_over++; /* as if the network had lost it */
}

static void spoil_and_send(load *l, slot *of) {
    of->last_ms = now_us() / 1000;
    if (l->late_count < LATE_ROOM && chance(l, LATE)) l->late[l->late_count++] = of->datagram;
    else if (!chance(l, LOSE)) put_out(l, &of->datagram);
    if (chance(l, DOUBLE)) put_out(l, &of->datagram);
    l->old[l->old_count++ % OLD_ROOM] = of->datagram;
    if (chance(l, REPLAY)) put_out(l, &l->old[drawn(l) % (l->old_count < OLD_ROOM ? l->old_count : OLD_ROOM)]);
}

static oscore_status request(client *by, const uint8_t *plain, size_t len, sent *to) {
    oscore_peer_record record = OSCORE_ZERO;
    oscore_status status;
    size_t detail;
    do status = oscore_peer_request(&by->peer, by->pending, PLACES, &by->pending_count, now_us() / 1000, plain, len, to->bytes, DATAGRAM, &to->len,
                                    &record, &detail);
    while (status == OSCORE_SAVE_FIRST && oscore_peer_saved(&by->peer, &record) == OSCORE_DONE);
    return status;
}

/* Writes the plain message of a slot's request, and says how long it is. */
static size_t write_plain(load *l, const slot *of, const char *text, const oscore_option *echo, uint8_t plain[DATAGRAM]) {
    oscore_option options[3] = OSCORE_ZERO;
    size_t count = 0, len, detail;
    if (of->observes) options[count++].number = OBSERVE;
    options[count++] = (oscore_option){URI_PATH, (const uint8_t *)"m", 1};
    if (echo) options[count++] = *echo;
    if (oscore_write_message(chance(l, NON_SHARE) ? NON : CON, of->observes ? GET : PUT, (uint16_t)l->serial, of->token, sizeof of->token, options,
                             count, (const uint8_t *)text, of->observes ? 0 : strlen(text), plain, DATAGRAM, &len, &detail))
        stop("not written");
    return len;
}

/* Seals a request in a free slot; false where its client has eight pending. */
static bool ask(load *l, slot *of, uint32_t by, const char *text, const oscore_option *echo) {
    uint8_t plain[DATAGRAM];
    cursor at = {of->token};
    put_number(&at, (uint64_t)(of - l->slots), 2);
    put_number(&at, ++l->serial, 6);
    size_t plain_len = write_plain(l, of, text, echo, plain);
    of->number = l->client[by].peer.server.context.next;
    if (request(&l->client[by], plain, plain_len, &of->datagram) != OSCORE_DONE) return false;
    if (of->text != text) memcpy(of->text, text, strlen(text) + 1);
    of->used = true;
    of->client = by;
    of->tries = 1;
    spoil_and_send(l, of);
    return true;
}

static bool ask_new(load *l, slot *of) {
    char text[TEXT_ROOM];
    uint32_t by = (uint32_t)(drawn(l) % l->clients);
    of->first_us = now_us();
    of->observes = chance(l, OBSERVE_SHARE);
    int width = chance(l, LONG) ? LONG_TEXT : 1;
    int len = snprintf(text, sizeof text, "%s%0*llu", chance(l, OWN) ? "own" : "", width, (unsigned long long)l->serial + 1);
    if (len < 0 || (size_t)len >= sizeof text || !ask(l, of, by, text, NULL)) return false;
    l->begun++;
    return true;
}

/* A reply says a count, a space, and the request's text; the count is 0 where the application doesn't count. One to a registration says nothing. */
static bool read_reply(const slot *of, const oscore_opened *reply, unsigned long long *count) {
    size_t digits = 0, text_len = strlen(of->text);
    *count = 0;
    if (of->observes) return reply->code == NOT_ALLOWED && reply->payload_len == 0;
    for (; digits < reply->payload_len && reply->payload[digits] >= '0' && reply->payload[digits] <= '9'; digits++)
        *count = *count * 10 + (unsigned long long)(reply->payload[digits] - '0');
    return reply->code == CHANGED && digits > 0 && reply->payload_len == digits + 1 + text_len && reply->payload[digits] == ' '
        && !memcmp(reply->payload + digits + 1, of->text, text_len);
}

/* No two replies say one count. */
static void look(load *l, slot *of, const oscore_opened *reply) {
    unsigned long long count;
    bool good = read_reply(of, reply, &count);
    tally *tally = &l->tally[of->client];
    if (count > 0 && count <= 64) {
        good = good && !(tally->counts >> (count - 1) & 1);
        tally->counts |= 1ull << (count - 1);
    }
    if (!good) {
        l->wrong++;
        fprintf(stderr, "load: wrong reply to %s: code %u, %.*s\n", of->text, reply->code, (int)reply->payload_len, (const char *)reply->payload);
    }
    tally->answered++;
    l->answered++;
    l->waited_us += now_us() - of->first_us;
}

static slot *slot_of(load *l, const uint8_t *bytes, size_t len) {
    if (len < 12 || (bytes[0] & 15) != 8) return NULL;
    reader from = {bytes + 4};
    uint64_t place = get_number(&from, 2);
    slot *of = place < SLOTS ? &l->slots[place] : NULL;
    return of && of->used && !memcmp(of->token, bytes + 4, 8) ? of : NULL;
}

/* What isn't the reply is passed over, and the request stays pending. */
static void take(load *l, uint8_t *bytes, size_t len) {
    oscore_option options[OPTIONS] = OSCORE_ZERO;
    oscore_opened reply = OSCORE_ZERO;
    uint64_t number;
    size_t detail;
    slot *of = slot_of(l, bytes, len);
    if (!of || chance(l, LOSE)) return;
    client *by = &l->client[of->client];
    if (oscore_peer_hear(&by->peer, by->pending, PLACES, &by->pending_count, now_us() / 1000, bytes, len, options, OPTIONS, &reply, &number,
                         &detail)) {
        l->passed_over++;
        return;
    }
    if (number != of->number) stop("the reply to another request");
    of->used = false;
    const oscore_option *echo = NULL;
    for (size_t i = 0; i < reply.option_count; i++)
        if (options[i].number == ECHO) echo = &options[i];
    if (reply.code != UNAUTHORIZED || !echo) {
        look(l, of, &reply);
        return;
    }
    l->challenged++;
    l->tally[of->client].challenged++;
    if (!ask(l, of, of->client, of->text, echo)) stop("not asked again");
}

/* CoAP's retransmission, of the same bytes, but sooner; in the end the request is given up. */
static void retransmit(load *l) {
    uint64_t ms = now_us() / 1000;
    for (size_t i = 0; i < SLOTS; i++) {
        slot *of = &l->slots[i];
        if (!of->used || ms - of->last_ms < WAIT_MS) continue;
        if (of->tries++ < TRIES) {
            spoil_and_send(l, of);
        } else {
            client *by = &l->client[of->client];
            if (oscore_peer_forget(&by->peer, by->pending, PLACES, &by->pending_count, of->token, 8)) stop("not pending");
            of->used = false;
            l->tally[of->client].lost++;
            l->lost++;
        }
    }
}

/* Late datagrams come at last, in any order. */
static void release_late(load *l, bool all) {
    while (l->late_count > 0 && (all || drawn(l) % 100 < 3)) {
        size_t i = drawn(l) % l->late_count;
        put_out(l, &l->late[i]);
        l->late[i] = l->late[--l->late_count];
    }
}

static void receive_all(load *l) {
    struct pollfd readable = {.fd = l->udp, .events = POLLIN};
    uint8_t bytes[DATAGRAM * 2];
    if (poll(&readable, 1, 5) != 1) return;
    for (ssize_t len; (len = recv(l->udp, bytes, sizeof bytes, MSG_DONTWAIT)) > 0;) take(l, bytes, (size_t)len);
}

static void run(load *l) {
    uint64_t begun = now_us(), until = l->number[SECONDS_OF_LOAD] ? begun + l->number[SECONDS_OF_LOAD] * 1000000 : UINT64_MAX, looked = 0;
    for (;;) {
        bool going = now_us() < until && l->begun < l->number[REQUESTS];
        size_t busy = 0;
        for (size_t i = 0; i < l->number[OUTSTANDING]; i++) {
            slot *of = &l->slots[i];
            if (!of->used && going && l->begun < l->number[REQUESTS]) ask_new(l, of);
            busy += of->used;
        }
        release_late(l, !going);
        if (!going && (busy == 0 || l->number[SECONDS_OF_LOAD])) break;
        receive_all(l);
        if (now_us() - looked < 20000) continue;
        looked = now_us();
        retransmit(l);
    }
    double seconds = (double)(now_us() - begun) / 1e6;
    printf("load: %zu contexts, %llu requests in %llu datagrams: answered %llu, challenged %llu, lost %llu, passed over %llu, wrong %llu; "
           "%.0f answered a second, mean %.2f ms\n",
           l->clients, (unsigned long long)l->begun, (unsigned long long)l->sent, (unsigned long long)l->answered, (unsigned long long)l->challenged,
           (unsigned long long)l->lost, (unsigned long long)l->passed_over, (unsigned long long)l->wrong, (double)l->answered / seconds,
           (double)l->waited_us / 1000 / (double)(l->answered ? l->answered : 1));
}

/* What was kept is sent as by somebody who overheard it. */
static void send_again(load *l) {
    FILE *from = open_lines(l->again);
    sent datagram;
    for (int len; (len = fgetc(from)) != EOF;) {
        struct pollfd readable = {.fd = l->udp, .events = POLLIN};
        datagram.len = (size_t)len;
        if (fread(datagram.bytes, 1, datagram.len, from) != datagram.len) stop("what was kept is cut");
        put_out(l, &datagram);
        (void)poll(&readable, 1, 1); /* so that no more come at once than the socket has room for */
        for (uint8_t bytes[DATAGRAM * 2]; recv(l->udp, bytes, sizeof bytes, MSG_DONTWAIT) > 0;) l->passed_over++;
    }
    if (fclose(from)) stop("what was kept");
}

static void write_results(const load *l) {
    FILE *to = fopen(l->results, "w");
    if (!to) stop("no results");
    for (size_t i = 0; i < l->clients; i++) {
        const tally *of = &l->tally[i];
        if (of->answered + of->challenged + of->lost == 0) continue;
        for (size_t j = 0; j < of->key_len; j++) fprintf(to, "%02x", of->key[j]);
        fprintf(to, " %llu %llu\n", (unsigned long long)of->answered, (unsigned long long)(of->challenged + of->lost));
    }
    if (fclose(to)) stop("no results");
}

/* Begins a client at a number. What it received before doesn't matter, since it only asks. */
static oscore_status begin_client(client *to, const context_line *line, uint64_t next) {
    oscore_context context = OSCORE_ZERO;
    oscore_peer_record behind = {.generation = 1, .sender = next};
    memset(to, 0, sizeof *to);
    oscore_status status = derive_end(line, true, &context);
    if (status == OSCORE_DONE) status = oscore_peer_name(&context, &behind.name);
    if (status != OSCORE_DONE) return status;
    return next > 0 ? oscore_peer_begin_again(&to->peer, &context, &behind, 1, PENDING_MS)
                    : oscore_peer_begin_first(&to->peer, &context, 1, PENDING_MS);
}

static void begin_tally(tally *to, const context_line *line) {
    *to = (tally){.key_len = 0};
    cursor at = {to->key};
    put_number(&at, line->client_len, 1);
    put_bytes(&at, line->client, line->client_len);
    if (line->id_context_len > 0) put_number(&at, line->id_context_len, 1), put_bytes(&at, line->id_context, line->id_context_len);
    to->key_len = (size_t)(at.at - to->key);
}

static void begin_clients(load *l, const char *file) {
    FILE *lines = open_lines(file);
    context_line line;
    for (size_t room = 0; read_context(lines, &line); l->clients++) {
        if (l->clients == room) {
            room = room ? 2 * room : 1024;
            l->client = realloc(l->client, room * sizeof *l->client);
            l->tally = realloc(l->tally, room * sizeof *l->tally);
            if (!l->client || !l->tally) stop("no memory");
        }
        if (begin_client(&l->client[l->clients], &line, l->number[NEXT])) stop("no client");
        begin_tally(&l->tally[l->clients], &line);
    }
    if (fclose(lines) || l->clients == 0) stop("no lines");
}

static void read_word(load *l, const char *word) {
    const char *equals = strchr(word, '=');
    if (!equals) stop(word);
    size_t len = (size_t)(equals - word);
    for (int i = 0; i < NUMBERS; i++)
        if (strlen(NAMES[i]) == len && !strncmp(NAMES[i], word, len)) {
            l->number[i] = strtoull(equals + 1, NULL, 10);
            return;
        }
    if (!strncmp(word, "keep=", 5)) l->keep = equals + 1;
    else if (!strncmp(word, "again=", 6)) l->again = equals + 1;
    else if (!strncmp(word, "results=", 8)) l->results = equals + 1;
    else stop(word);
}

static void open_udp(load *l, const char *port) {
    struct sockaddr_in to = {.sin_family = AF_INET, .sin_port = htons((uint16_t)atoi(port)), .sin_addr.s_addr = htonl(INADDR_LOOPBACK)};
    int room = 8 << 20;
    l->udp = socket(AF_INET, SOCK_DGRAM, 0);
    if (l->udp < 0 || connect(l->udp, (struct sockaddr *)&to, sizeof to)) stop("no such port");
    if (setsockopt(l->udp, SOL_SOCKET, SO_RCVBUF, &room, sizeof room)) stop("no room for datagrams");
}

int main(int count, char **words) {
    static load l = {.number = {[REQUESTS] = UINT64_MAX, [OUTSTANDING] = 64, [SEED] = 1}};
    if (count < 3) stop("load LINES PORT [NAME=VALUE ..]");
    for (int i = 3; i < count; i++) read_word(&l, words[i]);
    if (l.number[OUTSTANDING] > SLOTS) stop("outstanding");
    l.random = l.number[SEED];
    l.serial = l.number[NEXT] << 20; /* no token of one run is one of another */
    begin_clients(&l, words[1]);
    open_udp(&l, words[2]);
    if (l.again) send_again(&l);
    if (l.keep && !(l.kept = fopen(l.keep, "ab"))) stop("nothing is kept");
    run(&l);
    if (l.kept && fclose(l.kept)) stop("not kept");
    if (l.results) write_results(&l);
    free(l.client);
    free(l.tally);
    return l.wrong > 0;
}

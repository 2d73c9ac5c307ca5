/* A server over UDP that says back what each request was: its response holds the request's kind, its code and the length of its token, as
   "CON 0.03 token 8 ", and behind that the request's payload. A request to /long gets so many bytes as it says. Each second response has
   a Partial IV of its own.

       mirror (SECRET SALT ID_CONTEXT OWN THEIR)..

   For each context, eight at most, five words in hex, "-" where there are no bytes, "none" for no ID Context. Each has a peer. No context was
   in use before, and none is used again: so no record is kept. It listens on 127.0.0.1 at a port that the system picks and its first line
   says, prints what it refuses, and ends when standard input ends. */
#define _DEFAULT_SOURCE
#include "oscore.h"
#include <arpa/inet.h>
#include <poll.h>
#include <stdio.h>
#include <stdlib.h>
#include <string.h>
#include <sys/random.h>
#include <sys/socket.h>
#include <time.h>
#include <unistd.h>

enum { GET = 1, DELETE = 4, FETCH = 5, CONTENT = 69, DELETED = 66, CHANGED = 68, URI_PATH = 11, MOST_DATAGRAM = 1500, MOST_WORD = 64,
    MOST_PEERS = 8, LIFE_MS = 60000 };

static oscore_peer peers[MOST_PEERS];
static size_t peer_count;

static _Noreturn void stop(const char *why) {
    puts(why);
    exit(1);
}

static uint64_t milliseconds(void) {
    struct timespec now;
    clock_gettime(CLOCK_MONOTONIC, &now);
    return (uint64_t)now.tv_sec * 1000 + (uint64_t)now.tv_nsec / 1000000;
}

static void draw(void *random, size_t len) {
    if (getrandom(random, len, 0) != (ssize_t)len) stop("no random bytes");
}

static size_t hex(const char *word, uint8_t bytes[MOST_WORD]) {
    size_t len = strcmp(word, "-") && strcmp(word, "none") ? strlen(word) / 2 : 0;
    unsigned byte;
    if (len > MOST_WORD) stop("a word is too long");
    for (size_t i = 0; i < len; i++, bytes[i - 1] = (uint8_t)byte)
        if (sscanf(word + 2 * i, "%2x", &byte) != 1) stop("bad hex");
    return len;
}

static void add(char **words) {
    uint8_t bytes[5][MOST_WORD];
    size_t lens[5];
    oscore_context context = OSCORE_ZERO;
    for (int i = 0; i < 5; i++) lens[i] = hex(words[i], bytes[i]);
    oscore_status status = oscore_derive(&context, bytes[0], lens[0], bytes[1], lens[1], strcmp(words[2], "none") != 0, bytes[2], lens[2],
                                         bytes[3], lens[3], bytes[4], lens[4], false, false, false);
    if (status || peer_count == MOST_PEERS || !oscore_peer_fits(peers, peer_count, &context)) stop("no context");
    if (oscore_peer_begin_first(&peers[peer_count++], &context, 32, LIFE_MS)) stop("no peer");
}

static uint8_t code_of_reply(uint8_t code) {
    return code == GET || code == FETCH ? CONTENT : code == DELETE ? DELETED : CHANGED;
}

/* To /long, so many bytes as the payload says in decimal digits. */
static size_t long_payload(const oscore_opened *request, const oscore_option *options, uint8_t *at) {
    char digits[8] = {0};
    if (request->option_count == 0 || options[0].number != URI_PATH || options[0].value_len != 4 || memcmp(options[0].value, "long", 4))
        return 0;
    if (request->payload_len >= sizeof digits) stop("too many digits");
    if (request->payload_len > 0) memcpy(digits, request->payload, request->payload_len);
    size_t len = strtoul(digits, NULL, 10);
    if (len > MOST_DATAGRAM - 5) stop("too long a payload was asked for");
    memset(at, 'x', len);
    return len;
}

/* A plain reply: a head, of which the library takes the code alone, and the payload. */
static size_t mirrored(const oscore_opened *request, const oscore_option *options, uint8_t plain[MOST_DATAGRAM]) {
    size_t long_len = long_payload(request, options, plain + 5);
    memcpy(plain, (uint8_t[]){0x60, code_of_reply(request->code), 0, 0, 0xff}, 5);
    if (long_len > 0) return 5 + long_len;
    size_t len = 5 + (size_t)snprintf((char *)plain + 5, 32, "%s %d.%02d token %d ", request->kind == 0 ? "CON" : "NON", request->code >> 5,
                                      request->code & 31, request->token_len);
    if (len + request->payload_len > MOST_DATAGRAM) stop("a payload is too long");
    if (request->payload_len > 0) memcpy(plain + len, request->payload, request->payload_len);
    return len + request->payload_len;
}

/* The peer that a request names, else the first: by its take a datagram that names none gets what has to go back. */
static oscore_peer *peer_of(const uint8_t *datagram, size_t len) {
    size_t index, detail;
    return &peers[oscore_peer_find(peers, peer_count, datagram, len, &index, &detail) ? 0 : index];
}

/* A record that a call asks for counts as saved. Answers whether the call is to be made again. */
static bool saves(oscore_peer *peer, oscore_peer_record *record, oscore_status status) {
    if (status != OSCORE_SAVE_FIRST) return false;
    if (oscore_peer_saved_nowhere(peer, record)) stop("not the record that was asked for");
    return true;
}

/* Answers the length of the reply. */
static size_t reply_to(oscore_peer *peer, oscore_ticket *ticket, uint16_t mid, const uint8_t *plain, size_t plain_len, uint8_t *out,
                       size_t room) {
    static bool own;
    oscore_peer_record record;
    oscore_status status;
    size_t out_len, detail;
    own = !own;
    do status = oscore_peer_reply(peer, ticket, own, mid, plain, plain_len, out, room, &out_len, &record, &detail);
    while (saves(peer, &record, status));
    if (status) stop("no reply");
    return out_len;
}

static void print(oscore_status status) {
    char name[24];
    oscore_status_name(status, name);
    puts(name);
    fflush(stdout);
}

static void serve(int udp) {
    static uint8_t datagram[MOST_DATAGRAM], plain[MOST_DATAGRAM], out[OSCORE_ROOM(MOST_DATAGRAM)];
    struct sockaddr_in from;
    socklen_t from_len = sizeof from;
    ssize_t came = recvfrom(udp, datagram, sizeof datagram, 0, (struct sockaddr *)&from, &from_len);
    if (came < 0) stop("no datagram could be read");
    oscore_option options[16] = OSCORE_ZERO;
    oscore_opened request = OSCORE_ZERO;
    oscore_ticket ticket = OSCORE_ZERO;
    oscore_peer_record record;
    oscore_status status;
    size_t out_len, detail, len = (size_t)came;
    oscore_peer *peer = peer_of(datagram, len);
    uint16_t mid;
    draw(&mid, sizeof mid);
    do status = oscore_peer_take(peer, milliseconds(), mid, datagram, len, options, 16, &request, &ticket, out, &out_len, &record, &detail);
    while (saves(peer, &record, status));
    if (status != OSCORE_DONE) print(status);
    else out_len = reply_to(peer, &ticket, mid, plain, mirrored(&request, options, plain), out, sizeof out);
    if (out_len > 0) sendto(udp, out, out_len, 0, (struct sockaddr *)&from, from_len);
}

int main(int count, char **words) {
    struct sockaddr_in at = {.sin_family = AF_INET, .sin_addr.s_addr = htonl(INADDR_LOOPBACK)};
    socklen_t at_len = sizeof at;
    int udp = socket(AF_INET, SOCK_DGRAM, 0);
    if (count < 6 || count % 5 != 1) stop("mirror (SECRET SALT ID_CONTEXT OWN THEIR)..");
    for (int i = 1; i < count; i += 5) add(words + i);
    if (udp < 0 || bind(udp, (struct sockaddr *)&at, at_len) || getsockname(udp, (struct sockaddr *)&at, &at_len)) stop("no port");
    printf("port %u\n", ntohs(at.sin_port));
    fflush(stdout);
    for (;;) {
        struct pollfd readable[] = {{.fd = udp, .events = POLLIN}, {.fd = STDIN_FILENO, .events = POLLIN}};
        if (poll(readable, 2, -1) < 0) stop("no datagram could be waited for");
        if (readable[0].revents) serve(udp);
        if (readable[1].revents) return 0;
    }
}

/* A client that asks one request behind the other, so many milliseconds long: PUT of twelve bytes, NON, to 127.0.0.1. A server that asks
   for an Echo value gets it. It prints how many requests a second were answered, and its next number.

       asking PORT PATH NUMBER MILLISECONDS

   Its context is the first of bench.py. NUMBER is one that no run before it used, as the one that it printed last: so no record is kept. */
#define _DEFAULT_SOURCE
#include "oscore.h"
#include <arpa/inet.h>
#include <poll.h>
#include <stdio.h>
#include <stdlib.h>
#include <string.h>
#include <sys/socket.h>
#include <time.h>

enum { NON = 1, PUT = 3, UNAUTHORIZED = 129, URI_PATH = 11, CONTENT_FORMAT = 12, ECHO = 252, ECHO_LEN = 8, GIVEN_UP_MS = 5000, MOST = 256,
    LIFE_MS = 60000 };

static const uint8_t SECRET[] = {1, 2, 3, 4, 5, 6, 7, 8, 9, 10, 11, 12, 13, 14, 15, 16}, OWN[] = {2}, THEIR[] = {1};
static oscore_peer client;
/* It asks again only when it has its response. */
static oscore_pending pending[1];
static size_t pending_count;

static _Noreturn void stop(const char *why) {
    fprintf(stderr, "asking: %s\n", why);
    exit(1);
}

static double seconds(void) {
    struct timespec now;
    clock_gettime(CLOCK_MONOTONIC, &now);
    return (double)now.tv_sec + (double)now.tv_nsec / 1e9;
}

/* The plain request, with the Echo value where there is one. */
static size_t plain_put(const char *path, const uint8_t *echo, uint8_t plain[MOST]) {
    uint16_t id = (uint16_t)client.server.context.next;
    size_t path_len = strlen(path), len = 6;
    if (path_len > 12) stop("a path is too long");
    memcpy(plain, (uint8_t[]){0x40 | NON << 4 | 2, PUT, (uint8_t)(id >> 8), (uint8_t)id, (uint8_t)(id >> 8), (uint8_t)id}, 6);
    plain[len++] = (uint8_t)(URI_PATH << 4 | path_len);
    memcpy(plain + len, path, path_len), len += path_len;
    plain[len++] = (CONTENT_FORMAT - URI_PATH) << 4;
    if (echo) {
        plain[len++] = 0xd0 | ECHO_LEN, plain[len++] = ECHO - CONTENT_FORMAT - 13;
        memcpy(plain + len, echo, ECHO_LEN), len += ECHO_LEN;
    }
    memcpy(plain + len, "\xffHello World!", 13);
    return len + 13;
}

/* Seals a request. A record that has to be saved first counts as saved. */
static size_t seal(const uint8_t *plain, size_t plain_len, uint8_t *out, size_t room) {
    oscore_peer_record record;
    oscore_status status;
    size_t len, detail;
    while ((status = oscore_peer_request(&client, pending, OSCORE_COUNT(pending), &pending_count, 0, plain, plain_len, out, room, &len, &record,
                                         &detail)) == OSCORE_SAVE_FIRST)
        if (oscore_peer_saved(&client, &record)) stop("not the record that was asked for");
    if (status) stop("not sealed");
    return len;
}

/* Asks once, and waits for the response. Answers its Echo value, where it is a challenge. */
static const uint8_t *ask(int udp, const char *path, const uint8_t *echo) {
    static uint8_t plain[MOST], datagram[OSCORE_ROOM(MOST)];
    static oscore_option options[8];
    oscore_opened response = OSCORE_ZERO;
    size_t detail;
    uint64_t number;
    size_t len = seal(plain, plain_put(path, echo, plain), datagram, sizeof datagram);
    if (send(udp, datagram, len, 0) < 0) stop("not sent");
    for (;;) {
        struct pollfd readable = {.fd = udp, .events = POLLIN};
        if (poll(&readable, 1, GIVEN_UP_MS) != 1) stop("no response");
        ssize_t came = recv(udp, datagram, sizeof datagram, 0);
        if (came < 0) stop("no response could be read");
        if (!oscore_peer_hear(&client, pending, OSCORE_COUNT(pending), &pending_count, 0, datagram, (size_t)came, options, 8, &response, &number,
                              &detail))
            break;
    }
    for (size_t i = 0; response.code == UNAUTHORIZED && i < response.option_count; i++)
        if (options[i].number == ECHO && options[i].value_len == ECHO_LEN) return options[i].value;
    if (response.code >> 5 != 2) stop("no success");
    return NULL;
}

/* Begins at a number, behind a record that has it. */
static void begin(const char *number) {
    oscore_context context = OSCORE_ZERO;
    oscore_peer_record record = {.generation = 1, .sender = strtoull(number, NULL, 10)};
    if (oscore_derive(&context, SECRET, sizeof SECRET, NULL, 0, false, NULL, 0, OWN, 1, THEIR, 1, false, false, false)) stop("no context");
    if (oscore_peer_name(&context, &record.name) || oscore_peer_begin_again(&client, &context, &record, 32, LIFE_MS)) stop("no client");
}

int main(int count, char **words) {
    struct sockaddr_in server = {.sin_family = AF_INET, .sin_addr.s_addr = htonl(INADDR_LOOPBACK)};
    int udp = socket(AF_INET, SOCK_DGRAM, 0);
    if (count != 5) stop("asking PORT PATH NUMBER MILLISECONDS");
    server.sin_port = htons((uint16_t)atoi(words[1]));
    if (udp < 0 || connect(udp, (struct sockaddr *)&server, sizeof server)) stop("no such port");
    begin(words[3]);
    const uint8_t *echo = ask(udp, words[2], NULL);
    uint8_t value[ECHO_LEN];
    if (echo) memcpy(value, echo, ECHO_LEN);
    if (echo && ask(udp, words[2], value)) stop("a second challenge");
    double began = seconds(), until = began + atof(words[4]) / 1000;
    long answered = 0;
    while (seconds() < until) {
        if (ask(udp, words[2], NULL)) stop("a challenge in between");
        answered++;
    }
    printf("%.1f %llu\n", (double)answered / (seconds() - began), (unsigned long long)client.server.context.next);
    return 0;
}

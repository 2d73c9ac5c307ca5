/* A plain CoAP server behind the gateway, which answers each request with a 0, a space and the request's payload. It looks whether a payload
   comes a second time, as another request, until SIGTERM; then it says what it saw.

       application [echo]

   With `echo` each answer has the option Echo. Its first line is its port. Of a hundred requests it passes over the first copy of one, as if it
   had been lost, and answers ten by a separate response. The status is 1 where a payload came twice. */
#include "../../oscore.h"
#include "../bytes.h"
#include <arpa/inet.h>
#include <errno.h>
#include <signal.h>
#include <stdio.h>
#include <stdlib.h>
#include <string.h>
#include <sys/socket.h>
#include <unistd.h>

enum { DATAGRAM = 1500, ANSWER_MOST = 600, SEEN = 1 << 17, RECENT = 4096, CHANGED = 68, CON = 0, ACK = 2, HEAD = 4, LOCATION_PATH = 8, ECHO = 252 };

/* What was answered to a message, for when it comes again. */
typedef struct answer {
    uint64_t hash;
    size_t len;
    uint8_t bytes[ANSWER_MOST];
} answer;

typedef struct application {
    int udp;
    struct sockaddr_in from;
    socklen_t from_len;
    bool echoes;
    uint64_t seen[SEEN], requests, again, twice;
    answer recent[RECENT];
} application;

static volatile sig_atomic_t ended;

static void end(int signal) {
    (void)signal;
    ended = 1;
}

static void say(application *a, const uint8_t *bytes, size_t len) {
    if (sendto(a->udp, bytes, len, 0, (struct sockaddr *)&a->from, a->from_len) < 0) perror("application");
}

/* Whether a payload came before. */
static bool seen_before(application *a, const uint8_t *payload, size_t len) {
    uint64_t hash = hash_bytes(HASH_BEGIN, payload, len);
    size_t at = hash % SEEN;
    for (; a->seen[at]; at = (at + 1) % SEEN)
        if (a->seen[at] == hash) return true;
    a->seen[at] = hash;
    return false;
}

static const uint8_t *payload_of(const uint8_t *bytes, size_t len) {
    const uint8_t *marker = memchr(bytes + HEAD + (bytes[0] & 15), 0xff, len - HEAD - (bytes[0] & 15));
    return marker ? marker + 1 : bytes + len;
}

/* Before Echo stands an option whose length takes two bytes more, and whose value looks like a payload's marker. Echo's delta takes one more. */
static uint8_t place[300];
static const oscore_option ECHOING[] = {{LOCATION_PATH, place, sizeof place}, {ECHO, place, 4}};

static void obey(application *a, const uint8_t *bytes, size_t len, answer *kept) {
    const uint8_t *payload = payload_of(bytes, len);
    size_t payload_len = (size_t)(bytes + len - payload), token_len = bytes[0] & 15, at = HEAD + token_len, detail;
    uint8_t text[200] = "0 ";
    bool separate = ++a->requests % 10 == 0;
    if (payload_len > sizeof text - 2 || at > len) return;
    a->twice += seen_before(a, payload, payload_len);
    memcpy(text + 2, payload, payload_len);
    uint16_t message_id = (uint16_t)(separate ? a->requests : (uint64_t)(bytes[2] << 8 | bytes[3]));
    const uint8_t acknowledged[HEAD] = {0x60, 0, bytes[2], bytes[3]};
    if (separate) say(a, acknowledged, sizeof acknowledged);
    if (oscore_write_message(separate ? CON : ACK, CHANGED, message_id, bytes + HEAD, token_len, ECHOING, a->echoes ? 2 : 0, text, payload_len + 2,
                             kept->bytes, sizeof kept->bytes, &kept->len, &detail))
        kept->len = 0;
    if (kept->len > 0) say(a, kept->bytes, kept->len);
}

static void take(application *a, const uint8_t *bytes, size_t len) {
    if (len < HEAD || bytes[0] >> 6 != 1 || (bytes[0] >> 4 & 3) != CON || bytes[1] == 0 || bytes[1] >= 64) return;
    uint64_t hash = hash_bytes(hash_bytes(HASH_BEGIN, (const uint8_t *)&a->from.sin_port, 2), bytes, len);
    answer *kept = &a->recent[hash % RECENT];
    if (kept->hash == hash && kept->len > 0) {
        a->again++;
        say(a, kept->bytes, kept->len);
        return;
    }
    bool passed_over = kept->hash != hash && hash % 100 == 0;
    *kept = (answer){.hash = hash};
    if (!passed_over) obey(a, bytes, len, kept);
}

int main(int count, char **words) {
    static application a;
    a.echoes = count == 2 && !strcmp(words[1], "echo");
    memset(place, 0xff, sizeof place);
    const struct sigaction handled = {.sa_handler = end};
    struct sockaddr_in own = {.sin_family = AF_INET, .sin_addr.s_addr = htonl(INADDR_LOOPBACK)};
    socklen_t own_len = sizeof own;
    a.udp = socket(AF_INET, SOCK_DGRAM, 0);
    if (a.udp < 0 || bind(a.udp, (struct sockaddr *)&own, own_len) || getsockname(a.udp, (struct sockaddr *)&own, &own_len)
        || sigaction(SIGTERM, &handled, NULL))
        return 2;
    printf("port %u\n", ntohs(own.sin_port));
    if (fflush(stdout)) return 2;
    while (!ended) {
        uint8_t bytes[DATAGRAM];
        a.from_len = sizeof a.from;
        ssize_t len = recvfrom(a.udp, bytes, sizeof bytes, 0, (struct sockaddr *)&a.from, &a.from_len);
        if (len >= 0) take(&a, bytes, (size_t)len);
        else if (errno != EINTR) return 2;
    }
    printf("application: obeyed %llu, the same message again %llu, another with the same payload %llu\n", (unsigned long long)a.requests,
           (unsigned long long)a.again, (unsigned long long)a.twice);
    return a.twice > 0;
}

/* A network between a key and its lock, or a reader and its sensor, that isn't as kind as 127.0.0.1 is, for run.sh.

       between PORT request|reply|separate|first|lost|late|twice|answer|again|reset

   It says at which port it listens, and hands datagrams on to PORT, and what comes from there back to whoever sent last. The first
   request is lost, or the first reply; or a reply comes as of a lock that is slow: an empty acknowledgment, and then the response in a
   confirmable message of its own (RFC 7252, 5.2.2), for OSCORE protects neither kind nor message ID. By the last seven words it says what a
   stranger sees of what comes from PORT, and there the first notification is lost; or of the confirmable messages the first is lost, or
   comes late, behind the second, or twice; or the first reply that is no notification is lost; or the first request comes twice; or the
   first confirmable message is answered by a reset, as a client would that lost what it knew. It ends where nothing came for ten
   seconds. */
#define _DEFAULT_SOURCE
#include <arpa/inet.h>
#include <poll.h>
#include <stdbool.h>
#include <stdint.h>
#include <stdio.h>
#include <stdlib.h>
#include <string.h>
#include <sys/socket.h>

static int front, back;
static struct sockaddr_in key;
static uint8_t datagram[1500], held[1500];
static size_t held_len;
static bool lose_request, lose_reply, separate, is_observed, lose_first, lose_next, hold_next, double_next, lose_answer, double_request, reset_next;
/* Of the response that comes by itself, and the key's acknowledgment of it. */
static const uint8_t OWN_ID[2] = {0xab, 0xcd}, ACKNOWLEDGED[4] = {0x60, 0, 0xab, 0xcd};

static _Noreturn void stop(const char *why) {
    puts(why);
    exit(1);
}

static struct sockaddr_in loopback(uint16_t port) {
    return (struct sockaddr_in){.sin_family = AF_INET, .sin_port = htons(port), .sin_addr.s_addr = htonl(INADDR_LOOPBACK)};
}

static void to_key(const uint8_t *bytes, size_t len) {
    sendto(front, bytes, len, 0, (struct sockaddr *)&key, sizeof key);
}

static void from_key(void) {
    socklen_t key_len = sizeof key;
    ssize_t len = recvfrom(front, datagram, sizeof datagram, 0, (struct sockaddr *)&key, &key_len);
    if (len == 4 && !memcmp(datagram, ACKNOWLEDGED, 4)) {
        puts("acknowledged");
        fflush(stdout);
    } else if (len >= 4 && !lose_request) {
        send(back, datagram, (size_t)len, 0);
        if (double_request) send(back, datagram, (size_t)len, 0);
    }
    lose_request = double_request = false;
}

/* What a stranger sees of what the sensor sends. Observe is the first option of a notification, behind the token. */
static void say(size_t len) {
    static const char *const KINDS[] = {"CON", "NON", "ACK", "RST"};
    size_t at = 4 + (datagram[0] & 15u);
    printf("%s %u.%02u", KINDS[datagram[0] >> 4 & 3], datagram[1] >> 5, datagram[1] & 31u);
    if (len > at && datagram[at] >> 4 == 6 && len > at + (datagram[at] & 15u)) {
        uint32_t value = 0;
        for (size_t i = 1; i <= (datagram[at] & 15u); i++) value = value << 8 | datagram[at + i];
        printf(", Observe %u", (unsigned)value);
    }
    puts("");
    fflush(stdout);
}

/* A confirmable message that is the first of its kind is lost, held, doubled or reset; what was held goes behind the next one. */
static void confirmable(size_t len) {
    if (reset_next) {
        const uint8_t reset[] = {0x70, 0, datagram[2], datagram[3]};
        send(back, reset, sizeof reset, 0);
        reset_next = false;
        return;
    }
    if (!lose_next && !hold_next) to_key(datagram, len);
    if (double_next) to_key(datagram, len);
    if (held_len > 0) to_key(held, held_len);
    held_len = hold_next ? len : 0;
    memcpy(held, datagram, held_len);
    lose_next = hold_next = double_next = false;
}

static void from_lock(void) {
    ssize_t len = recv(back, datagram, sizeof datagram, 0);
    if (len >= 4 && is_observed) say((size_t)len);
    if (len >= 4 && (datagram[0] & 0x30) == 0) {
        confirmable((size_t)len);
        return;
    }
    /* 2.05 is what a notification says outside, and 2.04 what any other response says (RFC 8613, 4.2). */
    if (lose_first && len >= 4 && datagram[1] == 69) {
        lose_first = false;
        return;
    }
    if (lose_answer && len >= 4 && datagram[1] == 68) {
        lose_answer = false;
        return;
    }
    if (len >= 4 && separate) {
        const uint8_t ack[] = {0x60, 0, datagram[2], datagram[3]};
        to_key(ack, sizeof ack);
        datagram[0] &= 0xcf;
        memcpy(datagram + 2, OWN_ID, 2);
    }
    if (len >= 4 && !lose_reply) to_key(datagram, (size_t)len);
    lose_reply = false;
}

int main(int count, char **words) {
    if (count != 3) stop("between PORT request|reply|separate|first|lost|late|twice|answer|again|reset");
    lose_request = !strcmp(words[2], "request"), lose_reply = !strcmp(words[2], "reply"), separate = !strcmp(words[2], "separate");
    lose_first = !strcmp(words[2], "first"), lose_next = !strcmp(words[2], "lost"), hold_next = !strcmp(words[2], "late");
    double_next = !strcmp(words[2], "twice"), lose_answer = !strcmp(words[2], "answer");
    double_request = !strcmp(words[2], "again"), reset_next = !strcmp(words[2], "reset");
    is_observed = lose_first || lose_next || hold_next || double_next || lose_answer || double_request || reset_next;
    struct sockaddr_in own = loopback(0), lock = loopback((uint16_t)atoi(words[1]));
    socklen_t own_len = sizeof own;
    front = socket(AF_INET, SOCK_DGRAM, 0), back = socket(AF_INET, SOCK_DGRAM, 0);
    if (front < 0 || bind(front, (struct sockaddr *)&own, own_len) || getsockname(front, (struct sockaddr *)&own, &own_len)) stop("no port");
    if (back < 0 || connect(back, (struct sockaddr *)&lock, sizeof lock)) stop("no such port");
    printf("port %u\n", ntohs(own.sin_port));
    fflush(stdout);

    struct pollfd ends[2] = {{.fd = front, .events = POLLIN}, {.fd = back, .events = POLLIN}};
    while (poll(ends, 2, 10000) > 0) {
        if (ends[0].revents) from_key();
        if (ends[1].revents) from_lock();
    }
    return 0;
}

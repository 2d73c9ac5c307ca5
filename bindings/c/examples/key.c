/* The key to lock.c.

       key PORT FILE open|shut [SENT] [first]

   FILE is where it keeps a number over its runs, `sender`, ahead of each number that it uses, so that a crash doesn't lose it
   (oscore_store.h). `received` stays 0 there, since nobody asks the key. The word `first` makes FILE, and stands in the first run alone.

   It seals PUT /lock, says under which number, sends the datagram to 127.0.0.1, and says what came back. Where the lock asks for an Echo
   value (RFC 9175), it asks once more with the value, under the number behind. lock.c asks for one at most until a request was delivered
   to it. Another lock may have obeyed the first request too, before it was restarted, so only what may be done twice is asked for in this
   way. Each datagram that it sends is kept in SENT.NUMBER.

   While neither a reply nor an acknowledgment comes it sends the same bytes again (RFC 7252, 4.2), which the lock knows by the message
   ID: a request that is sealed anew would be another one, and be obeyed once more. */
#define _DEFAULT_SOURCE
#include "oscore.h"
#include "oscore_store.h"
#include <arpa/inet.h>
#include <poll.h>
#include <stdio.h>
#include <stdlib.h>
#include <string.h>
#include <sys/random.h>
#include <sys/socket.h>
#include <time.h>

/* RFC 7252, 4.8 and 4.8.2. A try may have another first timeout. */
#ifndef ACK_TIMEOUT_MS
#define ACK_TIMEOUT_MS 2000
#endif
enum { MAX_RETRANSMIT = 4, EXCHANGE_LIFETIME_MS = 247000 };
enum { CON = 0, ACK = 2, RST = 3, PUT = 3, UNAUTHORIZED = 129, URI_PATH = 11, ECHO = 252 };

/* As lock.c has them. */
static const uint8_t SECRET[] = "a secret for a try";
static const uint8_t LOCK[] = {1}, KEY[] = {2};

static oscore_peer peer;
/* One place is enough: the key seals its second request only once the response to the first has made the place free. */
static oscore_pending pending[1];
static oscore_size pending_count;
static oscore_store store;
static oscore_peer_record record;
static uint8_t received[1500];
static size_t received_len;

static _Noreturn void stop(const char *why) {
    puts(why);
    exit(1);
}

static uint64_t milliseconds(void) {
    struct timespec now;
    clock_gettime(CLOCK_MONOTONIC, &now);
    return (uint64_t)now.tv_sec * 1000 + (uint64_t)now.tv_nsec / 1000000;
}

static void draw(void *random, size_t len) {
    if (getrandom(random, len, 0) != (ssize_t)len) stop("no random bytes");
}

/* The plain datagram: PUT /lock, with the Echo value where there is one, and the wish as its payload. */
static size_t plain_put(const char *wish, const uint8_t *echo, size_t echo_len, uint8_t *plain, size_t room) {
    uint16_t message_id;
    uint8_t token[4];
    size_t len, detail;
    draw(&message_id, sizeof message_id), draw(token, sizeof token);
    const oscore_option options[] = {{URI_PATH, (const uint8_t *)"lock", 4}, {ECHO, echo, echo_len}};
    if (oscore_write_message(CON, PUT, message_id, token, sizeof token, options, echo_len > 0 ? 2 : 1, (const uint8_t *)wish,
                             strlen(wish), plain, room, &len, &detail))
        stop("not written");
    return len;
}

static void transmit(int udp, const uint8_t *datagram, size_t len) {
    if (send(udp, datagram, len, 0) < 0) stop("not sent");
}

/* Waits for a datagram until a moment. Answers whether one came. */
static bool receive(int udp, uint64_t until) {
    uint64_t now = milliseconds();
    struct pollfd readable = {.fd = udp, .events = POLLIN};
    if (now >= until || poll(&readable, 1, (int)(until - now)) != 1) return false;
    ssize_t len = recv(udp, received, sizeof received, 0);
    if (len < 0) stop("no reply");
    received_len = (size_t)len;
    return true;
}

static void keep(const char *file, uint64_t number, const uint8_t *datagram, size_t len) {
    char name[256];
    snprintf(name, sizeof name, "%s.%llu", file, (unsigned long long)number);
    FILE *to = fopen(name, "wb");
    if (!to || fwrite(datagram, 1, len, to) != len || fclose(to)) stop("not kept");
}

/* Whether what was received is an empty message of this kind to the message ID of a datagram (RFC 7252, 3 and 4.2). It has no token, so
   the library passes it over. */
static bool is_empty(uint8_t kind, const uint8_t *datagram) {
    return received_len == 4 && received[0] == (0x40 | kind << 4) && received[1] == 0 && !memcmp(received + 2, datagram + 2, 2);
}

/* What was received, where it is the response. All else is passed over, since anybody may have sent it: an error without protection too.
   The request stays pending, and the response can still come. */
static bool take(oscore_opened *response, oscore_option options[8]) {
    char name[24];
    uint64_t request;
    size_t detail;
    oscore_status status = oscore_peer_hear(&peer, pending, OSCORE_COUNT(pending), &pending_count, milliseconds(), received, received_len,
                                            options, 8, response, &request, &detail);
    if (status == OSCORE_DONE) return true;
    oscore_status_name(status, name);
    printf("passed over: %s\n", name);
    return false;
}

/* Sends a request, and again while nothing is heard, each time after twice the time. Behind an empty acknowledgment it waits for a
   response that comes by itself (RFC 7252, 4.2 and 5.2.2). */
static oscore_opened exchange(int udp, const uint8_t *datagram, size_t len, oscore_option options[8]) {
    oscore_opened response = OSCORE_ZERO;
    uint32_t random;
    draw(&random, sizeof random);
    uint64_t wait = ACK_TIMEOUT_MS + random % (ACK_TIMEOUT_MS / 2 + 1), until = milliseconds() + wait;
    int retransmits = 0;
    bool acknowledged = false;
    transmit(udp, datagram, len);
    for (;;) {
        if (!receive(udp, until)) {
            if (acknowledged || retransmits++ == MAX_RETRANSMIT) stop("no reply");
            puts("no reply: sent the same bytes again");
            transmit(udp, datagram, len);
            wait *= 2, until = milliseconds() + wait;
        } else if (is_empty(ACK, datagram)) {
            if (!acknowledged) until = milliseconds() + EXCHANGE_LIFETIME_MS;
            acknowledged = true;
        } else if (is_empty(RST, datagram)) {
            stop("reset");
        } else if (take(&response, options)) {
            return response;
        }
    }
}

/* A response that came by itself and is confirmable gets an empty ACK (RFC 7252, 5.2.2). */
static void acknowledge(int udp, const oscore_opened *response) {
    uint8_t ack[4];
    size_t len, detail;
    if (oscore_write_message(ACK, 0, response->message_id, NULL, 0, NULL, 0, NULL, 0, ack, sizeof ack, &len, &detail)) stop("not written");
    if (response->kind == CON) transmit(udp, ack, len);
}

/* The length of the Echo value that a response asks for, or 0. */
static size_t asked_echo(const oscore_opened *response, const oscore_option *options, uint8_t echo[12]) {
    for (size_t i = 0; response->code == UNAUTHORIZED && i < response->option_count; i++) {
        if (options[i].number != ECHO || options[i].value_len == 0 || options[i].value_len > 12) continue;
        memcpy(echo, options[i].value, options[i].value_len);
        return options[i].value_len;
    }
    return 0;
}

/* Opens FILE by the context's name, or makes it where `first` says that this end was never used: a file that is gone doesn't say that.
   Answers whether there is a record behind which to begin. */
static bool open_store(const char *file, bool first, uint64_t name) {
    oscore_stored stored = oscore_store_open(&store, file, first, name, &record);
    if (stored == OSCORE_STORED || stored == OSCORE_STORE_EMPTY) return stored == OSCORE_STORED;
    printf("FILE: %s\n", oscore_stored_name(stored));
    exit(1);
}

/* Saves the record that a call wrote, and then tells the peer, in this order: told before, a number could be used again after a crash. */
static void save_first(void) {
    if (oscore_store_save(&store, &record)) stop("no record saved");
    if (oscore_peer_saved(&peer, &record)) stop("not the record that was asked for");
    printf("saved sender %llu, received %llu\n", (unsigned long long)record.sender, (unsigned long long)record.received);
}

/* Seals a request. */
static size_t seal(const uint8_t *plain, size_t plain_len, uint8_t *out, size_t room) {
    size_t len, detail;
    oscore_status status;
    while ((status = oscore_peer_request(&peer, pending, OSCORE_COUNT(pending), &pending_count, milliseconds(), plain, plain_len, out, room,
                                         &len, &record, &detail)) == OSCORE_SAVE_FIRST)
        save_first();
    if (status) stop("not sealed");
    return len;
}

/* Asks the lock, and once more where it wants an Echo value. Answers whether a reply came that wants none. */
static bool ask(int udp, const char *wish, const char *sent) {
    uint8_t plain[64], datagram[OSCORE_ROOM(sizeof plain)], echo[12];
    oscore_option options[8] = OSCORE_ZERO;
    size_t echo_len = 0;
    for (int attempt = 0; attempt < 2; attempt++) {
        uint64_t number = peer.server.context.next;
        size_t len = seal(plain, plain_put(wish, echo, echo_len, plain, sizeof plain), datagram, sizeof datagram);
        printf("number %llu\n", (unsigned long long)number);
        if (sent) keep(sent, number, datagram, len);
        oscore_opened response = exchange(udp, datagram, len, options);
        acknowledge(udp, &response);
        echo_len = asked_echo(&response, options, echo);
        printf("%u.%02u %s%.*s\n", response.code >> 5, response.code & 31u, echo_len > 0 ? "asked for an Echo value" : "",
               (int)response.payload_len, (const char *)response.payload);
        if (echo_len == 0) return true;
    }
    return false;
}

/* Begins behind the record, or first where none was saved yet. */
static void begin(const char *file, bool first) {
    oscore_context context = OSCORE_ZERO;
    oscore_parameters parameters = OSCORE_ZERO;
    uint64_t name;
    parameters.secret = SECRET, parameters.secret_len = sizeof SECRET;
    parameters.sender_id = KEY, parameters.sender_id_len = sizeof KEY;
    parameters.recipient_id = LOCK, parameters.recipient_id_len = sizeof LOCK;
    oscore_status status = oscore_derive_from(&context, &parameters);
    if (!status) status = oscore_peer_name(&context, &name);
    if (!status)
        status = open_store(file, first, name) ? oscore_peer_begin_again(&peer, &context, &record, 32, EXCHANGE_LIFETIME_MS)
            : oscore_peer_begin_first(&peer, &context, 32, EXCHANGE_LIFETIME_MS);
    oscore_wipe(&context, sizeof context); /* the peer has a copy */
    if (status) stop("no peer");
}

int main(int count, char **words) {
    bool first = count > 4 && !strcmp(words[count - 1], "first");
    if (first) count--;
    if ((count != 4 && count != 5) || strlen(words[3]) > 16) stop("key PORT FILE open|shut [SENT] [first]");
    struct sockaddr_in lock = {.sin_family = AF_INET, .sin_addr.s_addr = htonl(INADDR_LOOPBACK)};
    lock.sin_port = htons((uint16_t)atoi(words[1]));
    int udp = socket(AF_INET, SOCK_DGRAM, 0);
    if (udp < 0 || connect(udp, (struct sockaddr *)&lock, sizeof lock)) stop("no such port");
    begin(words[2], first);
    bool answered = ask(udp, words[3], count == 5 ? words[4] : NULL);
    oscore_store_close(&store);
    oscore_wipe(&peer, sizeof peer);
    oscore_wipe_stack();
    return answered ? 0 : 1;
}

/* The reader of sensor.c.

       reader PORT FILE COUNT [first]

   FILE is where it keeps a number over its runs, which the word `first` makes, as key.c does. It registers for GET /temperature at
   127.0.0.1 and says what it hears. After COUNT notifications it cancels the observation, and says what the answer is. Where the sensor
   asks for an Echo value (RFC 9175), it registers once more with the value: a GET may be done twice. sensor.c asks for one at most until
   a request was delivered to it.

   A notification that comes behind a newer one, or twice, is old: the library tells by its number. */
#define _DEFAULT_SOURCE
#include "oscore.h"
#include "oscore_store.h"
#include <arpa/inet.h>
#include <poll.h>
#include <stdio.h>
#include <stdlib.h>
#include <string.h>
#include <sys/random.h>
#include <sys/socket.h>
#include <time.h>

/* RFC 7252, 4.8, 4.8.2 and 5.10.5. A try may have another first timeout, and give up earlier. */
#ifndef ACK_TIMEOUT_MS
#define ACK_TIMEOUT_MS 2000
#endif
#ifndef MAX_AGE_MS
#define MAX_AGE_MS 60000
#endif
enum { MAX_RETRANSMIT = 4, EXCHANGE_LIFETIME_MS = 247000 };
enum { CON = 0, ACK = 2, RST = 3, GET = 1, UNAUTHORIZED = 129, OBSERVE = 6, URI_PATH = 11, ECHO = 252 };

/* As sensor.c has them. */
static const uint8_t SECRET[] = "a secret for a try";
static const uint8_t SENSOR[] = {3}, READER[] = {4};

static oscore_peer peer;
/* One place is enough: a registration has it until its last response, or until what cancels it, under the same token, takes it. */
static oscore_pending pending[1];
static oscore_size pending_count;
static int udp;
static oscore_store store;
static oscore_peer_record record;
static uint8_t token[4], received[1500];
static size_t received_len;
static oscore_option options[8];

static _Noreturn void stop(const char *why) {
    puts(why);
    exit(1);
}

static uint64_t milliseconds(void) {
    struct timespec now;
    clock_gettime(CLOCK_MONOTONIC, &now);
    return (uint64_t)now.tv_sec * 1000 + (uint64_t)now.tv_nsec / 1000000;
}

static void draw(void *random, size_t len) {
    if (getrandom(random, len, 0) != (ssize_t)len) stop("no random bytes");
}

/* The plain datagram: GET /temperature, with Observe 0, which registers, or 1, which cancels. A number 0 has no byte (RFC 7252, 3.2). */
static size_t plain_get(bool cancels, const uint8_t *echo, size_t echo_len, uint8_t *plain, size_t room) {
    const uint8_t one = 1;
    uint16_t message_id;
    size_t len, detail;
    draw(&message_id, sizeof message_id);
    const oscore_option wanted[] = {{OBSERVE, &one, cancels}, {URI_PATH, (const uint8_t *)"temperature", 11}, {ECHO, echo, echo_len}};
    if (oscore_write_message(CON, GET, message_id, token, sizeof token, wanted, echo_len > 0 ? 3 : 2, NULL, 0, plain, room, &len, &detail))
        stop("not written");
    return len;
}

static void transmit(const uint8_t *datagram, size_t len) {
    if (send(udp, datagram, len, 0) < 0) stop("not sent");
}

/* Waits for a datagram until a moment. Answers whether one came. */
static bool receive(uint64_t until) {
    uint64_t now = milliseconds();
    struct pollfd readable = {.fd = udp, .events = POLLIN};
    if (now >= until || poll(&readable, 1, (int)(until - now)) != 1) return false;
    ssize_t len = recv(udp, received, sizeof received, 0);
    if (len < 0) stop("nothing could be read");
    received_len = (size_t)len;
    return true;
}

/* Whether what was received is an empty message of this kind to the message ID of a datagram (RFC 7252, 3 and 4.2). */
static bool is_empty(uint8_t kind, const uint8_t *datagram) {
    return received_len == 4 && received[0] == (0x40 | kind << 4) && received[1] == 0 && !memcmp(received + 2, datagram + 2, 2);
}

/* What was received, where it is a response or a notification. What is confirmable gets an empty ACK, an old notification too, since its
   sender waits for it (RFC 7252, 4.2). All else is passed over, since anybody may have sent it. */
static bool take(oscore_opened *response) {
    char name[24];
    uint8_t head[4] = {0};
    uint64_t request;
    size_t detail;
    memcpy(head, received, received_len < 4 ? received_len : 4);
    oscore_status status = oscore_peer_hear(&peer, pending, OSCORE_COUNT(pending), &pending_count, milliseconds(), received, received_len,
                                            options, 8, response, &request, &detail);
    oscore_status_name(status, name);
    if (status == OSCORE_OLD) puts("old");
    else if (status) printf("passed over: %s\n", name);
    if ((status == OSCORE_DONE || status == OSCORE_OLD) && (head[0] >> 4 & 3) == CON) {
        const uint8_t ack[] = {0x40 | ACK << 4, 0, head[2], head[3]};
        transmit(ack, sizeof ack);
    }
    return status == OSCORE_DONE;
}

/* Sends a request, and again while nothing is heard, each time after twice the time, as key.c does. */
static oscore_opened exchange(const uint8_t *datagram, size_t len) {
    oscore_opened response = OSCORE_ZERO;
    uint32_t random;
    draw(&random, sizeof random);
    uint64_t wait = ACK_TIMEOUT_MS + random % (ACK_TIMEOUT_MS / 2 + 1), until = milliseconds() + wait;
    int retransmits = 0;
    bool acknowledged = false;
    transmit(datagram, len);
    for (;;) {
        if (!receive(until)) {
            if (acknowledged || retransmits++ == MAX_RETRANSMIT) stop("no reply");
            puts("no reply: sent the same bytes again");
            transmit(datagram, len);
            wait *= 2, until = milliseconds() + wait;
        } else if (is_empty(ACK, datagram)) {
            if (!acknowledged) until = milliseconds() + EXCHANGE_LIFETIME_MS;
            acknowledged = true;
        } else if (is_empty(RST, datagram)) {
            stop("reset");
        } else if (take(&response)) {
            return response;
        }
    }
}

/* Waits for the next notification, or for the last response. What was heard is fresh for 60 seconds if nothing else is said (RFC 7252,
   5.10.5): behind that a reader may register anew (RFC 7641, 3.3.1), and this one gives up. */
static oscore_opened hear(void) {
    oscore_opened response = OSCORE_ZERO;
    uint64_t until = milliseconds() + MAX_AGE_MS;
    while (receive(until)) {
        if (take(&response)) return response;
    }
    stop("nothing new");
}

/* The length of the Echo value that a response asks for, or 0. */
static size_t asked_echo(const oscore_opened *response, uint8_t echo[12]) {
    for (size_t i = 0; response->code == UNAUTHORIZED && i < response->option_count; i++) {
        if (options[i].number != ECHO || options[i].value_len == 0 || options[i].value_len > 12) continue;
        memcpy(echo, options[i].value, options[i].value_len);
        return options[i].value_len;
    }
    return 0;
}

/* Opens FILE by the context's name, or makes it where `first` says that this end was never used: a file that is gone doesn't say that.
   Answers whether there is a record behind which to begin. */
static bool open_store(const char *file, bool first, uint64_t name) {
    oscore_stored stored = oscore_store_open(&store, file, first, name, &record);
    if (stored == OSCORE_STORED || stored == OSCORE_STORE_EMPTY) return stored == OSCORE_STORED;
    printf("FILE: %s\n", oscore_stored_name(stored));
    exit(1);
}

/* Saves the record that a call wrote, and then tells the peer, in this order: told before, a number could be used again after a crash. */
static void save_first(void) {
    if (oscore_store_save(&store, &record)) stop("no record saved");
    if (oscore_peer_saved(&peer, &record)) stop("not the record that was asked for");
    printf("saved sender %llu, received %llu\n", (unsigned long long)record.sender, (unsigned long long)record.received);
}

/* Seals a request. */
static size_t seal(const uint8_t *plain, size_t plain_len, uint8_t *out, size_t room) {
    size_t len, detail;
    oscore_status status;
    while ((status = oscore_peer_request(&peer, pending, OSCORE_COUNT(pending), &pending_count, milliseconds(), plain, plain_len, out, room,
                                         &len, &record, &detail)) == OSCORE_SAVE_FIRST)
        save_first();
    if (status) stop("not sealed");
    return len;
}

/* Registers or cancels, and once more where the sensor wants an Echo value. Answers the first response that asks for none. */
static oscore_opened ask(bool cancels) {
    uint8_t plain[64], datagram[OSCORE_ROOM(sizeof plain)], echo[12];
    size_t echo_len = 0;
    for (int attempt = 0; attempt < 2; attempt++) {
        if (!cancels) draw(token, sizeof token);
        printf("%s under number %llu\n", cancels ? "cancels" : "registers", (unsigned long long)peer.server.context.next);
        size_t len = seal(plain, plain_get(cancels, echo, echo_len, plain, sizeof plain), datagram, sizeof datagram);
        oscore_opened response = exchange(datagram, len);
        echo_len = asked_echo(&response, echo);
        if (echo_len == 0) return response;
        puts("4.01 asked for an Echo value");
    }
    stop("no use of the Echo value");
}

/* Begins behind the record, or first where none was saved yet. */
static void begin(const char *file, bool first) {
    oscore_context context = OSCORE_ZERO;
    oscore_parameters parameters = OSCORE_ZERO;
    uint64_t name;
    parameters.secret = SECRET, parameters.secret_len = sizeof SECRET;
    parameters.sender_id = READER, parameters.sender_id_len = sizeof READER;
    parameters.recipient_id = SENSOR, parameters.recipient_id_len = sizeof SENSOR;
    parameters.observe = 1;
    oscore_status status = oscore_derive_from(&context, &parameters);
    if (!status) status = oscore_peer_name(&context, &name);
    if (!status)
        status = open_store(file, first, name) ? oscore_peer_begin_again(&peer, &context, &record, 32, EXCHANGE_LIFETIME_MS)
            : oscore_peer_begin_first(&peer, &context, 32, EXCHANGE_LIFETIME_MS);
    oscore_wipe(&context, sizeof context); /* the peer has a copy */
    if (status) stop("no peer");
}

int main(int count, char **words) {
    bool first = count == 5 && !strcmp(words[4], "first");
    if (count != 4 && !first) stop("reader PORT FILE COUNT [first]");
    struct sockaddr_in sensor = {.sin_family = AF_INET, .sin_addr.s_addr = htonl(INADDR_LOOPBACK)};
    sensor.sin_port = htons((uint16_t)atoi(words[1]));
    udp = socket(AF_INET, SOCK_DGRAM, 0);
    if (udp < 0 || connect(udp, (struct sockaddr *)&sensor, sizeof sensor)) stop("no such port");
    begin(words[2], first);
    oscore_opened response = ask(false);
    for (int left = atoi(words[3]); response.is_notification; response = left > 0 ? hear() : ask(true)) {
        if (response.has_number) printf("%llu: ", (unsigned long long)response.number);
        else fputs("no Partial IV of its own: ", stdout);
        printf("%.*s\n", (int)response.payload_len, (const char *)response.payload);
        left--;
    }
    printf("last: %u.%02u%s%.*s\n", response.code >> 5, response.code & 31u, response.payload_len > 0 ? " " : "", (int)response.payload_len,
           (const char *)response.payload);
    oscore_store_close(&store);
    oscore_wipe(&peer, sizeof peer);
    oscore_wipe_stack();
    return 0;
}

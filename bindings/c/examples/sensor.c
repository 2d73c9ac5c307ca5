/* A sensor on the network: who registers for GET /temperature under its context hears each new temperature (RFC 7641; RFC 8613, 4.1.3.5).

       sensor PORT DATAGRAMS FILE [first]

   It takes so many datagrams at 127.0.0.1 and ends; who observes it then gets 4.04. PORT, FILE and `first` are as lock.c has them.

   One reader at a time observes it, the one that registered last. The first notification is the ACK of its registration. Each later one
   is confirmable, and is sent where the one before was acknowledged. Where no acknowledgment comes in time, the same bytes aren't sent
   again: the sensor measures, and sends a notification of what is new (RFC 7641, 4.5.2). */
#define _DEFAULT_SOURCE
#include "oscore.h"
#include "oscore_store.h"
#include <arpa/inet.h>
#include <poll.h>
#include <stdio.h>
#include <stdlib.h>
#include <string.h>
#include <sys/random.h>
#include <sys/socket.h>
#include <time.h>

/* RFC 7252, 4.8 and 4.8.2. A try may have another first timeout. */
#ifndef ACK_TIMEOUT_MS
#define ACK_TIMEOUT_MS 2000
#endif
enum { MAX_RETRANSMIT = 4, EXCHANGE_LIFETIME_MS = 247000, MOST_DATAGRAM = 1500, MOST_PLAIN = 32 };
enum { CON = 0, NON = 1, ACK = 2, RST = 3, OBSERVE = 6, URI_PATH = 11 };
enum { GET = 1, CONTENT = 69, BAD_OPTION = 130, NOT_FOUND = 132, NOT_ALLOWED = 133 };

/* For a try only: a real secret is drawn at random for each pair, and kept safe. */
static const uint8_t SECRET[] = "a secret for a try";
static const uint8_t SENSOR[] = {3}, READER[] = {4};

static oscore_peer peer;
static int udp;
static oscore_store store;
static oscore_peer_record record;
static uint16_t next_id;
static uint32_t measured; /* how often: the temperature grows with it, and so does Observe (RFC 7641, 4.4) */

static struct {
    struct sockaddr_in from;
    uint8_t bytes[MOST_DATAGRAM];
    size_t len;
} received;

/* The reply to the last request that was delivered, for that request where it comes again (RFC 7252, 4.5). */
static struct {
    struct sockaddr_in to;
    uint8_t message_id[2], bytes[OSCORE_ROOM(MOST_PLAIN)];
    size_t len;
    uint64_t until;
} reply;

static struct {
    bool on, waits; /* whether there is an observer, and whether a notification waits for its acknowledgment */
    struct sockaddr_in to;
    oscore_ticket ticket;
    uint16_t message_id;
    int retransmits;
    uint64_t wait, until;
} observation;

static _Noreturn void stop(const char *why) {
    puts(why);
    exit(1);
}

static uint64_t milliseconds(void) {
    struct timespec now;
    clock_gettime(CLOCK_MONOTONIC, &now);
    return (uint64_t)now.tv_sec * 1000 + (uint64_t)now.tv_nsec / 1000000;
}

static void draw(void *random, size_t len) {
    if (getrandom(random, len, 0) != (ssize_t)len) stop("no random bytes");
}

static void say(uint32_t status, const char *what, const char *more) {
    char name[24];
    oscore_status_name(status, name);
    printf("%s: %s%s\n", name, what, more);
    fflush(stdout);
}

static void send_to(const struct sockaddr_in *to, const uint8_t *bytes, size_t len) {
    if (len > 0) sendto(udp, bytes, len, 0, (const struct sockaddr *)to, sizeof *to);
}

/* Opens FILE by the context's name, or makes it where `first` says that this end was never used: a file that is gone doesn't say that.
   Answers whether there is a record behind which to begin. */
static bool open_store(const char *file, bool first, uint64_t name) {
    oscore_stored stored = oscore_store_open(&store, file, first, name, &record);
    if (stored == OSCORE_STORED || stored == OSCORE_STORE_EMPTY) return stored == OSCORE_STORED;
    printf("FILE: %s\n", oscore_stored_name(stored));
    exit(1);
}

/* Saves the record that a call wrote, and then tells the peer, in this order: told before, a number could be used again after a crash, and a
   request be answered again. */
static void save_first(void) {
    if (oscore_store_save(&store, &record)) stop("no record saved");
    if (oscore_peer_saved(&peer, &record)) stop("not the record that was asked for");
    printf("saved sender %llu, received %llu\n", (unsigned long long)record.sender, (unsigned long long)record.received);
}

/* A plain message: 2.05 has a new temperature, and Observe where it is to notify. Observe has as few bytes as hold it, and 3 at most. */
static size_t plain_message(uint8_t kind, uint8_t code, uint16_t message_id, bool notifies, uint8_t plain[MOST_PLAIN], char temperature[16]) {
    size_t len, detail, payload_len = 0;
    temperature[0] = '\0';
    if (code == CONTENT) {
        measured++;
        payload_len = (size_t)snprintf(temperature, 16, "%u.%u", (199 + measured) / 10, (199 + measured) % 10);
    }
    const uint8_t value[3] = {(uint8_t)(measured >> 16), (uint8_t)(measured >> 8), (uint8_t)measured};
    size_t zeros = value[0] ? 0 : value[1] ? 1 : value[2] ? 2 : 3;
    const oscore_option observe = {OBSERVE, value + zeros, 3 - zeros};
    if (oscore_write_message(kind, code, message_id, NULL, 0, &observe, notifies, (const uint8_t *)temperature, payload_len, plain,
                             MOST_PLAIN, &len, &detail))
        stop("not written");
    return len;
}

/* Seals a notification to the observer, of a new temperature. */
static size_t seal_notification(uint8_t kind, uint16_t message_id, uint8_t out[OSCORE_ROOM(MOST_PLAIN)]) {
    uint8_t plain[MOST_PLAIN];
    char temperature[16];
    size_t out_len, detail, len = plain_message(kind, CONTENT, message_id, true, plain, temperature);
    oscore_status status;
    while ((status = oscore_peer_notify(&peer, &observation.ticket, plain, len, out, OSCORE_ROOM(MOST_PLAIN), &out_len, &record,
                                        &detail)) == OSCORE_SAVE_FIRST)
        save_first();
    if (status) stop("not sealed");
    say(status, "notified ", temperature);
    return out_len;
}

/* Seals the one reply to a request, which has no Observe. Of a registration it is the last. */
static size_t seal_reply(oscore_ticket *ticket, uint8_t code, const char *what, uint8_t out[OSCORE_ROOM(MOST_PLAIN)]) {
    uint8_t plain[MOST_PLAIN];
    char temperature[16];
    size_t out_len, detail, len = plain_message(ACK, code, 0, false, plain, temperature);
    oscore_status status;
    while ((status = oscore_peer_reply(&peer, ticket, false, next_id, plain, len, out, OSCORE_ROOM(MOST_PLAIN), &out_len, &record,
                                       &detail)) == OSCORE_SAVE_FIRST)
        save_first();
    if (status) stop("not sealed");
    next_id++;
    say(status, what, temperature);
    return out_len;
}

/* Sends a confirmable notification, and waits for its acknowledgment from now on. */
static void notify(void) {
    uint8_t out[OSCORE_ROOM(MOST_PLAIN)];
    observation.message_id = next_id++;
    size_t len = seal_notification(CON, observation.message_id, out);
    send_to(&observation.to, out, len);
    observation.waits = true, observation.until = milliseconds() + observation.wait;
}

static void notify_next(void) {
    uint32_t random;
    draw(&random, sizeof random);
    observation.retransmits = 0, observation.wait = ACK_TIMEOUT_MS + random % (ACK_TIMEOUT_MS / 2 + 1);
    notify();
}

/* No acknowledgment came in time. Who is silent for too long observes no more. */
static void notify_again(void) {
    puts("not acknowledged");
    observation.wait *= 2;
    if (observation.retransmits++ < MAX_RETRANSMIT) notify();
    else observation.on = observation.waits = false;
}

/* What is observed is over. The registration had its ACK, so the last response is a message of its own. */
static void end_observation(void) {
    uint8_t out[OSCORE_ROOM(MOST_PLAIN)];
    size_t len = seal_reply(&observation.ticket, NOT_FOUND, "no more", out);
    oscore_make_separate(out, len, false, next_id++);
    send_to(&observation.to, out, len);
}

static void receive(void) {
    struct pollfd readable = {.fd = udp, .events = POLLIN};
    uint64_t now, until;
    for (;;) {
        now = milliseconds(), until = observation.waits ? observation.until : now + 10000;
        if (now < until && poll(&readable, 1, (int)(until - now)) == 1) break;
        if (!observation.waits) stop("no datagram came");
        notify_again();
    }
    socklen_t from_len = sizeof received.from;
    ssize_t len = recvfrom(udp, received.bytes, sizeof received.bytes, 0, (struct sockaddr *)&received.from, &from_len);
    if (len < 0) stop("no datagram could be read");
    received.len = (size_t)len;
}

static bool is_from(const struct sockaddr_in *who) {
    return who->sin_addr.s_addr == received.from.sin_addr.s_addr && who->sin_port == received.from.sin_port;
}

/* Whether the observer says something of the last notification by an empty message of this kind. */
static bool is_empty(uint8_t kind) {
    const uint8_t wanted[] = {(uint8_t)(0x40 | kind << 4), 0, (uint8_t)(observation.message_id >> 8), (uint8_t)observation.message_id};
    return observation.waits && is_from(&observation.to) && received.len == 4 && !memcmp(received.bytes, wanted, 4);
}

static bool came_again(void) {
    bool asks = received.len >= 4 && (received.bytes[0] >> 4 & 3) <= NON;
    return asks && is_from(&reply.to) && !memcmp(reply.message_id, received.bytes + 2, 2) && milliseconds() < reply.until;
}

/* GET /temperature is obeyed. An odd number is an option that can't be passed over (RFC 7252, 5.4.1). */
static uint8_t judge(const oscore_opened *request, const oscore_option *options, bool *cancels) {
    size_t segments = 0, ours = 0;
    for (size_t i = 0; i < request->option_count; i++) {
        if (options[i].number == URI_PATH) {
            segments++;
            ours += options[i].value_len == 11 && !memcmp(options[i].value, "temperature", 11);
        } else if (options[i].number == OBSERVE) {
            *cancels = options[i].value_len == 1 && options[i].value[0] == 1;
        } else if (options[i].number % 2 == 1) {
            return BAD_OPTION;
        }
    }
    if (request->has_more_options) return BAD_OPTION;
    return segments != 1 || ours != 1 ? NOT_FOUND : request->code != GET ? NOT_ALLOWED : CONTENT;
}

/* Registers, cancels, or only answers. Who registers takes the place of whoever observed before. */
static void answer(const oscore_opened *request, const oscore_option *options, oscore_ticket *ticket) {
    const oscore_ticket *held = &observation.ticket;
    bool cancels = false;
    bool ours = observation.on && held->token_len == ticket->token_len && !memcmp(held->token, ticket->token, ticket->token_len);
    uint8_t code = judge(request, options, &cancels);
    reply.to = received.from, reply.until = milliseconds() + EXCHANGE_LIFETIME_MS;
    memcpy(reply.message_id, received.bytes + 2, 2);
    if (code == CONTENT && ticket->observes) {
        observation.on = true, observation.waits = false, observation.to = received.from, observation.ticket = *ticket;
        reply.len = request->kind == CON ? seal_notification(ACK, request->message_id, reply.bytes)
            : seal_notification(NON, next_id++, reply.bytes);
    } else {
        if (code == CONTENT && cancels && ours) observation.on = observation.waits = false;
        reply.len = seal_reply(ticket, code, code != CONTENT ? "not obeyed" : cancels && ours ? "cancelled at " : "answered ", reply.bytes);
    }
    send_to(&reply.to, reply.bytes, reply.len);
}

static void serve(void) {
    uint8_t out[64];
    oscore_option options[8] = OSCORE_ZERO;
    oscore_opened request = OSCORE_ZERO;
    oscore_ticket ticket = OSCORE_ZERO;
    size_t out_len, detail;
    oscore_status status;
    while ((status = oscore_peer_take(&peer, milliseconds(), next_id, received.bytes, received.len, options, 8, &request, &ticket, out,
                                      &out_len, &record, &detail)) == OSCORE_SAVE_FIRST)
        save_first();
    next_id++;
    if (status == OSCORE_DONE) {
        answer(&request, options, &ticket);
        return;
    }
    say(status, status == OSCORE_CHALLENGE ? "asked for its Echo value" : out_len > 0 ? "refused" : "passed over", "");
    send_to(&received.from, out, out_len);
}

static void serve_one(void) {
    receive();
    if (is_empty(ACK)) {
        observation.waits = false;
    } else if (is_empty(RST)) {
        observation.on = observation.waits = false;
    } else if (came_again()) {
        puts("came again");
        if ((received.bytes[0] >> 4 & 3) == CON) send_to(&reply.to, reply.bytes, reply.len);
    } else {
        serve();
    }
}

/* Begins behind the record, or first where none was saved yet. */
static void begin(const char *file, bool first) {
    oscore_context context = OSCORE_ZERO;
    oscore_parameters parameters = OSCORE_ZERO;
    uint64_t name;
    parameters.secret = SECRET, parameters.secret_len = sizeof SECRET;
    parameters.sender_id = SENSOR, parameters.sender_id_len = sizeof SENSOR;
    parameters.recipient_id = READER, parameters.recipient_id_len = sizeof READER;
    parameters.observe = 1;
    oscore_status status = oscore_derive_from(&context, &parameters);
    if (!status) status = oscore_peer_name(&context, &name);
    if (!status)
        status = open_store(file, first, name) ? oscore_peer_begin_again(&peer, &context, &record, 32, EXCHANGE_LIFETIME_MS)
            : oscore_peer_begin_first(&peer, &context, 32, EXCHANGE_LIFETIME_MS);
    oscore_wipe(&context, sizeof context); /* the peer has a copy */
    if (status) stop("no peer");
}

int main(int count, char **words) {
    bool first = count == 5 && !strcmp(words[4], "first");
    if (count != 4 && !first) stop("sensor PORT DATAGRAMS FILE [first]");
    begin(words[3], first);
    draw(&next_id, sizeof next_id);
    struct sockaddr_in own = {.sin_family = AF_INET, .sin_addr.s_addr = htonl(INADDR_LOOPBACK)};
    own.sin_port = htons((uint16_t)atoi(words[1]));
    socklen_t own_len = sizeof own;
    udp = socket(AF_INET, SOCK_DGRAM, 0);
    if (udp < 0 || bind(udp, (struct sockaddr *)&own, own_len) || getsockname(udp, (struct sockaddr *)&own, &own_len)) stop("no such port");
    printf("port %u\n", ntohs(own.sin_port));
    fflush(stdout);
    for (int left = atoi(words[2]); left > 0; left--) {
        serve_one();
        if (observation.on && !observation.waits && left > 1) notify_next();
    }
    if (observation.on) end_observation();
    printf("next Sender Sequence Number %llu\n", (unsigned long long)peer.server.context.next);
    oscore_store_close(&store);
    oscore_wipe(&peer, sizeof peer);
    oscore_wipe_stack();
    return 0;
}

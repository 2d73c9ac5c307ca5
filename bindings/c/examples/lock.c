/* A lock on the network: it obeys PUT /lock with "open" or "shut" where the request is protected by its context, and is new.

       lock PORT DATAGRAMS FILE [first]

   It takes so many datagrams at 127.0.0.1 and ends. PORT 0 is one that the system picks; the first line says which. FILE is where it
   keeps two numbers over its runs (oscore_store.h): `sender` is above each Sender Sequence Number that it uses, `received` above the number
   of each request that is delivered. Both are saved ahead, so that a crash doesn't lose them. The word `first` makes FILE, and stands in
   the first run alone.

   One that ran before obeys at once what is new. A request with a number below the `received` behind which it begins is a replay to it,
   also one that never came. So no run obeys what one before it obeyed, and a request that was saved and not obeyed, since the power went
   in between, is obeyed by none. A run behind one that saved a record and to which no request was delivered yet doesn't know what is new:
   it asks for an Echo value before it obeys.

   A key whose reply was lost sends its request once more (RFC 7252, 4.2), which is a replay to the library. So the lock looks first
   whether it knows the sender and the message ID, and then sends what it sent before. It knows those of its own run alone. */
#define _DEFAULT_SOURCE
#include "oscore.h"
#include "oscore_store.h"
#include <arpa/inet.h>
#include <poll.h>
#include <stdio.h>
#include <stdlib.h>
#include <string.h>
#include <sys/random.h>
#include <sys/socket.h>
#include <time.h>

enum { PUT = 3, CHANGED = 68, BAD_REQUEST = 128, BAD_OPTION = 130, NOT_FOUND = 132, NOT_ALLOWED = 133, URI_PATH = 11 };
enum { CON = 0, NON = 1, ACK = 2, EXCHANGE_LIFETIME_MS = 247000, REPLIES = 32, MOST_DATAGRAM = 1500, MOST_REPLY = 128 };

/* For a try only: a real secret is drawn at random for each pair, and kept safe. */
static const uint8_t SECRET[] = "a secret for a try";
static const uint8_t LOCK[] = {1}, KEY[] = {2};

typedef struct received {
    struct sockaddr_in from;
    uint8_t bytes[MOST_DATAGRAM];
    size_t len;
} received;

/* What was sent, to whom, and to which message ID. */
typedef struct sent {
    struct sockaddr_in to;
    uint8_t message_id[2];
    uint64_t until; /* when its request can't come again (RFC 7252, 4.8.2) */
    uint8_t bytes[MOST_REPLY];
    size_t len;
} sent;

static const char *state = "shut";
static oscore_store store;
static oscore_peer_record record;
/* The last replies. Where more are sent in their lifetime, the oldest is forgotten: its request, come again, is refused as a replay. */
static sent replies[REPLIES];
static size_t reply_count;

static _Noreturn void stop(const char *why) {
    puts(why);
    exit(1);
}

static uint64_t milliseconds(void) {
    struct timespec now;
    clock_gettime(CLOCK_MONOTONIC, &now);
    return (uint64_t)now.tv_sec * 1000 + (uint64_t)now.tv_nsec / 1000000;
}

/* The path is "lock" where there is one Uri-Path option, and it says so. An odd number is an option that can't be passed over (RFC 7252,
   5.4.1). */
static uint8_t judge_options(const oscore_opened *request, const oscore_option *options) {
    size_t segments = 0, ours = 0;
    for (size_t i = 0; i < request->option_count; i++) {
        if (options[i].number == URI_PATH) {
            segments++;
            ours += options[i].value_len == 4 && !memcmp(options[i].value, "lock", 4);
        } else if (options[i].number % 2 == 1) {
            return BAD_OPTION;
        }
    }
    if (request->has_more_options) return BAD_OPTION;
    return segments == 1 && ours == 1 ? CHANGED : NOT_FOUND;
}

/* Does what a request says, and answers the code of the reply. */
static uint8_t obey(const oscore_opened *request, const oscore_option *options) {
    uint8_t code = judge_options(request, options);
    if (code != CHANGED) return code;
    if (request->code != PUT) return NOT_ALLOWED;
    if (request->payload_len != 4) return BAD_REQUEST;
    if (!memcmp(request->payload, "open", 4)) state = "open";
    else if (!memcmp(request->payload, "shut", 4)) state = "shut";
    else return BAD_REQUEST;
    return CHANGED;
}

/* The plain reply, of whose head the library takes the code alone, with the state as its payload. */
static size_t plain_reply(uint8_t code, uint8_t plain[16]) {
    size_t len, detail;
    if (oscore_write_message(ACK, code, 0, NULL, 0, NULL, 0, (const uint8_t *)state, 4, plain, 16, &len, &detail)) stop("not written");
    return len;
}

static void print(uint32_t status, const char *what) {
    char name[24];
    oscore_status_name(status, name);
    printf("%s: %s\n", name, what);
    fflush(stdout);
}

static void receive(int udp, received *datagram) {
    socklen_t from_len = sizeof datagram->from;
    struct pollfd readable = {.fd = udp, .events = POLLIN};
    if (poll(&readable, 1, 10000) != 1) stop("no datagram came");
    ssize_t len = recvfrom(udp, datagram->bytes, sizeof datagram->bytes, 0, (struct sockaddr *)&datagram->from, &from_len);
    if (len < 0) stop("no datagram could be read");
    datagram->len = (size_t)len;
}

static void send_back(int udp, const struct sockaddr_in *to, const uint8_t *bytes, size_t len) {
    if (len > 0) sendto(udp, bytes, len, 0, (const struct sockaddr *)to, sizeof *to);
}

static uint8_t kind_of(const received *datagram) {
    return datagram->bytes[0] >> 4 & 3;
}

/* What a message got the first time, where it comes again (RFC 7252, 4.5). An ACK and an RST have a message ID of ours, not of theirs. */
static const sent *find_reply(const received *datagram) {
    for (size_t i = 0; datagram->len >= 4 && kind_of(datagram) <= NON && i < REPLIES; i++) {
        const sent *reply = &replies[i];
        bool ours = reply->to.sin_addr.s_addr == datagram->from.sin_addr.s_addr && reply->to.sin_port == datagram->from.sin_port;
        if (ours && !memcmp(reply->message_id, datagram->bytes + 2, 2) && milliseconds() < reply->until) return reply;
    }
    return NULL;
}

/* Only what was delivered has its reply kept: an error that anybody can bring about must not stand in its place. */
static void keep_reply(const received *request, const uint8_t *out, size_t len) {
    sent *reply = &replies[reply_count++ % REPLIES];
    *reply = (sent){.to = request->from, .until = milliseconds() + EXCHANGE_LIFETIME_MS, .len = len};
    memcpy(reply->message_id, request->bytes + 2, 2);
    memcpy(reply->bytes, out, len);
}

/* Opens FILE by the context's name, or makes it where `first` says that this end was never used: a file that is gone doesn't say that.
   Answers whether there is a record behind which to begin. */
static bool open_store(const char *file, bool first, uint64_t name) {
    oscore_stored stored = oscore_store_open(&store, file, first, name, &record);
    if (stored == OSCORE_STORED || stored == OSCORE_STORE_EMPTY) return stored == OSCORE_STORED;
    printf("FILE: %s\n", oscore_stored_name(stored));
    exit(1);
}

/* Saves the record that a call wrote, and then tells the peer, in this order: told before, a number could be used again after a crash, and a
   request be obeyed again. */
static void save_first(oscore_peer *peer) {
    if (oscore_store_save(&store, &record)) stop("no record saved");
    if (oscore_peer_saved(peer, &record)) stop("not the record that was asked for");
    printf("saved sender %llu, received %llu\n", (unsigned long long)record.sender, (unsigned long long)record.received);
}

static void serve(oscore_peer *peer, int udp, received *datagram) {
    uint8_t out[MOST_REPLY], plain[16];
    oscore_option options[8] = OSCORE_ZERO;
    oscore_opened request = OSCORE_ZERO;
    oscore_ticket ticket = OSCORE_ZERO;
    size_t out_len, detail;
    uint16_t mid = 0;
    if (getrandom(&mid, sizeof mid, 0) != sizeof mid) stop("no random bytes");

    oscore_status status;
    while ((status = oscore_peer_take(peer, milliseconds(), mid, datagram->bytes, datagram->len, options, 8, &request, &ticket, out, &out_len,
                                      &record, &detail)) == OSCORE_SAVE_FIRST)
        save_first(peer);
    if (status == OSCORE_DONE) {
        uint8_t code = obey(&request, options);
        size_t len = plain_reply(code, plain);
        while ((status = oscore_peer_reply(peer, &ticket, false, mid, plain, len, out, sizeof out, &out_len, &record,
                                           &detail)) == OSCORE_SAVE_FIRST)
            save_first(peer);
        print(status, code == CHANGED ? state : "not obeyed");
        if (status == OSCORE_DONE) keep_reply(datagram, out, out_len);
    } else {
        print(status, status == OSCORE_CHALLENGE ? "asked for its Echo value" : out_len > 0 ? "refused" : "passed over");
    }
    send_back(udp, &datagram->from, out, out_len);
}

static void serve_one(oscore_peer *peer, int udp) {
    static received datagram;
    receive(udp, &datagram);
    const sent *reply = find_reply(&datagram);
    if (!reply) {
        serve(peer, udp, &datagram);
        return;
    }
    bool again = kind_of(&datagram) == CON;
    puts(again ? "came again: sent the same reply" : "came again: passed over");
    fflush(stdout);
    if (again) send_back(udp, &reply->to, reply->bytes, reply->len);
}

/* Begins behind the record, or first where none was saved yet. */
static void begin(oscore_peer *peer, const char *file, bool first) {
    oscore_context context = OSCORE_ZERO;
    oscore_parameters parameters = OSCORE_ZERO;
    uint64_t name;
    parameters.secret = SECRET, parameters.secret_len = sizeof SECRET;
    parameters.sender_id = LOCK, parameters.sender_id_len = sizeof LOCK;
    parameters.recipient_id = KEY, parameters.recipient_id_len = sizeof KEY;
    oscore_status status = oscore_derive_from(&context, &parameters);
    if (!status) status = oscore_peer_name(&context, &name);
    if (!status)
        status = open_store(file, first, name) ? oscore_peer_begin_again(peer, &context, &record, 32, EXCHANGE_LIFETIME_MS)
            : oscore_peer_begin_first(peer, &context, 32, EXCHANGE_LIFETIME_MS);
    oscore_wipe(&context, sizeof context); /* the peer has a copy */
    if (status) stop("no peer");
}

int main(int count, char **words) {
    bool first = count == 5 && !strcmp(words[4], "first");
    if (count != 4 && !first) stop("lock PORT DATAGRAMS FILE [first]");
    static oscore_peer peer;
    begin(&peer, words[3], first);
    struct sockaddr_in own = {.sin_family = AF_INET, .sin_addr.s_addr = htonl(INADDR_LOOPBACK)};
    own.sin_port = htons((uint16_t)atoi(words[1]));
    socklen_t own_len = sizeof own;
    int udp = socket(AF_INET, SOCK_DGRAM, 0);
    if (udp < 0 || bind(udp, (struct sockaddr *)&own, own_len) || getsockname(udp, (struct sockaddr *)&own, &own_len)) stop("no such port");
    printf("port %u\n", ntohs(own.sin_port));
    fflush(stdout);
    for (int left = atoi(words[2]); left > 0; left--) serve_one(&peer, udp);
    printf("next Sender Sequence Number %llu\n", (unsigned long long)peer.server.context.next);
    oscore_store_close(&store);
    oscore_wipe(&peer, sizeof peer);
    oscore_wipe_stack();
    return 0;
}

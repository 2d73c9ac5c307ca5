#include "forward.h"
#include "application.h"
#include <arpa/inet.h>
#include <errno.h>
#include <stdio.h>
#include <sys/random.h>
#include <unistd.h>

enum { CON = 0, ACK = 2, RST = 3, HEAD = 4, TOKEN_LEN = 8, ECHO = 252 };
enum { BAD_OPTION = 130, TOO_LARGE = 141, BAD_GATEWAY = 162, TIMED_OUT = 164 };

bool forward_begin(forwarder *with, uint16_t port) {
    struct sockaddr_in to = {.sin_family = AF_INET, .sin_port = htons(port), .sin_addr.s_addr = htonl(INADDR_LOOPBACK)};
    memset(with, 0, sizeof *with);
    with->udp = socket(AF_INET, SOCK_DGRAM | SOCK_CLOEXEC | SOCK_NONBLOCK, 0);
    bool good = with->udp >= 0 && !connect(with->udp, (struct sockaddr *)&to, sizeof to)
        && getrandom(&with->serial, sizeof with->serial, 0) == sizeof with->serial;
    if (!good) perror("application");
    with->message_id = (uint16_t)with->serial;
    return good;
}

void forward_end(forwarder *with) {
    if (with->udp >= 0 && close(with->udp)) perror("application");
    oscore_wipe(with->of, sizeof with->of);
}

static void release(forwarder *with, forward *of) {
    oscore_wipe(of->plain, of->plain_len);
    of->used = false;
    with->waiting--;
}

/* What the application doesn't get is sent again, so it doesn't matter here whether the system took it. */
static void send_plain(const forwarder *with, const uint8_t *bytes, size_t len) {
    ssize_t sent = send(with->udp, bytes, len, 0);
    (void)sent;
}

/* The request as a plain message. Options in clear weren't protected, and Echo was meant for the gateway: neither goes on. */
static bool write_plain(forward *to, const item *of) {
    oscore_option options[OPTIONS_MOST];
    size_t count = 0, detail;
    uint8_t token[TOKEN_LEN];
    cursor at = {token};
    put_number(&at, to->serial, TOKEN_LEN);
    for (size_t i = 0; i < of->opened.option_count; i++)
        if (of->options[i].number != ECHO) options[count++] = of->options[i];
    return oscore_write_message(CON, of->opened.code, to->message_id, token, sizeof token, options, count, of->opened.payload,
                                of->opened.payload_len, to->plain, sizeof to->plain, &to->plain_len, &detail) == OSCORE_DONE;
}

uint8_t forward_request(forwarder *with, const item *of, uint64_t ms) {
    forward *to = with->of;
    while (to < with->of + FORWARDS - 1 && to->used) to++;
    if (to->used) return BAD_GATEWAY;
    if (of->opened.has_more_options) return BAD_OPTION;
    *to = (forward){.from = of->from, .key = of->stored.key, .number = of->number, .hash = of->hash, .ticket = of->ticket, .mid = of->mid};
    to->serial = with->serial++;
    to->message_id = with->message_id++;
    to->tries = 1;
    to->next_ms = ms + FORWARD_FIRST_MS;
    if (!write_plain(to, of)) return TOO_LARGE;
    to->used = true;
    with->waiting++;
    send_plain(with, to->plain, to->plain_len);
    return 0;
}

/* The item is then as its request left it, but for what was opened. */
static void begin_item(item *to, const forward *of) {
    to->from = of->from;
    to->stored.key = of->key;
    to->number = of->number;
    to->hash = of->hash;
    to->ticket = of->ticket;
    to->mid = of->mid;
    to->own = of->ticket.observes;
    to->came_len = to->out_len = 0;
    to->outcome = ITEM_DELIVERED;
}

static forward *find_token(forwarder *with, const uint8_t *token) {
    reader from = {token};
    uint64_t serial = get_number(&from, TOKEN_LEN);
    for (size_t i = 0; i < FORWARDS; i++)
        if (with->of[i].used && with->of[i].serial == serial) return &with->of[i];
    return NULL;
}

static forward *find_message(forwarder *with, uint16_t message_id) {
    for (size_t i = 0; i < FORWARDS; i++)
        if (with->of[i].used && with->of[i].message_id == message_id) return &with->of[i];
    return NULL;
}

/* An empty message acknowledges a request, or says that the application can't take it. */
static void take_empty(forwarder *with, item *to, uint8_t kind, uint16_t message_id) {
    forward *of = find_message(with, message_id);
    if (!of) return;
    if (kind == ACK) of->acknowledged = true;
    if (kind != RST) return;
    begin_item(to, of);
    application_say(to, BAD_GATEWAY);
    release(with, of);
}

/* The delta or the length of an option: half a byte, and what may lie behind it (RFC 7252, 3.1). Cut off, it leaves no byte. */
static size_t read_half(reader *from, const uint8_t *end, uint8_t half) {
    size_t len = half < 13 ? 0 : half - 12u;
    if (len == 0) return half;
    if ((size_t)(end - from->at) < len) {
        from->at = end;
        return 0;
    }
    return get_number(from, len) + (len == 1 ? 13 : 269);
}

/* Whether a message that begins with a token has an option of this number. What is no message is refused where it is sealed. */
static bool has_option(const uint8_t *bytes, size_t len, size_t wanted) {
    const uint8_t *end = bytes + len;
    reader from = {bytes + HEAD + TOKEN_LEN};
    for (size_t number = 0; from.at < end && *from.at != 0xff;) {
        uint8_t halves = *from.at++;
        number += read_half(&from, end, halves >> 4);
        size_t value_len = read_half(&from, end, halves & 15);
        if (number == wanted) return true;
        if (value_len > (size_t)(end - from.at)) return false;
        from.at += value_len;
    }
    return false;
}

/* A response that comes by itself is acknowledged, each time that it comes (RFC 7252, 5.2.2). An Echo value is the gateway's to send: another
   one might be a number that it comes to later. */
static void take_response(forwarder *with, item *to, const uint8_t *bytes, size_t len) {
    uint8_t kind = bytes[0] >> 4 & 3, acknowledged[HEAD] = {0x60, 0, bytes[2], bytes[3]};
    if (kind == CON) send_plain(with, acknowledged, sizeof acknowledged);
    if ((bytes[0] & 15) != TOKEN_LEN || len < HEAD + TOKEN_LEN) return;
    forward *of = find_token(with, bytes + HEAD);
    if (!of) return;
    begin_item(to, of);
    if (has_option(bytes, len, ECHO)) {
        application_say(to, BAD_GATEWAY);
    } else {
        memcpy(to->plain, bytes, len);
        to->plain_len = len;
    }
    release(with, of);
}

bool forward_receive(forwarder *with, item *to) {
    uint8_t bytes[DATAGRAM_MOST];
    ssize_t len = recv(with->udp, bytes, sizeof bytes, MSG_DONTWAIT | MSG_TRUNC);
    to->outcome = ITEM_SILENT;
    to->plain_len = to->came_len = to->out_len = 0;
    if (len < 0) return errno == EINTR || errno == ECONNREFUSED;
    if (len < HEAD || (size_t)len > sizeof bytes || bytes[0] >> 6 != 1) return true;
    if (bytes[1] == 0) take_empty(with, to, bytes[0] >> 4 & 3, (uint16_t)(bytes[2] << 8 | bytes[3]));
    else if (bytes[1] >= 64) take_response(with, to, bytes, (size_t)len);
    oscore_wipe(bytes, (size_t)len);
    return true;
}

bool forward_overdue(forwarder *with, item *to, uint64_t ms) {
    for (size_t i = 0; with->waiting > 0 && i < FORWARDS; i++) {
        forward *of = &with->of[i];
        if (!of->used || ms < of->next_ms) continue;
        if (of->tries == FORWARD_TRIES) {
            begin_item(to, of);
            application_say(to, TIMED_OUT);
            release(with, of);
            return true;
        }
        of->next_ms = ms + ((uint64_t)FORWARD_FIRST_MS << of->tries++);
        if (!of->acknowledged) send_plain(with, of->plain, of->plain_len);
    }
    return false;
}

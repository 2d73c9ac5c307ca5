/* RFC 8613, C.4 and C.7, on a microcontroller: a peer takes the request with the number 20 after two saves, that of its first record and that
   of the request's number, and seals the reply; -DWITH_CLIENT adds the other end, which seals that request, and opens the reply. What each
   call took is printed. */
#include "board.h"
#include "oscore.h"
extern int memcmp(const void *, const void *, size_t);

#ifndef TABLES
#define TABLES false
#endif
static const uint8_t SECRET[16] = {1, 2, 3, 4, 5, 6, 7, 8, 9, 10, 11, 12, 13, 14, 15, 16};
static const uint8_t SALT[8] = {0x9e, 0x7c, 0xa9, 0x22, 0x23, 0x78, 0x63, 0x40}, OURS[1] = {1};
static const uint8_t REQUEST[] = {0x44, 0x02, 0x5d, 0x1f, 0x00, 0x00, 0x39, 0x74, 0x39, 0x6c, 0x6f, 0x63, 0x61, 0x6c, 0x68, 0x6f, 0x73, 0x74,
    0x62, 0x09, 0x14, 0xff, 0x61, 0x2f, 0x10, 0x92, 0xf1, 0x77, 0x6f, 0x1c, 0x16, 0x68, 0xb3, 0x82, 0x5e};
static const uint8_t PLAIN[] = {0x64, 0x45, 0x5d, 0x1f, 0x00, 0x00, 0x39, 0x74, 0xff, 'H', 'e', 'l', 'l', 'o', ' ', 'W', 'o', 'r', 'l', 'd', '!'};
static const uint8_t REPLY[] = {0x64, 0x44, 0x5d, 0x1f, 0x00, 0x00, 0x39, 0x74, 0x90, 0xff, 0xdb, 0xaa, 0xd1, 0xe9, 0xa7, 0xe7, 0xb2, 0xa8,
    0x13, 0xd3, 0xc3, 0x15, 0x24, 0x37, 0x83, 0x03, 0xcd, 0xaf, 0xae, 0x11, 0x91, 0x06};

/* All that lives between calls. */
static oscore_peer peer;
static oscore_peer_record record;
static _Alignas(8) uint8_t room[128 + 1];
static uint8_t *const datagram = room + 1; /* a datagram may lie anywhere: a Cortex-M0 faults at a word that is not aligned */
static uint8_t out[64], reply[128];
static oscore_option options[8];
static oscore_opened opened;
static oscore_ticket ticket;
static oscore_size out_len, reply_len, detail;

static void number(uint32_t n) {
    char text[11], *at = text + sizeof text;
    *--at = 0;
    do *--at = (char)('0' + n % 10); while ((n /= 10) > 0);
    board_say(at);
}

static uint64_t *painted;
/* Paints what lies below this function's stack, but for what it and `painting`'s caller use themselves. */
__attribute__((noinline)) static void paint(void) {
    painted = (uint64_t *)(((uintptr_t)__builtin_frame_address(0) - 64) & ~(uintptr_t)7);
    for (uint64_t *at = stack_bottom; at < painted; at++) *(volatile uint64_t *)at = 0xa5a5a5a5a5a5a5a5;
}

static uint32_t begun;
#define CALL(name, call) (paint(), begun = board_ticks(), status = (call), took(name, status))
#define TAKE(name, now, mid) \
    CALL(name, oscore_peer_take(&peer, now, mid, datagram, sizeof REQUEST, options, 8, &opened, &ticket, out, &out_len, &record, &detail))
static int failures;
__attribute__((noinline)) static void took(const char *name, oscore_status status) {
    uint32_t ticks = board_ticks() - begun;
    const uint64_t *at = stack_bottom;
    while (at < painted && *(const volatile uint64_t *)at == 0xa5a5a5a5a5a5a5a5) at++;
    board_say(name), board_say(": status "), number(status), board_say(", stack ");
    number((uint32_t)((uintptr_t)painted - (uintptr_t)at)), board_say(", instructions "), number((ticks & 0xffffff) * (TENTHS / 5) / 2), board_say("\n");
}

static void must(const char *what, bool holds) {
    if (!holds) board_say("WRONG: "), board_say(what), board_say("\n"), failures++;
}

static void copy(uint8_t *to, const uint8_t *from, uint32_t len) {
    while (len-- > 0) *to++ = *from++;
}

int main(void) {
    oscore_status status;
    oscore_context context = OSCORE_ZERO;
    CALL("derive", oscore_derive(&context, SECRET, sizeof SECRET, SALT, sizeof SALT, false, NULL, 0, OURS, 1, NULL, 0, TABLES, false, false));
    CALL("begin_first", oscore_peer_begin_first(&peer, &context, 32, 60000));
    oscore_wipe(&context, sizeof context);
    copy(datagram, REQUEST, sizeof REQUEST);
    TAKE("take, save first", 1000, 1);
    must("it asks for a save", status == OSCORE_SAVE_FIRST && record.generation == 1);
    CALL("saved", oscore_peer_saved(&peer, &record));
    TAKE("take, save its number", 1000, 1);
    must("it asks for the request's number", status == OSCORE_SAVE_FIRST && record.received == 21);
    CALL("saved", oscore_peer_saved(&peer, &record));
    TAKE("take", 1000, 1);
    must("C.4: GET /tv1, number 20", status == OSCORE_DONE && opened.code == 1 && opened.number == 20 && opened.option_count == 1
        && options[0].number == 11 && options[0].value_len == 3 && !memcmp(options[0].value, "tv1", 3));
    CALL("reply", oscore_peer_reply(&peer, &ticket, false, 0, PLAIN, sizeof PLAIN, reply, sizeof reply, &reply_len, &record, &detail));
    must("C.7", status == OSCORE_DONE && reply_len == sizeof REPLY && !memcmp(reply, REPLY, sizeof REPLY));
    copy(datagram, REQUEST, sizeof REQUEST);
    TAKE("take, replay", 1001, 2);
    must("a replay is refused", status == OSCORE_REPLAY);
    datagram[20] = 0x15; /* another number: the tag is wrong */
    TAKE("take, forged", 1002, 3);
    must("a forgery is refused", status == OSCORE_TAG);
    /* A life behind a record without a received number. It saves its first record, and asks for an Echo value. */
    CALL("derive", oscore_derive(&context, SECRET, sizeof SECRET, SALT, sizeof SALT, false, NULL, 0, OURS, 1, NULL, 0, TABLES, false, false));
    record = (oscore_peer_record){peer.name, 2, 64, 0};
    CALL("begin_again", oscore_peer_begin_again(&peer, &context, &record, 32, 60000));
    oscore_wipe(&context, sizeof context);
    copy(datagram, REQUEST, sizeof REQUEST);
    TAKE("take, save first", 1003, 4);
    CALL("saved", oscore_peer_saved(&peer, &record));
    TAKE("take, challenge", 1003, 4);
    must("an Echo value is asked for", status == OSCORE_CHALLENGE && out_len > 0);
#ifdef WITH_CLIENT
    static oscore_peer asking;
    static oscore_pending pending[1];
    static const uint8_t GET[] = {0x44, 0x01, 0x5d, 0x1f, 0x00, 0x00, 0x39, 0x74, 0x39, 'l', 'o', 'c', 'a', 'l', 'h', 'o', 's', 't', 0x83, 't', 'v', '1'};
    oscore_size count = 0, request = 0;
    uint64_t which = 0;
    CALL("derive", oscore_derive(&context, SECRET, sizeof SECRET, SALT, sizeof SALT, false, NULL, 0, NULL, 0, OURS, 1, TABLES, false, false));
    CALL("begin_first", oscore_peer_begin_first(&asking, &context, 32, 60000));
    record = (oscore_peer_record){asking.name, 1, 20, 0};
    CALL("begin_again", oscore_peer_begin_again(&asking, &context, &record, 32, 60000));
    oscore_wipe(&context, sizeof context);
    CALL("request, save first", oscore_peer_request(&asking, pending, 1, &count, 0, GET, sizeof GET, out, sizeof out, &request, &record, &detail));
    CALL("saved", oscore_peer_saved(&asking, &record));
    CALL("request", oscore_peer_request(&asking, pending, 1, &count, 0, GET, sizeof GET, out, sizeof out, &request, &record, &detail));
    must("C.4, sealed", status == OSCORE_DONE && request == sizeof REQUEST && !memcmp(out, REQUEST, sizeof REQUEST));
    CALL("hear", oscore_peer_hear(&asking, pending, 1, &count, 1, reply, reply_len, options, 8, &opened, &which, &detail));
    must("C.7, opened", status == OSCORE_DONE && opened.code == 69 && opened.payload_len == 12 && !memcmp(opened.payload, "Hello World!", 12));
#endif
    oscore_wipe(&peer, sizeof peer);
    board_say(failures ? "FAILED\n" : "C.4 and C.7 as printed\n");
    return failures;
}

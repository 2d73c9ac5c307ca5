/* An observation between two peers (RFC 7641; RFC 8613, 4.1.3.5 and 8.3.1), by tables and in constant time: a registration, four notifications of
   which one is lost, one late and one comes twice, its end, and a new life of either peer, byte for byte as a model of the test's author's
   makes them; each status of the calls; for how long either end goes on; a network that loses three datagrams of ten; the room that Observe
   takes. Records are saved when they are asked for. All that is handed in lies against a guard page. Built with the sanitizers by .ci/run, and run under valgrind's memcheck. */
#include "guarded.h"
#include "peer_bytes.h"

#define CHECK(holds) do { if (!(holds)) { printf("observe.c:%d: %s\n", __LINE__, #holds); exit(1); } } while (0)

/* GET /temp, as a registration and as its end, under the keys of RFC 8613, C.1; sealed under the numbers 20 and 21. */
static const char *REGISTRATION = "410101014a605474656d70", *CANCELLATION = "410101024a61015474656d70";
static const char *SEALED = "410501014a60320914ff61fc3090a5ed1bf69f1d661cf04b96";
static const char *SEALED_END = "410501024a6101320915ff936409589edfdd4f42d67694bb1ccab7";
/* 2.05 with Observe, Content-Format 0 and a temperature: an ACK with the registration's message ID, and three NON with their own. */
static const char *STATES[4] = {"604501016101" "60ff32302e31", "504570016102" "60ff32302e32", "504570026103" "60ff32302e33", "504570036104" "60ff32302e34"};
static const char *NOTIFICATIONS[4] = {"614501014a6101320100ff4dd33bfccdd8f762dd9be55ed4da0a72", "514570014a6102320101ff5283c3f4e0130f5955ca70f2ac7560ba",
                                       "514570024a6103320102ff37b0bb6b8c0309ad4252bacd4ac3c64c", "514570034a6104320103ffcb4f06e90e673f9db3a85a4b84a05d9e"};
/* The answer to the end without a Partial IV of its own, and 4.04 as the last answer to the registration, which has one in any case. */
static const char *LAST_STATE = "60450000c0ff32302e35", *SEALED_LAST_STATE = "614401024a90ff084f7601a8fc2d24e35074827481bc";
static const char *GONE = "50840005", *SEALED_GONE = "614401014a920104ff4f6d32165bc31a0861";

enum { NOW = 1000, LIFE = 60000, BATCH = 64, PLACES = 2 };
enum { CONTEXT, ASKING, SERVING, PENDING, COUNT, OPTIONS, OPENED, TICKET, USED, OUT, OUT_LEN, RECORD, GIVEN, DETAIL, NUMBER, PLAIN, DATAGRAM, TOKEN, SECRET,
       SALT, ID, REPLY, REPLY_LEN, ID_CONTEXT };
static const uint64_t NUMBERS = 1ull << 40;
static bool tables, observe;
static oscore_peer *asking, *serving;
static oscore_pending *pending;
static oscore_option *options;
static oscore_opened *opened;
static oscore_ticket *ticket;
static oscore_peer_record *record;
static uint8_t *out;
static oscore_size *pending_count, *out_len, *detail, *reply_len;
static uint64_t *number;

static void lay_out(bool before) {
    guarded_before = before;
    asking = guarded(ASKING, sizeof *asking);
    serving = guarded(SERVING, sizeof *serving);
    pending = guarded(PENDING, PLACES * sizeof *pending);
    pending_count = guarded(COUNT, sizeof *pending_count);
    options = guarded(OPTIONS, 4 * sizeof *options);
    opened = guarded(OPENED, sizeof *opened);
    ticket = guarded(TICKET, sizeof *ticket);
    record = guarded(RECORD, sizeof *record);
    out_len = guarded_room(OUT_LEN, sizeof *out_len);
    detail = guarded_room(DETAIL, sizeof *detail);
    number = guarded_room(NUMBER, sizeof *number);
    reply_len = guarded_room(REPLY_LEN, sizeof *reply_len);
}

static oscore_size hex(const char *text, uint8_t *bytes) {
    oscore_size len = 0;
    unsigned byte;
    for (; *text; text += 2, bytes[len++] = (uint8_t)byte) CHECK(sscanf(text, "%2x", &byte) == 1);
    return len;
}

static bool is(const uint8_t *bytes, oscore_size len, const char *text) {
    uint8_t wanted[64];
    return len == hex(text, wanted) && !memcmp(bytes, wanted, len);
}

/* One end's context of RFC 8613, C.1, with blocks, and with Observe or without. */
static const oscore_context *derive(bool of_client) {
    uint8_t bytes[16], one = 1;
    oscore_context *context = guarded(CONTEXT, sizeof *context);
    const uint8_t *secret = guarded_copy(SECRET, bytes, hex("0102030405060708090a0b0c0d0e0f10", bytes));
    const uint8_t *salt = guarded_copy(SALT, bytes, hex("9e7ca92223786340", bytes)), *id = guarded_copy(ID, &one, 1);
    CHECK(!oscore_derive(context, secret, 16, salt, 8, false, NULL, 0, of_client ? NULL : id, of_client ? 0 : 1, of_client ? id : NULL,
                         of_client ? 1 : 0, tables, true, observe));
    return context;
}

/* Whether a record had to be saved first, which it now is. */
static bool saved_first(oscore_peer *peer, oscore_status status) {
    if (status != OSCORE_SAVE_FIRST) return false;
    CHECK(!oscore_peer_saved(peer, guarded_copy(GIVEN, record, sizeof *record)));
    return true;
}

/* A peer behind a record. */
static void begin_behind(oscore_peer *peer, const oscore_context *context, uint64_t sender, uint64_t received) {
    CHECK(!oscore_peer_begin_first(peer, context, 32, LIFE));
    oscore_peer_record last = {peer->name, 1, sender, received};
    CHECK(!oscore_peer_begin_again(peer, context, guarded_copy(GIVEN, &last, sizeof last), 32, LIFE));
}

/* The peer that asks goes on at a number; the other was never used. */
static void begin_at(uint64_t sender) {
    begin_behind(asking, derive(true), sender, 0);
    memset(pending, 0, PLACES * sizeof *pending), *pending_count = 0;
    CHECK(!oscore_peer_begin_first(serving, derive(false), 32, LIFE));
}

static void begin(void) {
    observe = true;
    begin_at(20);
}

/* ---- the calls, with the text of a plain message */

static oscore_status notify_in(const oscore_ticket *of, const char *text, oscore_size room) {
    uint8_t bytes[64];
    oscore_size len = hex(text, bytes);
    oscore_status status;
    uint8_t *plain = guarded_copy(PLAIN, bytes, len);
    of = guarded_copy(USED, of, sizeof *of);
    out = guarded(OUT, room);
    do status = oscore_peer_notify(serving, of, plain, len, out, room, out_len, record, detail);
    while (saved_first(serving, status));
    for (oscore_size i = status ? 0 : *out_len; i < room; i++) CHECK(!out[i]);
    CHECK(status || *out_len <= OSCORE_ROOM(len));
    return status;
}

static oscore_status notify(const oscore_ticket *of, const char *text) {
    return notify_in(of, text, 64);
}

static oscore_status reply(oscore_ticket *of, const char *text) {
    uint8_t bytes[64];
    oscore_size len = hex(text, bytes);
    oscore_status status;
    uint8_t *plain = guarded_copy(PLAIN, bytes, len);
    oscore_ticket *used = guarded_copy(USED, of, sizeof *of);
    out = guarded_room(OUT, OSCORE_ROOM(len));
    do status = oscore_peer_reply(serving, used, false, 3, plain, len, out, OSCORE_ROOM(len), out_len, record, detail);
    while (saved_first(serving, status));
    *of = *used;
    return status;
}

/* A request is sealed. */
static oscore_status ask(uint64_t now, const char *text) {
    uint8_t bytes[64];
    oscore_size len = hex(text, bytes);
    oscore_status status;
    out = guarded_room(OUT, OSCORE_ROOM(len));
    do status = oscore_peer_request(asking, pending, PLACES, pending_count, now, guarded_copy(PLAIN, bytes, len), len, out, OSCORE_ROOM(len), out_len, record,
                                    detail);
    while (saved_first(asking, status));
    return status;
}

static oscore_status serve_bytes(const uint8_t *bytes, oscore_size len) {
    uint8_t *datagram = guarded_copy(DATAGRAM, bytes, len), *answer = guarded_room(REPLY, 64);
    oscore_status status;
    do status = oscore_peer_take(serving, 0, 9, datagram, len, options, 4, opened, ticket, answer, reply_len, record, detail);
    while (saved_first(serving, status));
    return status;
}

static oscore_status serve(const char *text) {
    uint8_t bytes[64];
    oscore_size len = hex(text, bytes);
    return serve_bytes(bytes, len);
}

/* Whether the last option, which is OSCORE, is one without a value: there is no Partial IV. */
static bool has_no_number(const uint8_t *bytes, oscore_size len) {
    const uint8_t *marker = memchr(bytes, 0xff, len);
    return marker && (marker[-1] == 0x30 || marker[-1] == 0x90);
}

/* A response comes. What isn't opened stays. */
static oscore_status hear_bytes(uint64_t now, const uint8_t *bytes, oscore_size len) {
    uint8_t *datagram = guarded_copy(DATAGRAM, bytes, len);
    oscore_status status = oscore_peer_hear(asking, pending, PLACES, pending_count, now, datagram, len, options, 4, opened, number, detail);
    bool is_opened = !status || status == OSCORE_INNER || (status == OSCORE_OLD && has_no_number(bytes, len));
    CHECK(is_opened == (memcmp(datagram, bytes, len) != 0));
    return status;
}

/* With bits of its last byte turned or not. */
static oscore_status hear(uint64_t now, const char *text, uint8_t turned) {
    uint8_t bytes[64];
    oscore_size len = hex(text, bytes);
    bytes[len - 1] ^= turned;
    opened->is_notification = turned != 0;
    return hear_bytes(now, bytes, len);
}

/* What was heard is a notification with a Partial IV of its own, and with this payload. */
static bool is_notified(uint64_t own, const char *payload) {
    CHECK(options[0].number == 6 && options[0].value_len == 0 && options[1].number == 12 && opened->option_count == 2);
    return opened->is_notification && opened->has_number && opened->number == own && *number == 20 && opened->code == 0x45
        && opened->payload_len == 4 && !memcmp(opened->payload, payload, 4) && *pending_count == 1 && pending[0].from == own + 2;
}

static bool forget(uint8_t token) {
    return !oscore_peer_forget(asking, pending, PLACES, pending_count, guarded_copy(TOKEN, &token, 1), 1);
}

/* ---- the observation */

/* The registration arrives, and the ticket observes. */
static oscore_ticket registered(void) {
    begin();
    CHECK(!ask(0, REGISTRATION) && is(out, *out_len, SEALED));
    CHECK(pending[0].observes == 1 && pending[0].from == 0);
    ticket->answered = 1;
    CHECK(!serve(SEALED) && opened->code == 1 && opened->number == 20 && !opened->is_notification && *reply_len == 0);
    CHECK(options[0].number == 6 && options[0].value_len == 0 && options[1].number == 11 && opened->option_count == 2);
    CHECK(ticket->observes == 1 && ticket->number == 20 && ticket->answered == 0);
    return *ticket;
}

/* Four notifications, of which the second comes late, the third twice, and the fourth turned. */
static oscore_ticket notified(void) {
    oscore_ticket observing = registered();
    for (unsigned i = 0; i < 4; i++) {
        CHECK(!notify(&observing, STATES[i]) && is(out, *out_len, NOTIFICATIONS[i]));
        CHECK(serving->server.context.next == i + 1);
    }
    CHECK(!hear(10, NOTIFICATIONS[0], 0) && is_notified(0, "20.1"));
    CHECK(!hear(30, NOTIFICATIONS[2], 0) && is_notified(2, "20.3"));
    CHECK(hear(31, NOTIFICATIONS[1], 0) == OSCORE_OLD && hear(32, NOTIFICATIONS[2], 0) == OSCORE_OLD && *detail == 0);
    CHECK(hear(33, NOTIFICATIONS[3], 1) == OSCORE_TAG && pending[0].from == 4 && opened->is_notification == 1);
    CHECK(serve(SEALED) == OSCORE_REPLAY && ticket->number == 20);
    return observing;
}

/* The whole exchange. */
static void observes(void) {
    oscore_ticket observing = notified();
    /* What cancels takes the place of the registration. Any other request under its token is refused. */
    CHECK(ask(40, "410101024ab474656d70") == OSCORE_TOKEN_IN_USE && *pending_count == 1 && pending[0].observes == 1);
    CHECK(!ask(40, CANCELLATION) && is(out, *out_len, SEALED_END) && *pending_count == 1 && pending[0].observes == 0);
    CHECK(ask(40, CANCELLATION) == OSCORE_TOKEN_IN_USE && ask(40, REGISTRATION) == OSCORE_TOKEN_IN_USE);
    CHECK(!serve(SEALED_END) && opened->number == 21 && ticket->observes == 0 && ticket->number == 21);
    CHECK(options[0].number == 6 && options[0].value_len == 1 && options[0].value[0] == 1 && opened->option_count == 2);
    CHECK(notify(ticket, STATES[1]) == OSCORE_NOT_OBSERVING && *detail == 0);
    CHECK(reply(ticket, STATES[1]) == OSCORE_UNSUPPORTED && *detail == 6);
    CHECK(!reply(ticket, LAST_STATE) && is(out, *out_len, SEALED_LAST_STATE) && serving->server.context.next == 4);
    CHECK(!hear(41, SEALED_LAST_STATE, 0) && !opened->is_notification && !opened->has_number && *number == 21 && *pending_count == 0);
    CHECK(hear(42, NOTIFICATIONS[3], 0) == OSCORE_UNKNOWN_TOKEN);
    CHECK(notify(&observing, GONE) == OSCORE_NOT_NOTIFICATION);
    CHECK(!reply(&observing, GONE) && is(out, *out_len, SEALED_GONE) && serving->server.context.next == 5);
    /* The last answer was given: neither a second one nor a notification comes behind it. */
    CHECK(reply(&observing, GONE) == OSCORE_TICKET_SPENT && notify(&observing, STATES[1]) == OSCORE_TICKET_SPENT && *detail == 0);
    CHECK(serving->server.context.next == 5);
    /* Another life notifies nobody. */
    observing.answered = 0;
    begin_behind(serving, derive(false), BATCH, 22);
    CHECK(notify(&observing, STATES[1]) == OSCORE_STALE_TICKET);
}

/* A message in blocks beside it. */
static void asks_for_a_block(void) {
    begin_at(22);
    CHECK(!ask(50, "410101034bb36c6f67c106") && is(out, *out_len, "410201034b920916ff8c27f5b9b17c8d22363b9d4c095620"));
}

/* What notifies nothing, in the order of its reasons; nothing changes. */
static void refuses(void) {
    oscore_ticket observing = registered(), other = observing;
    oscore_peer before = *serving;
    *out_len = 99;
    other.observes = 2;
    CHECK(notify(&other, "60") == OSCORE_BAD_HANDLE && reply(&other, GONE) == OSCORE_BAD_HANDLE && *detail == 0);
    other = observing;
    other.context++, other.observes = 0;
    CHECK(notify(&other, "604501016101ff") == OSCORE_EMPTY_PAYLOAD && *detail == 6);
    CHECK(notify(&other, "40010000") == OSCORE_STALE_TICKET && *detail == 0);
    other.context--;
    CHECK(notify(&other, "40010000") == OSCORE_NOT_OBSERVING);
    CHECK(notify(&observing, "40010000") == OSCORE_NOT_THAT_KIND);
    CHECK(notify(&observing, "50840000d11600") == OSCORE_UNSUPPORTED && *detail == 35);
    CHECK(notify(&observing, "50450000") == OSCORE_NOT_NOTIFICATION && notify_in(&observing, "5084000060", 0) == OSCORE_NOT_NOTIFICATION && *detail == 0);
    CHECK(notify_in(&observing, STATES[0], 26) == OSCORE_NO_ROOM && *out_len == 99);
    CHECK(same_peers(serving, &before) && serving->server.context.next == 0);
    CHECK(!notify_in(&observing, STATES[0], 27) && is(out, *out_len, NOTIFICATIONS[0]));
}

/* The last Sender Sequence Number notifies, and after it none is left for a notification or for the last answer. */
static void comes_to_its_last_number(void) {
    begin();
    begin_behind(serving, derive(false), NUMBERS - 1, 20);
    CHECK(!serve(SEALED) && !notify(ticket, STATES[0]) && serving->server.context.next == NUMBERS);
    CHECK(notify(ticket, GONE) == OSCORE_NOT_NOTIFICATION && notify_in(ticket, STATES[0], 0) == OSCORE_SEQUENCE_EXHAUSTED && *detail == 0);
    CHECK(reply(ticket, LAST_STATE) == OSCORE_SEQUENCE_EXHAUSTED && *detail == 0);
}

/* However many requests later the registration is notified still, and has its last answer, once. */
static void lasts_where_it_is_served(void) {
    oscore_ticket observing = registered();
    for (unsigned i = 0; i < 100; i++) {
        CHECK(!ask(0, "410101024b"));
        uint8_t sealed[64];
        oscore_size len = *out_len;
        memcpy(sealed, out, len);
        CHECK(!serve_bytes(sealed, len) && ticket->number == 21 + i && ticket->observes == 0 && forget(0x4b));
    }
    CHECK(!notify(&observing, STATES[0]) && is(out, *out_len, NOTIFICATIONS[0]) && !hear(0, NOTIFICATIONS[0], 0) && is_notified(0, "20.1"));
    CHECK(!reply(&observing, GONE) && serving->server.context.next == 2 && observing.answered == 1);
    uint8_t last[64];
    oscore_size len = *out_len;
    memcpy(last, out, len);
    CHECK(!hear_bytes(0, last, len) && !opened->is_notification && opened->number == 1 && opened->code == 0x84 && *number == 20);
    CHECK(hear_bytes(0, last, len) == OSCORE_UNKNOWN_TOKEN && *pending_count == 0);
    CHECK(reply(&observing, GONE) == OSCORE_TICKET_SPENT && notify(&observing, STATES[0]) == OSCORE_TICKET_SPENT && serving->server.context.next == 2);
}

/* A registration that was notified waits for longer than any other request. */
static void lasts_where_it_is_asked(void) {
    oscore_ticket observing = registered();
    CHECK(!notify(&observing, STATES[0]) && !notify(&observing, STATES[1]));
    CHECK(!hear(LIFE, NOTIFICATIONS[0], 0) && pending[0].moment == 0);
    CHECK(!hear(9 * LIFE, NOTIFICATIONS[1], 0) && is_notified(1, "20.2"));
    CHECK(!hear(UINT64_MAX, NOTIFICATIONS[3], 0) && is_notified(3, "20.4"));
    registered();
    CHECK(hear(LIFE + 1, NOTIFICATIONS[0], 0) == OSCORE_UNKNOWN_TOKEN && *pending_count == 0);
    /* Nor does it go on where the peer begins again. */
    registered();
    CHECK(!hear(NOW, NOTIFICATIONS[0], 0));
    begin_at(20 + BATCH);
    CHECK(hear(NOW, NOTIFICATIONS[1], 0) == OSCORE_UNKNOWN_TOKEN);
}

/* The last answer to a registration ends the wait for it: one without Observe, even if it comes first. */
static void ends(void) {
    oscore_ticket observing = registered();
    CHECK(!reply(&observing, GONE) && out[4] == 0x4a);
    uint8_t sealed[64];
    oscore_size len = *out_len;
    memcpy(sealed, out, len);
    CHECK(!hear_bytes(1, sealed, len));
    CHECK(!opened->is_notification && opened->has_number && opened->number == 0 && opened->code == 0x84 && *pending_count == 0);
}

/* A notification without a Partial IV is the first. The last answer may have none too, as others seal it, and ends the wait wherever it comes. */
static void hears_without_a_number(void) {
    static const char *const FIRST = "514570004a610130ffdb35f973f9bb320708b776abeef1", *const LAST = "514400094a90ff1a106b852326dd7c16";
    registered();
    CHECK(!hear(1, FIRST, 0) && opened->is_notification && !opened->has_number && pending[0].from == 1);
    CHECK(hear(2, FIRST, 0) == OSCORE_OLD && *detail == 0 && *pending_count == 1 && pending[0].from == 1);
    CHECK(!hear(3, NOTIFICATIONS[1], 0) && is_notified(1, "20.2"));
    CHECK(hear(4, FIRST, 0) == OSCORE_OLD && hear(5, LAST, 1) == OSCORE_TAG && pending[0].from == 3);
    CHECK(!hear(6, LAST, 0) && !opened->is_notification && !opened->has_number && opened->code == 0x84 && *number == 20 && *pending_count == 0);
    CHECK(hear(7, LAST, 0) == OSCORE_UNKNOWN_TOKEN && hear(8, NOTIFICATIONS[3], 0) == OSCORE_UNKNOWN_TOKEN);
}

/* What no call wrote of a wait is refused. */
static void refuses_waits(void) {
    registered();
    oscore_pending before = pending[0];
    pending[0].observes = 2;
    CHECK(hear(1, NOTIFICATIONS[0], 0) == OSCORE_BAD_HANDLE && !forget(0x4a));
    pending[0].observes = 0, pending[0].from = 1;
    CHECK(hear(1, NOTIFICATIONS[0], 0) == OSCORE_BAD_HANDLE && ask(1, "400100") == OSCORE_BAD_HANDLE);
    pending[0] = before;
    pending[0].from = UINT64_MAX;
    CHECK(hear(1, NOTIFICATIONS[0], 0) == OSCORE_OLD);
}

/* What a context doesn't allow, it doesn't register, nor notify, nor hear. */
static void allows_nothing_else(void) {
    observe = false;
    begin_at(20);
    CHECK(ask(0, REGISTRATION) == OSCORE_UNSUPPORTED && *detail == 6 && *pending_count == 0);
    CHECK(serve(SEALED) == OSCORE_INNER);
    oscore_ticket observing = registered();
    asking->server.context.context.observe = serving->server.context.context.observe = 0;
    CHECK(notify(&observing, STATES[0]) == OSCORE_UNSUPPORTED && *detail == 6);
    CHECK(hear(1, NOTIFICATIONS[0], 0) == OSCORE_INNER && *pending_count == 1);
}

/* A request that registers nothing is never notified. */
static void hears_no_notification(void) {
    begin();
    CHECK(!ask(0, "410101014ab474656d70") && pending[0].number == 20 && pending[0].observes == 0);
    CHECK(hear(1, NOTIFICATIONS[0], 0) == OSCORE_INNER && *pending_count == 1 && pending[0].from == 0);
}

/* ---- a network that loses three datagrams of ten */

struct sent {
    uint8_t bytes[64];
    oscore_size len;
};

/* What was sealed last. */
static struct sent sealed(void) {
    struct sent sent = {.len = *out_len};
    memcpy(sent.bytes, out, sent.len);
    return sent;
}

static bool is_lost(void) {
    return rand() % 10 < 3;
}

/* The request that was sealed last is sent until its first response is heard (RFC 7252, 4.2). It is delivered once, and where it comes again,
   the same response is sent (4.5): a notification, or the answer. */
static oscore_ticket comes_through(bool notifies) {
    struct sent request = sealed(), response = {.len = 0};
    oscore_ticket got = OSCORE_ZERO;
    for (;;) {
        if (is_lost()) continue;
        CHECK(serve_bytes(request.bytes, request.len) == (response.len > 0 ? OSCORE_REPLAY : OSCORE_DONE));
        if (response.len == 0) {
            got = *ticket;
            CHECK(!(notifies ? notify(&got, STATES[0]) : reply(&got, LAST_STATE)));
            response = sealed();
        }
        if (is_lost()) continue;
        CHECK(!hear_bytes(0, response.bytes, response.len) && opened->is_notification == notifies);
        CHECK(hear_bytes(0, response.bytes, response.len) == (notifies ? OSCORE_OLD : OSCORE_UNKNOWN_TOKEN));
        return got;
    }
}

/* Of so many notifications those are heard that aren't lost, each once, in order. */
static void notifies_through(const oscore_ticket *observing, unsigned count) {
    unsigned heard = 0;
    uint64_t last = opened->number;
    for (unsigned i = 0; i < count; i++) {
        CHECK(!notify(observing, STATES[1 + i % 3]));
        struct sent notification = sealed();
        if (is_lost()) continue;
        CHECK(!hear_bytes(0, notification.bytes, notification.len) && opened->is_notification && opened->number > last);
        CHECK(hear_bytes(0, notification.bytes, notification.len) == OSCORE_OLD);
        last = opened->number, heard++;
    }
    CHECK(heard > count / 2 && heard < count);
}

/* A registration, fifty notifications, a hundred requests beside it, the end by the server, the same token again, and the end by the client. */
static void goes_through_losses(void) {
    srand(1);
    begin();
    CHECK(!ask(0, REGISTRATION));
    oscore_ticket observing = comes_through(true);
    CHECK(observing.number == 20);
    notifies_through(&observing, 50);
    for (unsigned i = 0; i < 100; i++) {
        CHECK(!ask(0, "410101024b") && comes_through(false).number == 21 + i && *pending_count == 1);
    }
    CHECK(!reply(&observing, GONE));
    struct sent end = sealed();
    while (is_lost()) continue;
    CHECK(!hear_bytes(0, end.bytes, end.len) && !opened->is_notification && opened->code == 0x84 && *number == 20 && *pending_count == 0);
    CHECK(hear_bytes(0, end.bytes, end.len) == OSCORE_UNKNOWN_TOKEN && reply(&observing, GONE) == OSCORE_TICKET_SPENT);
    CHECK(notify(&observing, STATES[0]) == OSCORE_TICKET_SPENT);
    CHECK(!ask(0, REGISTRATION) && comes_through(true).number == 121 && *pending_count == 1);
    CHECK(!ask(0, REGISTRATION) && comes_through(true).number == 122 && *pending_count == 1);
    CHECK(!ask(0, CANCELLATION) && *pending_count == 1);
    oscore_ticket cancelled = comes_through(false);
    CHECK(cancelled.number == 123 && !cancelled.observes && *pending_count == 0);
}

/* ---- the room that it takes */

/* All the room that the header says: Observe of 3 bytes stands outside and inside; behind it come the options 16, 20, 21 and 33, of which 16 and
   21 stand outside alone, so that 20 and 33 have deltas of 14 and 13 inside, and of 4 and 12 in the plain message; and the identifiers and the
   number are the longest. */
static void fills_the_room(void) {
    static const uint8_t ids[7] = {1}, id_context[32] = {1}, plain[] = {0x40, 1, 0, 1, 0x63, 1, 2, 3, 0xa0, 0x40, 0x10, 0xc0};
    uint8_t secret[16] = {1};
    oscore_context *context = guarded(CONTEXT, sizeof *context);
    oscore_size most = OSCORE_ROOM(sizeof plain);
    oscore_status status;
    CHECK(!oscore_derive(context, guarded_copy(SECRET, secret, 16), 16, NULL, 0, true, guarded_copy(ID_CONTEXT, id_context, 32), 32,
                         guarded_copy(ID, ids, 7), 7, NULL, 0, tables, false, true));
    begin_behind(asking, context, NUMBERS - 1, 0);
    *pending_count = 0;
    out = guarded_room(OUT, most - 1);
    do status = oscore_peer_request(asking, pending, PLACES, pending_count, 0, guarded_copy(PLAIN, plain, sizeof plain), sizeof plain, out, most - 1, out_len,
                                    record, detail);
    while (saved_first(asking, status));
    CHECK(status == OSCORE_NO_ROOM && *pending_count == 0 && asking->server.context.next == NUMBERS - 1);
    out = guarded_room(OUT, most);
    CHECK(!oscore_peer_request(asking, pending, PLACES, pending_count, 0, guarded_copy(PLAIN, plain, sizeof plain), sizeof plain, out, most, out_len, record,
                               detail));
    CHECK(*out_len == most && *pending_count == 1);
}

int main(void) {
    for (int before = 0; before < 2; before++) {
        lay_out(before);
        for (int ciphers = 0; ciphers < 2; ciphers++) {
            tables = ciphers == 0;
            observes();
            asks_for_a_block();
            refuses();
            comes_to_its_last_number();
            lasts_where_it_is_served();
            lasts_where_it_is_asked();
            ends();
            hears_without_a_number();
            refuses_waits();
            allows_nothing_else();
            hears_no_notification();
            goes_through_losses();
            fills_the_room();
        }
    }
    puts("observe: a registration, four notifications, its end and new lives; each status; how long both peers go on; through losses; by two ciphers");
    return 0;
}

/* Whether a branch or an address depends on a key. To valgrind's memcheck the Master Secret is unknown, and so is all that comes of it; it
   reports each branch and each address that depends on something unknown. Derived, sealed and opened are messages of 0 to 100 bytes of
   payload, alone and by two peers. In constant time there is one report for each bad tag, the verdict on it, and none before; behind a
   good tag there are those of what reads the message: bindings/c/check looks that they stand there. So it is of contexts that ask for
   nothing. Whether two peers may stand beside each other has one report for each, on whether their keys are the same. With the word `tables` they ask for the cipher with tables: then there are many, so that it is seen that memcheck sees. */
#include "../oscore.h"
#include <stdio.h>
#include <stdlib.h>
#include <string.h>
#include <valgrind/memcheck.h>

#define CHECK(condition) ((condition) ? (void)0 : fails(__LINE__, #condition))

enum { LONGEST = 100, ROOM = 256 };

static const uint8_t one = 1, salt[8] = {0x9e, 0x7c, 0xa9, 0x22, 0x23, 0x78, 0x63, 0x40};

/* The reports so far: before the verdict on a tag, and of calls that end with a bad one. */
static unsigned long with_keys, with_bad_tags, bad_tags;

static void fails(int line, const char *condition) {
    printf("line %d: %s\n", line, condition);
    exit(1);
}

/* How many reports there were since the last call. */
static unsigned long reports(void) {
    static unsigned long before;
    unsigned long now = VALGRIND_COUNT_ERRORS, more = now - before;
    before = now;
    return more;
}

/* What everybody sees, or may: sent bytes, and what hangs on the verdict. */
static void shown(void *bytes, oscore_size len) {
    (void)VALGRIND_MAKE_MEM_DEFINED(bytes, len);
}

/* A message with a token of one byte and so many bytes of payload. */
static oscore_size message(uint8_t *plain, uint8_t code, uint8_t token, oscore_size len) {
    const uint8_t head[] = {0x41, code, 0, token, token};
    memcpy(plain, head, sizeof head);
    if (len == 0)
        return sizeof head;
    plain[sizeof head] = 0xff;
    memset(plain + sizeof head + 1, 'x', len);
    return sizeof head + 1 + len;
}

/* The contexts of both ends under a secret that memcheck takes for unknown. */
static void derive(oscore_context *client, oscore_context *server, bool tables) {
    uint8_t secret[16] = {1, 2, 3, 4, 5, 6, 7, 8, 9, 10, 11, 12, 13, 14, 15, 16};
    (void)VALGRIND_MAKE_MEM_UNDEFINED(secret, sizeof secret);
    CHECK(!oscore_derive(client, secret, sizeof secret, salt, sizeof salt, false, NULL, 0, NULL, 0, &one, 1, tables, false, false));
    CHECK(!oscore_derive(server, secret, sizeof secret, salt, sizeof salt, false, NULL, 0, &one, 1, NULL, 0, tables, false, false));
    CHECK(reports() == 0);
    /* So the keys are unknown too. To ask is one more report. */
    CHECK(VALGRIND_CHECK_MEM_IS_DEFINED(client->sender_key, 16) && VALGRIND_CHECK_MEM_IS_DEFINED(client->recipient_key, 16));
    (void)reports();
}

/* A request and its response, sealed, opened with a turned tag, and opened. */
static void messages(const oscore_context *client, const oscore_context *server, oscore_size len) {
    uint8_t plain[ROOM], datagram[ROOM], turned[ROOM];
    oscore_size sealed = 0, detail = 0;
    oscore_option options[4];
    oscore_opened opened;
    for (int response = 0; response < 2; response++) {
        oscore_size plain_len = message(plain, response ? 0x45 : 0x01, 7, len);
        CHECK(!(response ? oscore_seal_response(server, len, len % 2, 5, plain, plain_len, datagram, ROOM, &sealed, &detail)
                         : oscore_seal_request(client, len, plain, plain_len, datagram, ROOM, &sealed, &detail)));
        with_keys += reports();
        shown(datagram, sealed);
        memcpy(turned, datagram, sealed);
        turned[sealed - 1] ^= 1;
        CHECK(response ? oscore_open_response(client, len, turned, sealed, options, 4, &opened, &detail)
                       : oscore_open_request(server, turned, sealed, options, 4, &opened, &detail));
        with_bad_tags += reports();
        bad_tags++;
        CHECK(!(response ? oscore_open_response(client, len, datagram, sealed, options, 4, &opened, &detail)
                         : oscore_open_request(server, datagram, sealed, options, 4, &opened, &detail)));
        (void)reports();
    }
}

/* All of a peer but its keys. The name of its context is made of them, and is no secret. */
static void shown_peer(oscore_peer *peer) {
    shown(peer, offsetof(oscore_peer, server.context));
    shown((uint8_t *)&peer->server.context + sizeof(oscore_context), sizeof peer->server.context - sizeof(oscore_context));
    shown(&peer->server.unanswered, sizeof *peer - offsetof(oscore_peer, server.unanswered));
}

/* The record that a call wrote is saved. */
static void save(oscore_peer *peer, oscore_peer_record *record) {
    shown(record, sizeof *record);
    CHECK(!oscore_peer_saved(peer, record));
    with_keys += reports();
}

static void begin_peer(oscore_peer *peer, const oscore_context *context) {
    CHECK(!oscore_peer_begin_first(peer, context, 32, 60000));
    with_keys += reports();
    shown_peer(peer);
}

/* The same by two peers: a request that comes with a turned tag and then whole, and its response. A request is encrypted again where its
   number has to be saved: to memcheck what comes of that is unknown, though it is what was sent. */
static void peers(oscore_peer *asking, oscore_peer *answering, oscore_size len) {
    uint8_t plain[ROOM], datagram[ROOM], turned[ROOM], out[64];
    oscore_size sealed = 0, out_len = 0, detail = 0;
    static oscore_pending pending[1];
    static oscore_size pending_count;
    uint64_t number = 0;
    oscore_option options[4];
    oscore_opened opened;
    oscore_ticket ticket = {0};
    oscore_peer_record record = {0};
    oscore_size plain_len = message(plain, 0x01, (uint8_t)len, len);
    oscore_status status;
    while ((status = oscore_peer_request(asking, pending, 1, &pending_count, len, plain, plain_len, datagram, ROOM, &sealed, &record, &detail)) == OSCORE_SAVE_FIRST)
        save(asking, &record);
    CHECK(!status);
    with_keys += reports();
    shown(datagram, sealed);
    memcpy(turned, datagram, sealed);
    turned[sealed - 1] ^= 1;
    while ((status = oscore_peer_take(answering, len, 1, turned, sealed, options, 4, &opened, &ticket, out, &out_len, &record, &detail)) == OSCORE_SAVE_FIRST)
        save(answering, &record);
    CHECK(status == OSCORE_TAG);
    with_bad_tags += reports();
    bad_tags++;
    shown_peer(answering);
    CHECK(oscore_peer_take(answering, len, 1, datagram, sealed, options, 4, &opened, &ticket, out, &out_len, &record, &detail) == OSCORE_SAVE_FIRST);
    (void)reports();
    shown_peer(answering);
    shown(datagram, sealed);
    save(answering, &record);
    CHECK(!oscore_peer_take(answering, len, 1, datagram, sealed, options, 4, &opened, &ticket, out, &out_len, &record, &detail));
    (void)reports();
    shown(&ticket, sizeof ticket);
    shown_peer(answering);
    plain_len = message(plain, 0x45, (uint8_t)len, len);
    while ((status = oscore_peer_reply(answering, &ticket, len % 2, 1, plain, plain_len, datagram, ROOM, &sealed, &record, &detail)) == OSCORE_SAVE_FIRST)
        save(answering, &record);
    CHECK(!status);
    with_keys += reports();
    shown(datagram, sealed);
    memcpy(turned, datagram, sealed);
    turned[sealed - 1] ^= 1;
    CHECK(oscore_peer_hear(asking, pending, 1, &pending_count, len, turned, sealed, options, 4, &opened, &number, &detail) == OSCORE_TAG);
    with_bad_tags += reports();
    bad_tags++;
    CHECK(!oscore_peer_hear(asking, pending, 1, &pending_count, len, datagram, sealed, options, 4, &opened, &number, &detail));
    (void)reports();
    shown_peer(asking);
    shown(pending, sizeof pending), shown(&pending_count, sizeof pending_count);
}

/* A context beside a peer of the other end's, and beside one of its own. Both keys are unknown, and each comparison is one branch. */
static void fits(const oscore_peer *other, const oscore_peer *own, const oscore_context *context) {
    (void)reports();
    CHECK(oscore_peer_fits(other, 1, context) && reports() == 1);
    CHECK(!oscore_peer_fits(own, 1, context) && reports() == 1);
    CHECK(oscore_peer_fits_at(other, 1, 0, context) && reports() == 1);
    CHECK(!oscore_peer_fits_at(own, 1, 0, context) && reports() == 1);
}

int main(int count, char **words) {
    bool tables = count > 1 && !strcmp(words[1], "tables");
    static oscore_peer asking, answering;
    oscore_context client_context, server_context;
    CHECK(RUNNING_ON_VALGRIND);
    (void)reports(); /* those of a C library that is linked in, before main */
    derive(&client_context, &server_context, tables);
    begin_peer(&asking, &client_context), begin_peer(&answering, &server_context);
    fits(&asking, &answering, &server_context), fits(&answering, &asking, &client_context);
    for (oscore_size len = 0; len <= LONGEST; len += tables ? LONGEST / 2 : 1) {
        messages(&client_context, &server_context, len);
        peers(&asking, &answering, len);
    }
    printf("%lu reports with keys, and %lu of %lu bad tags\n", with_keys, with_bad_tags, bad_tags);
    if (tables)
        CHECK(with_keys > bad_tags && with_bad_tags > 2 * bad_tags);
    else
        CHECK(with_keys == 0 && with_bad_tags == bad_tags);
    return 0;
}

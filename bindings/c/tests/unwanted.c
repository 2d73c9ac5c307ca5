/* Where a caller doesn't want `detail`, or which request a response is for, NULL takes its place: each call answers as it does otherwise, and
   leaves as much. So of each call two are made, one with NULL, one without, where it is done and where it refuses. Built with the sanitizers
   by .ci/run, and run under valgrind's memcheck. */
#include "../oscore.h"
#include <stdio.h>
#include <stdlib.h>
#include <string.h>

#define CHECK(holds) do { if (!(holds)) { printf("unwanted.c:%d: %s\n", __LINE__, #holds); exit(1); } } while (0)
/* A call with NULL in the place of `detail`, and without it, behind the same state: both answer this. */
#define BOTH(wanted, call) do { \
        oscore_status with_null, without; \
        oscore_size *detail = NULL; \
        keep(), with_null = call, go_back(), detail = &said, said = 99, without = call; \
        CHECK(with_null == (wanted) && without == (wanted)); \
        CHECK((without == OSCORE_DONE || said != 99) && is_as_kept()); \
    } while (0)

static const uint8_t SECRET[16] = {1, 2, 3, 4, 5, 6, 7, 8, 9, 10, 11, 12, 13, 14, 15, 16}, CLIENT = 0, SERVER = 1, TOKEN = 0x4a;
static const uint8_t REGISTER[6] = {0x41, 1, 0, 1, 0x4a, 0x60}, NOTE[6] = {0x61, 0x45, 0, 1, 0x4a, 0x60}, CONTENT[5] = {0x61, 0x45, 0, 1, 0x4a};
static const uint8_t ROUTED[14] = {0x40, 1, 0, 1, 0xd8, 22, 'c', 'o', 'a', 'p', ':', '/', '/', 'h'};

/* One end: its peer, and what its calls are given. What the call with NULL left is kept beside what it began with. */
typedef struct end {
    oscore_peer peer;
    oscore_pending pending[2];
    OSCORE_SLOT oscore_size pending_count;
    oscore_ticket ticket;
    oscore_peer_record record;
    uint8_t out[128], datagram[128];
    OSCORE_SLOT oscore_size out_len;
} end;

static end lock, key, locks[2], keys[2];
static oscore_context lock_context, key_context;
static oscore_option options[4];
static oscore_opened opened;
static oscore_size said;

static void keep(void) {
    locks[0] = lock, keys[0] = key;
}

static void go_back(void) {
    locks[1] = lock, keys[1] = key, lock = locks[0], key = keys[0];
}

static bool same_end(const end *one, const end *other) {
    return one->peer.server.context.next == other->peer.server.context.next && one->peer.clock == other->peer.clock
        && one->peer.server.clock == other->peer.server.clock && one->peer.server.context.spent_mask == other->peer.server.context.spent_mask
        && one->pending_count == other->pending_count && one->out_len == other->out_len && one->ticket.number == other->ticket.number
        && one->record.generation == other->record.generation && one->record.sender == other->record.sender
        && !memcmp(one->out, other->out, sizeof one->out) && !memcmp(one->datagram, other->datagram, sizeof one->datagram);
}

static bool is_as_kept(void) {
    return same_end(&locks[1], &lock) && same_end(&keys[1], &key);
}

static void derive(oscore_context *context, const uint8_t *own, const uint8_t *theirs) {
    CHECK(!oscore_derive(context, SECRET, sizeof SECRET, NULL, 0, false, NULL, 0, own, 1, theirs, 1, true, false, true));
}

/* What one end sent lies in the other's datagram. */
static void send_to(end *other, const end *from) {
    memcpy(other->datagram, from->out, from->out_len);
}

/* ---- single messages */

static void messages(void) {
    oscore_request_head head = OSCORE_ZERO;
    oscore_option unordered[2] = {{60, NULL, 0}, {11, NULL, 0}};
    uint8_t scheme[5];
    oscore_size scheme_len;
    BOTH(OSCORE_OPTION_ORDER, oscore_write_message(0, 1, 1, NULL, 0, unordered, 2, NULL, 0, key.out, 128, &key.out_len, detail));
    BOTH(OSCORE_DONE, oscore_write_message(0, 1, 1, &TOKEN, 1, unordered, 1, NULL, 0, key.out, 128, &key.out_len, detail));
    BOTH(OSCORE_NOT_ONE_PROXY_URI, oscore_split_proxy_uri(REGISTER, 6, key.out, 128, &key.out_len, scheme, &scheme_len, detail));
    BOTH(OSCORE_DONE, oscore_split_proxy_uri(ROUTED, sizeof ROUTED, key.out, 128, &key.out_len, scheme, &scheme_len, detail));
    BOTH(OSCORE_SCHEME_LENGTH, oscore_ask_proxy(REGISTER, 6, NULL, 0, key.out, 128, &key.out_len, detail));
    BOTH(OSCORE_DONE, oscore_ask_proxy(REGISTER, 6, scheme, scheme_len, key.out, 128, &key.out_len, detail));
    BOTH(OSCORE_SHORT, oscore_seal_request(&key_context, 20, CONTENT, 3, key.out, 128, &key.out_len, detail));
    BOTH(OSCORE_DONE, oscore_seal_request(&key_context, 20, REGISTER, 5, key.out, 128, &key.out_len, detail));
    send_to(&lock, &key);
    BOTH(OSCORE_SHORT, oscore_head(lock.datagram, 2, &head, detail));
    BOTH(OSCORE_DONE, oscore_head(lock.datagram, key.out_len, &head, detail));
    BOTH(OSCORE_SHORT, oscore_open_request(&lock_context, lock.datagram, 1, options, 4, &opened, detail));
    BOTH(OSCORE_DONE, oscore_open_request(&lock_context, lock.datagram, key.out_len, options, 4, &opened, detail));
    BOTH(OSCORE_SHORT, oscore_seal_response(&lock_context, 20, false, 0, CONTENT, 1, lock.out, 128, &lock.out_len, detail));
    BOTH(OSCORE_DONE, oscore_seal_response(&lock_context, 20, false, 0, CONTENT, 5, lock.out, 128, &lock.out_len, detail));
    send_to(&key, &lock);
    BOTH(OSCORE_SHORT, oscore_open_response(&key_context, 20, key.datagram, 0, options, 4, &opened, detail));
    BOTH(OSCORE_DONE, oscore_open_response(&key_context, 20, key.datagram, lock.out_len, options, 4, &opened, detail));
}

/* ---- peers */

#define TAKE(len) \
    oscore_peer_take(&lock.peer, 0, 7, lock.datagram, len, options, 4, &opened, &lock.ticket, lock.out, &lock.out_len, &lock.record, detail)
#define ASK(len) oscore_peer_request(&key.peer, key.pending, 2, &key.pending_count, 0, REGISTER, len, key.out, 128, &key.out_len, &key.record, detail)
#define HEAR(request, len) \
    oscore_peer_hear(&key.peer, key.pending, 2, &key.pending_count, 0, key.datagram, len, options, 4, &opened, request, detail)

static void save(end *of) {
    CHECK(!oscore_peer_saved_nowhere(&of->peer, &of->record));
}

static void peers(void) {
    oscore_size index;
    uint64_t number = 0;
    CHECK(!oscore_peer_begin_first(&lock.peer, &lock_context, 32, 1000) && !oscore_peer_begin_first(&key.peer, &key_context, 32, 1000));
    BOTH(OSCORE_SAVE_FIRST, ASK(6));
    save(&key);
    BOTH(OSCORE_SHORT, ASK(2));
    BOTH(OSCORE_DONE, ASK(6));
    send_to(&lock, &key);
    BOTH(OSCORE_SHORT, oscore_peer_find(&lock.peer, 1, lock.datagram, 3, &index, detail));
    BOTH(OSCORE_DONE, oscore_peer_find(&lock.peer, 1, lock.datagram, key.out_len, &index, detail));
    BOTH(OSCORE_SAVE_FIRST, TAKE(key.out_len));
    save(&lock);
    BOTH(OSCORE_SHORT, TAKE(1));
    BOTH(OSCORE_DONE, TAKE(key.out_len));
    BOTH(OSCORE_SHORT, oscore_peer_notify(&lock.peer, &lock.ticket, NOTE, 1, lock.out, 128, &lock.out_len, &lock.record, detail));
    BOTH(OSCORE_DONE, oscore_peer_notify(&lock.peer, &lock.ticket, NOTE, 6, lock.out, 128, &lock.out_len, &lock.record, detail));
    send_to(&key, &lock);
    BOTH(OSCORE_SHORT, HEAR(&number, 2));
    BOTH(OSCORE_SHORT, HEAR(NULL, 2));
    BOTH(OSCORE_DONE, HEAR(NULL, lock.out_len));
    CHECK(opened.is_notification);
    BOTH(OSCORE_SHORT, oscore_peer_reply(&lock.peer, &lock.ticket, false, 7, CONTENT, 1, lock.out, 128, &lock.out_len, &lock.record, detail));
    BOTH(OSCORE_DONE, oscore_peer_reply(&lock.peer, &lock.ticket, false, 7, CONTENT, 5, lock.out, 128, &lock.out_len, &lock.record, detail));
    send_to(&key, &lock);
    /* The last response: NULL takes the number's place alone, then `detail`'s too. */
    number = 99;
    BOTH(OSCORE_DONE, HEAR(&number, lock.out_len));
    CHECK(number == 0 && !opened.is_notification && key.pending_count == 0);
}

int main(void) {
    derive(&key_context, &CLIENT, &SERVER), derive(&lock_context, &SERVER, &CLIENT);
    messages();
    peers();
    puts("all as said");
    return 0;
}

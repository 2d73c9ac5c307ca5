/* Whether the other tests see a step too far: a shim in front of the library's calls, to be linked with --wrap. Of each pointer that a
   test hands in it asks the system whether the byte behind that to which it leads can be read, and the one before. Where both can, a
   library that reads or writes too far wouldn't be seen, and the test fails. */
#define _DEFAULT_SOURCE
#include "../oscore.h"
#include <stdio.h>
#include <stdlib.h>
#include <unistd.h>

#define STRUCT(name) lies_at_an_edge(__func__, #name, name, sizeof *name)
#define BYTES(name) SOME(name, name##_len)
#define SOME(name, len) lies_at_an_edge(__func__, #name, name, len)
#define WRAP(name, type, parameters) \
    type __real_oscore_##name parameters; \
    type __wrap_oscore_##name parameters; \
    type __wrap_oscore_##name parameters

static int ends[2];
static long before_a_guard, behind_a_guard;

__attribute__((constructor)) static void begin(void) {
    if (pipe(ends)) exit(1);
}

/* A test has to have laid things on both sides. */
__attribute__((destructor)) static void finish(void) {
    printf("guards: %ld things before a guard page, %ld behind one\n", before_a_guard, behind_a_guard);
    fflush(stdout);
    if (before_a_guard == 0 || behind_a_guard == 0) _exit(1);
}

/* The system refuses to write what can't be read. */
static bool can_be_read(const uint8_t *byte) {
    uint8_t same;
    return write(ends[1], byte, 1) == 1 && read(ends[0], &same, 1) == 1;
}

static void lies_at_an_edge(const char *call, const char *name, const void *at, oscore_size len) {
    const uint8_t *first = at;
    if (!first) return;
    bool before = !can_be_read(first + len), behind = !can_be_read(first - 1);
    before_a_guard += before, behind_a_guard += behind;
    if (before || behind) return;
    printf("%s: %s doesn't lie against a guard page\n", call, name);
    exit(1);
}

WRAP(sizes_v5, void, (oscore_struct_sizes *sizes)) {
    STRUCT(sizes);
    __real_oscore_sizes_v5(sizes);
}

WRAP(status_name_v5, void, (uint32_t status, char name[24])) {
    SOME(name, 24);
    __real_oscore_status_name_v5(status, name);
}

WRAP(derive_v5, oscore_status, (oscore_context *out, const uint8_t *secret, oscore_size secret_len, const uint8_t *salt, oscore_size salt_len,
                             bool has_id_context, const uint8_t *id_context, oscore_size id_context_len, const uint8_t *sender,
                             oscore_size sender_len, const uint8_t *recipient, oscore_size recipient_len, bool tables, bool blocks,
                             bool observe)) {
    STRUCT(out), BYTES(secret), BYTES(salt), BYTES(id_context), BYTES(sender), BYTES(recipient);
    return __real_oscore_derive_v5(out, secret, secret_len, salt, salt_len, has_id_context, id_context, id_context_len, sender, sender_len,
                                recipient, recipient_len, tables, blocks, observe);
}

WRAP(write_message_v5, oscore_status, (uint8_t kind, uint8_t code, uint16_t message_id, const uint8_t *token, oscore_size token_len,
                                    const oscore_option *options, oscore_size option_count, const uint8_t *payload, oscore_size payload_len,
                                    uint8_t *out, oscore_size out_room, oscore_size *out_len, oscore_size *detail)) {
    BYTES(token), SOME(options, option_count * sizeof *options), BYTES(payload), SOME(out, out_room), STRUCT(out_len), STRUCT(detail);
    for (oscore_size i = 0; i < option_count; i++) SOME(options[i].value, options[i].value_len);
    return __real_oscore_write_message_v5(kind, code, message_id, token, token_len, options, option_count, payload, payload_len, out, out_room,
                                       out_len, detail);
}

WRAP(split_proxy_uri_v6, oscore_status, (const uint8_t *plain, oscore_size plain_len, uint8_t *out, oscore_size out_room, oscore_size *out_len,
                                         uint8_t scheme[5], oscore_size *scheme_len, oscore_size *detail)) {
    BYTES(plain), SOME(out, out_room), STRUCT(out_len), SOME(scheme, 5), STRUCT(scheme_len), STRUCT(detail);
    return __real_oscore_split_proxy_uri_v6(plain, plain_len, out, out_room, out_len, scheme, scheme_len, detail);
}

WRAP(ask_proxy_v6, oscore_status, (const uint8_t *sealed, oscore_size sealed_len, const uint8_t *scheme, oscore_size scheme_len, uint8_t *out,
                                   oscore_size out_room, oscore_size *out_len, oscore_size *detail)) {
    BYTES(sealed), BYTES(scheme), SOME(out, out_room), STRUCT(out_len), STRUCT(detail);
    return __real_oscore_ask_proxy_v6(sealed, sealed_len, scheme, scheme_len, out, out_room, out_len, detail);
}

WRAP(head_v5, oscore_status, (const uint8_t *datagram, oscore_size datagram_len, oscore_request_head *head, oscore_size *detail)) {
    BYTES(datagram), STRUCT(head), STRUCT(detail);
    return __real_oscore_head_v5(datagram, datagram_len, head, detail);
}

WRAP(seal_request_v5, oscore_status, (const oscore_context *context, uint64_t number, const uint8_t *plain, oscore_size plain_len, uint8_t *out,
                                   oscore_size out_room, oscore_size *out_len, oscore_size *detail)) {
    STRUCT(context), BYTES(plain), SOME(out, out_room), STRUCT(out_len), STRUCT(detail);
    return __real_oscore_seal_request_v5(context, number, plain, plain_len, out, out_room, out_len, detail);
}

WRAP(seal_response_v5, oscore_status, (const oscore_context *context, uint64_t request, bool has_own, uint64_t own, const uint8_t *plain,
                                    oscore_size plain_len, uint8_t *out, oscore_size out_room, oscore_size *out_len, oscore_size *detail)) {
    STRUCT(context), BYTES(plain), SOME(out, out_room), STRUCT(out_len), STRUCT(detail);
    return __real_oscore_seal_response_v5(context, request, has_own, own, plain, plain_len, out, out_room, out_len, detail);
}

WRAP(open_request_v5, oscore_status, (const oscore_context *context, uint8_t *datagram, oscore_size datagram_len, oscore_option *options,
                                   oscore_size options_room, oscore_opened *opened, oscore_size *detail)) {
    STRUCT(context), BYTES(datagram), SOME(options, options_room * sizeof *options), STRUCT(opened), STRUCT(detail);
    return __real_oscore_open_request_v5(context, datagram, datagram_len, options, options_room, opened, detail);
}

WRAP(open_response_v5, oscore_status, (const oscore_context *context, uint64_t request, uint8_t *datagram, oscore_size datagram_len,
                                    oscore_option *options, oscore_size options_room, oscore_opened *opened, oscore_size *detail)) {
    STRUCT(context), BYTES(datagram), SOME(options, options_room * sizeof *options), STRUCT(opened), STRUCT(detail);
    return __real_oscore_open_response_v5(context, request, datagram, datagram_len, options, options_room, opened, detail);
}

WRAP(peer_name_v5, oscore_status, (const oscore_context *context, uint64_t *name)) {
    STRUCT(context), STRUCT(name);
    return __real_oscore_peer_name_v5(context, name);
}

WRAP(peer_find_v5, oscore_status, (const oscore_peer *peers, oscore_size peer_count, const uint8_t *datagram, oscore_size datagram_len, oscore_size *index,
                                oscore_size *detail)) {
    SOME(peers, peer_count * sizeof *peers), BYTES(datagram), STRUCT(index), STRUCT(detail);
    return __real_oscore_peer_find_v5(peers, peer_count, datagram, datagram_len, index, detail);
}

WRAP(peer_begin_first_v5, oscore_status, (oscore_peer *peer, const oscore_context *context, uint8_t window_places, uint64_t life_ms)) {
    STRUCT(peer), STRUCT(context);
    return __real_oscore_peer_begin_first_v5(peer, context, window_places, life_ms);
}

WRAP(peer_begin_again_v5, oscore_status, (oscore_peer *peer, const oscore_context *context, const oscore_peer_record *record, uint8_t window_places,
                                       uint64_t life_ms)) {
    STRUCT(peer), STRUCT(context), STRUCT(record);
    return __real_oscore_peer_begin_again_v5(peer, context, record, window_places, life_ms);
}

WRAP(peer_saved_v5, oscore_status, (oscore_peer *peer, const oscore_peer_record *record)) {
    STRUCT(peer), STRUCT(record);
    return __real_oscore_peer_saved_v5(peer, record);
}

WRAP(peer_take_v6, oscore_status, (oscore_peer *peer, uint64_t now, uint16_t mid, uint8_t *datagram, oscore_size datagram_len, oscore_option *options,
                                oscore_size options_room, oscore_opened *opened, oscore_ticket *ticket, uint8_t out[64], oscore_size *out_len,
                                oscore_peer_record *record, oscore_size *detail)) {
    STRUCT(peer), BYTES(datagram), SOME(options, options_room * sizeof *options), STRUCT(opened), STRUCT(ticket), SOME(out, 64),
        STRUCT(out_len), STRUCT(record), STRUCT(detail);
    return __real_oscore_peer_take_v6(peer, now, mid, datagram, datagram_len, options, options_room, opened, ticket, out, out_len, record,
                                   detail);
}

WRAP(peer_reply_v6, oscore_status, (oscore_peer *peer, const oscore_ticket *ticket, bool own, uint16_t mid, const uint8_t *plain, oscore_size plain_len,
                                 uint8_t *out, oscore_size out_room, oscore_size *out_len, oscore_peer_record *record, oscore_size *detail)) {
    STRUCT(peer), STRUCT(ticket), BYTES(plain), SOME(out, out_room), STRUCT(out_len), STRUCT(record), STRUCT(detail);
    return __real_oscore_peer_reply_v6(peer, ticket, own, mid, plain, plain_len, out, out_room, out_len, record, detail);
}

WRAP(make_separate_v6, void, (uint8_t *datagram, oscore_size datagram_len, bool is_confirmable, uint16_t message_id)) {
    BYTES(datagram);
    __real_oscore_make_separate_v6(datagram, datagram_len, is_confirmable, message_id);
}

WRAP(peer_notify_v6, oscore_status, (oscore_peer *peer, const oscore_ticket *ticket, const uint8_t *plain, oscore_size plain_len, uint8_t *out,
                                  oscore_size out_room, oscore_size *out_len, oscore_peer_record *record, oscore_size *detail)) {
    STRUCT(peer), STRUCT(ticket), BYTES(plain), SOME(out, out_room), STRUCT(out_len), STRUCT(record), STRUCT(detail);
    return __real_oscore_peer_notify_v6(peer, ticket, plain, plain_len, out, out_room, out_len, record, detail);
}

WRAP(peer_request_v5, oscore_status, (oscore_peer *peer, oscore_pending *pending, oscore_size pending_room, oscore_size *pending_count, uint64_t now,
                                   const uint8_t *plain, oscore_size plain_len, uint8_t *out, oscore_size out_room, oscore_size *out_len,
                                   oscore_peer_record *record, oscore_size *detail)) {
    STRUCT(peer), SOME(pending, pending_room * sizeof *pending), STRUCT(pending_count), BYTES(plain), SOME(out, out_room), STRUCT(out_len),
        STRUCT(record), STRUCT(detail);
    return __real_oscore_peer_request_v5(peer, pending, pending_room, pending_count, now, plain, plain_len, out, out_room, out_len, record, detail);
}

WRAP(peer_hear_v5, oscore_status, (oscore_peer *peer, oscore_pending *pending, oscore_size pending_room, oscore_size *pending_count, uint64_t now,
                                uint8_t *datagram, oscore_size datagram_len, oscore_option *options, oscore_size options_room,
                                oscore_opened *opened, uint64_t *request, oscore_size *detail)) {
    STRUCT(peer), SOME(pending, pending_room * sizeof *pending), STRUCT(pending_count), BYTES(datagram),
        SOME(options, options_room * sizeof *options), STRUCT(opened), STRUCT(request), STRUCT(detail);
    return __real_oscore_peer_hear_v5(peer, pending, pending_room, pending_count, now, datagram, datagram_len, options, options_room, opened, request,
                                   detail);
}

WRAP(peer_forget_v5, oscore_status, (oscore_peer *peer, oscore_pending *pending, oscore_size pending_room, oscore_size *pending_count,
                                  const uint8_t *token, oscore_size token_len)) {
    STRUCT(peer), SOME(pending, pending_room * sizeof *pending), STRUCT(pending_count), BYTES(token);
    return __real_oscore_peer_forget_v5(peer, pending, pending_room, pending_count, token, token_len);
}

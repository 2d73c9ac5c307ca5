/* What is compared of a call at either end. */
#include "sides.h"
#include <string.h>

const char *const END_NAMES[ENDS] = {"by tables", "in constant time"};

void make_end_room(struct room *room, int end, oscore_size most) {
    static const uint8_t fills[ENDS] = {0xaa, 0x55};
    make_room(room, most, end == 0, fills[end]);
}

bool is_zero(const void *at, oscore_size len) {
    const uint8_t *bytes = at;
    for (oscore_size i = 0; i < len; i++)
        if (bytes[i]) return false;
    return true;
}

bool are_clean(const struct room *const rooms[]) {
    for (; *rooms; rooms++)
        if (!is_clean(*rooms, (*rooms)->len)) return false;
    return true;
}

bool is_left(struct bytes left, struct bytes handed, const struct judged *judged) {
    if (!judged->opened) return is_same(left, handed);
    struct bytes plaintext = bytes_of(&judged->opened->plaintext);
    oscore_size front_len = handed.len - plaintext.len - TAG_LEN, tag = handed.len - TAG_LEN;
    return left.len == handed.len && is_same(front_of(left, front_len), front_of(handed, front_len))
        && is_same(front_of(behind(left, front_len), plaintext.len), plaintext) && is_same(behind(left, tag), behind(handed, tag));
}

/* Whether a slice lies in what is left of the datagram, and is this. */
static bool is_slice(const uint8_t *at, oscore_size len, struct bytes left, struct bytes wanted) {
    uintptr_t from = (uintptr_t)at, first = (uintptr_t)left.at;
    return len == wanted.len && (!len || (from >= first && from - first <= left.len - len && !memcmp(at, wanted.at, len)));
}

/* The inner options, as many as there is room for (RFC 8613, 5.3). */
static bool are_options(const struct shown *shown, struct bytes left, const struct body *inner) {
    const oscore_opened *opened = shown->opened;
    oscore_size count = 0;
    for (struct option option = begun(inner); next_of(&option); count++) {
        if (count >= OPTIONS_ROOM) continue;
        const oscore_option *entry = &shown->options[count];
        if (entry->number != option.number || !is_slice(entry->value, entry->value_len, left, option.value)) return false;
    }
    return opened->has_more_options == (count > OPTIONS_ROOM) && opened->option_count == (count < OPTIONS_ROOM ? count : OPTIONS_ROOM);
}

/* Uri-Host and Uri-Port stand outside (RFC 8613, 4.1.2). */
static bool is_outside(bool has, const uint8_t *at, oscore_size len, struct bytes left, const struct body *outer, uint32_t number) {
    struct bytes value = {NULL, 0};
    return has == first_of(outer, number, &value) && (!has || is_slice(at, len, left, value));
}

bool is_shown(const struct shown *shown, struct bytes left, const struct judged *judged) {
    const oscore_opened *opened = shown->opened;
    if (judged->status) return is_zero(opened, sizeof *opened) && is_zero(shown->options, OPTIONS_ROOM * sizeof *shown->options);
    struct head head = judged->seen.head;
    const struct body *outer = &judged->seen.body;
    struct sealed_as as = judged->opened->as;
    as.to_registration = judged->registers;
    uint64_t number = as.is_response ? as.own : as.request;
    struct body inner;
    uint8_t code;
    NEEDS(read_inner(bytes_of(&judged->opened->plaintext), allowed_as(as), &code, &inner));
    return opened->is_notification == judged->is_notification && opened->kind == head.kind && opened->code == code && opened->message_id == head.message_id
        && is_same((struct bytes){opened->token, opened->token_len}, head.token)
        && opened->has_number == (!as.is_response || as.has_own) && (!opened->has_number || opened->number == number)
        && is_outside(opened->has_uri_host, opened->uri_host, opened->uri_host_len, left, outer, URI_HOST)
        && is_outside(opened->has_uri_port, opened->uri_port, opened->uri_port_len, left, outer, URI_PORT)
        && is_slice(opened->payload, opened->payload_len, left, inner.payload) && are_options(shown, left, &inner);
}

bool is_saved(const struct saving *saving, uint32_t status) {
    struct save save = *saving->save;
    save.written.name = save.stored.name = saving->name;
    if (status != OSCORE_SAVE_FIRST || memcmp(saving->peer, saving->before, sizeof *saving->peer)) return false;
    if (memcmp(saving->record, &save.written, sizeof save.written)) return false;
    *saving->record = save.stored;
    return !oscore_peer_saved(saving->peer, saving->record);
}

oscore_peer_record draw_record(const struct kept *kept, uint64_t name, uint64_t times) {
    uint64_t next = next_number(times), received = below(1000), choice = below(4);
    uint64_t generation = kept->generation > 0 ? kept->generation : 1;
    if (choice == 0) return (oscore_peer_record){name, generation, kept->reserved, kept->received};
    return (oscore_peer_record){name, generation, next, choice == 1 ? received : 0};
}

uint32_t judge_begin(const oscore_peer_record *record) {
    return record->sender < NUMBER_LIMIT ? OSCORE_DONE : OSCORE_SEQUENCE_EXHAUSTED;
}

oscore_size draw_room(oscore_size exact) {
    uint64_t choice = below(12), any = below(OUT_ROOM + 1);
    if (choice == 0) return exact ? exact - 1 : 0;
    if (choice == 1) return any;
    return choice < 4 || !exact ? OUT_ROOM : exact;
}

/* What is judged of a peer between two restarts, and what it saves (RFC 8613, 7.4 and B.1). */
#include "judge.h"
#include <string.h>

/* How many more Sender Sequence Numbers a save reserves; own rule. */
enum { RESERVED_AT_ONCE = 64 };

struct kept first_kept(void) {
    return (struct kept){.life = 1};
}

struct kept kept_behind(const oscore_peer_record *record) {
    return (struct kept){record->sender, record->sender, record->received, record->generation, record->generation + 1};
}

/* Adds a record with these numbers, of which others are stored. */
static void save(struct kept *kept, struct kept written, struct kept stored, struct judged *judged) {
    uint64_t generation = ++kept->generation;
    struct save *save = &judged->saves[judged->save_count++];
    save->written = (oscore_peer_record){0, generation, written.reserved, written.received};
    save->stored = (oscore_peer_record){0, generation, stored.reserved, stored.received};
    kept->reserved = stored.reserved;
    kept->received = stored.received;
}

static void reserve(struct kept *kept, bool is_stored, struct judged *judged) {
    struct kept more = *kept;
    uint64_t left = NUMBER_LIMIT - kept->reserved;
    more.reserved += left < RESERVED_AT_ONCE ? left : RESERVED_AT_ONCE;
    save(kept, more, is_stored ? more : *kept, judged);
}

void save_first(struct kept *kept, bool asks, struct judged *judged) {
    bool is_stored = !one_in(4);
    if (kept->generation < kept->life) reserve(kept, is_stored, judged);
    /* Before one was reserved at all, one has to be for whatever comes. */
    if ((asks || kept->reserved == 0) && kept->next == kept->reserved && kept->reserved < NUMBER_LIMIT) reserve(kept, true, judged);
}

void save_received(struct kept *kept, uint64_t number, struct judged *judged) {
    uint64_t ahead = one_in(4) ? below(20) : 0, left = NUMBER_LIMIT - 1 - number;
    if (number < kept->received) return;
    struct kept written = *kept, stored = *kept;
    written.received = number + 1;
    stored.received = number + 1 + (ahead < left ? ahead : left);
    save(kept, written, stored, judged);
}

/* How far below a number that was delivered since a request still has its answer; own rule. */
enum { ANSWERED_WITHIN = 64 };

static bool has(const struct numbers *numbers, uint64_t number) {
    for (oscore_size i = 0; i < numbers->count; i++)
        if (numbers->at[i] == number) return true;
    return false;
}

/* Drops the numbers that lie so far below a new one, and adds that. */
static void add_number(struct numbers *numbers, uint64_t number, uint64_t reach) {
    oscore_size left = 0;
    for (oscore_size i = 0; i < numbers->count; i++)
        if (numbers->at[i] + reach > number) numbers->at[left++] = numbers->at[i];
    NEEDS(left < sizeof numbers->at / sizeof *numbers->at);
    numbers->at[left] = number;
    numbers->count = left + 1;
}

struct life fresh_life(const struct agreed *agreed) {
    return (struct life){.agreed = agreed, .is_open = true, .kept = first_kept()};
}

/* Each number below the one that was saved counts as spent. Where none was received nor sent, the context wasn't used yet. */
void restart_life(struct life *life, const oscore_peer_record *record) {
    bool is_open = record->received > 0 || record->sender == 0;
    *life = (struct life){.agreed = life->agreed, .is_open = is_open, .floor = record->received, .kept = kept_behind(record)};
}

bool has_highest(const struct life *life) {
    return life->spent.count > 0 || life->floor > 0;
}

uint64_t highest_of(const struct life *life) {
    uint64_t highest = life->floor > 0 ? life->floor - 1 : 0;
    for (oscore_size i = 0; i < life->spent.count; i++)
        if (life->spent.at[i] > highest) highest = life->spent.at[i];
    return highest;
}

/* In an open life: spent, below the floor, or a window or more below a spent one (RFC 8613, 7.4). */
bool is_replay(const struct life *life, uint64_t number) {
    bool is_below = life->spent.count && number + life->agreed->window_places <= highest_of(life);
    return life->is_open && (number < life->floor || is_below || has(&life->spent, number));
}

void spend(struct life *life, uint64_t number) {
    if (life->is_open) add_number(&life->spent, number, life->agreed->window_places);
}

void deliver_in(struct life *life, uint64_t number) {
    /* What was seen before the restart is lost: no number below that of the request that brings the Echo value is new (RFC 8613, B.1.2). */
    if (!life->is_open) life->floor = number;
    life->is_open = true;
    life->is_challenged = false;
    spend(life, number);
    add_number(&life->waiting, number, ANSWERED_WITHIN);
    if (number + 1 > life->past + ANSWERED_WITHIN) life->past = number + 1 - ANSWERED_WITHIN;
}

static bool is_in_force(const struct life *life) {
    return life->is_challenged && life->clock - life->challenge.issued <= CHALLENGE_LIFE_MS;
}

bool admits(const struct life *life, bool has_echo, struct bytes echo) {
    struct bytes given = {life->challenge.echo, sizeof life->challenge.echo};
    return life->is_open || (is_in_force(life) && has_echo && is_same(echo, given));
}

bool challenge_in(struct life *life) {
    if (life->kept.next >= NUMBER_LIMIT) return false;
    uint64_t number = life->kept.next++;
    if (is_in_force(life)) return true;
    /* High byte first. */
    for (int i = 0; i < 8; i++) life->challenge.echo[i] = (uint8_t)(number >> 8 * (7 - i));
    life->challenge.issued = life->clock;
    life->is_challenged = true;
    return true;
}

bool is_due(const struct life *life, uint64_t number, bool has_own) {
    return has(&life->waiting, number) || (has_own && number < life->past);
}

void answered_in(struct life *life, uint64_t number) {
    struct numbers *waiting = &life->waiting;
    for (oscore_size i = 0; i < waiting->count; i++)
        if (waiting->at[i] == number) waiting->at[i] = waiting->at[--waiting->count];
}

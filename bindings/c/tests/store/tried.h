/* What both parts of store.c share. */
#ifndef STORE_TRIED_H
#define STORE_TRIED_H

#include "../../oscore_store.h"
#include <stdio.h>
#include <stdlib.h>
#include <string.h>

#define CHECK(holds) do { if (!(holds)) { printf("%s:%d: %s\n", __FILE__, __LINE__, #holds); exit(1); } } while (0)

enum { LEN = 48 };
/* The names of two contexts: "lock", 1 and 2, and "meter", the low byte first. */
static const uint64_t LOCK = 0x02016b636f6c, METER = 0x726574656d;

static inline oscore_peer_record record_of(uint64_t generation, uint64_t own, uint64_t received) {
    oscore_peer_record record = {LOCK, generation, own, received};
    return record;
}

static inline bool is(const oscore_peer_record *record, uint64_t generation, uint64_t own, uint64_t received) {
    return record->name == LOCK && record->generation == generation && record->sender == own && record->received == received;
}

/* xorshift64, with a seed that is the same each time. */
static inline uint64_t draw(void) {
    static uint64_t state = 0x9e3779b97f4a7c15;
    state ^= state << 13, state ^= state >> 7, state ^= state << 17;
    return state;
}

/* In store/flash.c: cuts over so many saves, or a part of them. */
void tries_flash(uint32_t saves);

#endif

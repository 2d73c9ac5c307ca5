/* A store in memory, in a file that the workers share and that nothing syncs: for measuring what the rest costs, and nothing else. A worker
   that is killed inside a call leaves its cell locked. A reply that has no room in the state isn't kept. */
#include "store.h"
#include "bytes.h"
#include <fcntl.h>
#include <stdatomic.h>
#include <stdio.h>
#include <stdlib.h>
#include <sys/mman.h>
#include <sys/stat.h>
#include <unistd.h>

enum { CELLS = 1 << 20, PLACES = 2 * CELLS };

typedef struct cell {
    _Atomic uint32_t lock;
    row_key key;
    uint64_t version;
    uint8_t state[STATE_MOST];
    size_t state_len;
} cell;

/* The file. The cells in use stand one behind the other, so few pages have many of them. */
typedef struct table {
    uint32_t used;
    uint32_t places[PLACES]; /* by the key's hash: the number of its cell, from 1, or 0 */
    cell cells[CELLS];
} table;

typedef struct memory_store {
    store of;
    table *table;
} memory_store;

static bool is_of(const cell *at, const row_key *key) {
    return at->key.len == key->len && !memcmp(at->key.bytes, key->bytes, key->len);
}

/* The place of a key, or the free one where it would be. One is always free: there are twice as many as cells. */
static uint32_t *find_place(table *in, const row_key *key) {
    size_t at = hash_bytes(HASH_BEGIN, key->bytes, key->len) % PLACES;
    while (in->places[at] > 0 && !is_of(&in->cells[in->places[at] - 1], key)) at = (at + 1) % PLACES;
    return &in->places[at];
}

/* NULL where there is none. */
static cell *find(store *of, const row_key *key) {
    table *in = ((memory_store *)of)->table;
    uint32_t number = *find_place(in, key);
    return number > 0 ? &in->cells[number - 1] : NULL;
}

static void lock(cell *at) {
    uint32_t open = 0;
    while (!atomic_compare_exchange_weak(&at->lock, &open, 1)) open = 0;
}

static store_answer get(store *of, const row_key *key, row_bytes *row) {
    cell *at = find(of, key);
    if (!at) return STORE_NOT;
    lock(at);
    row->version = at->version;
    row->state_len = at->state_len;
    row->reply_len = 0;
    memcpy(row->state, at->state, at->state_len);
    atomic_store(&at->lock, 0);
    return STORE_DONE;
}

static store_answer put(store *of, const row_key *key, const row_bytes *row) {
    cell *at = find(of, key);
    if (!at || row->reply_len > 0) return STORE_BROKEN;
    lock(at);
    bool same = at->version == row->version;
    if (same) {
        at->version++;
        at->state_len = row->state_len;
        memcpy(at->state, row->state, row->state_len);
    }
    atomic_store(&at->lock, 0);
    return same ? STORE_DONE : STORE_NOT;
}

/* Fingerprints aren't compared here. One process adds, before any serves. */
static store_answer add(store *of, const row_key *key, const uint8_t fingerprint[FINGERPRINT_LEN], const row_bytes *row) {
    (void)fingerprint;
    table *in = ((memory_store *)of)->table;
    uint32_t *place = find_place(in, key);
    if (*place > 0) return STORE_NOT;
    if (in->used == CELLS) return STORE_BROKEN;
    cell *at = &in->cells[in->used];
    *at = (cell){.key = *key, .state_len = row->state_len};
    memcpy(at->state, row->state, row->state_len);
    *place = ++in->used;
    return STORE_DONE;
}

/* Nothing is inserted here by SQL. */
static store_answer no_line(store *of, waiting_line *line) {
    (void)of, (void)line;
    return STORE_NOT;
}

static store_answer no_clear(store *of, int64_t number) {
    (void)of, (void)number;
    return STORE_BROKEN;
}

static store_answer no_refuse(store *of, int64_t number, const char *why) {
    (void)of, (void)number, (void)why;
    return STORE_BROKEN;
}

static bool nothing(store *of) {
    return of != NULL;
}

static void close_memory(store *of) {
    memory_store *s = (memory_store *)of;
    if (munmap(s->table, sizeof *s->table)) perror("memory: close");
    free(s);
}

store *store_memory_open(const char *file) {
    static const store_calls CALLS = {"memory", true, true, get, put, NULL, NULL, add, no_line, no_clear, no_refuse, nothing, nothing, nothing, nothing, close_memory};
    memory_store *s = calloc(1, sizeof *s);
    int at = open(file, O_RDWR | O_CREAT | O_CLOEXEC, 0600);
    void *made = MAP_FAILED;
    if (s && at >= 0 && !ftruncate(at, sizeof(table))) made = mmap(NULL, sizeof(table), PROT_READ | PROT_WRITE, MAP_SHARED, at, 0);
    if (at >= 0 && close(at)) perror("memory: close");
    if (made == MAP_FAILED) {
        perror("memory: open");
        free(s);
        return NULL;
    }
    s->of.calls = &CALLS;
    s->table = made;
    return &s->of;
}

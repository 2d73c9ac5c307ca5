/* Records of oscore_store.h: their bytes; each status of each call; records that aren't the next one, and two peers behind one record; two
   threads and two processes at one file, and one that is killed; a file of which each byte of a place is torn or spoilt, which is put back from
   a backup, or to which the system writes nothing; power cuts between a write and its sync, with any part of it done. store/flash.c has those
   in flash.

   What is expected follows from the rules that the header states: a cut leaves the record that was saved last or the one that is being saved,
   and only a record of the next generation is saved. The checksums are CRC-32's own check value and two by zlib. Built with the sanitizers
   by .ci/run, and run under valgrind's memcheck with fewer saves, which its only word says. */
#define _DEFAULT_SOURCE
#include <errno.h>
#include <fcntl.h>
#include <pthread.h>
#include <sched.h>
#include <signal.h>
#include <stdio.h>
#include <stdlib.h>
#include <string.h>
#include <sys/mman.h>
#include <sys/resource.h>
#include <sys/stat.h>
#include <sys/wait.h>
#include <unistd.h>

/* The header's calls of the system come by here. */
static ssize_t tried_write(int file, const void *bytes, size_t len, off_t at);
static ssize_t tried_read(int file, void *bytes, size_t len, off_t at);
static int tried_sync(int file);
#define pwrite tried_write
#define pread tried_read
#define fsync tried_sync
#include "store/tried.h"
#undef pwrite
#undef pread
#undef fsync

enum { PLACE = 4096, IMAGE = PLACE + LEN };
static char folder[200], name[256], other[256];
static uint32_t saves = 2000;

/* ---- a record's bytes */

static void bytes_of_a_record(void) {
    static const char *const NAMES[] = {"Stored", "Empty", "Locked", "Broken", "Other", "There", "Behind", "Lower", "Failed"};
    for (int stored = OSCORE_STORED; stored <= OSCORE_STORE_FAILED; stored++) CHECK(!strcmp(oscore_stored_name((oscore_stored)stored), NAMES[stored]));
    CHECK(OSCORE_STORED == 0 && OSCORE_STORE_FAILED == 8 && !strcmp(oscore_stored_name((oscore_stored)9), "Failed"));
    static const oscore_peer_record RECORDS[2] = {
        {0x02016b636f6c, 0x0102, 0x2829303132, 7}, {0x4142434445464748, 0x1112131415161718, 0x2122232425262728, 0x3132333435363738}};
    static const uint8_t WANTED[2][LEN] = {
        {'o', 's', 'c', '-', 'n', 'u', 'm', 1, 0x02, 0x01, 0, 0, 0, 0, 0, 0, 0x32, 0x31, 0x30, 0x29, 0x28, 0, 0, 0, 7, 0, 0, 0, 0, 0, 0, 0,
         'l', 'o', 'c', 'k', 1, 2, 0, 0, 0, 0, 0, 0, 0xc7, 0x35, 0x6d, 0xb6},
        {'o', 's', 'c', '-', 'n', 'u', 'm', 1, 0x18, 0x17, 0x16, 0x15, 0x14, 0x13, 0x12, 0x11, 0x28, 0x27, 0x26, 0x25, 0x24, 0x23, 0x22, 0x21,
         0x38, 0x37, 0x36, 0x35, 0x34, 0x33, 0x32, 0x31, 0x48, 0x47, 0x46, 0x45, 0x44, 0x43, 0x42, 0x41, 0, 0, 0, 0, 0x52, 0x65, 0x55, 0x76}};
    oscore_peer_record read;
    uint8_t bytes[LEN];
    CHECK(oscore_record_checksum((const uint8_t *)"123456789", 9) == 0xcbf43926);
    for (int i = 0; i < 2; i++) {
        oscore_record_write(&RECORDS[i], RECORDS[i].generation, bytes);
        CHECK(!memcmp(bytes, WANTED[i], LEN) && oscore_record_read(bytes, &read) && oscore_record_same(&read, &RECORDS[i]));
    }
    for (int bit = 0; bit < 8 * LEN; bit++) {
        bytes[bit / 8] ^= (uint8_t)(1 << bit % 8);
        CHECK(!oscore_record_read(bytes, &read));
        bytes[bit / 8] ^= (uint8_t)(1 << bit % 8);
    }
    /* Another version, or bytes that aren't 0 where they have to be, with a checksum that holds. */
    for (int at = 0; at < 44; at = at == 7 ? 40 : at + 1) {
        memcpy(bytes, WANTED[0], LEN);
        bytes[at]++;
        oscore_record_put(bytes + 44, oscore_record_checksum(bytes, 44), 4);
        CHECK(!oscore_record_read(bytes, &read));
    }
    /* Records that differ in one member aren't the same. */
    const oscore_peer_record none = {0, 0, 0, 0}, others[4] = {{1, 0, 0, 0}, {0, 1, 0, 0}, {0, 0, 1, 0}, {0, 0, 0, 1}};
    for (int member = 0; member < 4; member++) CHECK(!oscore_record_same(&none, &others[member]));
}

/* ---- what the system does */

/* What is in a file for good, and the one write that isn't yet. */
static uint8_t durable[IMAGE], written[LEN];
static size_t durable_len, written_len;
static off_t written_at;
enum { NOTHING, SHORT_WRITES, WRITES, SYNCS, READS };
static int refused;
static bool cuts; /* a power cut is tried before each sync */
static bool hastes; /* nothing waits for the disk */
static _Thread_local int syncs, folder_syncs;

static ssize_t tried_read(int file, void *bytes, size_t len, off_t at) {
    static _Thread_local int interrupted;
    if (refused == READS) return errno = EIO, -1;
    if (++interrupted % 3 == 0) return errno = EINTR, -1;
    return pread(file, bytes, len, at);
}

static ssize_t tried_write(int file, const void *bytes, size_t len, off_t at) {
    static _Thread_local int interrupted;
    if (refused == WRITES) return errno = ENOSPC, -1;
    if (refused == SHORT_WRITES && ++interrupted % 2) return errno = EINTR, -1;
    if (refused == SHORT_WRITES && len > 7) len = 7;
    ssize_t done = pwrite(file, bytes, len, at);
    if (!cuts || done < 0) return done;
    CHECK(written_len == 0 && done == LEN);
    memcpy(written, bytes, LEN), written_len = LEN, written_at = at;
    return done;
}

static void put(const char *file, const uint8_t *bytes, size_t len) {
    int to = open(file, O_WRONLY | O_CREAT | O_TRUNC, 0600);
    CHECK(to >= 0 && write(to, bytes, len) == (ssize_t)len && !close(to));
}

static size_t get(const char *file, uint8_t *bytes) {
    int from = open(file, O_RDONLY);
    ssize_t len = read(from, bytes, IMAGE);
    CHECK(from >= 0 && len >= 0 && !close(from));
    return (size_t)len;
}

/* What a store over these bytes holds. */
static oscore_stored opened(const uint8_t *bytes, size_t len, oscore_peer_record *record) {
    oscore_store store;
    put(other, bytes, len);
    oscore_stored stored = oscore_store_open(&store, other, false, LOCK, record);
    oscore_store_close(&store);
    return stored;
}

/* The power is cut before a sync: of the write any first bytes are there, or any others. */
static void cut_before_sync(void) {
    oscore_peer_record old, new;
    uint8_t torn[IMAGE] = {0};
    size_t len = durable_len > (size_t)written_at + LEN ? durable_len : (size_t)written_at + LEN;
    memcpy(torn, durable, durable_len);
    CHECK(opened(durable, durable_len, &old) <= OSCORE_STORE_EMPTY);
    for (int by = 0; by < 2 * LEN; by++) {
        for (int i = 0; i < LEN; i++) {
            bool there = by < LEN ? i < by : draw() % 2;
            torn[written_at + i] = there ? written[i] : (size_t)written_at + (size_t)i < durable_len ? durable[written_at + i] : 0;
        }
        CHECK(opened(torn, len, &new) <= OSCORE_STORE_EMPTY);
        CHECK(is(&new, old.generation, old.sender, old.received) || !memcmp(torn + written_at, written, LEN));
    }
}

static int tried_sync(int file) {
    struct stat which;
    if (refused == SYNCS) return errno = EIO, -1;
    if (++syncs % 3 == 0) return errno = EINTR, -1;
    CHECK(!fstat(file, &which));
    folder_syncs += S_ISDIR(which.st_mode);
    if (!cuts || !S_ISREG(which.st_mode)) return hastes ? 0 : fsync(file);
    cuts = false;
    if (written_len > 0) {
        if (durable_len > 0) cut_before_sync();
        if (durable_len < (size_t)written_at + LEN) durable_len = (size_t)written_at + LEN;
        memcpy(durable + written_at, written, LEN), written_len = 0;
    }
    cuts = true;
    return 0;
}

/* ---- a file */

static oscore_store store;

static oscore_stored open_as(uint64_t context, bool provision, oscore_peer_record *record) {
    return oscore_store_open(&store, name, provision, context, record);
}

static oscore_stored save_record(uint64_t generation, uint64_t own, uint64_t received) {
    const oscore_peer_record record = record_of(generation, own, received);
    return oscore_store_save(&store, &record);
}

/* The next record, by its generation. */
static oscore_stored save(uint64_t own, uint64_t received) {
    return save_record(store.record.generation + 1, own, received);
}

/* A file with a store that saved 64 and 3, then 128 and 5, and is closed. */
static void begin(void) {
    oscore_peer_record record;
    unlink(name);
    CHECK(open_as(LOCK, true, &record) == OSCORE_STORE_EMPTY && is(&record, 0, 0, 0));
    CHECK(!save_record(1, 64, 3) && !save_record(2, 128, 5));
    oscore_store_close(&store);
}

static void reopen(uint64_t generation, uint64_t own, uint64_t received) {
    oscore_peer_record record;
    oscore_store_close(&store);
    CHECK(!open_as(LOCK, false, &record) && is(&record, generation, own, received));
}

/* Answers, and leaves the record as it was. */
static void is_refused(uint64_t context, bool provision, oscore_stored wanted) {
    oscore_peer_record record = record_of(76, 77, 78);
    CHECK(open_as(context, provision, &record) == wanted && is(&record, 76, 77, 78));
    CHECK(save(1000, 1000) == OSCORE_STORE_FAILED);
    oscore_store_close(&store);
}

static void opens(void) {
    oscore_peer_record record;
    uint8_t bytes[IMAGE], first[IMAGE];
    memset(&store, 0, sizeof store);
    CHECK(save(1, 1) == OSCORE_STORE_FAILED);
    oscore_store_close(&store);
    /* What isn't there, or is empty, is no first start. */
    unlink(name);
    is_refused(LOCK, false, OSCORE_STORE_BROKEN);
    CHECK(access(name, F_OK));
    put(name, bytes, 0);
    is_refused(LOCK, false, OSCORE_STORE_BROKEN);
    /* A provisioned store is empty until its first save; until then it may be provisioned again. */
    for (int again = 0; again < 2; again++) {
        folder_syncs = 0;
        CHECK(open_as(LOCK, true, &record) == OSCORE_STORE_EMPTY && is(&record, 0, 0, 0) && folder_syncs == 1);
        oscore_store_close(&store);
    }
    CHECK(get(name, first) == LEN);
    is_refused(METER, true, OSCORE_STORE_OTHER);
    CHECK(open_as(LOCK, false, &record) == OSCORE_STORE_EMPTY && is(&record, 0, 0, 0) && !save(0, 0));
    reopen(1, 0, 0);
    CHECK(!save(64, 0) && !save(64, 0) && !save(64, 3) && !save(128, 3) && !save((uint64_t)1 << 40, 3));
    reopen(6, (uint64_t)1 << 40, 3);
    oscore_store_close(&store), oscore_store_close(&store);
    /* Judged in this order. */
    is_refused(METER, true, OSCORE_STORE_OTHER);
    is_refused(METER, false, OSCORE_STORE_OTHER);
    is_refused(LOCK, true, OSCORE_STORE_THERE);
    reopen(6, (uint64_t)1 << 40, 3);
    oscore_store_close(&store);
    /* What a provision that was stopped leaves may be provisioned; nothing else that is there. */
    for (int len = 0; len <= LEN; len++) {
        memset(bytes, 0, LEN), memcpy(bytes, first, (size_t)len);
        put(name, bytes, LEN);
        if (memcmp(bytes, first, LEN)) is_refused(LOCK, false, OSCORE_STORE_BROKEN);
        CHECK(open_as(LOCK, true, &record) == OSCORE_STORE_EMPTY);
        oscore_store_close(&store);
        if (len == LEN) continue;
        bytes[len] = (uint8_t)(first[len] == 0xff ? 1 : first[len] + 1);
        put(name, bytes, (size_t)len + 1);
        is_refused(LOCK, true, OSCORE_STORE_BROKEN);
        CHECK(get(name, durable) == (size_t)len + 1 && !memcmp(durable, bytes, (size_t)len + 1));
    }
    memset(bytes, 0, IMAGE);
    put(name, bytes, IMAGE);
    is_refused(LOCK, true, OSCORE_STORE_BROKEN);
    /* No folder; a folder; the system. */
    CHECK(oscore_store_open(&store, "no such folder/lock", true, LOCK, &record) == OSCORE_STORE_FAILED);
    CHECK(oscore_store_open(&store, folder, false, LOCK, &record) == OSCORE_STORE_FAILED);
    begin();
    for (refused = SYNCS; refused <= READS; refused++) CHECK(open_as(LOCK, false, &record) == OSCORE_STORE_FAILED);
    for (unlink(name), refused = WRITES; refused <= READS; refused++) CHECK(open_as(LOCK, true, &record) == OSCORE_STORE_FAILED);
    refused = NOTHING;
    unlink(name);
    CHECK(chdir(folder) == 0 && oscore_store_open(&store, "bare", true, LOCK, &record) == OSCORE_STORE_EMPTY && !save(1, 1));
    oscore_store_close(&store);
    CHECK(!unlink("bare"));
}

/* A place that is torn or spoilt loses to the other one; where both are, the file is broken. */
static void torn(void) {
    uint8_t whole[IMAGE], old[IMAGE], bytes[IMAGE], both[IMAGE];
    oscore_peer_record record;
    begin();
    reopen(2, 128, 5);
    CHECK(get(name, old) == IMAGE && !save(192, 6) && get(name, whole) == IMAGE);
    oscore_store_close(&store);
    /* The third save is of generation 3, so it wrote the second place, over that of generation 1. */
    CHECK(!memcmp(old, whole, PLACE) && memcmp(old + PLACE, whole + PLACE, LEN));
    for (int len = 0; len < LEN; len++) {
        memcpy(bytes, old, IMAGE), memcpy(bytes + PLACE, whole + PLACE, (size_t)len);
        bool is_whole = !memcmp(bytes, whole, IMAGE); /* where the bytes that lack are those that were there */
        CHECK(!opened(bytes, IMAGE, &record) && (is_whole ? is(&record, 3, 192, 6) : is(&record, 2, 128, 5)));
        CHECK(!opened(bytes, PLACE + (size_t)len, &record) && is(&record, 2, 128, 5));
    }
    for (int bit = 0; bit < 8 * LEN; bit++) {
        memcpy(bytes, whole, IMAGE);
        bytes[PLACE + bit / 8] ^= (uint8_t)(1 << bit % 8);
        CHECK(!opened(bytes, IMAGE, &record) && is(&record, 2, 128, 5));
        memcpy(both, bytes, IMAGE), memcpy(bytes, whole, IMAGE);
        bytes[bit / 8] ^= (uint8_t)(1 << bit % 8), both[bit / 8] ^= (uint8_t)(1 << bit % 8);
        CHECK(!opened(bytes, IMAGE, &record) && is(&record, 3, 192, 6));
        CHECK(opened(both, IMAGE, &record) == OSCORE_STORE_BROKEN);
    }
    /* A record that stands in the place of the other one isn't good. */
    memcpy(bytes, whole, IMAGE), memcpy(bytes + PLACE, whole, LEN);
    CHECK(!opened(bytes, IMAGE, &record) && is(&record, 2, 128, 5));
    memcpy(bytes, whole + PLACE, LEN);
    CHECK(opened(bytes, IMAGE, &record) == OSCORE_STORE_BROKEN);
}

/* Somebody else's save, a file that is put back, in its place or as another file, one that is gone, or spoilt: nothing is written. */
static void behind(void) {
    uint8_t old[IMAGE], there[IMAGE], bytes[IMAGE];
    begin();
    CHECK(get(name, old) == IMAGE);
    reopen(2, 128, 5);
    CHECK(!save(192, 6) && get(name, there) == IMAGE);
    put(name, old, IMAGE);
    CHECK(save(256, 7) == OSCORE_STORE_BEHIND && save(1, 1) == OSCORE_STORE_BEHIND && get(name, bytes) == IMAGE && !memcmp(bytes, old, IMAGE));
    /* A record of the same generation with other numbers. */
    const oscore_peer_record same = record_of(3, 191, 6);
    memcpy(bytes, there, IMAGE), oscore_record_write(&same, 3, bytes + PLACE);
    put(name, bytes, IMAGE);
    CHECK(save(256, 7) == OSCORE_STORE_BEHIND);
    put(name, bytes, 0);
    CHECK(save(256, 7) == OSCORE_STORE_BROKEN);
    /* The same numbers of an earlier save. */
    put(name, there, IMAGE);
    CHECK(!save(192, 6));
    put(name, there, IMAGE);
    CHECK(save(256, 7) == OSCORE_STORE_BEHIND);
    reopen(3, 192, 6);
    CHECK(!save(256, 7) && get(name, there) == IMAGE);
    put(other, there, IMAGE);
    CHECK(!rename(other, name) && save(320, 8) == OSCORE_STORE_BEHIND && get(name, bytes) == IMAGE && !memcmp(bytes, there, IMAGE));
    CHECK(!unlink(name) && save(320, 8) == OSCORE_STORE_BEHIND);
    oscore_store_close(&store);
}

/* A record that isn't the next one, by its generation, is behind, whatever its numbers are; so is that of the second of two peers that began
   behind one record, over the same store and over one that is opened later. Nothing is written, and the first peer goes on. */
static void not_the_next(void) {
    static const uint64_t WRONG[] = {0, 1, 2, 4, 5, UINT64_MAX};
    uint8_t there[IMAGE], bytes[IMAGE];
    begin();
    reopen(2, 128, 5);
    CHECK(get(name, there) == IMAGE);
    for (size_t i = 0; i < sizeof WRONG / sizeof WRONG[0]; i++)
        CHECK(save_record(WRONG[i], 192, 6) == OSCORE_STORE_BEHIND && save_record(WRONG[i], 127, 6) == OSCORE_STORE_BEHIND);
    CHECK(get(name, bytes) == IMAGE && !memcmp(bytes, there, IMAGE));
    CHECK(!save_record(3, 192, 6) && get(name, there) == IMAGE);
    CHECK(save_record(3, 192, 6) == OSCORE_STORE_BEHIND && save_record(3, 192, 6) == OSCORE_STORE_BEHIND);
    reopen(3, 192, 6);
    CHECK(save_record(3, 192, 6) == OSCORE_STORE_BEHIND && get(name, bytes) == IMAGE && !memcmp(bytes, there, IMAGE));
    CHECK(!save_record(4, 192, 7) && save_record(4, 256, 8) == OSCORE_STORE_BEHIND && !save_record(5, 256, 8));
    reopen(5, 256, 8);
    oscore_store_close(&store);
}

/* Behind the last generation nothing is saved, neither of that nor of 0. */
static void ends(void) {
    uint8_t bytes[LEN], there[IMAGE];
    const oscore_peer_record last = record_of(UINT64_MAX - 1, 64, 3);
    oscore_record_write(&last, last.generation, bytes);
    put(name, bytes, LEN);
    reopen(UINT64_MAX - 1, 64, 3);
    CHECK(!save_record(UINT64_MAX, 64, 4) && save_record(0, 64, 5) == OSCORE_STORE_FAILED);
    reopen(UINT64_MAX, 64, 4);
    CHECK(save_record(0, 64, 5) == OSCORE_STORE_FAILED && save_record(UINT64_MAX, 64, 5) == OSCORE_STORE_FAILED);
    CHECK(get(name, there) == IMAGE && !memcmp(there, bytes, LEN));
    reopen(UINT64_MAX, 64, 4);
    oscore_store_close(&store);
}

static void refuses(void) {
    oscore_peer_record record = record_of(4, 192, 6);
    begin();
    reopen(2, 128, 5);
    CHECK(save(127, 6) == OSCORE_STORE_LOWER && save(192, 4) == OSCORE_STORE_LOWER && !save(128, 5));
    record.name = METER;
    CHECK(oscore_store_save(&store, &record) == OSCORE_STORE_OTHER);
    record.sender = 1;
    CHECK(oscore_store_save(&store, &record) == OSCORE_STORE_OTHER);
    record.generation = 9;
    CHECK(oscore_store_save(&store, &record) == OSCORE_STORE_OTHER);
    reopen(3, 128, 5);
    oscore_store_close(&store);
}

/* What fails saves nothing, and what is saved after it isn't told apart from it: so nothing is saved until the store is opened again. */
static void fails(void) {
    struct rlimit before, none;
    begin();
    reopen(2, 128, 5);
    refused = SHORT_WRITES;
    CHECK(!save(192, 6));
    refused = NOTHING;
    for (int step = WRITES; step <= READS; step++) {
        reopen(step == READS ? 4 : 3, 192, 6);
        refused = step;
        CHECK(save(step == SYNCS ? 192 : 256, 6) == OSCORE_STORE_FAILED);
        refused = NOTHING;
        CHECK(save(256, 7) == OSCORE_STORE_FAILED);
    }
    reopen(4, 192, 6);
    CHECK(!getrlimit(RLIMIT_FSIZE, &before) && signal(SIGXFSZ, SIG_IGN) != SIG_ERR);
    none = before, none.rlim_cur = 0;
    CHECK(!setrlimit(RLIMIT_FSIZE, &none));
    oscore_stored stored = save(256, 7);
    CHECK(!setrlimit(RLIMIT_FSIZE, &before) && stored == OSCORE_STORE_FAILED);
    reopen(4, 192, 6);
    int from = open(name, O_RDONLY);
    CHECK(from >= 0 && dup2(from, store.file) == store.file && !close(from) && save(256, 7) == OSCORE_STORE_FAILED);
    reopen(4, 192, 6);
    CHECK(!save(256, 7));
    oscore_store_close(&store);
}

/* A power cut at any moment of some saves, also of the first one: what was saved is there, and nothing lower, and what is loaded stays. */
static void cut_in_a_file(void) {
    oscore_peer_record record;
    unlink(name);
    durable_len = written_len = 0, cuts = true;
    CHECK(open_as(LOCK, true, &record) == OSCORE_STORE_EMPTY);
    for (uint64_t number = 1; number <= 20; number++) {
        CHECK(!save(number, 2 * number) && written_len == 0);
        cuts = false;
        CHECK(!opened(durable, durable_len, &record) && is(&record, number, number, 2 * number));
        cuts = true;
    }
    refused = SYNCS;
    CHECK(save(21, 42) == OSCORE_STORE_FAILED && written_len == LEN);
    refused = NOTHING;
    reopen(21, 21, 42);
    CHECK(written_len == 0);
    cuts = false;
    CHECK(!opened(durable, durable_len, &record) && is(&record, 21, 21, 42));
    oscore_store_close(&store);
}

/* ---- two at one file */

typedef struct race {
    uint32_t taken[4096], done, locked;
} race;
static race *shared;

/* Takes numbers as fast as it can, some with each opening. Each is the one behind that of the last save, whoever made it. */
static void *take_numbers(void *unused) {
    uint64_t seed = (uint64_t)getpid();
    while (__atomic_load_n(&shared->done, __ATOMIC_SEQ_CST) < saves) {
        oscore_store own;
        oscore_peer_record record;
        oscore_stored stored = oscore_store_open(&own, name, false, LOCK, &record);
        if (stored == OSCORE_STORE_LOCKED) {
            __atomic_fetch_add(&shared->locked, 1, __ATOMIC_SEQ_CST);
            sched_yield();
            continue;
        }
        CHECK(stored <= OSCORE_STORE_EMPTY && record.generation == record.sender);
        for (uint64_t count = seed++ % 3; count < 4; count++) {
            record.generation++, record.sender++;
            CHECK(!oscore_store_save(&own, &record) && record.sender < 4096);
            CHECK(__atomic_fetch_add(&shared->taken[record.sender], 1, __ATOMIC_SEQ_CST) == 0);
            __atomic_fetch_add(&shared->done, 1, __ATOMIC_SEQ_CST);
        }
        oscore_store_close(&own);
    }
    return unused;
}

static void race_is_fair(void) {
    oscore_peer_record record;
    CHECK(!open_as(LOCK, false, &record) && is(&record, shared->done, shared->done, 0) && shared->done >= saves);
    for (uint32_t number = 1; number < 4096; number++) CHECK(shared->taken[number] == (number <= shared->done));
    oscore_store_close(&store);
}

static void begin_race(void) {
    oscore_peer_record record;
    memset(shared, 0, sizeof *shared);
    unlink(name);
    CHECK(open_as(LOCK, true, &record) == OSCORE_STORE_EMPTY);
}

/* Whoever is second is locked out, until the first one closes. */
static void locks(void) {
    oscore_peer_record record;
    oscore_store second;
    int status;
    begin_race();
    for (int provision = 0; provision < 2; provision++)
        CHECK(oscore_store_open(&second, name, provision, LOCK, &record) == OSCORE_STORE_LOCKED && oscore_store_save(&second, &record) == OSCORE_STORE_FAILED);
    CHECK(!save(1, 0));
    pid_t child = fork();
    if (child == 0) {
        CHECK(oscore_store_open(&second, name, false, LOCK, &record) == OSCORE_STORE_LOCKED);
        CHECK(save(2, 0) == OSCORE_STORE_LOCKED);
        exit(0);
    }
    CHECK(child > 0 && waitpid(child, &status, 0) == child && status == 0);
    oscore_store_close(&store);
    CHECK(!oscore_store_open(&second, name, false, LOCK, &record) && is(&record, 1, 1, 0));
    oscore_store_close(&second);
}

/* Waits until the process of `kills` was answered this save, however long it takes. */
static void await_save(pid_t child, uint32_t number) {
    while (__atomic_load_n(&shared->done, __ATOMIC_SEQ_CST) < number) CHECK(waitpid(child, NULL, WNOHANG) == 0 && !usleep(100));
}

/* A process is killed anywhere while it saves, every second one only once it was answered some saves: what it was answered is there, or the save
   that it was at, and the lock is gone with it. */
static void kills(void) {
    uint64_t answered = 0;
    begin_race();
    for (uint32_t kill_count = 0; kill_count < saves / 20; kill_count++) {
        oscore_peer_record record;
        oscore_store_close(&store);
        pid_t child = fork();
        if (child == 0) {
            CHECK(open_as(LOCK, false, &record) <= OSCORE_STORE_EMPTY);
            for (uint32_t number = (uint32_t)record.sender; !save(number + 1, 2 * number + 2); number++)
                __atomic_store_n(&shared->done, number + 1, __ATOMIC_SEQ_CST);
            exit(1);
        }
        int status;
        CHECK(child > 0);
        await_save(child, (uint32_t)answered + (kill_count % 2 ? 1 + (uint32_t)draw() % 4 : 0));
        CHECK(!usleep((useconds_t)(draw() % 3000)) && !kill(child, SIGKILL) && waitpid(child, &status, 0) == child && WIFSIGNALED(status));
        CHECK(open_as(LOCK, false, &record) <= OSCORE_STORE_EMPTY);
        uint64_t number = record.sender, done_now = __atomic_load_n(&shared->done, __ATOMIC_SEQ_CST);
        CHECK(number >= answered && (number == done_now || number == done_now + 1) && is(&record, number, number, 2 * number));
        answered = number, shared->done = (uint32_t)number;
    }
    CHECK(answered >= saves / 40);
    oscore_store_close(&store);
}

static void races(void) {
    pthread_t threads[2];
    pid_t children[2];
    int status;
    shared = mmap(NULL, sizeof *shared, PROT_READ | PROT_WRITE, MAP_SHARED | MAP_ANONYMOUS, -1, 0);
    CHECK(shared != MAP_FAILED);
    locks(), kills();
    begin_race();
    oscore_store_close(&store);
    for (int i = 0; i < 2; i++) CHECK(!pthread_create(&threads[i], NULL, take_numbers, NULL));
    for (int i = 0; i < 2; i++) CHECK(!pthread_join(threads[i], NULL));
    race_is_fair();
    begin_race();
    oscore_store_close(&store);
    for (int i = 0; i < 2; i++) {
        children[i] = fork();
        if (children[i] == 0) {
            take_numbers(NULL);
            exit(0);
        }
    }
    for (int i = 0; i < 2; i++) CHECK(waitpid(children[i], &status, 0) == children[i] && status == 0);
    race_is_fair();
}

int main(int count, char **words) {
    if (count > 1) saves = (uint32_t)atoi(words[1]);
    snprintf(folder, sizeof folder, "%s/oscore-store-XXXXXX", getenv("TMPDIR") ? getenv("TMPDIR") : P_tmpdir);
    CHECK(mkdtemp(folder));
    snprintf(name, sizeof name, "%s/lock", folder), snprintf(other, sizeof other, "%s/other", folder);
    bytes_of_a_record();
    opens(), behind(), not_the_next(), refuses(), fails(), ends();
    hastes = true;
    torn(), cut_in_a_file(), races();
    tries_flash(saves);
    unlink(name), unlink(other);
    CHECK(!rmdir(folder));
    puts("all as said");
    return 0;
}

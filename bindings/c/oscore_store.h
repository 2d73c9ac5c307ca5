/* Where a peer keeps its record, in a file or in two sectors of flash, so that no number is used twice: neither after a power cut nor because
   somebody else goes on behind the same record. README.md beside this file says what is promised, and what isn't. Of oscore.h it takes the
   record, and of the library nothing. The form for flash needs no operating system either; the form for a file needs POSIX, and is left
   out where there is none or where OSCORE_STORE_WITHOUT_FILES is defined. */
#ifndef OSCORE_STORE_H
#define OSCORE_STORE_H

#include "oscore.h"

#ifdef __cplusplus
extern "C" {
#endif

/* What is kept is an `oscore_peer_record`, as a call of a peer wrote it at OSCORE_SAVE_FIRST. A store is opened for the peer's `name`, so that
   the record of another context is refused. The name is a code by HMAC-SHA-256 under the context's Sender Key, so it may be stored. */

/* What a call answers, in the order in which it is judged. OSCORE_STORE_FAILED comes wherever a step is refused by the system or the flash. */
typedef enum oscore_stored {
    OSCORE_STORED = 0,     /* opened, with the record that was saved last; or saved, and no power cut takes it back */
    OSCORE_STORE_EMPTY,    /* opened: the store was provisioned, and nothing was saved since, so generation and numbers are 0 */
    OSCORE_STORE_LOCKED,   /* somebody else has the file open, another thread or process */
    OSCORE_STORE_BROKEN,   /* there is no good record: the store isn't there, is empty, or all of it is damaged. Never take it for a new one */
    OSCORE_STORE_OTHER,    /* the record is another context's */
    OSCORE_STORE_THERE,    /* to be provisioned, and there is a saved record */
    OSCORE_STORE_BEHIND,   /* what is kept isn't what this store loaded or saved last: somebody else saved, or put back a backup. Or the
                              record isn't the next one, of a generation one above: another peer, which began behind the same, saved first */
    OSCORE_STORE_LOWER,    /* a number would go down */
    OSCORE_STORE_FAILED    /* a step was refused, by now or before; or the store isn't open */
} oscore_stored;

/* The name of an answer, such as "Locked". */
static inline const char *oscore_stored_name(oscore_stored stored) {
    static const char *const names[] = {"Stored", "Empty", "Locked", "Broken", "Other", "There", "Behind", "Lower", "Failed"};
    return names[(unsigned)stored <= OSCORE_STORE_FAILED ? stored : OSCORE_STORE_FAILED];
}

/* ---- a record as it is stored, in both forms alike, with the low byte of a number first:

        0  "osc-num" and the version of this layout, 1
        8  generation: 0 of a store that was provisioned, and one more with each save, in flash at times more
       16  sender, received
       32  name
       40  zero
       44  CRC-32 (of IEEE 802.3) of the 44 bytes before it */
enum { OSCORE_RECORD_LEN = 48, OSCORE_RECORD_SUMMED = 44 };

static inline void oscore_record_put(uint8_t *to, uint64_t number, uint32_t len) {
    for (uint32_t i = 0; i < len; i++) to[i] = (uint8_t)(number >> 8 * i);
}

static inline uint64_t oscore_record_get(const uint8_t *from, uint32_t len) {
    uint64_t number = 0;
    for (uint32_t i = 0; i < len; i++) number |= (uint64_t)from[i] << 8 * i;
    return number;
}

static inline uint32_t oscore_record_checksum(const uint8_t *bytes, uint32_t len) {
    uint32_t sum = 0xffffffff;
    for (uint32_t i = 0; i < len; i++) {
        sum ^= bytes[i];
        for (int bit = 0; bit < 8; bit++) sum = sum >> 1 ^ (0xedb88320 & (0 - (sum & 1)));
    }
    return ~sum;
}

static inline bool oscore_record_same_bytes(const uint8_t *left, const uint8_t *right, uint32_t len) {
    for (uint32_t i = 0; i < len; i++)
        if (left[i] != right[i]) return false;
    return true;
}

static inline bool oscore_record_same(const oscore_peer_record *left, const oscore_peer_record *right) {
    return left->name == right->name && left->generation == right->generation && left->sender == right->sender && left->received == right->received;
}

/* The bytes of a record with this generation. */
static inline void oscore_record_write(const oscore_peer_record *record, uint64_t generation, uint8_t bytes[OSCORE_RECORD_LEN]) {
    static const uint8_t begin[8] = {'o', 's', 'c', '-', 'n', 'u', 'm', 1};
    for (uint32_t i = 0; i < 8; i++) bytes[i] = begin[i];
    oscore_record_put(bytes + 8, generation, 8);
    oscore_record_put(bytes + 16, record->sender, 8);
    oscore_record_put(bytes + 24, record->received, 8);
    oscore_record_put(bytes + 32, record->name, 8);
    oscore_record_put(bytes + 40, 0, 4);
    oscore_record_put(bytes + OSCORE_RECORD_SUMMED, oscore_record_checksum(bytes, OSCORE_RECORD_SUMMED), 4);
}

/* Whether the bytes are a whole record, which they then are the only spelling of. */
static inline bool oscore_record_read(const uint8_t bytes[OSCORE_RECORD_LEN], oscore_peer_record *record) {
    uint8_t again[OSCORE_RECORD_LEN];
    record->generation = oscore_record_get(bytes + 8, 8);
    record->sender = oscore_record_get(bytes + 16, 8);
    record->received = oscore_record_get(bytes + 24, 8);
    record->name = oscore_record_get(bytes + 32, 8);
    oscore_record_write(record, record->generation, again);
    return oscore_record_same_bytes(bytes, again, OSCORE_RECORD_LEN);
}

/* Whether a record may be saved behind the last one: OSCORE_STORED, BEHIND where it isn't the next one, or LOWER. */
static inline oscore_stored oscore_record_follows(const oscore_peer_record *record, const oscore_peer_record *last) {
    if (record->generation != last->generation + 1) return OSCORE_STORE_BEHIND;
    return record->sender < last->sender || record->received < last->received ? OSCORE_STORE_LOWER : OSCORE_STORED;
}

/* ---- two sectors of flash

   A sector has slots, each of a record's length rounded up to program units. Records are appended slot by slot; where a sector is full, the
   other one is erased and written from its beginning. The units of a slot are programmed in ascending order, so its checksum comes last:
   a slot where that holds is whole, and of these the greatest generation counts. The full sector is erased only after a whole record stands
   in the other one. A slot that a cut left half written is passed over, and never programmed again unless all of it reads as erased; its
   generation is passed over too, so that no two slots have one, even if it reads as whole later. So a slot's generation may be above that
   with which its record was saved. What is loaded later has the slot's, which is above all before. A sector is erased right before its
   first slot is programmed, so an erase that a cut left half done is done again. */
typedef struct oscore_flash {
    uint32_t sector; /* how many bytes each of both sectors has: at least a slot */
    uint32_t unit;   /* how many bytes are programmed at once: 1 to OSCORE_FLASH_MOST_UNIT. Each is programmed once after an erase */
    /* Reads `len` bytes at a place of sector 0 or 1. Where the flash can tell that bytes are spoilt, as by its ECC after a cut, it hands in
       any bytes, as 0, and answers true: false says that they can't be told now, and then nothing is opened. */
    bool (*read)(void *user, uint32_t which, uint32_t at, uint8_t *bytes, uint32_t len);
    /* Sets each byte of a sector to 0xff. Answers whether that is done. */
    bool (*erase)(void *user, uint32_t which);
    /* Programs one unit, of erased bytes. Answers whether that is done. */
    bool (*program)(void *user, uint32_t which, uint32_t at, const uint8_t *bytes, uint32_t len);
    void *user; /* handed on */
} oscore_flash;

/* The places are this header's; `flash` is the caller's, and stays until the store isn't used any more. */
typedef struct oscore_flash_store {
    const oscore_flash *flash;
    oscore_peer_record record; /* what was loaded or saved last, with the generation that the peer knows */
    uint64_t generation;       /* of its slot */
    uint32_t which, slot;      /* where that stands */
    uint32_t next;             /* the slot behind all that were written in its sector */
    bool is_open;
} oscore_flash_store;

enum { OSCORE_FLASH_MOST_UNIT = 32, OSCORE_FLASH_MOST_SLOT = OSCORE_RECORD_LEN + OSCORE_FLASH_MOST_UNIT };

static inline uint32_t oscore_flash_slot_len(const oscore_flash *flash) {
    return (OSCORE_RECORD_LEN + flash->unit - 1) / flash->unit * flash->unit;
}

static inline uint32_t oscore_flash_slots(const oscore_flash *flash) {
    return flash->sector / oscore_flash_slot_len(flash);
}

static inline bool oscore_flash_read_slot(const oscore_flash *flash, uint32_t which, uint32_t slot, uint8_t bytes[OSCORE_FLASH_MOST_SLOT]) {
    uint32_t len = oscore_flash_slot_len(flash);
    return flash->read(flash->user, which, slot * len, bytes, len);
}

static inline bool oscore_flash_is_erased(const oscore_flash *flash, const uint8_t *bytes) {
    for (uint32_t i = 0; i < oscore_flash_slot_len(flash); i++)
        if (bytes[i] != 0xff) return false;
    return true;
}

/* Looks through a sector for a newer record than the store has, and for what isn't erased: `next` is the slot behind all of that. */
static inline bool oscore_flash_scan(oscore_flash_store *store, uint32_t which, bool *found, uint32_t *next) {
    const oscore_flash *flash = store->flash;
    uint8_t bytes[OSCORE_FLASH_MOST_SLOT];
    oscore_peer_record record;
    *next = 0;
    for (uint32_t slot = 0; slot < oscore_flash_slots(flash); slot++) {
        if (!oscore_flash_read_slot(flash, which, slot, bytes)) return false;
        if (!oscore_flash_is_erased(flash, bytes)) *next = slot + 1;
        if (!oscore_record_read(bytes, &record) || (*found && record.generation <= store->generation)) continue;
        store->record = record, store->generation = record.generation, store->which = which, store->slot = slot;
        *found = true;
    }
    return true;
}

/* Programs a record into a slot of this generation, the checksum last, and looks that it stands there. */
static inline bool oscore_flash_append(oscore_flash_store *store, uint32_t which, uint32_t slot, const oscore_peer_record *record,
                                       uint64_t generation) {
    const oscore_flash *flash = store->flash;
    uint8_t bytes[OSCORE_FLASH_MOST_SLOT], there[OSCORE_FLASH_MOST_SLOT];
    uint32_t len = oscore_flash_slot_len(flash);
    for (uint32_t i = OSCORE_RECORD_LEN; i < len; i++) bytes[i] = 0xff;
    oscore_record_write(record, generation, bytes);
    for (uint32_t at = 0; at < len; at += flash->unit)
        if (!flash->program(flash->user, which, slot * len + at, bytes + at, flash->unit)) return false;
    if (!oscore_flash_read_slot(flash, which, slot, there) || !oscore_record_same_bytes(there, bytes, len)) return false;
    store->record = *record, store->generation = generation, store->which = which, store->slot = slot, store->next = slot + 1;
    return true;
}

/* Opens the store of a context, by its name, as oscore_peer_name writes it. With `provision` it makes one, in sectors that were erased.
   `record` is written with OSCORE_STORED and OSCORE_STORE_EMPTY alone, and has the stored generation. Answers these, or
     BROKEN  there is no whole record; with `provision`, there is none and the second sector isn't erased, or the first one is full
     OTHER   the record is another context's
     THERE   with `provision`: a record was saved here
     FAILED  a read or a program was refused, or what was programmed doesn't stand there; or there are no such sectors or units */
OSCORE_MUST_USE static inline oscore_stored oscore_flash_open(oscore_flash_store *store, const oscore_flash *flash, bool provision,
                                                              uint64_t name, oscore_peer_record *record) {
    const oscore_peer_record none = {name, 0, 0, 0};
    uint32_t next[2] = {0, 0};
    bool found = false;
    store->flash = flash, store->record = none, store->generation = 0;
    store->which = store->slot = store->next = 0, store->is_open = false;
    if (flash->unit == 0 || flash->unit > OSCORE_FLASH_MOST_UNIT || flash->sector < oscore_flash_slot_len(flash)) return OSCORE_STORE_FAILED;
    for (uint32_t which = 0; which < 2; which++)
        if (!oscore_flash_scan(store, which, &found, &next[which])) return OSCORE_STORE_FAILED;
    store->next = next[store->which];
    if (!found) {
        if (!provision || next[1] > 0 || next[0] == oscore_flash_slots(flash)) return OSCORE_STORE_BROKEN;
        if (!oscore_flash_append(store, 0, next[0], &none, 0)) return OSCORE_STORE_FAILED;
    }
    if (store->record.name != name) return OSCORE_STORE_OTHER;
    if (provision && store->generation > 0) return OSCORE_STORE_THERE;
    store->is_open = true;
    *record = store->record;
    return store->generation > 0 ? OSCORE_STORED : OSCORE_STORE_EMPTY;
}

/* Whether the store's own record stands where it was, with nothing newer behind it. */
static inline oscore_stored oscore_flash_look(oscore_flash_store *store, bool turns) {
    uint8_t own[OSCORE_RECORD_LEN], bytes[OSCORE_FLASH_MOST_SLOT];
    oscore_flash_store other = *store;
    uint32_t next;
    bool found = true;
    if (!oscore_flash_read_slot(store->flash, store->which, store->slot, bytes)) return OSCORE_STORE_FAILED;
    oscore_record_write(&store->record, store->generation, own);
    if (!oscore_record_same_bytes(bytes, own, OSCORE_RECORD_LEN)) return OSCORE_STORE_BEHIND;
    if (turns) {
        if (!oscore_flash_scan(&other, 1 - store->which, &found, &next)) return OSCORE_STORE_FAILED;
        return other.which == store->which ? OSCORE_STORED : OSCORE_STORE_BEHIND;
    }
    if (!oscore_flash_read_slot(store->flash, store->which, store->next, bytes)) return OSCORE_STORE_FAILED;
    return oscore_flash_is_erased(store->flash, bytes) ? OSCORE_STORED : OSCORE_STORE_BEHIND;
}

/* Saves a record. Answers OSCORE_STORED, or
     OTHER   the record names another context than the store
     BEHIND  the flash holds another record than the store's last one, or the record's generation isn't one above that of the store's last
             one, so that of two peers that began behind one record the second to save is refused: nothing is written
     LOWER   a number would go down: nothing is written
     FAILED  a step was refused, or what was programmed doesn't stand there: the flash holds the old record or the new one, and each
             further save is refused, until the store is opened again; or the store isn't open */
OSCORE_MUST_USE static inline oscore_stored oscore_flash_save(oscore_flash_store *store, const oscore_peer_record *record) {
    if (!store->is_open || store->generation > UINT64_MAX - store->next) return OSCORE_STORE_FAILED;
    if (record->name != store->record.name) return OSCORE_STORE_OTHER;
    bool turns = store->next == oscore_flash_slots(store->flash);
    oscore_stored stands = oscore_flash_look(store, turns);
    if (stands == OSCORE_STORED) stands = oscore_record_follows(record, &store->record);
    if (stands == OSCORE_STORE_BEHIND || stands == OSCORE_STORE_LOWER) return stands;
    uint32_t which = turns ? 1 - store->which : store->which;
    store->is_open = stands == OSCORE_STORED && (!turns || store->flash->erase(store->flash->user, which))
        && oscore_flash_append(store, which, turns ? 0 : store->next, record, store->generation + (store->next - store->slot));
    return store->is_open ? OSCORE_STORED : OSCORE_STORE_FAILED;
}

#ifdef __cplusplus
}
#endif

/* ---- a file */
#if !defined(OSCORE_STORE_WITHOUT_FILES) && __STDC_HOSTED__ && (defined(__unix__) || defined(__APPLE__))
#include <errno.h>
#include <fcntl.h>
#include <string.h>
#include <sys/file.h>
#include <sys/stat.h>
#include <unistd.h>

#if defined(__GLIBC__) && !defined(_POSIX_C_SOURCE)
#error "oscore_store.h: define _DEFAULT_SOURCE before the first #include, or OSCORE_STORE_WITHOUT_FILES"
#endif

#ifdef __cplusplus
extern "C" {
#endif

/* A file has two places, so far from each other that no sector and no page has bytes of both. A record stands in the one that its generation
   names, by its lowest bit. So a save writes only the place of the older record, and one that is torn there loses to the other. */
enum { OSCORE_STORE_PLACE = 4096, OSCORE_STORE_MOST_PATH = 4096 };

/* One thread at a time uses a store. It stays locked until it is closed or its process ends. */
typedef struct oscore_store {
    const char *path;          /* the caller's, who leaves it as it is until the store is closed */
    oscore_peer_record record; /* what was loaded or saved last */
    pid_t owner;               /* which process opened it: a child has the same lock, and is refused */
    int file;
    bool is_open, has_failed;
} oscore_store;

/* Whether the path still leads to the file that is open. */
static inline bool oscore_store_is_at(int file, const char *path) {
    struct stat opened, named;
    return !fstat(file, &opened) && !stat(path, &named) && S_ISREG(opened.st_mode) && opened.st_dev == named.st_dev && opened.st_ino == named.st_ino;
}

static inline ssize_t oscore_store_read(int file, uint8_t *bytes, size_t len, off_t at) {
    ssize_t read;
    while ((read = pread(file, bytes, len, at)) < 0 && errno == EINTR) {}
    return read;
}

/* Looks for the newest record. Answers OSCORE_STORED, or BROKEN where no place is good, or FAILED. */
static inline oscore_stored oscore_store_newest(int file, oscore_peer_record *newest) {
    uint8_t bytes[OSCORE_RECORD_LEN];
    bool found = false;
    for (unsigned place = 0; place < 2; place++) {
        oscore_peer_record read;
        ssize_t len = oscore_store_read(file, bytes, sizeof bytes, (off_t)place * OSCORE_STORE_PLACE);
        if (len < 0) return OSCORE_STORE_FAILED;
        if (len < OSCORE_RECORD_LEN || !oscore_record_read(bytes, &read)) continue;
        if (read.generation % 2 != place || (found && read.generation < newest->generation)) continue;
        *newest = read;
        found = true;
    }
    return found ? OSCORE_STORED : OSCORE_STORE_BROKEN;
}

static inline bool oscore_store_sync(int file) {
    int synced;
    while ((synced = fsync(file)) < 0 && errno == EINTR) {}
    return !synced;
}

/* Writes a record into the place of its generation, and waits until no power cut takes it back. */
static inline bool oscore_store_write(int file, const oscore_peer_record *record) {
    uint8_t bytes[OSCORE_RECORD_LEN];
    oscore_record_write(record, record->generation, bytes);
    for (size_t at = 0; at < sizeof bytes;) {
        ssize_t len = pwrite(file, bytes + at, sizeof bytes - at, (off_t)(record->generation % 2) * OSCORE_STORE_PLACE + (off_t)at);
        if (len == 0 || (len < 0 && errno != EINTR)) return false;
        if (len > 0) at += (size_t)len;
    }
    return oscore_store_sync(file);
}

/* Syncs the folder of a path. */
static inline bool oscore_store_sync_folder(const char *path) {
    char folder[OSCORE_STORE_MOST_PATH] = ".";
    const char *slash = strrchr(path, '/');
    size_t len = slash ? (size_t)(slash - path) + 1 : 0;
    if (len >= sizeof folder) return false;
    if (len > 0) memcpy(folder, path, len), folder[len] = '\0';
    int at = open(folder, O_RDONLY | O_DIRECTORY | O_CLOEXEC);
    bool synced = at >= 0 && oscore_store_sync(at);
    if (at >= 0) close(at);
    return synced;
}

/* Makes the first record, where the file is new or empty, or has what a provision that was stopped may leave: bytes of that record and
   bytes 0, in the first place alone. */
static inline oscore_stored oscore_store_provision(oscore_store *store) {
    uint8_t there[OSCORE_RECORD_LEN + 1], bytes[OSCORE_RECORD_LEN];
    ssize_t len = oscore_store_read(store->file, there, sizeof there, 0);
    if (len < 0) return OSCORE_STORE_FAILED;
    if (len > OSCORE_RECORD_LEN) return OSCORE_STORE_BROKEN;
    oscore_record_write(&store->record, 0, bytes);
    for (ssize_t i = 0; i < len; i++)
        if (there[i] != 0 && there[i] != bytes[i]) return OSCORE_STORE_BROKEN;
    return oscore_store_write(store->file, &store->record) ? OSCORE_STORED : OSCORE_STORE_FAILED;
}

/* What oscore_store_open answers of a file that is open. */
static inline oscore_stored oscore_store_load(oscore_store *store, bool provision) {
    const uint64_t name = store->record.name;
    if (flock(store->file, LOCK_EX | LOCK_NB)) return errno == EWOULDBLOCK ? OSCORE_STORE_LOCKED : OSCORE_STORE_FAILED;
    /* What was written and not synced, as by a process that was killed, can be read: so it is synced first. */
    if (!oscore_store_is_at(store->file, store->path) || !oscore_store_sync(store->file)) return OSCORE_STORE_FAILED;
    oscore_stored stands = oscore_store_newest(store->file, &store->record);
    if (stands == OSCORE_STORE_BROKEN && provision) stands = oscore_store_provision(store);
    if (stands != OSCORE_STORED) return stands;
    if (store->record.name != name) return OSCORE_STORE_OTHER;
    if (provision && store->record.generation > 0) return OSCORE_STORE_THERE;
    if (provision && !oscore_store_sync_folder(store->path)) return OSCORE_STORE_FAILED;
    return store->record.generation > 0 ? OSCORE_STORED : OSCORE_STORE_EMPTY;
}

/* Closes a store, and so lets go of its lock. One that isn't open stays as it is. */
static inline void oscore_store_close(oscore_store *store) {
    if (store->is_open) close(store->file);
    store->is_open = false;
}

/* Opens the store of a context in a file, by its name, as oscore_peer_name writes it, and locks it. With `provision` it makes the file.
   `record` is written with OSCORE_STORED and OSCORE_STORE_EMPTY alone, and has the stored generation; with any other answer the store
   isn't open. Answers these, or
     LOCKED  somebody else has it open
     BROKEN  there is no such file, or no good record in it; with `provision`, there is a file without one that may have had one
     OTHER   the record is another context's
     THERE   with `provision`: a record was saved here
     FAILED  the system refused a step, or the path led to another file meanwhile */
OSCORE_MUST_USE static inline oscore_stored oscore_store_open(oscore_store *store, const char *file, bool provision, uint64_t name,
                                                              oscore_peer_record *record) {
    const oscore_peer_record none = {name, 0, 0, 0};
    store->path = file, store->record = none, store->owner = getpid();
    store->is_open = store->has_failed = false;
    store->file = open(file, O_RDWR | O_CLOEXEC | (provision ? O_CREAT : 0), 0600);
    if (store->file < 0) return errno == ENOENT && !provision ? OSCORE_STORE_BROKEN : OSCORE_STORE_FAILED;
    store->is_open = true;
    oscore_stored stored = oscore_store_load(store, provision);
    if (stored == OSCORE_STORED || stored == OSCORE_STORE_EMPTY) *record = store->record;
    else oscore_store_close(store);
    return stored;
}

/* Saves a record. Answers OSCORE_STORED, or
     LOCKED  another process opened the store, of which this one is a child
     BROKEN  the file has no good record any more
     OTHER   the record names another context than the store
     BEHIND  the file holds another record than the store's last one, or its path leads to another file, or the record's generation isn't
             one above that of the store's last one, so that of two peers that began behind one record the second to save is refused:
             nothing is written
     LOWER   a number would go down: nothing is written
     FAILED  the system refused a step: the file holds the old record or the new one, and each further save is refused, until the store is
             closed and opened again; or it isn't open */
OSCORE_MUST_USE static inline oscore_stored oscore_store_save(oscore_store *store, const oscore_peer_record *record) {
    oscore_peer_record found = {0, 0, 0, 0};
    if (!store->is_open || store->has_failed || store->record.generation == UINT64_MAX) return OSCORE_STORE_FAILED;
    if (store->owner != getpid()) return OSCORE_STORE_LOCKED;
    oscore_stored stands = oscore_store_newest(store->file, &found);
    store->has_failed = stands == OSCORE_STORE_FAILED;
    if (stands != OSCORE_STORED) return stands;
    if (record->name != store->record.name) return OSCORE_STORE_OTHER;
    if (!oscore_record_same(&found, &store->record) || !oscore_store_is_at(store->file, store->path)) return OSCORE_STORE_BEHIND;
    oscore_stored follows = oscore_record_follows(record, &store->record);
    if (follows != OSCORE_STORED) return follows;
    store->has_failed = !oscore_store_write(store->file, record);
    if (store->has_failed) return OSCORE_STORE_FAILED;
    store->record = *record;
    return OSCORE_STORED;
}

#ifdef __cplusplus
}
#endif
#endif

#endif

/* Numbers as bytes, high byte first, and a hash. */
#ifndef GATEWAY_BYTES_H
#define GATEWAY_BYTES_H

#include <endian.h>
#include <stddef.h>
#include <stdint.h>
#include <string.h>

/* A place in bytes that are written or read one behind the other. Who begins it knows that there is room. */
typedef struct cursor {
    uint8_t *at;
} cursor;

typedef struct reader {
    const uint8_t *at;
} reader;

static inline void put_number(cursor *to, uint64_t number, size_t len) {
    const uint64_t high_first = htobe64(number);
    memcpy(to->at, (const uint8_t *)&high_first + sizeof high_first - len, len);
    to->at += len;
}

static inline void put_bytes(cursor *to, const uint8_t *bytes, size_t len) {
    memcpy(to->at, bytes, len);
    to->at += len;
}

static inline uint64_t get_number(reader *from, size_t len) {
    uint64_t high_first = 0;
    memcpy((uint8_t *)&high_first + sizeof high_first - len, from->at, len);
    from->at += len;
    return be64toh(high_first);
}

static inline void get_bytes(reader *from, uint8_t *bytes, size_t len) {
    memcpy(bytes, from->at, len);
    from->at += len;
}

/* FNV-1a: it finds a place in a table, and tells one datagram from another. It keeps nobody out: who wants two bytes of one hash finds them. */
static inline uint64_t hash_bytes(uint64_t hash, const uint8_t *bytes, size_t len) {
    for (size_t i = 0; i < len; i++) hash = (hash ^ bytes[i]) * 1099511628211u;
    return hash;
}

#define HASH_BEGIN 14695981039346656037u

#endif

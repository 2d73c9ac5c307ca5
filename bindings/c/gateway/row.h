/* A row: what a store holds of one context, and how that is spelled.

       k   the key: length and bytes of the kid, and where there is a kid context its length and bytes, as both are on the wire
       v   the version: how often the row was written
       f   the fingerprint of the Sender Key, which no other row has
       h   the state, at most 256 bytes with the three above
       r   the last reply, where it is too long for the state, else nothing

   The kid is the context's Recipient ID, and the kid context its ID Context, so the state doesn't repeat them. */
#ifndef GATEWAY_ROW_H
#define GATEWAY_ROW_H

#include "life.h"

enum { ROW_MOST = 256, KID_MOST = 7, KID_CONTEXT_MOST = 32, KEY_MOST = 1 + KID_MOST + 1 + KID_CONTEXT_MOST };
enum { VERSION_LEN = 8, FINGERPRINT_LEN = 16, STATE_MOST = ROW_MOST - VERSION_LEN - FINGERPRINT_LEN };
/* A datagram of more bytes isn't taken, and a reply of more isn't made. */
enum { DATAGRAM_MOST = 1400 };

typedef struct row_key {
    uint8_t bytes[KEY_MOST], len;
} row_key;

typedef struct row {
    oscore_peer peer;
    uint64_t era;    /* under which it was written last */
    uint64_t effect; /* of the built-in application: how many requests it obeyed */
    bool asked;      /* whether there is a last request in this era */
    uint64_t number; /* of that request */
    uint64_t hash;   /* of its datagram and of its sender's address */
    size_t reply_len; /* 0: it has no reply yet, or one that wasn't kept */
    uint8_t reply[DATAGRAM_MOST];
} row;

/* What a store reads and writes of a row. */
typedef struct row_bytes {
    uint64_t version;
    uint8_t state[STATE_MOST];
    size_t state_len;
    uint8_t reply[DATAGRAM_MOST];
    size_t reply_len;
} row_bytes;

/* The key of the context that a request names; false where no context has such a name. */
bool row_key_of(row_key *key, const oscore_request_head *head);

/* The key of a context. */
void row_key_of_context(row_key *key, const oscore_context *context);

/* The order of keys, as a database has it: below 0 where the first is before the second, 0 where they are the same. */
int row_key_compare(const row_key *one, const row_key *other);

/* Spells a row; its version is left to the caller. */
void row_write(const row *from, const row_key *key, row_bytes *to);

/* Reads a row, whatever the bytes are; false where row_write writes none such. */
bool row_read(row *to, const row_key *key, const row_bytes *from);

/* Notes that a request was delivered: the last one, which has no reply yet. */
void row_asked(row *of, uint64_t number, uint64_t hash);

/* Keeps the reply to a request, where that is still the last one. */
void row_answered(row *of, uint64_t number, uint64_t hash, const uint8_t *reply, size_t len);

/* Begins a new life of the row's context above each Sender Sequence Number that can have been used before this era. */
oscore_status row_renew(row *of, uint64_t era);

/* Says which Sender Key a context has, to who can compare fingerprints but mustn't learn the key. False where the context has none. */
bool row_fingerprint(const oscore_context *context, uint8_t fingerprint[FINGERPRINT_LEN]);

/* Wipes what is secret of a row: the keys. */
void row_wipe(row *of);
void row_bytes_wipe(row_bytes *of);

#endif

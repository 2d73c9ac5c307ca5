/* A datagram on its way through a worker, with all that it needs there: nothing is allocated for it. */
#ifndef GATEWAY_ITEM_H
#define GATEWAY_ITEM_H

#include "address.h"
#include "store.h"

enum { OPTIONS_MOST = 32 };

typedef enum outcome {
    ITEM_SILENT,      /* nothing is sent */
    ITEM_UNPROTECTED, /* an error that anybody can bring about */
    ITEM_AGAIN,       /* the kept reply */
    ITEM_SPENT,       /* the request's number is spent, and nothing delivered */
    ITEM_CHALLENGE,
    ITEM_DELIVERED    /* once the row is written */
} outcome;

typedef struct item {
    address from;
    uint8_t came[DATAGRAM_MOST]; /* the datagram as it came: a lost swap begins with it again */
    size_t came_len;
    bool confirmable;
    uint64_t number, hash;
    uint16_t mid; /* a new message ID, where the reply needs one */
    outcome outcome;

    bool settled;     /* whether nothing is left to be read or written */
    bool is_read;     /* whether the row is the one that was written last, and need not be read */
    store_row stored; /* the row as it was read, with its version, and then as it is written */
    row row;

    uint8_t datagram[DATAGRAM_MOST]; /* in which the request is opened */
    oscore_opened opened;
    oscore_option options[OPTIONS_MOST];
    oscore_ticket ticket;
    bool own;                     /* whether the reply gets a Partial IV of its own: that to a registration always does */
    uint8_t plain[DATAGRAM_MOST]; /* the application's reply */
    size_t plain_len;
    uint8_t out[DATAGRAM_MOST]; /* what is sent */
    size_t out_len;
} item;

/* What a request says and a reply answers, and the keys, are wiped when the item is done. */
static inline void item_wipe(item *of) {
    row_wipe(&of->row);
    row_bytes_wipe(&of->stored.bytes);
    explicit_bzero(of->datagram, of->came_len);
    explicit_bzero(of->plain, of->plain_len);
    of->plain_len = 0;
}

#endif

/* What the workers count, in memory that all of them share; and how many unprotected replies went to whom. */
#ifndef GATEWAY_COUNTS_H
#define GATEWAY_COUNTS_H

#include "address.h"
#include <stdatomic.h>
#include <stdbool.h>

typedef enum count {
    COUNT_READ,        /* datagrams that came */
    COUNT_DELIVERED,   /* requests that were delivered: written, and then acted upon */
    COUNT_CHALLENGED,
    COUNT_ANSWERED,    /* protected replies to delivered requests, sent for the first time */
    COUNT_RESENT,      /* the same once more, to the same request once more */
    COUNT_WAITING,     /* the same request once more, whose reply isn't there yet, or wasn't kept: nothing is sent */
    COUNT_REPLAYS,
    COUNT_UNKNOWN,     /* requests that name no context of the store */
    COUNT_REFUSED,     /* whatever else isn't delivered */
    COUNT_SILENCED,    /* unprotected replies that weren't sent, since their bound was reached */
    COUNT_TOO_LONG,
    COUNT_UNSENT,      /* replies that the system didn't take */
    COUNT_CONFLICTS,   /* rows that another worker wrote first: the datagram was taken once more */
    COUNT_RENEWED,     /* contexts that began a life in this era */
    COUNT_LATER_ERA,   /* datagrams for contexts of a later era than this gateway's: dropped */
    COUNT_LIMITED,     /* datagrams, or replies, dropped since no Sender Sequence Number was allowed at that moment */
    COUNT_SPOILT,      /* rows whose bytes no gateway wrote */
    COUNT_FORWARDED,   /* requests sent on to the application */
    COUNT_TIMEOUTS,    /* of them, those that it didn't answer: 5.04 */
    COUNT_STARTS,      /* of workers */
    COUNT_ADDED,       /* contexts that were inserted into the table `provision`, and added */
    COUNT_NOT_ADDED,   /* lines of that table that were marked as refused */
    COUNTS
} count;

enum { HOSTS = 4096 };

typedef struct counts {
    _Atomic uint64_t of[COUNTS];
    _Atomic uint64_t hosts[HOSTS]; /* the second, and how many replies in it; hosts that share a place share the bound */
} counts;

/* NULL where there is no memory. */
counts *counts_make(void);

/* 0, or what munmap answers. */
int counts_end(counts *made);

static inline void count_more(counts *in, count what, uint64_t more) {
    atomic_fetch_add_explicit(&in->of[what], more, memory_order_relaxed);
}

static inline void count_one(counts *in, count what) {
    count_more(in, what, 1);
}

/* Whether one more unprotected reply may go to a host in this second, by a clock that doesn't go back. */
bool counts_allow(counts *in, const address *to, uint32_t most, uint64_t second);

/* All counts as text, a line each. Answers its length. */
enum { METRICS_ROOM = 2048 };
size_t counts_text(const counts *of, char text[METRICS_ROOM]);

#endif

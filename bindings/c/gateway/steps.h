/* The steps from a datagram to its reply (README.md, The order of steps), for several datagrams. A store that reads and writes several rows by
   one call gets all of them at once, any other one after the other. */
#ifndef GATEWAY_STEPS_H
#define GATEWAY_STEPS_H

#include "counts.h"
#include "item.h"
#include "settings.h"

/* The system is asked for the message IDs of several datagrams: it gives up to 256 bytes at once, whole. */
enum { FRESH_AT_ONCE = 128 };

typedef struct steps {
    const settings *with;
    counts *counted;
    store *store;
    int udp;
    oscore_peer none; /* of a context that nobody has: it says what is said to whoever has no context */
    uint16_t fresh[FRESH_AT_ONCE]; /* message IDs that nobody can predict; the first fresh_left are unused */
    size_t fresh_left;
} steps;

/* Opens the store, and begins the peer of no context. False where one of these can't be; the store is then open or NULL. */
bool steps_open(steps *s, const settings *with, counts *counted, int udp);

/* Begin and end what steps_take does for several datagrams. False: the store is broken, and it isn't known what was written. */
bool steps_begin(const steps *s);
bool steps_commit(const steps *s);

/* Steps 1 to 4 for what came. Nothing leaves the process. False: the store is broken. */
bool steps_take(steps *s, item items[], size_t count);

/* Step 5 for those that were delivered, once the application has acted: seals the replies, and writes them. `are_read`: each item's row is the
   one that it wrote last. Nothing leaves the process. False: the store is broken. */
bool steps_answer(steps *s, item items[], size_t count, bool are_read);

/* Then nothing is sent. */
void steps_drop(item *of);

/* Sends what an item came to. False: nothing was sent. */
bool steps_send(const steps *s, const item *of);

#endif

/* The lives of a context's peer. A peer lies in a row, and writing the row is what saves its records (README.md, The record): so a peer is told
   at once that a record is saved. */
#ifndef GATEWAY_LIFE_H
#define GATEWAY_LIFE_H

#include "../oscore.h"

/* The number of a request, and a Sender Sequence Number, is below this (RFC 8613, 7.2.1). */
#define NUMBERS (1ull << 40)

/* How many places the window of each peer has. A peer of the gateway asks nothing, so it doesn't matter for how long its requests are pending. */
enum { WINDOW_PLACES = 64, PENDING_MS = 0 };

/* Begins the first life of a context that was never used. */
oscore_status life_begin_first(oscore_peer *peer, const oscore_context *context);

/* Begins a later life, behind the record of this generation. `next` is above each Sender Sequence Number that was used before, or 0. What was
   received before isn't known, so the first request is challenged. `context` lies outside of the peer. */
oscore_status life_begin_again(oscore_peer *peer, const oscore_context *context, uint64_t generation, uint64_t next);

/* Whether a call has to be made again: it answered that this record is to be saved first, and the peer was told that it is. */
bool life_goes_on(oscore_peer *peer, oscore_status answered, const oscore_peer_record *record);

#endif

#include "life.h"

/* A life asks for its first record whatever comes first, here a datagram of no bytes. By the record as it is saved all numbers count as received:
   then no request needs a record of its own. */
static oscore_status save_first(oscore_peer *peer) {
    oscore_opened opened = OSCORE_ZERO;
    oscore_ticket ticket = OSCORE_ZERO;
    oscore_peer_record record = OSCORE_ZERO;
    oscore_size out_len, detail;
    uint8_t out[64];
    oscore_status status = oscore_peer_take(peer, 0, 0, NULL, 0, NULL, 0, &opened, &ticket, out, &out_len, &record, &detail);
    if (status != OSCORE_SAVE_FIRST) return status;
    record.received = NUMBERS;
    return oscore_peer_saved(peer, &record);
}

oscore_status life_begin_first(oscore_peer *peer, const oscore_context *context) {
    oscore_status status = oscore_peer_begin_first(peer, context, WINDOW_PLACES, PENDING_MS);
    return status == OSCORE_DONE ? save_first(peer) : status;
}

/* Behind a record of which both numbers are 0 a life would begin without a challenge. */
oscore_status life_begin_again(oscore_peer *peer, const oscore_context *context, uint64_t generation, uint64_t next) {
    oscore_peer_record behind = {.generation = generation, .sender = next > 0 ? next : 1, .received = 0};
    oscore_status status = oscore_peer_name(context, &behind.name);
    if (status == OSCORE_DONE) status = oscore_peer_begin_again(peer, context, &behind, WINDOW_PLACES, PENDING_MS);
    return status == OSCORE_DONE ? save_first(peer) : status;
}

bool life_goes_on(oscore_peer *peer, oscore_status answered, const oscore_peer_record *record) {
    return answered == OSCORE_SAVE_FIRST && oscore_peer_saved(peer, record) == OSCORE_DONE;
}

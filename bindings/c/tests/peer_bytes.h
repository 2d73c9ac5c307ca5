/* What the tests say of a peer's bytes. */
#ifndef PEER_BYTES_H
#define PEER_BYTES_H

#include "../oscore.h"
#include <string.h>

/* Whether two are the same. Padding isn't compared. */
static inline bool same_peers(const oscore_peer *p, const oscore_peer *q) {
    const oscore_server_context *x = &p->server.context, *y = &q->server.context;
    return p->server.clock == q->server.clock && !memcmp(&p->server.unanswered, &q->server.unanswered, sizeof p->server.unanswered)
        && !memcmp(x, y, offsetof(oscore_server_context, echo) + sizeof x->echo) && x->at == y->at && x->spent_mask == y->spent_mask
        && x->next == y->next && x->life == y->life
        && !memcmp(&p->reserved, &q->reserved, offsetof(oscore_peer, busy) + sizeof p->busy - offsetof(oscore_peer, reserved));
}

static inline bool is_window(uint8_t places) {
    return places == 1 || places == 32 || places == 64;
}

/* Whether a call can have written a context, by a reading of the tests' own. */
static inline bool can_be_context(const oscore_context *context) {
    if (context->sender_len > 7 || context->recipient_len > 7 || context->id_context_len > 32) return false;
    return context->sender_len != context->recipient_len || memcmp(context->sender, context->recipient, context->sender_len);
}

/* The same of a peer. */
static inline bool can_be_peer(const oscore_peer *peer) {
    const uint64_t numbers = 1ull << 40;
    const oscore_server_context *own = &peer->server.context;
    bool is_open = own->gate == 2 || own->gate == 3;
    return can_be_context(&own->context) && is_window(own->places) && own->gate <= 3 && (!is_open || is_window(own->window_places))
        && (own->gate != 3 || own->at < numbers) && own->next <= peer->reserved && peer->reserved <= numbers && peer->received <= numbers;
}

#endif

/* The application behind the gateway: a plain CoAP server on 127.0.0.1. A request goes on to it as a CON of the gateway's own, with a token
   of its own, and is sent again until it is acknowledged or answered (RFC 7252, 4.2), so the application has to know a CON that comes
   again by its message ID (4.5). */
#ifndef GATEWAY_FORWARD_H
#define GATEWAY_FORWARD_H

#include "item.h"

enum { FORWARDS = 128, FORWARD_TRIES = 5 };

/* So long the first wait is, and each later one is twice the one before (RFC 7252, 4.2). A definition of your own may stand before. */
#ifndef FORWARD_FIRST_MS
#define FORWARD_FIRST_MS 2000
#endif

/* A request that waits for its answer, with what answering needs. */
typedef struct forward {
    bool used, acknowledged;
    address from;
    row_key key;
    uint64_t number, hash, serial, next_ms;
    oscore_ticket ticket;
    uint16_t mid, message_id;
    unsigned tries;
    uint8_t plain[DATAGRAM_MOST]; /* the request */
    size_t plain_len;
} forward;

typedef struct forwarder {
    int udp;
    uint16_t message_id; /* of the next one */
    uint64_t serial;     /* the token of the next one */
    size_t waiting;
    forward of[FORWARDS];
} forwarder;

/* Speaks to a port. False where that can't be. */
bool forward_begin(forwarder *with, uint16_t port);
void forward_end(forwarder *with);

/* Sends a delivered request on; there is room for it. Where it can't be asked, answers the code of the reply that says so, else 0. */
uint8_t forward_request(forwarder *with, const item *of, uint64_t ms);

/* Takes one message of the application, and makes it the item's plain reply. False: there was none. What isn't an answer leaves the item
   with nothing to say. */
bool forward_receive(forwarder *with, item *to);

/* Sends again what is due, and makes the item the reply to a request that was never answered. False: there is none such. */
bool forward_overdue(forwarder *with, item *to, uint64_t ms);

#endif

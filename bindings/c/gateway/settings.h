/* What the gateway is told at its start. */
#ifndef GATEWAY_SETTINGS_H
#define GATEWAY_SETTINGS_H

#include <stddef.h>
#include <stdint.h>

typedef enum reply_mode {
    MODE_STRICT, /* the delivery is written; then the application acts; then the reply is written; then it is sent */
    MODE_LAZY,   /* the reply isn't written, unless it got a Partial IV of its own */
    MODE_TX      /* the built-in application's effect and the reply are part of the write of the delivery */
} reply_mode;

enum { WORKERS_MOST = 64, BATCH_MOST = 128 };

typedef struct settings {
    const char *store, *address, *metrics; /* no metrics: NULL */
    uint16_t port, application;            /* application 0 is the built-in one */
    reply_mode mode;
    size_t workers, batch; /* datagrams a transaction */
    uint64_t era;
    uint32_t unprotected; /* replies a second to one address */
    uint64_t provision;   /* seconds between two looks at the table `provision`; 0: it isn't looked at */
} settings;

#endif

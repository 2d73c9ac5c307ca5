/* What the tests need of a gateway that is built with GATEWAY_TRIAL, and nothing in any other:

       GATEWAY_LOG=DIR    writes each delivery, and each datagram that is sent, into a file of each worker
       GATEWAY_KILL=N     kills a process at each step, each time that N came there
       GATEWAY_KILL_MS=N  kills some process every so often
       GATEWAY_PAUSE_MS=N waits so long where a delivery is written, and not acted upon yet; in a wrong order, before the write
       GATEWAY_ORDER=send|act|version   a wrong order: sends, or acts, before the write; writes whatever the version is */
#ifndef GATEWAY_TRIAL_H
#define GATEWAY_TRIAL_H

#include "row.h"
#include <sys/types.h>

/* The last step is that of a context inserted by SQL: it is added, its line isn't removed, and nothing is committed. */
typedef enum trial_step { TRIAL_TAKEN, TRIAL_WRITTEN, TRIAL_ACTED, TRIAL_READY, TRIAL_SENT, TRIAL_ADDED, TRIAL_STEPS } trial_step;
typedef enum trial_order { TRIAL_RIGHT, TRIAL_SEND, TRIAL_ACT, TRIAL_VERSION } trial_order;

#ifdef GATEWAY_TRIAL
bool trial_begin(void);
bool trial_begin_worker(unsigned index);
void trial_reach(trial_step step);
trial_order trial_of(void);
void trial_delivered(const row_key *key, uint64_t number);
void trial_sent(const row_key *key, uint64_t number, const uint8_t *bytes, size_t len);
void trial_kill_one(const pid_t *processes, size_t count);
void trial_end(void);
#else
static inline bool trial_begin(void) { return true; }
static inline bool trial_begin_worker(unsigned index) { return (void)index, true; }
static inline void trial_reach(trial_step step) { (void)step; }
static inline trial_order trial_of(void) { return TRIAL_RIGHT; }
static inline void trial_delivered(const row_key *key, uint64_t number) { (void)key, (void)number; }
static inline void trial_sent(const row_key *key, uint64_t number, const uint8_t *bytes, size_t len) {
    (void)key, (void)number, (void)bytes, (void)len;
}
static inline void trial_kill_one(const pid_t *processes, size_t count) { (void)processes, (void)count; }
static inline void trial_end(void) {}
#endif

#endif

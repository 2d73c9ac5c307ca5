/* A worker: a process that takes datagrams from a socket which all workers share, and keeps the order of steps (README.md). */
#ifndef GATEWAY_WORKER_H
#define GATEWAY_WORKER_H

#include "counts.h"
#include "settings.h"

enum { WORKER_DONE = 0, WORKER_BROKEN = 3 };

/* Serves until SIGTERM, which has to be blocked, and answers the status with which the process ends. Not WORKER_DONE: the store is broken,
   or couldn't be opened; whatever wasn't sent then isn't. */
int worker_run(const settings *with, int udp, counts *counted, unsigned index);

#endif

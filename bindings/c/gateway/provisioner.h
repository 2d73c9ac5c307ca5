/* The process that adds the contexts which are inserted into the table `provision` while a gateway serves. */
#ifndef GATEWAY_PROVISIONER_H
#define GATEWAY_PROVISIONER_H

#include "counts.h"
#include "settings.h"

/* Looks at the table at the start, and then again and again, until SIGTERM, which has to be blocked. Answers the status with which the process
   ends, as worker_run does. */
int provisioner_run(const settings *with, counts *counted);

#endif

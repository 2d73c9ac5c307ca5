/* The process above the workers and the provisioner: it starts them, and those that end again, until SIGTERM; and it shows the metrics. */
#ifndef GATEWAY_SERVE_H
#define GATEWAY_SERVE_H

#include "settings.h"
#include <stdbool.h>

/* False where it couldn't begin, or where a process didn't end in order. */
bool serve(const settings *with);

#endif

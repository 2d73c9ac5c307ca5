/* The built-in application, for tests and for the exactly-once mode: it obeys each POST and PUT by counting it where the count is written with
   it, and says the count, else 0, and the request's payload. The reply to a request whose payload begins with "own" has a
   Partial IV of its own. */
#ifndef GATEWAY_APPLICATION_H
#define GATEWAY_APPLICATION_H

#include "item.h"

/* Obeys a request where `counts` says that its effect is written with it, and writes the plain reply. */
void application_obey(item *of, bool counts);

/* A plain reply of a code and nothing else. */
void application_say(item *of, uint8_t code);

#endif

/* Adds a context to a store, from the words that describe it: those of a line of a file, or of a line of the table `provision`. */
#ifndef GATEWAY_ADDING_H
#define GATEWAY_ADDING_H

#include "store.h"

/* SECRET SALT OWN THEIR IDCONTEXT STATE NEXT, and any of the words tables, blocks and observe. */
enum { WORDS_LEAST = 7, WORDS_MOST = 10, WHY_ROOM = 80 };

/* Adds the context that the words describe; README.md says what they are. STORE_NOT: it can't be added, and `why` says why, without a word of
   the line. Nothing of it is left in memory but the words. */
store_answer add_context(store *to, char *words[], size_t count, char why[WHY_ROOM]);

#endif

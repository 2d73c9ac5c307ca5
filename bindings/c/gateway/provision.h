/* Adds contexts to a store, from lines of a file, or from the table `provision`, into which they are inserted by SQL. */
#ifndef GATEWAY_PROVISION_H
#define GATEWAY_PROVISION_H

#include "store.h"
#include <stdio.h>

/* Adds the contexts of all lines, or, where one can't be added, none, and says on standard error which line that is. README.md says what a
   line is. `added` is how many they are. */
bool provision(store *to, FILE *lines, size_t *added);

typedef struct provisioned {
    size_t added, refused;
} provisioned;

/* Takes lines that wait in the table, from the front, as many as share a transaction: adds the context of each and removes the line, or, where
   it can't be added, marks the line with the reason, so that it waits no longer. `taken` is how many they are: none where none waits. False:
   the store is broken, and nothing was taken, or it isn't known what was. */
bool provision_waiting(store *to, provisioned *taken);

#endif

/* The lines of which a store was provisioned, read by the programs of the tests, which trust them. */
#ifndef GATEWAY_LINES_H
#define GATEWAY_LINES_H

#include "../../oscore.h"
#include <stdio.h>
#include <stdlib.h>
#include <string.h>

typedef struct context_line {
    uint8_t secret[64], salt[64], server[7], client[7], id_context[32];
    size_t secret_len, salt_len, server_len, client_len, id_context_len;
    bool observe;
} context_line;

static inline size_t unhex(const char *text, uint8_t *to) {
    size_t len = 0;
    unsigned byte;
    for (; text[0] != '-' && sscanf(text, "%2x", &byte) == 1; text += 2) to[len++] = (uint8_t)byte;
    return len;
}

static inline bool read_context(FILE *from, context_line *to) {
    char secret[130], salt[130], server[20], client[20], id_context[70], words[40] = "";
    if (fscanf(from, "%129s %129s %19s %19s %69s %*s %*s%39[^\n]", secret, salt, server, client, id_context, words) < 5) return false;
    to->observe = strstr(words, "observe") != NULL;
    to->secret_len = unhex(secret, to->secret);
    to->salt_len = unhex(salt, to->salt);
    to->server_len = unhex(server, to->server);
    to->client_len = unhex(client, to->client);
    to->id_context_len = unhex(id_context, to->id_context);
    return true;
}

/* A context as one end has it. */
static inline oscore_status derive_end(const context_line *of, bool client, oscore_context *to) {
    return oscore_derive(to, of->secret, of->secret_len, of->salt, of->salt_len, of->id_context_len > 0, of->id_context, of->id_context_len,
                         client ? of->client : of->server, client ? of->client_len : of->server_len, client ? of->server : of->client,
                         client ? of->server_len : of->client_len, false, false, of->observe);
}

static inline FILE *open_lines(const char *file) {
    FILE *lines = fopen(file, "r");
    if (!lines) {
        perror(file);
        exit(2);
    }
    return lines;
}

#endif

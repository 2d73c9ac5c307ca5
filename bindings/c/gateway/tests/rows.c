/* Reads the rows of a store.

       rows effects STORE LINES          a line for each context: its key, and how many requests the built-in application obeyed
       rows look STORE LINES TIMES       how long one look-up takes, of contexts in random order, once all were looked up
       rows sizes STORE LINES            the least and the greatest number of bytes of a row, without its longer reply */
#include "../store.h"
#include "lines.h"
#include <time.h>

static _Noreturn void stop(const char *why) {
    fprintf(stderr, "rows: %s\n", why);
    exit(2);
}

typedef struct rows {
    store *store;
    size_t count;
    row_key *keys;
} rows;

static void read_keys(rows *r, const char *file) {
    FILE *lines = open_lines(file);
    context_line line;
    for (size_t room = 0; read_context(lines, &line); r->count++) {
        oscore_context names = OSCORE_ZERO;
        if (r->count == room) r->keys = realloc(r->keys, (room = room ? 2 * room : 1024) * sizeof *r->keys);
        if (!r->keys) stop("no memory");
        names.recipient_len = (uint8_t)line.client_len;
        names.id_context_len = (uint8_t)line.id_context_len;
        memcpy(names.recipient, line.client, line.client_len);
        memcpy(names.id_context, line.id_context, line.id_context_len);
        row_key_of_context(&r->keys[r->count], &names);
    }
    if (fclose(lines) || r->count == 0) stop("no lines");
}

static void get(rows *r, size_t i, row *to, row_bytes *bytes) {
    if (r->store->calls->get(r->store, &r->keys[i], bytes) != STORE_DONE) stop("no such row");
    if (!row_read(to, &r->keys[i], bytes)) stop("a row that no gateway wrote");
}

static void effects(rows *r) {
    static row row;
    static row_bytes bytes;
    for (size_t i = 0; i < r->count; i++) {
        get(r, i, &row, &bytes);
        for (size_t j = 0; j < r->keys[i].len; j++) printf("%02x", r->keys[i].bytes[j]);
        printf(" %llu\n", (unsigned long long)row.effect);
    }
}

static void sizes(rows *r) {
    static row row;
    static row_bytes bytes;
    size_t least = SIZE_MAX, most = 0, sum = 0;
    for (size_t i = 0; i < r->count; i++) {
        get(r, i, &row, &bytes);
        size_t len = r->keys[i].len + VERSION_LEN + FINGERPRINT_LEN + bytes.state_len;
        least = len < least ? len : least;
        most = len > most ? len : most;
        sum += len;
    }
    printf("%zu rows of %zu to %zu bytes, %zu in the mean\n", r->count, least, most, sum / r->count);
    if (most > ROW_MOST) stop("a row is too long");
}

static double seconds(void) {
    struct timespec now;
    if (clock_gettime(CLOCK_MONOTONIC, &now)) stop("no clock");
    return (double)now.tv_sec + (double)now.tv_nsec / 1e9;
}

static void look(rows *r, size_t times) {
    static row row;
    static row_bytes bytes;
    uint64_t random = 1;
    for (size_t i = 0; i < r->count; i++) get(r, i, &row, &bytes);
    double begun = seconds();
    for (size_t i = 0; i < times; i++) {
        random = random * 6364136223846793005u + 1442695040888963407u;
        get(r, (size_t)(random >> 33) % r->count, &row, &bytes);
    }
    printf("%zu contexts: %.2f us a look-up\n", r->count, (seconds() - begun) / (double)times * 1e6);
}

int main(int count, char **words) {
    rows r = {.store = NULL};
    if (count < 4 || !(r.store = store_open(words[2]))) stop("rows effects|look|sizes STORE LINES [TIMES]");
    read_keys(&r, words[3]);
    if (!strcmp(words[1], "effects")) effects(&r);
    else if (!strcmp(words[1], "sizes")) sizes(&r);
    else if (count == 5) look(&r, strtoull(words[4], NULL, 10));
    else stop("rows effects|look|sizes STORE LINES [TIMES]");
    r.store->calls->close(r.store);
    free(r.keys);
    return 0;
}

#include "store.h"
#include <stdio.h>
#include <string.h>

#ifdef GATEWAY_NO_SQLITE
store *store_sqlite_open(const char *file, bool full) {
    (void)file, (void)full;
    fputs("store: this gateway was built without SQLite\n", stderr);
    return NULL;
}
#endif

#ifdef GATEWAY_NO_POSTGRES
store *store_postgres_open(const char *conninfo, bool on) {
    (void)conninfo, (void)on;
    fputs("store: this gateway was built without PostgreSQL\n", stderr);
    return NULL;
}
#endif

const char *const store_names = "sqlite:FILE, pg:CONNINFO; for measuring alone sqlite-normal:FILE, pg-off:CONNINFO, memory:FILE";

store *store_open(const char *name) {
    const char *colon = strchr(name, ':');
    size_t len = colon ? (size_t)(colon - name) : 0;
    const char *rest = colon ? colon + 1 : name;
    if (len == 6 && !strncmp(name, "sqlite", 6)) return store_sqlite_open(rest, true);
    if (len == 13 && !strncmp(name, "sqlite-normal", 13)) return store_sqlite_open(rest, false);
    if (len == 2 && !strncmp(name, "pg", 2)) return store_postgres_open(rest, true);
    if (len == 6 && !strncmp(name, "pg-off", 6)) return store_postgres_open(rest, false);
    if (len == 6 && !strncmp(name, "memory", 6)) return store_memory_open(rest);
    fprintf(stderr, "store: a store is one of %s\n", store_names);
    return NULL;
}

bool store_get_all(store *of, store_row *rows[], size_t count) {
    if (count > 1 && of->calls->get_all) return of->calls->get_all(of, rows, count);
    bool good = true;
    for (size_t i = 0; good && i < count; i++) {
        rows[i]->answer = of->calls->get(of, &rows[i]->key, &rows[i]->bytes);
        good = rows[i]->answer != STORE_BROKEN;
    }
    return good;
}

bool store_put_all(store *of, store_row *rows[], size_t count) {
    if (count > 1 && of->calls->put_all) return of->calls->put_all(of, rows, count);
    bool good = true;
    for (size_t i = 0; good && i < count; i++) {
        rows[i]->answer = of->calls->put(of, &rows[i]->key, &rows[i]->bytes);
        good = rows[i]->answer != STORE_BROKEN;
    }
    return good;
}

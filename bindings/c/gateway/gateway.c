/* A gateway for many OSCORE contexts: one row a context, in a store. README.md says what it keeps to.

       gateway provision STORE [FILE]
       gateway serve STORE PORT [NAME=VALUE ..]
       gateway era

   Without FILE, provision adds what waits in the table `provision`. FILE - is the standard input; PORT 0 is one that the system picks, and the first line says which. */
#include "era.h"
#include "provision.h"
#include "serve.h"
#include <stdlib.h>
#include <string.h>
#include <sys/resource.h>
#include <sys/stat.h>

static int usage(const char *what) {
    fprintf(stderr,
            "gateway: %s\n"
            "gateway provision STORE [FILE]\n"
            "gateway serve STORE PORT [NAME=VALUE ..]\n"
            "    address=127.0.0.1  application=0, a port on 127.0.0.1  mode=tx|strict|lazy  workers=1  batch=32\n"
            "    era=0  unprotected=10, replies a second to an address  metrics=PATH, a socket\n"
            "    provision=1, seconds between two looks at the table provision\n"
            "gateway era\n"
            "STORE is %s\n",
            what, store_names);
    return 2;
}

/* Seconds: of a day. */
enum { PAUSE_MOST = 86400 };

/* A decimal number of at most so much. */
static bool number(const char *word, uint64_t most, uint64_t *to) {
    size_t len = strspn(word, "0123456789");
    if (len == 0 || len > 18 || word[len]) return false;
    *to = strtoull(word, NULL, 10);
    return *to <= most;
}

static bool read_mode(const char *word, settings *to) {
    static const char *const NAMES[] = {[MODE_STRICT] = "strict", [MODE_LAZY] = "lazy", [MODE_TX] = "tx"};
    for (size_t i = 0; i < sizeof NAMES / sizeof NAMES[0]; i++) {
        if (strcmp(word, NAMES[i])) continue;
        to->mode = (reply_mode)i;
        return true;
    }
    return false;
}

static bool read_setting(const char *name, const char *value, settings *to) {
    uint64_t read = 0;
    bool good = true;
    if (!strcmp(name, "address")) to->address = value;
    else if (!strcmp(name, "metrics")) to->metrics = value;
    else if (!strcmp(name, "mode")) good = read_mode(value, to);
    else if (!strcmp(name, "application")) good = number(value, UINT16_MAX, &read), to->application = (uint16_t)read;
    else if (!strcmp(name, "workers")) good = number(value, WORKERS_MOST, &read) && read > 0, to->workers = (size_t)read;
    else if (!strcmp(name, "batch")) good = number(value, BATCH_MOST, &read) && read > 0, to->batch = (size_t)read;
    else if (!strcmp(name, "era")) good = number(value, ERA_MOST, &read), to->era = read;
    else if (!strcmp(name, "provision")) good = number(value, PAUSE_MOST, &read), to->provision = read;
    else if (!strcmp(name, "unprotected")) good = number(value, UINT32_MAX, &read), to->unprotected = (uint32_t)read;
    else good = false;
    return good;
}

/* Splits NAME=VALUE where it stands. */
static bool read_word(char *word, settings *to) {
    char *equals = strchr(word, '=');
    if (!equals) return false;
    *equals = '\0';
    bool good = read_setting(word, equals + 1, to);
    *equals = '=';
    return good;
}

static int serve_words(char **words, int count) {
    settings with = {.store = words[0], .address = "127.0.0.1", .mode = MODE_TX, .workers = 1, .batch = 32, .unprotected = 10, .provision = 1};
    uint64_t port;
    if (!number(words[1], UINT16_MAX, &port)) return usage("that is no port");
    with.port = (uint16_t)port;
    for (int i = 2; i < count; i++)
        if (!read_word(words[i], &with)) return usage(words[i]);
    if (with.application != 0 && with.mode == MODE_TX) return usage("such an application acts outside the transaction: mode=strict or mode=lazy");
    if (era_at(now_ms()) == 0) return usage("the clock is before 2026");
    if (with.era > era_at(now_ms())) return usage("this era hasn't begun");
    return serve(&with) ? 0 : 1;
}

static bool provision_file(store *to, const char *file, provisioned *all) {
    FILE *lines = strcmp(file, "-") ? fopen(file, "r") : stdin;
    if (!lines) {
        perror("gateway: the file");
        return false;
    }
    bool good = provision(to, lines, &all->added);
    if (lines != stdin && fclose(lines)) perror("gateway: the file");
    return good;
}

static bool provision_table(store *to, provisioned *all) {
    provisioned taken;
    if (!to->calls->make(to)) return false;
    do {
        if (!provision_waiting(to, &taken)) return false;
        all->added += taken.added;
        all->refused += taken.refused;
    } while (taken.added + taken.refused > 0);
    return true;
}

static int provision_words(const char *name, const char *file) {
    provisioned all = {0, 0};
    store *to = store_open(name);
    if (!to) return 1;
    bool good = file ? provision_file(to, file, &all) : provision_table(to, &all);
    to->calls->close(to);
    if (good || !file) printf("%zu contexts added\n", all.added);
    if (all.refused > 0) printf("%zu lines refused\n", all.refused);
    return good && all.refused == 0 ? 0 : 1;
}

/* What is made here is for the owner alone, and no core is dumped: both would show keys. */
static bool close_off(void) {
    const struct rlimit none = {0, 0};
    (void)umask(077);
    return !setrlimit(RLIMIT_CORE, &none);
}

int main(int count, char **words) {
    if (!close_off()) {
        perror("gateway");
        return 1;
    }
    if (count == 2 && !strcmp(words[1], "era")) return printf("%llu\n", (unsigned long long)era_at(now_ms())) > 0 ? 0 : 1;
    if ((count == 3 || count == 4) && !strcmp(words[1], "provision")) return provision_words(words[2], count == 4 ? words[3] : NULL);
    if (count >= 4 && !strcmp(words[1], "serve")) return serve_words(words + 2, count - 2);
    return usage("no such words");
}

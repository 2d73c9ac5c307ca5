#ifdef GATEWAY_TRIAL
#include "trial.h"
#include <fcntl.h>
#include <signal.h>
#include <stdatomic.h>
#include <stdio.h>
#include <stdlib.h>
#include <string.h>
#include <sys/mman.h>
#include <time.h>
#include <unistd.h>

enum { LINE_ROOM = 4096 };

/* Of all workers. */
typedef struct passes {
    _Atomic uint64_t reached[TRIAL_STEPS], killed[TRIAL_STEPS], at_random;
} passes;

static passes *shared;
static uint64_t one_in, every_ms, next_kill_ms, pause_ms;
static trial_order order;
static int log_file = -1;

static uint64_t number_of(const char *name) {
    const char *value = getenv(name);
    return value ? strtoull(value, NULL, 10) : 0;
}

bool trial_begin(void) {
    static const char *const ORDERS[] = {"", "send", "act", "version"};
    void *at = mmap(NULL, sizeof *shared, PROT_READ | PROT_WRITE, MAP_SHARED | MAP_ANONYMOUS, -1, 0);
    if (at == MAP_FAILED) return false;
    shared = at;
    one_in = number_of("GATEWAY_KILL");
    every_ms = number_of("GATEWAY_KILL_MS");
    pause_ms = number_of("GATEWAY_PAUSE_MS");
    const char *wanted = getenv("GATEWAY_ORDER");
    for (int i = 0; wanted && i < 4; i++)
        if (!strcmp(wanted, ORDERS[i])) order = (trial_order)i;
    return true;
}

bool trial_begin_worker(unsigned index) {
    const char *folder = getenv("GATEWAY_LOG");
    if (!folder) return true;
    char path[512];
    if ((size_t)snprintf(path, sizeof path, "%s/worker.%u", folder, index) >= sizeof path) return false;
    log_file = open(path, O_CREAT | O_APPEND | O_WRONLY | O_CLOEXEC, 0600);
    return log_file >= 0;
}

void trial_reach(trial_step step) {
    const struct timespec pause = {.tv_nsec = (long)pause_ms * 1000000};
    if (step == (order == TRIAL_RIGHT ? TRIAL_WRITTEN : TRIAL_TAKEN) && pause_ms > 0 && nanosleep(&pause, NULL)) abort();
    if (one_in == 0 || (atomic_fetch_add(&shared->reached[step], 1) + 1) % one_in) return;
    atomic_fetch_add(&shared->killed[step], 1);
    if (raise(SIGKILL)) abort();
}

trial_order trial_of(void) {
    return order;
}

static size_t hex(char *to, const uint8_t *bytes, size_t len) {
    static const char DIGITS[] = "0123456789abcdef";
    for (size_t i = 0; i < len; i++) *to++ = DIGITS[bytes[i] >> 4], *to++ = DIGITS[bytes[i] & 15];
    return 2 * len;
}

/* A line is written by one call, so a kill leaves whole lines. */
static void note(char what, const row_key *key, uint64_t number, const uint8_t *bytes, size_t len) {
    char line[LINE_ROOM];
    if (log_file < 0) return;
    size_t at = 0;
    line[at++] = what;
    line[at++] = ' ';
    at += hex(line + at, key->bytes, key->len);
    at += (size_t)snprintf(line + at, 32, " %llu ", (unsigned long long)number);
    at += hex(line + at, bytes, len);
    line[at++] = '\n';
    if (write(log_file, line, at) != (ssize_t)at) abort();
}

void trial_delivered(const row_key *key, uint64_t number) {
    note('D', key, number, NULL, 0);
}

void trial_sent(const row_key *key, uint64_t number, const uint8_t *bytes, size_t len) {
    note('S', key, number, bytes, len);
}

void trial_kill_one(const pid_t *processes, size_t count) {
    struct timespec now;
    if (every_ms == 0 || clock_gettime(CLOCK_MONOTONIC, &now)) return;
    uint64_t ms = (uint64_t)now.tv_sec * 1000 + (uint64_t)now.tv_nsec / 1000000;
    if (ms < next_kill_ms) return;
    next_kill_ms = ms + every_ms;
    pid_t process = processes[(size_t)now.tv_nsec / 1000 % count];
    if (process > 0 && !kill(process, SIGKILL)) shared->at_random++;
}

void trial_end(void) {
    const char *names[] = {"taken", "written", "acted", "ready", "sent"};
    printf("killed: random %llu", (unsigned long long)shared->at_random);
    for (int i = 0; i <= TRIAL_SENT; i++) printf(" %s %llu", names[i], (unsigned long long)shared->killed[i]);
    printf("\nkilled while a context was added: %llu\n", (unsigned long long)shared->killed[TRIAL_ADDED]);
}
#else
/* A file with nothing in it isn't C11. */
typedef int trial_nothing;
#endif

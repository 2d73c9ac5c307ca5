/* A peer is in one call at a time. Each call of a peer is stopped where it reads what it was given, by a page that can't be read, and each call
   of that peer is tried from within the signal's handler, as an interrupt would: it is OSCORE_BUSY and writes nothing but `detail` and `out_len`.
   Then threads ask with one peer: no number is used twice. Built with the sanitizers by .ci/run, and run under valgrind's memcheck with fewer
   requests, which its only word says. */
#define _DEFAULT_SOURCE
#include "../oscore.h"
#include <pthread.h>
#include <signal.h>
#include <stdio.h>
#include <stdlib.h>
#include <string.h>
#include <sys/mman.h>
#include <unistd.h>

#define CHECK(holds) do { if (!(holds)) { printf("busy.c:%d: %s\n", __LINE__, #holds); _exit(1); } } while (0)

static const uint8_t SECRET[16] = {1, 2, 3, 4, 5, 6, 7, 8, 9, 10, 11, 12, 13, 14, 15, 16}, THEIRS = 1;
static const uint8_t GET[5] = {0x41, 1, 0, 1, 0x4a}, CONTENT[5] = {0x61, 0x45, 0, 1, 0x4a}, TOKEN = 0x4a;

/* What a call is given: one set for the call that is stopped, and one for those within it. */
typedef struct given {
    oscore_context context;
    oscore_peer_record record;
    oscore_ticket ticket;
    oscore_opened opened;
    oscore_option options[4];
    oscore_size out_len, detail;
    uint64_t number;
    uint8_t bytes[64], out[128];
} given;

static oscore_context context;
static oscore_peer peer;
static oscore_pending pending[4];
static oscore_size pending_count;
static uint8_t *page;
static size_t page_len;

/* ---- the calls of a peer; each reads what lies at `at`, where the stopped one finds it on the page */

static oscore_status begin_first(given *of, const void *at) {
    (void)of;
    return oscore_peer_begin_first(&peer, at, 32, 1000);
}

static oscore_status begin_again(given *of, const void *at) {
    return oscore_peer_begin_again(&peer, &of->context, at, 32, 1000);
}

static oscore_status saved(given *of, const void *at) {
    (void)of;
    return oscore_peer_saved(&peer, at);
}

static oscore_status take(given *of, const void *at) {
    return oscore_peer_take(&peer, 0, 7, (uint8_t *)at, sizeof GET, of->options, 4, &of->opened, &of->ticket, of->out, &of->out_len, &of->record,
                            &of->detail);
}

static oscore_status reply(given *of, const void *at) {
    return oscore_peer_reply(&peer, &of->ticket, true, 7, at, sizeof CONTENT, of->out, sizeof of->out, &of->out_len, &of->record, &of->detail);
}

static oscore_status notify(given *of, const void *at) {
    return oscore_peer_notify(&peer, &of->ticket, at, sizeof CONTENT, of->out, sizeof of->out, &of->out_len, &of->record, &of->detail);
}

static oscore_status request(given *of, const void *at) {
    return oscore_peer_request(&peer, pending, 4, &pending_count, 0, at, sizeof GET, of->out, sizeof of->out, &of->out_len, &of->record, &of->detail);
}

static oscore_status hear(given *of, const void *at) {
    return oscore_peer_hear(&peer, pending, 4, &pending_count, 0, (uint8_t *)at, sizeof CONTENT, of->options, 4, &of->opened, &of->number,
                            &of->detail);
}

static oscore_status forget(given *of, const void *at) {
    (void)of;
    return oscore_peer_forget(&peer, pending, 4, &pending_count, at, 1);
}

/* What each reads, what it answers in the end where the peer is as `begin` leaves it, and whether it has a `detail`. */
static const struct {
    oscore_status (*call)(given *of, const void *at);
    const void *reads;
    size_t len;
    oscore_status answer;
    bool says;
} CALLS[] = {
    {begin_first, &context, sizeof context, OSCORE_DONE, false},
    {begin_again, NULL, sizeof(oscore_peer_record), OSCORE_OLD_RECORD, false}, /* a record of zeros */
    {saved, NULL, sizeof(oscore_peer_record), OSCORE_BAD_NUMBER, false},
    {take, GET, sizeof GET, OSCORE_NO_OSCORE, true},
    {reply, CONTENT, sizeof CONTENT, OSCORE_STALE_TICKET, true},
    {notify, CONTENT, sizeof CONTENT, OSCORE_STALE_TICKET, true},
    {request, GET, sizeof GET, OSCORE_TOKEN_IN_USE, true},
    {hear, CONTENT, sizeof CONTENT, OSCORE_NO_OSCORE, true},
    {forget, &TOKEN, 1, OSCORE_DONE, false},
};
enum { COUNT_OF_CALLS = sizeof CALLS / sizeof CALLS[0] };

static given stopped, within;

/* A peer whose first record is saved, and of whose requests one is pending. */
static void begin(void) {
    memset(&stopped, 0, sizeof stopped), memset(&peer, 0, sizeof peer), memset(pending, 0, sizeof pending);
    pending_count = 0, stopped.context = context;
    CHECK(!oscore_peer_begin_first(&peer, &context, 32, 1000));
    CHECK(request(&stopped, GET) == OSCORE_SAVE_FIRST && !oscore_peer_saved_nowhere(&peer, &stopped.record) && !request(&stopped, GET));
}

/* ---- a call within a call */

static volatile sig_atomic_t stops;

static void is_busy(size_t which) {
    given before;
    oscore_peer same = peer;
    oscore_pending places[4];
    oscore_size count = pending_count;
    const uint8_t *bytes = CALLS[which].reads ? CALLS[which].reads : within.bytes;
    memset(&within, 0x5a, sizeof within), memset(within.bytes, 0, sizeof within.bytes);
    before = within, memcpy(places, pending, sizeof places);
    CHECK(CALLS[which].call(&within, bytes) == OSCORE_BUSY);
    if (CALLS[which].says) before.detail = 0;
    if (CALLS[which].call == take) before.out_len = 0;
    CHECK(!memcmp(&within, &before, sizeof within) && !memcmp(&peer, &same, sizeof peer));
    CHECK(!memcmp(places, pending, sizeof places) && count == pending_count);
}

static void interrupted(int signal, siginfo_t *info, void *unused) {
    (void)signal, (void)unused;
    CHECK((uint8_t *)info->si_addr >= page && (uint8_t *)info->si_addr < page + page_len);
    stops++;
    for (size_t which = 0; which < COUNT_OF_CALLS; which++) is_busy(which);
    CHECK(!mprotect(page, page_len, PROT_READ | PROT_WRITE));
}

static void calls_in_calls(void) {
    struct sigaction action = {.sa_sigaction = interrupted, .sa_flags = SA_SIGINFO | SA_NODEFER}, old;
    page_len = (size_t)sysconf(_SC_PAGESIZE);
    page = mmap(NULL, page_len, PROT_READ | PROT_WRITE, MAP_PRIVATE | MAP_ANONYMOUS, -1, 0);
    CHECK(page != MAP_FAILED && !sigaction(SIGSEGV, &action, &old));
    for (size_t which = 0; which < COUNT_OF_CALLS; which++) {
        begin();
        memset(page, 0, page_len);
        if (CALLS[which].reads) memcpy(page, CALLS[which].reads, CALLS[which].len);
        stops = 0;
        CHECK(!mprotect(page, page_len, PROT_NONE));
        CHECK(CALLS[which].call(&stopped, page) == CALLS[which].answer);
        CHECK(stops == 1 && peer.busy == 0);
        CHECK(request(&stopped, GET) != OSCORE_BUSY);
    }
    CHECK(!sigaction(SIGSEGV, &old, NULL) && !munmap(page, page_len));
}

/* ---- threads */

enum { THREADS = 4, MOST = 40000 };
static uint8_t times[THREADS * MOST + 1]; /* how often a number was used */
static uint64_t finished[THREADS];
static int rounds = MOST;
static pthread_mutex_t counting = PTHREAD_MUTEX_INITIALIZER;

/* The thread whose call answers OSCORE_SAVE_FIRST saves, or another that was answered the same. */
static void *ask(void *index) {
    given *own = calloc(1, sizeof *own);
    uint8_t plain[sizeof GET];
    memcpy(plain, GET, sizeof GET), plain[4] = (uint8_t)*(size_t *)index;
    while (finished[*(size_t *)index] < (uint64_t)rounds) {
        oscore_request_head head = OSCORE_ZERO;
        oscore_status status = request(own, plain);
        if (status == OSCORE_SAVE_FIRST) {
            status = oscore_peer_saved_nowhere(&peer, &own->record);
            CHECK(status == OSCORE_DONE || status == OSCORE_BUSY || status == OSCORE_BAD_NUMBER);
        } else if (status == OSCORE_DONE) {
            CHECK(!oscore_head(own->out, own->out_len, &head, NULL) && head.number < sizeof times);
            pthread_mutex_lock(&counting);
            times[head.number]++;
            pthread_mutex_unlock(&counting);
            finished[*(size_t *)index]++;
            do status = forget(own, &plain[4]);
            while (status == OSCORE_BUSY);
            CHECK(status == OSCORE_DONE);
        } else {
            CHECK(status == OSCORE_BUSY);
        }
    }
    free(own);
    return NULL;
}

/* Each number is used once, and the peer counts as many. */
static void threads(void) {
    pthread_t all[THREADS];
    size_t index[THREADS];
    begin();
    CHECK(!forget(&stopped, &TOKEN) && peer.server.context.next == 1);
    memset(times, 0, sizeof times);
    for (size_t i = 0; i < THREADS; i++) index[i] = i, finished[i] = 0;
    for (size_t i = 0; i < THREADS; i++) CHECK(!pthread_create(&all[i], NULL, ask, &index[i]));
    for (size_t i = 0; i < THREADS; i++) CHECK(!pthread_join(all[i], NULL));
    for (uint64_t number = 1; number <= (uint64_t)THREADS * (uint64_t)rounds; number++) CHECK(times[number] == 1);
    CHECK(peer.server.context.next == 1 + (uint64_t)THREADS * (uint64_t)rounds && pending_count == 0 && peer.busy == 0);
}

int main(int count, char **words) {
    if (count > 1) rounds = atoi(words[1]) / 20;
    CHECK(!oscore_derive(&context, SECRET, sizeof SECRET, NULL, 0, false, NULL, 0, NULL, 0, &THEIRS, 1, true, false, false));
    calls_in_calls();
    threads();
    puts("all as said");
    return 0;
}

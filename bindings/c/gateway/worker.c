#include "worker.h"
#include "application.h"
#include "forward.h"
#include "monotonic.h"
#include "steps.h"
#include "trial.h"
#include <errno.h>
#include <sched.h>
#include <signal.h>
#include <stdio.h>
#include <stdlib.h>
#include <sys/epoll.h>
#include <unistd.h>

enum { DRAIN_MS = 5000, WAIT_MS = 100 };
/* Where the next datagram comes sooner than SOON_US, a worker looks for it up to LOOKS_MOST times before it sleeps. */
enum { SOON_US = 200, LOOKS_MOST = 512, LOOKS_STEP = 64 };

typedef struct worker {
    const settings *with;
    counts *counted;
    int udp, waits_on_all, waits_on_answers;
    steps steps;
    size_t held;    /* datagrams that were read while the worker waited: 1 or none */
    unsigned looks; /* how often it looks for a datagram before it sleeps */
    forwarder application;
    item items[BATCH_MOST];
} worker;

/* The application acts on what was delivered, and written: once for each. One behind the gateway gets the request, and answers later. */
static bool act(worker *w, item *of) {
    trial_reach(TRIAL_WRITTEN);
    if (trial_of() != TRIAL_ACT) trial_delivered(&of->stored.key, of->number);
    bool answers = true;
    if (w->with->application != 0) {
        uint8_t code = forward_request(&w->application, of, monotonic_ms());
        if (code != 0) application_say(of, code);
        else count_one(w->counted, COUNT_FORWARDED);
        answers = code != 0;
    } else if (w->with->mode != MODE_TX) {
        application_obey(of, false);
    }
    trial_reach(TRIAL_ACTED);
    if (!answers) steps_drop(of);
    return answers;
}

static void send_all(worker *w, size_t count) {
    uint64_t answered = 0;
    for (size_t i = 0; i < count; i++) {
        trial_reach(TRIAL_READY);
        answered += steps_send(&w->steps, &w->items[i]) && w->items[i].outcome == ITEM_DELIVERED;
        trial_reach(TRIAL_SENT);
        item_wipe(&w->items[i]);
    }
    count_more(w->counted, COUNT_ANSWERED, answered);
}

/* Reads a datagram into the item behind so many. One that is too long is passed over. False: there is none, or, without MSG_DONTWAIT, none
   came in WAIT_MS. */
static bool receive_one(worker *w, size_t *count, int flags) {
    item *to = &w->items[*count];
    to->from.len = sizeof to->from.bytes;
    ssize_t len = recvfrom(w->udp, to->came, sizeof to->came, flags | MSG_TRUNC, (struct sockaddr *)&to->from.bytes, &to->from.len);
    if (len < 0) return errno == EINTR;
    to->came_len = (size_t)len;
    if (to->came_len <= sizeof to->came) {
        ++*count;
        return true;
    }
    count_one(w->counted, COUNT_READ);
    count_one(w->counted, COUNT_TOO_LONG);
    return true;
}

/* Reads the datagrams that are there, behind the one that is held. */
static size_t receive(worker *w) {
    size_t count = w->held, most = w->with->batch;
    if (w->with->application != 0 && most > FORWARDS - w->application.waiting) most = FORWARDS - w->application.waiting;
    w->held = 0;
    while (count < most && receive_one(w, &count, MSG_DONTWAIT)) {}
    count_more(w->counted, COUNT_READ, count);
    return count;
}

/* The datagrams of one transaction. All but the one that is held are read when it has begun: who waits for the others' transactions meanwhile
   leaves what came to whoever is next, and so more datagrams share one commit. */
static bool serve_requests(worker *w) {
    uint64_t delivered = 0;
    if (!steps_begin(&w->steps)) return false;
    size_t count = receive(w);
    if (!steps_take(&w->steps, w->items, count) || !steps_commit(&w->steps)) return false;
    for (size_t i = 0; i < count; i++) {
        if (w->items[i].outcome == ITEM_CHALLENGE) count_one(w->counted, COUNT_CHALLENGED);
        if (w->items[i].outcome != ITEM_DELIVERED) continue;
        delivered++;
        if (!act(w, &w->items[i])) steps_drop(&w->items[i]);
    }
    count_more(w->counted, COUNT_DELIVERED, delivered);
    if (w->with->mode != MODE_TX && !steps_answer(&w->steps, w->items, count, true)) return false;
    send_all(w, count);
    return true;
}

/* What the application answered, and what it didn't answer in time. */
static bool serve_answers(worker *w) {
    size_t count = 0;
    uint64_t ms = monotonic_ms();
    while (count < w->with->batch && forward_overdue(&w->application, &w->items[count], ms)) {
        count_one(w->counted, COUNT_TIMEOUTS);
        count++;
    }
    while (count < w->with->batch && forward_receive(&w->application, &w->items[count])) count++;
    if (!steps_answer(&w->steps, w->items, count, false)) return false;
    send_all(w, count);
    return true;
}

/* Waits for a datagram, WAIT_MS at most. Who sends to a worker that sleeps spends more on waking it than on sending; so under load it looks
   for a while before it sleeps, and gives its processor to whoever wants it in between. How often it looks follows from how long it slept.
   Beside a database's server it doesn't look: that wants each processor that the workers leave. */
static bool wait_for_datagram(worker *w) {
    for (unsigned i = 0; i < w->looks; i++) {
        if (receive_one(w, &w->held, MSG_DONTWAIT)) return true;
        (void)sched_yield();
    }
    uint64_t began = monotonic_us();
    bool came = receive_one(w, &w->held, 0);
    bool soon = monotonic_us() - began < SOON_US;
    if (!soon) w->looks /= 2;
    else if (w->steps.store->calls->is_within && w->looks < LOOKS_MOST) w->looks += LOOKS_STEP;
    return came;
}

/* Waits for a datagram, WAIT_MS at most. With an application behind the gateway it waits for that too, and for datagrams only where there is
   room for them. */
static bool wait_for(worker *w, bool requests, bool *came) {
    struct epoll_event events[2];
    if (w->with->application == 0) {
        *came = wait_for_datagram(w);
        return true;
    }
    int count = epoll_wait(requests ? w->waits_on_all : w->waits_on_answers, events, 2, WAIT_MS);
    *came = count > 0;
    return count >= 0 || errno == EINTR;
}

/* SIGTERM is blocked, so that it never comes between two steps. Who was told to end finds it pending. */
static bool told_to_end(void) {
    sigset_t pending;
    return sigpending(&pending) || sigismember(&pending, SIGTERM);
}

/* What calls left on the stack is wiped once nothing came: until then each datagram leaves as much there again. */
static int run(worker *w) {
    uint64_t drained_by = 0, asks_at = 0; /* when it next asks whether it was told to end: that costs a call of the system */
    for (bool stopping = false;;) {
        size_t waiting = w->with->application != 0 ? w->application.waiting : 0;
        bool requests = !stopping && waiting < FORWARDS, came;
        if (!wait_for(w, requests, &came)) return WORKER_BROKEN;
        if (!came) oscore_wipe_stack();
        uint64_t ms = monotonic_ms();
        bool asks = !stopping && ms >= asks_at;
        if (asks) asks_at = ms + WAIT_MS;
        if (asks && told_to_end()) {
            stopping = true;
            drained_by = ms + DRAIN_MS;
        }
        if (stopping && (waiting == 0 || ms > drained_by)) return WORKER_DONE;
        if (came && requests && !stopping && !serve_requests(w)) return WORKER_BROKEN;
        if (w->with->application != 0 && !serve_answers(w)) return WORKER_BROKEN;
    }
}

static bool watch(int set, int socket, uint32_t events) {
    struct epoll_event wanted = {.events = events};
    return set >= 0 && !epoll_ctl(set, EPOLL_CTL_ADD, socket, &wanted);
}

/* Of the workers that wait for a datagram one is woken. A socket in an epoll set costs time whenever something is sent on it, or comes, even if
   nobody waits; so where there is nothing else to wait for, a worker waits in recvfrom. */
static bool begin_waiting(worker *w) {
    const struct timeval so_long = {.tv_usec = WAIT_MS * 1000};
    if (setsockopt(w->udp, SOL_SOCKET, SO_RCVTIMEO, &so_long, sizeof so_long)) return false;
    if (w->with->application == 0) return true;
    w->waits_on_all = epoll_create1(EPOLL_CLOEXEC);
    w->waits_on_answers = epoll_create1(EPOLL_CLOEXEC);
    return watch(w->waits_on_all, w->udp, EPOLLIN | EPOLLEXCLUSIVE) && forward_begin(&w->application, w->with->application)
        && watch(w->waits_on_all, w->application.udp, EPOLLIN) && watch(w->waits_on_answers, w->application.udp, EPOLLIN);
}

static void end_worker(worker *w) {
    if (w->with->application != 0) forward_end(&w->application);
    if (w->waits_on_all >= 0 && close(w->waits_on_all)) perror("worker");
    if (w->waits_on_answers >= 0 && close(w->waits_on_answers)) perror("worker");
    if (w->steps.store) w->steps.store->calls->close(w->steps.store);
    oscore_wipe(w->items, sizeof w->items);
    oscore_wipe_stack();
    free(w);
}

int worker_run(const settings *with, int udp, counts *counted, unsigned index) {
    worker *w = calloc(1, sizeof *w);
    if (!w) return WORKER_BROKEN;
    w->with = with;
    w->counted = counted;
    w->udp = udp;
    w->waits_on_all = w->waits_on_answers = w->application.udp = -1;
    int status = WORKER_BROKEN;
    if (steps_open(&w->steps, with, counted, udp) && begin_waiting(w) && trial_begin_worker(index)) {
        count_one(counted, COUNT_STARTS);
        status = run(w);
    }
    end_worker(w);
    return status;
}

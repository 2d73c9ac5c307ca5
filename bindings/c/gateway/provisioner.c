#include "provisioner.h"
#include "provision.h"
#include "worker.h"
#include <errno.h>
#include <poll.h>
#include <signal.h>

/* POSIX gives a signal handler no other place. */
static volatile sig_atomic_t stopping;

static void stop(int signal) {
    (void)signal;
    stopping = 1;
}

/* SIGTERM comes here alone, so never between the steps of a transaction. */
static bool wait_seconds(uint64_t seconds) {
    const struct timespec so_long = {.tv_sec = (time_t)seconds};
    sigset_t all_open;
    if (sigemptyset(&all_open)) return false;
    return ppoll(NULL, 0, &so_long, &all_open) == 0 || errno == EINTR;
}

/* While lines wait there is no pause. */
static int run(store *from, uint64_t pause, counts *counted) {
    uint64_t seconds = 0;
    while (wait_seconds(seconds) && !stopping) {
        provisioned taken;
        if (!provision_waiting(from, &taken)) return WORKER_BROKEN;
        count_more(counted, COUNT_ADDED, taken.added);
        count_more(counted, COUNT_NOT_ADDED, taken.refused);
        seconds = taken.added + taken.refused > 0 ? 0 : pause;
    }
    return stopping ? WORKER_DONE : WORKER_BROKEN;
}

int provisioner_run(const settings *with, counts *counted) {
    const struct sigaction handled = {.sa_handler = stop};
    store *from = store_open(with->store);
    if (!from) return WORKER_BROKEN;
    int status = sigaction(SIGTERM, &handled, NULL) ? WORKER_BROKEN : run(from, with->provision, counted);
    from->calls->close(from);
    return status;
}

#include "serve.h"
#include "counts.h"
#include "monotonic.h"
#include "provisioner.h"
#include "store.h"
#include "trial.h"
#include "worker.h"
#include <arpa/inet.h>
#include <errno.h>
#include <netdb.h>
#include <poll.h>
#include <signal.h>
#include <stdio.h>
#include <stdlib.h>
#include <string.h>
#include <sys/prctl.h>
#include <sys/stat.h>
#include <sys/un.h>
#include <sys/wait.h>
#include <unistd.h>

/* A process that ended by itself found its store broken: the next one begins after a pause. One that was killed is replaced at once. */
enum { LOOK_MS = 50, PAUSE_MS = 200, PROCESSES_MOST = WORKERS_MOST + 1, END_MS = 10000, RECEIVE_ROOM = 8 << 20 };

typedef struct parent {
    const settings *with;
    counts *counted;
    int udp, metrics;
    size_t count;                      /* of the workers, and, behind them, the provisioner */
    pid_t process[PROCESSES_MOST];     /* 0: to be started */
    uint64_t begin_at[PROCESSES_MOST]; /* not before */
    bool in_order;
} parent;

/* POSIX gives a signal handler no other place. */
static volatile sig_atomic_t ending;

static void end(int signal) {
    if (signal != SIGCHLD) ending = 1;
}

/* Signals come in ppoll alone, here and in the provisioner. A worker leaves SIGTERM blocked, and looks for it. */
static bool hold_signals(void) {
    const int signals[] = {SIGTERM, SIGINT, SIGCHLD};
    const struct sigaction handled = {.sa_handler = end};
    sigset_t held;
    if (sigemptyset(&held)) return false;
    for (size_t i = 0; i < 3; i++)
        if (sigaddset(&held, signals[i]) || sigaction(signals[i], &handled, NULL)) return false;
    return !sigprocmask(SIG_BLOCK, &held, NULL);
}

/* More datagrams wait than the system's default has room for; where that isn't allowed, fewer do. */
static void widen(int udp) {
    int room = RECEIVE_ROOM;
    if (setsockopt(udp, SOL_SOCKET, SO_RCVBUFFORCE, &room, sizeof room) && setsockopt(udp, SOL_SOCKET, SO_RCVBUF, &room, sizeof room))
        perror("serve: room for datagrams");
}

static int open_udp(const settings *with) {
    const struct addrinfo wanted = {.ai_flags = AI_NUMERICHOST | AI_NUMERICSERV, .ai_socktype = SOCK_DGRAM};
    struct addrinfo *found = NULL;
    char port[8];
    int len = snprintf(port, sizeof port, "%u", (unsigned)with->port), udp = -1;
    if (len < 0 || getaddrinfo(with->address, port, &wanted, &found)) {
        fputs("serve: that is no address\n", stderr);
        return -1;
    }
    udp = socket(found->ai_family, SOCK_DGRAM | SOCK_CLOEXEC, 0);
    if (udp >= 0 && bind(udp, found->ai_addr, found->ai_addrlen)) {
        perror("serve: bind");
        (void)close(udp);
        udp = -1;
    }
    freeaddrinfo(found);
    if (udp >= 0) widen(udp);
    return udp;
}

/* Whoever may open the path reads the metrics: the owner alone. */
static int open_metrics(const char *path) {
    struct sockaddr_un at = {.sun_family = AF_UNIX};
    size_t len = strlen(path);
    int metrics = len < sizeof at.sun_path ? socket(AF_UNIX, SOCK_STREAM | SOCK_CLOEXEC | SOCK_NONBLOCK, 0) : -1;
    if (metrics >= 0) memcpy(at.sun_path, path, len);
    if (metrics >= 0 && unlink(path) && errno != ENOENT) perror("serve: metrics");
    if (metrics < 0 || bind(metrics, (struct sockaddr *)&at, sizeof at) || chmod(path, 0600) || listen(metrics, 8)) {
        perror("serve: metrics");
        if (metrics >= 0) (void)close(metrics);
        return -1;
    }
    return metrics;
}

/* The text is short, so it is taken at once or not at all. */
static void show_metrics(const parent *p) {
    char text[METRICS_ROOM];
    int to = accept(p->metrics, NULL, NULL);
    if (to < 0) return;
    size_t len = counts_text(p->counted, text);
    if (send(to, text, len, MSG_NOSIGNAL | MSG_DONTWAIT) != (ssize_t)len) fputs("serve: metrics: not taken\n", stderr);
    if (close(to)) perror("serve: metrics");
}

/* A process ends when its parent does, however that ends. */
static _Noreturn void become(const parent *p, size_t index, pid_t above) {
    if (prctl(PR_SET_PDEATHSIG, SIGTERM) || getppid() != above) _exit(WORKER_BROKEN);
    if (p->metrics >= 0) (void)close(p->metrics);
    if (index == p->with->workers) _exit(provisioner_run(p->with, p->counted));
    _exit(worker_run(p->with, p->udp, p->counted, (unsigned)index));
}

static void start_all(parent *p) {
    pid_t own = getpid();
    for (size_t i = 0; i < p->count; i++) {
        if (p->process[i] != 0 || monotonic_ms() < p->begin_at[i]) continue;
        pid_t started = fork();
        if (started == 0) become(p, i, own);
        if (started > 0) p->process[i] = started;
        else perror("serve: fork");
    }
}

static size_t running(const parent *p) {
    size_t count = 0;
    for (size_t i = 0; i < p->count; i++) count += p->process[i] != 0;
    return count;
}

/* How long one that ended by itself isn't started again. The provisioner has its pause between two looks. */
static uint64_t pause_of(const parent *p, size_t index) {
    return index < p->with->workers ? PAUSE_MS : p->with->provision * 1000;
}

static void reap(parent *p) {
    int status;
    for (pid_t gone; (gone = waitpid(-1, &status, WNOHANG)) > 0;) {
        bool in_order = WIFEXITED(status) && WEXITSTATUS(status) == WORKER_DONE;
        for (size_t i = 0; i < p->count; i++) {
            if (p->process[i] != gone) continue;
            p->process[i] = 0;
            p->begin_at[i] = monotonic_ms() + (WIFEXITED(status) ? pause_of(p, i) : 0);
        }
        /* A process that somebody killed sent nothing that wasn't written. */
        bool killed = WIFSIGNALED(status) && WTERMSIG(status) == SIGKILL;
        if (ending && !in_order && !killed) p->in_order = false;
    }
}

static bool wait_a_while(const parent *p) {
    const struct timespec while_long = {.tv_nsec = LOOK_MS * 1000000};
    struct pollfd metrics = {.fd = p->metrics, .events = POLLIN};
    sigset_t all_open;
    if (sigemptyset(&all_open)) return false;
    int came = ppoll(&metrics, p->metrics >= 0 ? 1 : 0, &while_long, &all_open);
    if (came == 1) show_metrics(p);
    return came >= 0 || errno == EINTR;
}

static void signal_all(const parent *p, int signal) {
    for (size_t i = 0; i < p->count; i++)
        if (p->process[i] != 0 && kill(p->process[i], signal)) perror("serve: kill");
}

static void end_all(parent *p) {
    uint64_t until = monotonic_ms() + END_MS;
    signal_all(p, SIGTERM);
    while (reap(p), running(p) > 0) {
        if (monotonic_ms() > until) {
            signal_all(p, SIGKILL);
            p->in_order = false;
        }
        if (!wait_a_while(p)) p->in_order = false;
    }
}

static void run(parent *p) {
    while (!ending) {
        start_all(p);
        if (!wait_a_while(p)) {
            perror("serve: wait");
            p->in_order = false;
            break;
        }
        reap(p);
        trial_kill_one(p->process, p->count);
    }
    ending = 1;
    end_all(p);
}

/* Says at the start what the processes would say again and again: that there is no store, or no table in it. */
static bool store_opens(const settings *with) {
    static const row_key none = {.len = 0};
    row_bytes nothing;
    waiting_line line;
    store *opened = store_open(with->store);
    if (!opened) return false;
    bool reads = opened->calls->get(opened, &none, &nothing) == STORE_NOT
        && (with->provision == 0 || opened->calls->next(opened, &line) != STORE_BROKEN);
    oscore_wipe(&line, sizeof line);
    opened->calls->close(opened);
    return reads;
}

/* The first line says which port was given. */
static bool say_port(int udp) {
    struct sockaddr_storage own;
    socklen_t len = sizeof own;
    if (getsockname(udp, (struct sockaddr *)&own, &len)) return false;
    in_port_t port = own.ss_family == AF_INET6 ? ((struct sockaddr_in6 *)&own)->sin6_port : ((struct sockaddr_in *)&own)->sin_port;
    return printf("port %u\n", ntohs(port)) > 0 && !fflush(stdout);
}

bool serve(const settings *with) {
    parent p = {.with = with, .count = with->workers + (with->provision > 0), .udp = -1, .metrics = -1, .in_order = true};
    bool begun = store_opens(with) && hold_signals() && trial_begin() && (p.counted = counts_make()) && (p.udp = open_udp(with)) >= 0
        && (!with->metrics || (p.metrics = open_metrics(with->metrics)) >= 0) && say_port(p.udp);
    if (begun) {
        run(&p);
        trial_end();
    }
    if (p.metrics >= 0 && (close(p.metrics) || unlink(with->metrics))) perror("serve: metrics");
    if (p.udp >= 0 && close(p.udp)) perror("serve: close");
    if (p.counted && counts_end(p.counted)) perror("serve: counts");
    return begun && p.in_order;
}

#include "counts.h"
#include <stdio.h>
#include <sys/mman.h>

static const char *const NAMES[COUNTS] = {
    "read", "delivered", "challenged", "answered", "resent", "waiting", "replays", "unknown", "refused", "silenced", "too_long", "unsent",
    "conflicts", "renewed", "later_era", "limited", "spoilt", "forwarded", "timeouts", "starts",
    "added", "not_added",
};

counts *counts_make(void) {
    void *at = mmap(NULL, sizeof(counts), PROT_READ | PROT_WRITE, MAP_SHARED | MAP_ANONYMOUS, -1, 0);
    if (at != MAP_FAILED) return at;
    perror("counts");
    return NULL;
}

int counts_end(counts *made) {
    return munmap(made, sizeof *made);
}

bool counts_allow(counts *in, const address *to, uint32_t most, uint64_t second) {
    _Atomic uint64_t *place = &in->hosts[address_host(to) % HOSTS];
    uint64_t before = atomic_load(place), after;
    do {
        bool same_second = before >> 32 == (second & UINT32_MAX);
        if ((same_second ? before & UINT32_MAX : 0) >= most) return false;
        after = same_second ? before + 1 : second << 32 | 1;
    } while (!atomic_compare_exchange_weak(place, &before, after));
    return true;
}

size_t counts_text(const counts *of, char text[METRICS_ROOM]) {
    size_t at = 0;
    for (int i = 0; i < COUNTS; i++) {
        unsigned long long value = atomic_load_explicit(&of->of[i], memory_order_relaxed);
        int len = snprintf(text + at, METRICS_ROOM - at, "oscore_gateway_%s %llu\n", NAMES[i], value);
        if (len < 0 || (size_t)len >= METRICS_ROOM - at) break;
        at += (size_t)len;
    }
    return at;
}

/* A clock that doesn't go back, of this machine alone. 0 where it can't be read. */
#ifndef GATEWAY_MONOTONIC_H
#define GATEWAY_MONOTONIC_H

#include <stdint.h>
#include <time.h>

static inline uint64_t monotonic_us(void) {
    struct timespec now;
    if (clock_gettime(CLOCK_MONOTONIC, &now)) return 0;
    return (uint64_t)now.tv_sec * 1000000 + (uint64_t)now.tv_nsec / 1000;
}

static inline uint64_t monotonic_ms(void) {
    return monotonic_us() / 1000;
}

#endif

/* The era: a number outside the store, which whoever restores the store raises. It is the moment of that in seconds since 2026 and a margin.
   No Sender Sequence Number at or above (now + margin) * 256 is used, so each that was used before an era is below era * 256, whatever the
   store lost. It rests on the machines' clocks being less wrong than the margin. */
#ifndef GATEWAY_ERA_H
#define GATEWAY_ERA_H

#include <stdbool.h>
#include <stdint.h>
#include <time.h>

enum { NUMBERS_A_SECOND = 256, ERA_MARGIN = 60 };
/* 2026-01-01 at 0 h UTC, in seconds since 1970; and the last era whose numbers are below 2^40. */
#define YEAR_2026 1767225600u
#define ERA_MOST ((1ull << 40) / NUMBERS_A_SECOND - 1)
/* The last moment: a row has six bytes for one. */
#define MOMENT_MOST ((1ull << 48) - 1)

/* The first Sender Sequence Number of an era. */
static inline uint64_t era_begin(uint64_t era) {
    return era * NUMBERS_A_SECOND;
}

/* A moment in milliseconds. One before 1970 is 0, and one behind the last moment is that. */
static inline uint64_t ms_of(const struct timespec *moment) {
    if (moment->tv_sec < 0) return 0;
    if ((uint64_t)moment->tv_sec >= MOMENT_MOST / 1000) return MOMENT_MOST;
    return (uint64_t)moment->tv_sec * 1000 + (uint64_t)moment->tv_nsec / 1000000;
}

/* The moment by the wall clock: machines that share a store have no other clock together. 0 where it can't be read. */
static inline uint64_t now_ms(void) {
    struct timespec now;
    return clock_gettime(CLOCK_REALTIME, &now) ? 0 : ms_of(&now);
}

/* The era that begins at a moment. */
static inline uint64_t era_at(uint64_t ms) {
    uint64_t seconds = ms / 1000;
    return seconds < YEAR_2026 ? 0 : seconds - YEAR_2026 + ERA_MARGIN;
}

/* Whether a Sender Sequence Number may be used at a moment. */
static inline bool own_number_allowed(uint64_t number, uint64_t ms) {
    return number < era_begin(era_at(ms));
}

#endif

/* Memory in which a step too far is seen, for the tests: include it first. The library isn't built with a sanitizer, so the sanitizers
   of a test see what the test's own code does, and nothing of what the library does with what it is handed.

   So a test lays each thing that it hands in at a place of its own, whose pages have a guard page on both sides, which nobody may read
   or write. The thing lies against the one behind it, or, where `guarded_before` is true, against the one before it: a test runs once
   with each, and a byte too far on either side ends it by SIGSEGV. Under valgrind's memcheck what lies around a thing isn't to be
   used on the other side either, and bytes that nobody wrote are reported where something goes by them. */
#ifndef GUARDED_H
#define GUARDED_H

#define _DEFAULT_SOURCE
#include <stdbool.h>
#include <stdint.h>
#include <stdio.h>
#include <stdlib.h>
#include <string.h>
#include <sys/mman.h>
#include <unistd.h>

#ifdef __has_include
#if __has_include(<valgrind/memcheck.h>)
#include <valgrind/memcheck.h>
#endif
#endif
#ifndef VALGRIND_MAKE_MEM_NOACCESS
#define VALGRIND_MAKE_MEM_NOACCESS(at, len) ((void)0)
#define VALGRIND_MAKE_MEM_UNDEFINED(at, len) ((void)0)
#define VALGRIND_MAKE_MEM_DEFINED(at, len) ((void)0)
#endif

/* More bytes than a datagram, or the value of an option, can have. */
enum { GUARDED_PLACES = 32, GUARDED_MOST = 65900 };

static bool guarded_before;
static uint8_t *guarded_pages[GUARDED_PLACES];

/* The bytes between the two guard pages of a place: whole pages. */
static inline size_t guarded_span(void) {
    size_t page = (size_t)sysconf(_SC_PAGESIZE);
    return (GUARDED_MOST + page - 1) / page * page;
}

/* The first byte behind the guard page before a place. */
static inline uint8_t *guarded_first(size_t place) {
    size_t page = (size_t)sysconf(_SC_PAGESIZE), span = guarded_span();
    if (!guarded_pages[place]) {
        uint8_t *pages = mmap(NULL, span + 2 * page, PROT_NONE, MAP_PRIVATE | MAP_ANONYMOUS, -1, 0);
        if (pages == MAP_FAILED || mprotect(pages + page, span, PROT_READ | PROT_WRITE)) {
            puts("guarded.h: no pages");
            exit(1);
        }
        guarded_pages[place] = pages + page;
    }
    return guarded_pages[place];
}

/* Room for so many bytes at a place, where nothing was written: what lay there before is gone. */
static inline void *guarded_room(size_t place, size_t len) {
    uint8_t *first = guarded_first(place), *room = guarded_before ? first : first + guarded_span() - len;
    VALGRIND_MAKE_MEM_NOACCESS(first, guarded_span());
    VALGRIND_MAKE_MEM_UNDEFINED(room, len);
    return room;
}

/* These bytes at a place. */
static inline void *guarded_copy(size_t place, const void *bytes, size_t len) {
    void *room = guarded_room(place, len);
    return len > 0 ? memcpy(room, bytes, len) : room;
}

/* So many bytes 0 at a place, as a struct wants them that is given for the first time. */
static inline void *guarded(size_t place, size_t len) {
    return memset(guarded_room(place, len), 0, len);
}

#endif

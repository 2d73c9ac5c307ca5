/* Bytes that lie elsewhere, short texts, and chance. */
#ifndef HOSTILE_BYTES_H
#define HOSTILE_BYTES_H

#include "oscore.h"
#include <stdbool.h>
#include <stddef.h>
#include <stdint.h>

/* Some bytes that lie elsewhere. */
struct bytes {
    const uint8_t *at;
    oscore_size len;
};

/* Bytes of one's own. What the test makes is never longer, but for what `delivered` makes long. */
enum { TEXT_ROOM = 256 };

struct text {
    uint8_t at[TEXT_ROOM];
    oscore_size len;
};

/* These bytes, as long as the block lasts that they stand in. */
#define BYTES(...) ((struct bytes){(const uint8_t[]){__VA_ARGS__}, sizeof((const uint8_t[]){__VA_ARGS__})})

/* Ends the program, with status 2, where the test itself is wrong. */
#define NEEDS(holds) ((holds) ? (void)0 : fails(__FILE__, __LINE__, #holds))
_Noreturn void fails(const char *file, int line, const char *what);

/* The first so many bytes, or all; and what lies behind these. */
struct bytes front_of(struct bytes bytes, oscore_size len);
struct bytes behind(struct bytes bytes, oscore_size len);
bool is_same(struct bytes one, struct bytes other);

struct bytes bytes_of(const struct text *text);
void add_byte(struct text *text, uint8_t byte);
void add_bytes(struct text *text, struct bytes bytes);

/* Chance is SplitMix64 from a seed: with a seed come the same datagrams, whichever compiler built the test. So no expression draws twice,
   since C leaves open in which order its parts are evaluated. */
void begin_chance(uint64_t seed);
/* A number below a limit, which isn't 0. */
uint64_t below(uint64_t limit);
bool one_in(uint64_t times);
void draw_bytes(uint8_t *at, oscore_size len);
/* Fewer than so many bytes. */
struct text draw_text(oscore_size limit);

#endif

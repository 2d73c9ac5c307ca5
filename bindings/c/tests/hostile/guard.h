/* Room between two pages that nobody may touch. What is laid into it ends where the one begins, or begins where the other ends: so a read
   or a write past that edge ends the test. Past its other edge lie some bytes that are looked at afterwards. */
#ifndef HOSTILE_GUARD_H
#define HOSTILE_GUARD_H

#include "bytes.h"

struct room {
    uint8_t *pages;
    oscore_size size;
    bool at_end;
    uint8_t fill;
    uint8_t *at;
    oscore_size len;
};

/* Room for at most so many bytes. What isn't written is seen by the fill. */
void make_room(struct room *room, oscore_size most, bool at_end, uint8_t fill);
/* Room for exactly so many bytes, filled. */
void *lay(struct room *room, oscore_size len);
void *lay_bytes(struct room *room, struct bytes bytes);
/* Room for exactly so many bytes, all 0. */
void *lay_zeros(struct room *room, oscore_size len);
/* Whether the bytes behind the first so many, and those past the open edge, are as they were filled. */
bool is_clean(const struct room *room, oscore_size written);

#endif

/* Peers side by side that serve, peers side by side that ask, what is compared of each call, and the report. */
#ifndef HOSTILE_SIDES_H
#define HOSTILE_SIDES_H

#include "guard.h"
#include "making.h"

/* The two that are called side by side: the first by tables, each of its rooms ending at a guard page, the second in constant time, each of
   its rooms beginning behind one. */
enum { ENDS = 2, OPTIONS_ROOM = 2, OUT_ROOM = 128 };
extern const char *const END_NAMES[ENDS];
void make_end_room(struct room *room, int end, oscore_size most);

enum call { FIND, TAKE, REPLY, NOTIFY, BEGIN_SERVING, HEAR, REQUEST, FORGET, BEGIN_ASKING, CALLS };

/* What came of a call: what it answered, what it wrote, and what differs, or NULL. */
struct came {
    uint32_t status;
    struct bytes written;
    const char *differs;
};

/* What is shown of a message that is delivered. */
struct shown {
    const oscore_opened *opened;
    const oscore_option *options;
};

/* Whether what is left of a datagram is what is judged: where it opened, the plaintext stands where its ciphertext stood, and the old tag
   behind it. */
bool is_left(struct bytes left, struct bytes handed, const struct judged *judged);
/* Whether the message that is delivered is the one that opened, in the datagram that is left; or, where none is, nothing is shown. */
bool is_shown(const struct shown *shown, struct bytes left, const struct judged *judged);
bool is_zero(const void *at, oscore_size len);
bool are_clean(const struct room *const rooms[]);
/* A room for what is sealed: one that it fills, one that is a byte too short, or another. */
oscore_size draw_room(oscore_size exact);

/* A peer, as a call leaves it, and what it was; the record that the call wrote, and what is to be saved, under this name. */
struct saving {
    oscore_peer *peer;
    const oscore_peer *before;
    oscore_peer_record *record;
    const struct save *save;
    uint64_t name;
};

/* Whether a call that has to save first says so, writes this record and leaves the peer; which is told then what is saved. */
bool is_saved(const struct saving *saving, uint32_t status);
/* A record behind which a peer begins again: the last one that it saved, or, mostly, one that is drawn, with a next number of this kind. */
oscore_peer_record draw_record(const struct kept *kept, uint64_t name, uint64_t times);
/* What comes of beginning again behind a record. */
uint32_t judge_begin(const oscore_peer_record *record);

void count_step(void);
void count_save(enum call call);
/* Counts what came of a call at the first, and tells what differs at either. */
void report(enum call call, const struct judged *judged, const struct came came[ENDS], struct bytes handed);
/* Tells how often each answer came, and answers the status. */
int end_report(void);

void begin_serving(void);
void step_serving(void);
/* The other client of the context that the peers have which ask. */
struct requester *requester_beside(void);

void begin_asking(void);
void step_asking(void);

#endif

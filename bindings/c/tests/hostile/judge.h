/* What each call has to answer, by a reading of the test's own: of datagrams by the short reader, and of what they open to by what was
   sealed. */
#ifndef HOSTILE_JUDGE_H
#define HOSTILE_JUDGE_H

#include "sealing.h"

/* The first number that isn't there (RFC 8613, 7.2.1). */
#define NUMBER_LIMIT (1ull << 40)

/* How long a challenge and a request of the client last, in milliseconds; the first is an own rule. */
enum { CHALLENGE_LIFE_MS = 30000, REQUEST_LIFE_MS = 5000 };
enum { MOST_PENDING = 8 };

/* A record that a call writes, and the one that is saved in its place: it may reserve nothing, or more received numbers. */
struct save {
    oscore_peer_record written, stored;
};

/* What a call has to answer and to leave. */
struct judged {
    uint32_t status;
    oscore_size detail;
    struct seen seen;            /* the datagram that was handed in, where it is one */
    const struct sealed *opened; /* what it opened to, or NULL */
    uint64_t request;            /* the number of the request that is delivered, or answered */
    bool registers;              /* whether that registers an observation */
    bool is_notification;        /* whether it stays pending */
    bool takes_place;            /* of a registration that was pending */
    struct text written;
    struct sealed sealed; /* where what is written was sealed */
    bool has_sealed;
    struct save saves[3]; /* what has to be saved before the call answers so, but for the names */
    oscore_size save_count;
};

/* The numbers of a peer, and what of them was saved: the next Sender Sequence Number, the first that isn't reserved, the first number that no
   delivered request has, the generation of the record that was saved last, and that of the first of the peer's life (RFC 8613, B.1.1). */
struct kept {
    uint64_t next, reserved, received, generation, life;
};

struct kept first_kept(void);
/* Those of a peer that is begun behind a record. */
struct kept kept_behind(const oscore_peer_record *record);
/* Adds the records to save, where there are: that by which the life began, and where a Sender Sequence Number is asked for and none is
   reserved. */
void save_first(struct kept *kept, bool asks, struct judged *judged);
/* Adds one, where a request is delivered whose number isn't below the one that was saved (RFC 8613, 7.4). */
void save_received(struct kept *kept, uint64_t number, struct judged *judged);

/* Distinct numbers, none of which lies far below another. */
struct numbers {
    uint64_t at[65];
    oscore_size count;
};

struct challenge {
    uint8_t echo[8];
    uint64_t issued;
};

/* A peer that serves, in its present life (RFC 8613, 7.4 and B.1): its clock, whether requests are judged by their number or by an Echo
   value, the least number that is new, the numbers that are spent, its own, and which requests wait for their answers. */
struct life {
    const struct agreed *agreed;
    bool is_open, is_challenged;
    uint64_t clock, floor;
    struct kept kept;
    struct challenge challenge;
    struct numbers spent, waiting;
    uint64_t past; /* each number below it is 64 or more below one that was delivered in this life */
};

struct life fresh_life(const struct agreed *agreed);
/* A life behind a record; where none was delivered yet, the first request is challenged. */
void restart_life(struct life *life, const oscore_peer_record *record);
/* The highest number that isn't new, and whether there is one. */
uint64_t highest_of(const struct life *life);
bool has_highest(const struct life *life);
bool is_replay(const struct life *life, uint64_t number);
void spend(struct life *life, uint64_t number);
/* Spends the number of a request that is delivered, which opens a closed life; from then on it waits for its answer. */
void deliver_in(struct life *life, uint64_t number);
/* Whether a request with this first Echo value, or with none, is delivered. */
bool admits(const struct life *life, bool has_echo, struct bytes echo);
/* Gives the challenge in force, or else a fresh one, whose Echo value is the Sender Sequence Number that is spent for it (RFC 9175, A, method
   3). False where none is left. */
bool challenge_in(struct life *life);
/* Whether the request with this number may have such an answer: it waits for it; or it lies far back, and the answer has a number of its own. */
bool is_due(const struct life *life, uint64_t number, bool has_own);
void answered_in(struct life *life, uint64_t number);

/* A datagram, and what is handed in with it. */
struct handed {
    uint64_t now;
    uint16_t message_id;
    struct bytes datagram;
};

/* Peers of all contexts, and the names of these. */
struct server_judge {
    struct life lives[CONTEXTS];
    uint64_t names[CONTEXTS];
};

/* Which peer a datagram is for: `found`, where the status is 0. */
void judge_find(struct bytes datagram, struct judged *judged, oscore_size *found);
/* What one of them answers to a datagram, whichever it is for. */
void judge_take(struct server_judge *judge, oscore_size peer, const struct handed *handed, struct judged *judged);

/* An answer that is asked for of a peer, and the room for it. */
struct answer {
    oscore_size peer;
    oscore_ticket ticket;
    bool own;
    uint16_t message_id;
    struct bytes plain;
    oscore_size room;
};

void judge_reply(struct server_judge *judge, const struct answer *answer, struct judged *judged);
/* The same of a notification, which has a Partial IV of its own always, and a kind and a message ID of its own. */
void judge_notify(struct server_judge *judge, const struct answer *answer, struct judged *judged);

/* A registration is notified from the place `from` on: 0 is that of a response without a Partial IV of its own, and each other one has its
   number and 1 (RFC 8613, 7.4.1). */
struct pending {
    struct text token;
    uint64_t number, moment;
    bool registers;
    uint64_t from;
};

/* The requests that are pending, oldest first. */
struct client_judge {
    uint64_t clock;
    struct kept kept;
    struct pending pending[MOST_PENDING];
    oscore_size count;
};

/* A request that is asked for, and the room for it. */
struct asked {
    uint64_t now;
    struct bytes plain;
    oscore_size room;
};

void judge_request(struct client_judge *judge, const struct asked *asked, struct judged *judged);
void judge_response(struct client_judge *judge, uint64_t now, struct bytes datagram, struct judged *judged);
void judge_forget(struct client_judge *judge, struct bytes token, struct judged *judged);

#endif

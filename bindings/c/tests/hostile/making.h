/* What is made of chance: messages, plaintexts with a flaw, requests of other clients, what is done to a datagram on its way, moments. */
#ifndef HOSTILE_MAKING_H
#define HOSTILE_MAKING_H

#include "judge.h"

/* A message: its head, Uri-Host, Hop-Limit and EDHOC or none of them, Observe once, twice or not at all, an option of block-wise transfer or
   0, an option for proxies or none, and what else is to be protected. */
struct plain {
    uint8_t kind, code;
    uint16_t message_id;
    struct text token, observe, further_observe, payload;
    bool has_host, has_observe, has_further_observe, has_hop_limit, has_edhoc, has_proxy;
    uint32_t block;
    struct bytes echoes[2];
    oscore_size echo_count;
};

struct plain draw_plain(uint8_t kind, uint8_t code, struct bytes token);
/* The head of a plain message, with the code that it has outside. */
struct head head_of(const struct plain *plain, uint8_t code);
struct text spell_plain(const struct plain *plain);
/* Seals a message, or, one time in four, a plaintext that mostly has a flaw, in its place. The code of the other kind is such a flaw. */
void seal_by_chance(struct sealed_as as, const struct plain *plain, uint8_t other_code, struct sealed *sealed);

/* The client of one of the server's contexts: its next number, and the last two Echo values of the server. */
struct requester {
    oscore_size context;
    uint64_t next;
    uint8_t last[8], older[8];
};

void learn(struct requester *requester, const struct life *life);
/* Adds Echo values to a request: the last, an older one, one that is cut, the last behind an older one, or none. */
void add_echoes(const struct requester *requester, struct plain *plain);
void seal_next_request(struct requester *requester, const struct life *life, struct sealed *sealed);

/* What comes to a server, or to a client, of the datagrams that were sealed: mostly the last, else one of those before, and half of the
   time it was changed on its way. It lies there until the next. */
struct bytes delivered(bool to_client);

/* The next moment: they ascend mostly, and by little. Where something began, the last moment at which it is still there is likely. */
uint64_t next_moment(uint64_t *last, const uint64_t *began, uint64_t life_ms);
/* A next number of an end that is restarted: a small one, or, one time in so many, one close to the last. */
uint64_t next_number(uint64_t times);

#endif

/* A short reader of datagrams (RFC 7252, 3), plaintexts (RFC 8613, 5.3) and values of the OSCORE option (RFC 8613, 6.1), and what writes
   them. What is judged is judged by it, and by no layer of the library. */
#ifndef HOSTILE_READER_H
#define HOSTILE_READER_H

#include "bytes.h"

enum { CON, NON, ACK, RST };
enum { URI_HOST = 3, OBSERVE = 6, URI_PORT = 7, OSCORE = 9, URI_PATH = 11, MAX_AGE = 14, HOP_LIMIT = 16, Q_BLOCK1 = 19, EDHOC = 21 };
enum { BLOCK2 = 23, BLOCK1 = 27, Q_BLOCK2 = 31, PROXY_URI = 35, PROXY_SCHEME = 39, ECHO = 252 };
/* The most bytes of Observe (RFC 7641, 2). */
enum { MOST_OBSERVE = 3 };
/* The codes that a sealed request, one with Observe, a sealed response and one with Observe have outside: 0.02, 0.05, 2.04 and 2.05
   (RFC 8613, 4.2). */
enum { OUTER_REQUEST = 0x02, OUTER_FETCH = 0x05, OUTER_RESPONSE = 0x44, OUTER_NOTIFICATION = 0x45 };

/* What stands in front of the options of a datagram. */
struct head {
    uint8_t kind, code;
    uint16_t message_id;
    struct bytes token;
};

/* Whether Block1, Block2, Q-Block1 and Q-Block2, and whether Observe, may be protected. */
struct allowed {
    bool blocks, observe;
};

/* Options, as they were spelled, and the payload. */
struct body {
    struct bytes options, payload;
};

struct seen {
    struct head head;
    struct body body;
};

/* An option, and what stands behind it. */
struct option {
    uint32_t number;
    struct bytes value, rest;
};

/* What a value of the OSCORE option says; an empty one says nothing. */
struct value {
    bool has_number, has_kid_context, has_kid;
    uint64_t number;
    struct bytes kid_context, kid;
};

/* CON or NON with a request code, and all kinds but RST with a response code (RFC 7252, 12.1). */
bool is_request(struct head head);
bool is_response(struct head head);
bool is_request_code(uint8_t code);
bool is_response_code(uint8_t code);

/* 0, or the first fault of what is no datagram, and its place. */
uint32_t read_datagram(struct bytes datagram, struct seen *seen, oscore_size *place);
/* Whether the bytes are a code, options that may stand inside, and a payload. */
bool read_inner(struct bytes plaintext, struct allowed allowed, uint8_t *code, struct body *body);
bool read_value(struct bytes bytes, struct value *value);
/* The one OSCORE value of a message that has a payload and no option for proxies, where it can be read. */
bool usable_value(const struct body *body, struct value *value);

/* The options of a body, one by one: the first call is given `begun`. False behind the last. */
struct option begun(const struct body *body);
bool next_of(struct option *option);
oscore_size count_of(const struct body *body, uint32_t number);
/* The first option of a number, where there is one. */
bool first_of(const struct body *body, uint32_t number, struct bytes *value);
/* Whether options of this number stand outside the protection (RFC 8613, 4.1.2). */
bool is_outer(uint32_t number);
/* Whether the first Observe has at most 3 bytes. Any other one is as if the option weren't known (RFC 7252, 5.4.3 and 5.4.5; RFC 7641, 2). */
bool has_observe(const struct body *body);
/* Whether a request registers an observation: a GET or a FETCH whose first Observe is the number 0 (RFC 7641, 2; RFC 8132, 2.4). */
bool is_registration(uint8_t code, const struct body *body);
/* Whether a request cancels an observation: such a request whose first Observe is the number 1 (RFC 7641, 3.6). */
bool is_cancellation(uint8_t code, const struct body *body);
/* Whether a response is a notification: of class 2, with Observe (RFC 7641, 3.2). */
bool is_notification(uint8_t code, const struct body *body);
/* The first option that a message may not have which is allowed these, and the first with which it isn't sealed; 0 if there is none. */
uint32_t left_out_of(const struct body *body, struct allowed allowed);
uint32_t unsupported_of(const struct body *body, struct allowed allowed);

/* A datagram, or a plaintext, that is written, and its last option's number. */
struct spelling {
    struct text text;
    uint32_t number;
};

struct spelling spell_datagram(struct head head);
struct spelling spell_plaintext(uint8_t code);
/* An option, whose number is none below the last one's. */
void spell_option(struct spelling *spelling, uint32_t number, struct bytes value);
/* Ends in a payload, where there is any. */
struct text spell_end(struct spelling *spelling, struct bytes payload);
/* A value that says this. */
struct text spell_value(const struct value *value);
/* Of a number the shortest bytes, high byte first; of 0 there is one (RFC 8613, 5). */
struct text spell_number(uint64_t number);

#endif

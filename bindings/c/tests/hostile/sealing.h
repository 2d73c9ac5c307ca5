/* The contexts of RFC 8613, C.1 to C.3, sealing as an end of one does, and what was sealed so far. */
#ifndef HOSTILE_SEALING_H
#define HOSTILE_SEALING_H

#include "../../oscore.h"
#include "cipher.h"
#include "reader.h"

enum { CONTEXTS = 3 };

/* What tells one of the contexts from the others, the places of its window at the server, and what it allows. */
struct agreed {
    struct bytes client, id_context;
    bool has_salt;
    uint8_t window_places;
    struct allowed allowed;
};

/* C.1 to C.3, in the server's order. The client has the first. C.1 and C.3 share all but the ID Context. */
extern const struct agreed AGREED[CONTEXTS];
void derive(oscore_size place, bool of_server, bool tables, oscore_context *context);

/* What a plaintext was sealed as: a request of the client of a context, by its place, under the number `request`; or the response to the
   request of that number, with a Partial IV of its own or without. A response to a registration may be a notification (RFC 8613,
   4.1.3.5.2). */
struct sealed_as {
    bool is_response, has_own;
    oscore_size context;
    uint64_t request, own;
    bool to_registration;
};

/* A datagram that was sealed, whose ciphertext stands last. */
struct sealed {
    struct text datagram, plaintext;
    struct sealed_as as;
    bool by_library;
};

/* Derives all contexts, for the sealing of both ends, and compares keys and messages with those that the RFC prints. */
void begin_sealing(void);
/* What a message sealed as this may have: Observe in requests, and in responses to a registration (RFC 8613, 4.1.3.5). */
struct allowed allowed_as(struct sealed_as as);
/* The code that it has outside: 0.05 or 2.05 where Observe stands outside too (RFC 8613, 4.2). `observes` says that it has Observe, in at
   most 3 bytes. */
uint8_t outer_code(struct sealed_as as, bool observes);
/* Seals a message, as an end of a context does. The head is that of the sealed one; of the plain one code, options and payload are used. */
void seal_plain(struct sealed_as as, struct head head, struct bytes plain, struct sealed *sealed);
/* The same with another plaintext in the place of the message's. */
void seal_other(struct sealed_as as, struct head head, struct bytes plain, struct bytes plaintext, struct sealed *sealed);

/* The last that were sealed. Each payload of a datagram that is made was sealed as one of these, or never. */
void keep(const struct sealed *sealed);
/* What a payload opens to, where it was sealed so; else NULL. Kept until the next `keep`. */
const struct sealed *opens(struct sealed_as as, struct bytes ciphertext);
/* The last, the last request or the last response that the library itself sealed, and any. */
struct bytes last_sealed(void);
struct bytes last_by_library(bool response);
struct bytes any_sealed(void);

#endif

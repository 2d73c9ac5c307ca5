/* OSCORE (RFC 8613) for C, over a proved core. README.md beside this file says how to build it and what is promised. */
#ifndef OSCORE_H
#define OSCORE_H

#include <stdbool.h>
#include <stddef.h>
#include <stdint.h>

/* Which library this is the header of. (OSCORE_VERSION is a status, below.) The number is 10,000 major + 100 minor + patch. */
#define OSCORE_LIBRARY_VERSION 100
#define OSCORE_LIBRARY_VERSION_STRING "0.1.0"
/* Which layout: another number where a status, a struct or a call changed that was there, so that a program has to be compiled anew. */
#define OSCORE_LAYOUT 6

/* What a struct or an array of structs is begun with, as `oscore_context context = OSCORE_ZERO;`: zero, without a warning. */
#ifdef __cplusplus
#define OSCORE_ZERO {}
#define OSCORE_ASSERT(holds, why) static_assert(holds, why)
extern "C" {
#else
#define OSCORE_ZERO {0}
#define OSCORE_ASSERT(holds, why) _Static_assert(holds, why)
#endif

/* Stands before each call that returns a status: the compiler warns where one is dropped, since who drops it doesn't know whether anything
   was done. A definition of your own may stand before this header. */
#ifndef OSCORE_MUST_USE
#if defined(__GNUC__) || defined(__clang__)
#define OSCORE_MUST_USE __attribute__((warn_unused_result))
#else
#define OSCORE_MUST_USE
#endif
#endif

/* More bytes of stack than any call takes (README.md), with 4,000 to spare, which `oscore_wipe_stack` sets to 0 and so needs. A definition
   of your own may stand before this header. */
#ifndef OSCORE_STACK
#define OSCORE_STACK 10240
#endif

/* One layout for pointers of 8 and of 4 bytes. A length, an index and what `detail` says have 8 bytes; a pointer stands in a slot of 8, of
   which it fills the lower half where it has 4. So a call writes to an `oscore_size len, detail;`, and a `size_t` may be given wherever an
   `oscore_size` is taken by value. Where pointers have 8 bytes both are one type. */
#if UINTPTR_MAX == UINT64_MAX
typedef size_t oscore_size;
#else
typedef uint64_t oscore_size;
#if !defined(__cplusplus) && (defined(__GNUC__) || defined(__clang__))
#pragma GCC diagnostic error "-Wincompatible-pointer-types" /* a `size_t *` where a call writes 8 bytes */
#endif
#endif

/* Before a member of 8 bytes, and before a pointer. On i386 also in a struct of yours, before what a call writes 8 bytes to. */
#ifdef __cplusplus
#define OSCORE_SLOT alignas(8)
#else
#define OSCORE_SLOT _Alignas(8)
#endif

/* How many elements an array has, for what is counted in elements, as `options_room`. GCC, Clang and C++ refuse a pointer here. */
#ifdef __cplusplus
extern "C++" template <typename element, size_t count> char (&oscore_array(element (&)[count]))[count];
#define OSCORE_COUNT(array) sizeof(oscore_array(array))
#elif defined(__GNUC__) || defined(__clang__)
#define OSCORE_COUNT(array) \
    (sizeof(array) / sizeof((array)[0]) + 0 * sizeof(char[1 - 2 * __builtin_types_compatible_p(__typeof__(array), __typeof__(&(array)[0]))]))
#else
#define OSCORE_COUNT(array) (sizeof(array) / sizeof((array)[0]))
#endif

OSCORE_ASSERT(sizeof(oscore_size) == 8, "a length has 8 bytes");
OSCORE_ASSERT(sizeof(void *) == 8 || sizeof(void *) == 4, "this library has pointers of 8 or of 4 bytes");
OSCORE_ASSERT(sizeof(bool) == 1, "a bool has 1 byte");
#if defined(__BYTE_ORDER__) && __BYTE_ORDER__ != __ORDER_LITTLE_ENDIAN__
#error "this library is for little-endian machines"
#endif

/* All memory is the caller's. Nothing is allocated, nothing is global, nothing is called back; no call waits. Whatever the bytes of a
   handle or of a datagram are, a call is safe, ends, and refuses by name what it can't use.

   What no call can see is left to the caller: a pointer leads to as many bytes as the length beside it says, or to a whole struct, and stays so
   until the call returns; until then nobody else writes there, no thread, no signal handler and no device, since a call checks a datagram and
   then reads it a second time; what a call writes (`out`, `datagram`, `options`, `opened`, `head`, `index`, `ticket`, `out_len`, `record`,
   `detail`, `name`, `sizes`, `peer`, `pending`, `pending_count`, `request`, `state`, `clock`, and `scheme` and `scheme_len` of
   `oscore_split_proxy_uri`) overlaps nothing else that it is given; a struct is set to zero before it is given for the first time; a `bool` is
   0 or 1. A pointer may be NULL where the length beside it is 0; `detail`, and `request` of `oscore_peer_hear`, where you don't want to know;
   and nothing else. */

/* What a call answers: 0 where it is done, else the first refusal whose condition holds, in the order of this list. OSCORE_SAVE_FIRST alone,
   and OSCORE_LIVES_EXHAUSTED in its place, come elsewhere from `oscore_peer_take`, which says where; `oscore_split_proxy_uri` and
   `oscore_ask_proxy` say their own order. A call that refuses writes `detail`: the place of a datagram's fault in bytes from 0, the number of
   an option, the index of one that was handed in, or 0. It leaves `out`, `out_len`, `options`, `opened`, `head`, `index`, `ticket`, `request`,
   `scheme`, `scheme_len`, `record` and the peer as they were; where a call does more, it says so. */
typedef enum oscore_status {
    OSCORE_DONE = 0,
    OSCORE_BUSY = 1,               /* another call of this peer runs, in another thread, or below a signal handler or an interrupt */
    OSCORE_BAD_HANDLE = 2,         /* no call wrote such a handle: as a length that is too large, or two identifiers that are one */
    OSCORE_BAD_NUMBER = 3,         /* a number is 2^40 or more, a kind above 3, a window has neither 1, 32 nor 64 places, a record isn't the
                                      next one to save, or parameters or a state have what this header doesn't know */
    OSCORE_OLD_RECORD = 4,         /* the record or the state is another context's, or the record none behind which a peer can begin */
    OSCORE_SECRET_LENGTH = 5,      /* the Master Secret has no byte, or more than 64 */
    OSCORE_SALT_LENGTH = 6,        /* the Master Salt has more than 64 bytes */
    OSCORE_ID_TOO_LONG = 7,        /* an identifier has more than 7 bytes */
    OSCORE_SAME_IDS = 8,           /* both ends have one identifier */
    OSCORE_ID_CONTEXT_LENGTH = 9,  /* the ID Context has no byte, or more than 32 */
    OSCORE_DATAGRAM_TOO_LONG = 10, /* from here to OSCORE_EMPTY_PAYLOAD: no CoAP message, and `detail` is the place */
    OSCORE_SHORT = 11,             /* fewer than 4 bytes */
    OSCORE_VERSION = 12,           /* not version 1 */
    OSCORE_TOKEN_LENGTH = 13,      /* a token of more than 8 bytes */
    OSCORE_EMPTY_WITH_REST = 14,   /* code 0.00, and bytes behind the message ID or a token */
    OSCORE_TOKEN_CUT = 15,         /* it ends inside the token */
    OSCORE_NIBBLE15 = 16,          /* an option's delta or length is 15 */
    OSCORE_OPTION_CUT = 17,        /* it ends inside an option */
    OSCORE_NUMBER_TOO_LARGE = 18,  /* an option's number is above 65,535 */
    OSCORE_EMPTY_PAYLOAD = 19,     /* a payload marker, and no payload */
    OSCORE_OPTION_ORDER = 20,      /* an option's number is below that of the one before it; `detail` is its index */
    OSCORE_VALUE_TOO_LONG = 21,    /* an option's value has more than 65,804 bytes; `detail` is its index */
    OSCORE_STALE_TICKET = 22,      /* the ticket is another peer's, or of another life of this one */
    OSCORE_SAVE_FIRST = 23,        /* a record has to be saved first: the call wrote it to `record` */
    OSCORE_LIVES_EXHAUSTED = 24,   /* the same, but the peer's records were saved 2^64 - 1 times */
    OSCORE_TICKET_SPENT = 25,      /* the ticket's request has its answer, lies too far back for this one, or was never delivered */
    OSCORE_NOT_OBSERVING = 26,     /* the ticket's request registers no observation, so nothing notifies it */
    OSCORE_NOT_THAT_KIND = 27,     /* the message is no request, or no response, by its kind and code */
    OSCORE_UNKNOWN_TOKEN = 28,     /* no request with the token of the response is pending */
    OSCORE_NO_OSCORE = 29,         /* no OSCORE option: the message isn't protected */
    OSCORE_UNDECODABLE = 30,       /* several OSCORE options, one that can't be used, no payload, or an option for proxies */
    OSCORE_NO_CONTEXT = 31,        /* the request names no context of the peer, or of the peers */
    OSCORE_WRONG_CONTEXT = 32,     /* the request names another context by its kid or kid context */
    OSCORE_REPLAY = 33,            /* the request's number isn't new, or too old to tell */
    OSCORE_OLD = 34,               /* a later response to the same registration came before this notification */
    OSCORE_TAG = 35,               /* the payload protects nothing under this context and this number */
    OSCORE_INNER = 36,             /* it protects what may not stand inside a message */
    OSCORE_CHALLENGE = 37,         /* a new life, and the request lacks the Echo value that the reply asks for */
    OSCORE_UNSUPPORTED = 38,       /* an option that isn't sealed, as Proxy-Uri; `detail` is its number */
    OSCORE_NOT_NOTIFICATION = 39,  /* the message isn't of class 2, or has no Observe */
    OSCORE_TOKEN_IN_USE = 40,      /* a request with this token is pending, and gives no way to this one */
    OSCORE_PENDING_FULL = 41,      /* as many requests are pending as there are places */
    OSCORE_SEQUENCE_EXHAUSTED = 42, /* no Sender Sequence Number below 2^40 is left */
    OSCORE_TOO_LONG = 43,          /* the message would have more than 65,535 bytes */
    OSCORE_NO_ROOM = 44,           /* the buffer is shorter than the message */
    OSCORE_NOT_PENDING = 45,       /* no request with this token is pending */
    OSCORE_NOT_ONE_PROXY_URI = 46, /* the request has no Proxy-Uri, or more than one */
    OSCORE_MIXED = 47,             /* it has Proxy-Uri, and also Uri-Host, Uri-Port, Uri-Path, Uri-Query or Proxy-Scheme */
    OSCORE_SCHEME = 48,            /* from here to OSCORE_PORT: Proxy-Uri is no URI of CoAP. It begins neither with coap: nor with coaps: */
    OSCORE_FRAGMENT = 49,          /* it has a fragment */
    OSCORE_CHARACTER = 50,         /* a byte isn't one of a URI, or a percent sign lacks its two digits */
    OSCORE_AUTHORITY = 51,         /* no two slashes follow the scheme */
    OSCORE_USERINFO = 52,          /* user information stands in front of the host */
    OSCORE_HOST = 53,              /* no host, or its bracket isn't closed */
    OSCORE_PORT = 54,              /* what follows the host isn't a colon and a number of at most 65,535 */
    OSCORE_PART_TOO_LONG = 55,     /* the host, a segment or an argument stands for more than 255 bytes */
    OSCORE_ASKED = 56,             /* the request has Proxy-Uri or Proxy-Scheme already */
    OSCORE_SCHEME_LENGTH = 57,     /* the scheme has no byte, or more than 255 */
    OSCORE_STATUS_WIDTH = 0x7fffffff /* no call answers this: it gives the type its 4 bytes under -fshort-enums too */
} oscore_status;

/* A status has the bytes of a uint32_t. */
OSCORE_ASSERT(sizeof(oscore_status) == 4, "a status has 4 bytes");

/* So many bytes of `out` are enough to seal a plain datagram of so many bytes, whatever its options are, and the context, and the number:
   by a context or a peer that calls wrote, no call then answers OSCORE_NO_ROOM. That is proved (docs/PROVED.md).
   64 are: 48 of the OSCORE option (RFC 8613, 6.1: its option byte, one more byte for its length, the flags, 5 of a Partial IV, a length
   and 32 of a kid context, 7 of a kid); 10 of the marker, the code inside and the tag; 2, since an inner option may come after one that stands
   outside alone, such as Uri-Port or Hop-Limit, so that its delta is up to 21 more inside, which can take an extended byte more (RFC 7252,
   3.1), and two options of a message can; and 4 of Observe, which stands outside and inside where the context allows it (RFC 8613, 4.1.3.5), in at most 3 bytes: a longer
   one, and one more, stand inside alone (RFC 7252, 5.4.3 and 5.4.5; RFC 7641, 2). A response has no kid, so its option has at most 7
   bytes, and the peer puts the request's token of up to 8 bytes into it. Some requests with Observe take all 64, and without it 60. The
   sealed message has at most 65,535 bytes. */
#define OSCORE_ROOM(plain_len) ((plain_len) + 64)

/* A context as one of its two ends holds it (RFC 8613, 3.1): plain bytes, to be made by `oscore_derive` and copied as you like.
   It holds keys: `oscore_wipe(&context, sizeof context)` when it isn't needed, as behind `oscore_peer_begin_first`, which
   copies it. No number is counted in it: whoever seals uses each number once. */
typedef struct oscore_context {
    uint8_t sender[7], sender_len;
    uint8_t recipient[7], recipient_len;
    uint8_t id_context[32], id_context_len; /* of length 0: none */
    uint8_t sender_key[16], recipient_key[16], common_iv[13];
    uint8_t tables; /* by any value but 0 its keys are used with tables, by 0 in constant time */
    uint8_t blocks; /* any value but 0 lets block-wise options pass inside the protection */
    uint8_t observe; /* any value but 0 lets Observe pass, in requests and in notifications, inside and outside the protection */
} oscore_context;

/* What a context is derived of (RFC 8613, 3.2), begun by `oscore_parameters parameters = OSCORE_ZERO;`: no salt, no ID Context, both
   identifiers without a byte, the cipher in constant time, neither blocks nor Observe. The choices are 0 or 1, and say what those of
   `oscore_derive` say. `zero` stays zero: a later header may have members there. */
typedef struct oscore_parameters {
    OSCORE_SLOT const uint8_t *secret; /* Master Secret */
    OSCORE_SLOT oscore_size secret_len;
    OSCORE_SLOT const uint8_t *salt; /* Master Salt */
    OSCORE_SLOT oscore_size salt_len;
    OSCORE_SLOT const uint8_t *id_context;
    OSCORE_SLOT oscore_size id_context_len; /* 0: none */
    OSCORE_SLOT const uint8_t *sender_id; /* of this end */
    OSCORE_SLOT oscore_size sender_id_len;
    OSCORE_SLOT const uint8_t *recipient_id; /* of the other end */
    OSCORE_SLOT oscore_size recipient_id_len;
    uint8_t tables, blocks, observe;
    uint8_t zero[29];
} oscore_parameters;

/* An option of a message: of one that was opened its value lies in the datagram; of one that is to be written, anywhere but in `out`. */
typedef struct oscore_option {
    uint16_t number;
    OSCORE_SLOT const uint8_t *value;
    OSCORE_SLOT oscore_size value_len;
} oscore_option;

/* A message that was opened, in its datagram, where all slices lie: they hold for as long as the datagram stays there. Kind, message ID,
   token, Uri-Host and Uri-Port weren't protected; code, payload and the options in the caller's array were. The pointer of
   a slice of length 0 isn't to be followed, and needn't be NULL: whether Uri-Host is there is said by `has_uri_host`. It and the options
   hold no byte of a payload or of an option's value: the plaintext is in the datagram, and is wiped there. */
typedef struct oscore_opened {
    uint8_t kind; /* 0 CON, 1 NON, 2 ACK */
    uint8_t code; /* 1 GET, 2 POST, 3 PUT, 4 DELETE .. ; 69 is 2.05 */
    uint16_t message_id;
    uint8_t token[8], token_len;
    bool has_number; /* a request has its number; a response has one if it carries a Partial IV of its own */
    OSCORE_SLOT uint64_t number;
    bool has_uri_host;
    OSCORE_SLOT const uint8_t *uri_host;
    OSCORE_SLOT oscore_size uri_host_len;
    bool has_uri_port;
    OSCORE_SLOT const uint8_t *uri_port;
    OSCORE_SLOT oscore_size uri_port_len;
    OSCORE_SLOT const uint8_t *payload;
    OSCORE_SLOT oscore_size payload_len;
    OSCORE_SLOT oscore_size option_count; /* how many options were put into the array, in ascending order of their numbers */
    bool has_more_options; /* the array is full, and there are more */
    bool is_notification;  /* from `oscore_peer_hear`: the request stays pending, and may be notified again; else false */
} oscore_opened;

/* What a protected request says to whoever has no key. Nothing of it was protected yet, or is secret. Its slices lie in the datagram. */
typedef struct oscore_request_head {
    uint8_t kind; /* 0 CON, 1 NON */
    uint16_t message_id;
    uint8_t token[8], token_len;
    OSCORE_SLOT uint64_t number;
    OSCORE_SLOT const uint8_t *kid;
    OSCORE_SLOT oscore_size kid_len;
    bool has_kid_context;
    OSCORE_SLOT const uint8_t *kid_context;
    OSCORE_SLOT oscore_size kid_context_len;
} oscore_request_head;

/* The context of a peer: which numbers of requests were seen, and which Sender Sequence Number is next. The calls write it: read it, and
   change nothing. */
typedef struct oscore_server_context {
    oscore_context context;
    uint8_t places;        /* of the window that the context gets: 1, 32 or 64 */
    uint8_t window_places; /* of the window that is open */
    uint8_t gate;          /* 0 not open yet, 1 not open yet and challenged, 2 open with no number seen, 3 open */
    uint8_t echo[8];       /* the challenge */
    OSCORE_SLOT uint64_t at;           /* when it was drawn, or the highest number that was seen */
    OSCORE_SLOT uint64_t spent_mask;
    OSCORE_SLOT uint64_t next; /* the next Sender Sequence Number */
    OSCORE_SLOT uint64_t life; /* 0: a new life of a peer is a new beginning */
} oscore_server_context;

/* The requests that wait for their answers. */
typedef struct oscore_unanswered {
    OSCORE_SLOT uint64_t highest, mask;
} oscore_unanswered;

/* What a peer answers with. */
typedef struct oscore_server_role {
    OSCORE_SLOT uint64_t clock; /* the latest moment that a call for what comes was given */
    oscore_server_context context;
    oscore_unanswered unanswered;
} oscore_server_role;

/* The right to answer one request that was delivered, and to notify it where it registers an observation. It may be copied, and a copy
   gives no second answer, but for one from before the answer to a request that lies far back: see `oscore_peer_reply`. It holds no
   secret. */
typedef struct oscore_ticket {
    OSCORE_SLOT oscore_size context; /* the name of the peer's context */
    OSCORE_SLOT uint64_t life;       /* of the peer */
    OSCORE_SLOT uint64_t number;     /* of the request */
    uint8_t kind; /* 0 CON, 1 NON */
    uint16_t message_id;
    uint8_t token[8], token_len;
    uint8_t observes; /* 1 where the request registers an observation, else 0 */
    uint8_t answered; /* 1 once this ticket gave the answer, else 0 */
} oscore_ticket;

/* A request of a peer that waits for its response. It holds no secret. */
typedef struct oscore_pending {
    OSCORE_SLOT uint64_t number;
    OSCORE_SLOT uint64_t moment; /* when it was sealed */
    OSCORE_SLOT uint64_t from;   /* of a registration: what comes before this place among its responses is old */
    uint8_t token[8], token_len;
    uint8_t observes; /* 1 where it registers an observation, else 0 */
} oscore_pending;

/* One end of one context whose numbers outlive it, begun by `oscore_peer_begin_first` or `oscore_peer_begin_again`. It tells which record
   has to be saved: it uses only Sender Sequence Numbers below the one that was saved, and delivers only requests with a number below the
   received one that was saved. So a power cut at any moment costs some numbers, no nonce is used twice, and no request is delivered
   twice. The calls write it: read it, and change nothing. A copy that is begun or used beside it breaks all of this; a store that refuses
   a record that isn't behind the one that it has tells which one is too old. It holds keys: `oscore_wipe(&peer, sizeof peer)` when it
   isn't needed. */
typedef struct oscore_peer {
    oscore_server_role server;       /* `server.context.next` is the next Sender Sequence Number of both roles */
    OSCORE_SLOT uint64_t reserved;   /* Sender Sequence Numbers below this one may be used */
    OSCORE_SLOT uint64_t received;   /* each request that was delivered has a lower number */
    OSCORE_SLOT uint64_t life_ms;    /* for how long a request of its own is pending that wasn't notified */
    OSCORE_SLOT uint64_t clock;      /* the latest moment that a call for its own requests was given */
    OSCORE_SLOT uint64_t name;       /* the context's name, which its records and tickets have: made of its keys, and telling nothing of them */
    OSCORE_SLOT uint64_t life;       /* the generation of the first record of this life, one above that behind which it began; its tickets have it */
    OSCORE_SLOT uint64_t generation; /* of the record that was saved last */
    uint32_t busy;                   /* 1 while a call of the peer runs, else 0 */
} oscore_peer;

/* What outlives a peer. It holds no key. Its integrity is the caller's: as an attacker who can put back an older record has won, keep it
   where none can. */
typedef struct oscore_peer_record {
    OSCORE_SLOT uint64_t name;       /* of the context */
    OSCORE_SLOT uint64_t generation; /* one more with each save */
    OSCORE_SLOT uint64_t sender;     /* the first Sender Sequence Number that isn't reserved */
    OSCORE_SLOT uint64_t received;   /* the first number that no delivered request has */
} oscore_peer_record;

/* The library's layout. What differs, by a compiler or by an option as -fpack-struct, fails where this header is compiled, and not at a lock. */
#define OSCORE_AT(type, member, place) OSCORE_ASSERT(offsetof(type, member) == (place), "the layout of " #type)
#define OSCORE_HAS(type, size) OSCORE_ASSERT(sizeof(type) == (size), "the layout of " #type)
OSCORE_HAS(oscore_context, 97); OSCORE_AT(oscore_context, sender, 0); OSCORE_AT(oscore_context, sender_len, 7);
    OSCORE_AT(oscore_context, recipient, 8); OSCORE_AT(oscore_context, recipient_len, 15); OSCORE_AT(oscore_context, id_context, 16);
    OSCORE_AT(oscore_context, id_context_len, 48); OSCORE_AT(oscore_context, sender_key, 49);
    OSCORE_AT(oscore_context, recipient_key, 65); OSCORE_AT(oscore_context, common_iv, 81); OSCORE_AT(oscore_context, tables, 94);
    OSCORE_AT(oscore_context, blocks, 95); OSCORE_AT(oscore_context, observe, 96);
OSCORE_HAS(oscore_parameters, 112); OSCORE_AT(oscore_parameters, secret, 0); OSCORE_AT(oscore_parameters, secret_len, 8);
    OSCORE_AT(oscore_parameters, salt, 16); OSCORE_AT(oscore_parameters, salt_len, 24); OSCORE_AT(oscore_parameters, id_context, 32);
    OSCORE_AT(oscore_parameters, id_context_len, 40); OSCORE_AT(oscore_parameters, sender_id, 48);
    OSCORE_AT(oscore_parameters, sender_id_len, 56); OSCORE_AT(oscore_parameters, recipient_id, 64);
    OSCORE_AT(oscore_parameters, recipient_id_len, 72); OSCORE_AT(oscore_parameters, tables, 80); OSCORE_AT(oscore_parameters, blocks, 81);
    OSCORE_AT(oscore_parameters, observe, 82); OSCORE_AT(oscore_parameters, zero, 83);
OSCORE_HAS(oscore_option, 24); OSCORE_AT(oscore_option, number, 0); OSCORE_AT(oscore_option, value, 8);
    OSCORE_AT(oscore_option, value_len, 16);
OSCORE_HAS(oscore_opened, 104); OSCORE_AT(oscore_opened, kind, 0); OSCORE_AT(oscore_opened, code, 1);
    OSCORE_AT(oscore_opened, message_id, 2); OSCORE_AT(oscore_opened, token, 4); OSCORE_AT(oscore_opened, token_len, 12);
    OSCORE_AT(oscore_opened, has_number, 13); OSCORE_AT(oscore_opened, number, 16); OSCORE_AT(oscore_opened, has_uri_host, 24);
    OSCORE_AT(oscore_opened, uri_host, 32); OSCORE_AT(oscore_opened, uri_host_len, 40); OSCORE_AT(oscore_opened, has_uri_port, 48);
    OSCORE_AT(oscore_opened, uri_port, 56); OSCORE_AT(oscore_opened, uri_port_len, 64); OSCORE_AT(oscore_opened, payload, 72);
    OSCORE_AT(oscore_opened, payload_len, 80); OSCORE_AT(oscore_opened, option_count, 88); OSCORE_AT(oscore_opened, has_more_options, 96);
    OSCORE_AT(oscore_opened, is_notification, 97);
OSCORE_HAS(oscore_request_head, 64); OSCORE_AT(oscore_request_head, kind, 0); OSCORE_AT(oscore_request_head, message_id, 2);
    OSCORE_AT(oscore_request_head, token, 4); OSCORE_AT(oscore_request_head, token_len, 12); OSCORE_AT(oscore_request_head, number, 16);
    OSCORE_AT(oscore_request_head, kid, 24); OSCORE_AT(oscore_request_head, kid_len, 32);
    OSCORE_AT(oscore_request_head, has_kid_context, 40); OSCORE_AT(oscore_request_head, kid_context, 48);
    OSCORE_AT(oscore_request_head, kid_context_len, 56);
OSCORE_HAS(oscore_server_context, 144); OSCORE_AT(oscore_server_context, context, 0); OSCORE_AT(oscore_server_context, places, 97);
    OSCORE_AT(oscore_server_context, window_places, 98); OSCORE_AT(oscore_server_context, gate, 99);
    OSCORE_AT(oscore_server_context, echo, 100); OSCORE_AT(oscore_server_context, at, 112);
    OSCORE_AT(oscore_server_context, spent_mask, 120); OSCORE_AT(oscore_server_context, next, 128);
    OSCORE_AT(oscore_server_context, life, 136);
OSCORE_HAS(oscore_unanswered, 16); OSCORE_AT(oscore_unanswered, highest, 0); OSCORE_AT(oscore_unanswered, mask, 8);
OSCORE_HAS(oscore_server_role, 168); OSCORE_AT(oscore_server_role, clock, 0); OSCORE_AT(oscore_server_role, context, 8);
    OSCORE_AT(oscore_server_role, unanswered, 152);
OSCORE_HAS(oscore_ticket, 40); OSCORE_AT(oscore_ticket, context, 0); OSCORE_AT(oscore_ticket, life, 8);
    OSCORE_AT(oscore_ticket, number, 16); OSCORE_AT(oscore_ticket, kind, 24); OSCORE_AT(oscore_ticket, message_id, 26);
    OSCORE_AT(oscore_ticket, token, 28); OSCORE_AT(oscore_ticket, token_len, 36); OSCORE_AT(oscore_ticket, observes, 37);
    OSCORE_AT(oscore_ticket, answered, 38);
OSCORE_HAS(oscore_pending, 40); OSCORE_AT(oscore_pending, number, 0); OSCORE_AT(oscore_pending, moment, 8);
    OSCORE_AT(oscore_pending, from, 16); OSCORE_AT(oscore_pending, token, 24); OSCORE_AT(oscore_pending, token_len, 32);
    OSCORE_AT(oscore_pending, observes, 33);
OSCORE_HAS(oscore_peer, 232); OSCORE_AT(oscore_peer, server, 0); OSCORE_AT(oscore_peer, reserved, 168); OSCORE_AT(oscore_peer, received, 176);
    OSCORE_AT(oscore_peer, life_ms, 184); OSCORE_AT(oscore_peer, clock, 192); OSCORE_AT(oscore_peer, name, 200); OSCORE_AT(oscore_peer, life, 208);
    OSCORE_AT(oscore_peer, generation, 216); OSCORE_AT(oscore_peer, busy, 224);
OSCORE_HAS(oscore_peer_record, 32); OSCORE_AT(oscore_peer_record, name, 0); OSCORE_AT(oscore_peer_record, generation, 8);
    OSCORE_AT(oscore_peer_record, sender, 16); OSCORE_AT(oscore_peer_record, received, 24);
#undef OSCORE_AT
#undef OSCORE_HAS

/* What `oscore_sizes` writes. */
typedef struct oscore_struct_sizes {
    OSCORE_SLOT oscore_size context, option, opened, request_head, ticket, peer, peer_record, pending;
} oscore_struct_sizes;

/* Writes the sizes of these structs, in bytes, as the library has them. */
#define oscore_sizes oscore_sizes_v5
void oscore_sizes(oscore_struct_sizes *sizes);

/* Writes the name of a status, as "TokenCut", ended by a byte 0; "Unknown" for a number that is no status's. */
#define oscore_status_name oscore_status_name_v5
void oscore_status_name(uint32_t status, char name[24]);

/* Beside the calls that are declared under their own names, the library exports the others without what this header does for them. The names
   of all carry the layout with which a call was changed last, so an object that was compiled with another doesn't link. To another language
   they are the library: it hands in all pointers, and sees to it that a peer is in one call at a time. */
oscore_status oscore_write_message_v5(uint8_t kind, uint8_t code, uint16_t message_id, const uint8_t *token, oscore_size token_len,
                                      const oscore_option *options, oscore_size option_count, const uint8_t *payload, oscore_size payload_len,
                                      uint8_t *out, oscore_size out_room, oscore_size *out_len, oscore_size *detail);
oscore_status oscore_split_proxy_uri_v6(const uint8_t *plain, oscore_size plain_len, uint8_t *out, oscore_size out_room, oscore_size *out_len,
                                        uint8_t scheme[5], oscore_size *scheme_len, oscore_size *detail);
oscore_status oscore_ask_proxy_v6(const uint8_t *sealed, oscore_size sealed_len, const uint8_t *scheme, oscore_size scheme_len, uint8_t *out,
                                  oscore_size out_room, oscore_size *out_len, oscore_size *detail);
oscore_status oscore_head_v5(const uint8_t *datagram, oscore_size datagram_len, oscore_request_head *head, oscore_size *detail);
oscore_status oscore_seal_request_v5(const oscore_context *context, uint64_t number, const uint8_t *plain, oscore_size plain_len, uint8_t *out,
                                     oscore_size out_room, oscore_size *out_len, oscore_size *detail);
oscore_status oscore_seal_response_v5(const oscore_context *context, uint64_t request, bool has_own, uint64_t own, const uint8_t *plain,
                                      oscore_size plain_len, uint8_t *out, oscore_size out_room, oscore_size *out_len, oscore_size *detail);
oscore_status oscore_open_request_v5(const oscore_context *context, uint8_t *datagram, oscore_size datagram_len, oscore_option *options,
                                     oscore_size options_room, oscore_opened *opened, oscore_size *detail);
oscore_status oscore_open_response_v5(const oscore_context *context, uint64_t request, uint8_t *datagram, oscore_size datagram_len,
                                      oscore_option *options, oscore_size options_room, oscore_opened *opened, oscore_size *detail);
oscore_status oscore_peer_begin_first_v5(oscore_peer *peer, const oscore_context *context, uint8_t window_places, uint64_t life_ms);
oscore_status oscore_peer_begin_again_v5(oscore_peer *peer, const oscore_context *context, const oscore_peer_record *record, uint8_t window_places,
                                         uint64_t life_ms);
oscore_status oscore_peer_saved_v5(oscore_peer *peer, const oscore_peer_record *record);
oscore_status oscore_peer_take_v6(oscore_peer *peer, uint64_t now, uint16_t mid, uint8_t *datagram, oscore_size datagram_len, oscore_option *options,
                                  oscore_size options_room, oscore_opened *opened, oscore_ticket *ticket, uint8_t out[64], oscore_size *out_len,
                                  oscore_peer_record *record, oscore_size *detail);
oscore_status oscore_peer_find_v5(const oscore_peer *peers, oscore_size peer_count, const uint8_t *datagram, oscore_size datagram_len,
                                  oscore_size *index, oscore_size *detail);
oscore_status oscore_peer_reply_v6(oscore_peer *peer, const oscore_ticket *ticket, bool own, uint16_t mid, const uint8_t *plain,
                                   oscore_size plain_len, uint8_t *out, oscore_size out_room, oscore_size *out_len, oscore_peer_record *record,
                                   oscore_size *detail);
oscore_status oscore_peer_notify_v6(oscore_peer *peer, const oscore_ticket *ticket, const uint8_t *plain, oscore_size plain_len, uint8_t *out,
                                    oscore_size out_room, oscore_size *out_len, oscore_peer_record *record, oscore_size *detail);
oscore_status oscore_peer_request_v5(oscore_peer *peer, oscore_pending *pending, oscore_size pending_room, oscore_size *pending_count, uint64_t now,
                                     const uint8_t *plain, oscore_size plain_len, uint8_t *out, oscore_size out_room, oscore_size *out_len,
                                     oscore_peer_record *record, oscore_size *detail);
oscore_status oscore_peer_hear_v5(oscore_peer *peer, oscore_pending *pending, oscore_size pending_room, oscore_size *pending_count, uint64_t now,
                                  uint8_t *datagram, oscore_size datagram_len, oscore_option *options, oscore_size options_room,
                                  oscore_opened *opened, uint64_t *request, oscore_size *detail);
oscore_status oscore_peer_forget_v5(oscore_peer *peer, oscore_pending *pending, oscore_size pending_room, oscore_size *pending_count,
                                    const uint8_t *token, oscore_size token_len);

/* A call of a peer takes the peer by OSCORE_ENTER, which tells whether no other call had it, and gives it back by OSCORE_LEAVE: so two threads
   never use one number, nor does an interrupt that comes within a call. Where the compiler has no atomic exchange, as for a Cortex-M0,
   interrupts are off for a few instructions; where neither is known, signal handlers and interrupts are seen, and threads may not be. Definitions
   of your own may stand before this header. */
#ifndef OSCORE_ENTER
#if defined(__GCC_ATOMIC_INT_LOCK_FREE) && __GCC_ATOMIC_INT_LOCK_FREE == 2
#define OSCORE_ENTER(busy) (__atomic_exchange_n(busy, 1, __ATOMIC_ACQUIRE) == 0)
#define OSCORE_LEAVE(busy) __atomic_store_n(busy, 0, __ATOMIC_RELEASE)
#else
static inline bool oscore_enter(volatile uint32_t *busy) {
#if defined(__GNUC__) && defined(__ARM_ARCH_PROFILE) && __ARM_ARCH_PROFILE == 'M'
    uint32_t masked;
    __asm__ __volatile__("mrs %0, primask\n\tcpsid i" : "=r"(masked) : : "memory");
#endif
    bool entered = *busy == 0;
    *busy = 1;
#if defined(__GNUC__) && defined(__ARM_ARCH_PROFILE) && __ARM_ARCH_PROFILE == 'M'
    __asm__ __volatile__("msr primask, %0" : : "r"(masked) : "memory");
#endif
    return entered;
}

static inline void oscore_leave(volatile uint32_t *busy) {
    *busy = 0;
}
#define OSCORE_ENTER(busy) oscore_enter(busy)
#define OSCORE_LEAVE(busy) oscore_leave(busy)
#endif
#endif

/* Derives a context from a Master Secret (1 to 64 bytes), a Master Salt (0 to 64), an ID Context (1 to 32) where `has_id_context`
   says that there is one, the identifier of this end and that of the other (0 to 7 bytes each). Its keys are used with AES by a cipher
   whose source has no look-up and no branch that depends on a key or a message; with `tables` by one that looks up tables, which is faster,
   and whose times may tell of a key to whoever shares the machine. What is sent is the same, and the other end may choose otherwise.
   With `blocks` the options Block1 and Block2 (27 and 23) pass inside the protection, both ways (RFC 8613, 4.1.3.4.1), and so do Q-Block1
   and Q-Block2 (19 and 31; RFC 9177). Without it no message with such an option is sealed, and none opens.
   With `observe` messages may have Observe (6), the option of observations (RFC 7641; RFC 8613, 4.1.3.5): it then stands outside and,
   encrypted, inside, the code outside is 0.05 or 2.05, and who opens sees the one inside. A GET or FETCH whose Observe is 0, an empty
   value, registers: `oscore_peer_request` seals it, `oscore_peer_take` delivers it, `oscore_peer_notify` seals each notification, in
   which Observe is empty inside, and `oscore_peer_hear` opens them. Observe stands in no other response, so `oscore_peer_reply` and
   `oscore_seal_response` seal none with it, and `oscore_open_response` opens none. Without `observe` no message with Observe is sealed,
   and none opens. Both ends must choose the same of `blocks` and of `observe`. */
#define oscore_derive oscore_derive_v5
OSCORE_MUST_USE oscore_status oscore_derive(oscore_context *out, const uint8_t *secret, oscore_size secret_len,
                                            const uint8_t *salt, oscore_size salt_len, bool has_id_context,
                                            const uint8_t *id_context, oscore_size id_context_len, const uint8_t *sender,
                                            oscore_size sender_len, const uint8_t *recipient, oscore_size recipient_len,
                                            bool tables, bool blocks, bool observe);

/* Derives a context of parameters, as `oscore_derive` does of its arguments. Before all else it refuses with OSCORE_BAD_NUMBER a choice that
   is neither 0 nor 1, and a byte of `zero` that isn't 0. A refusal leaves the context. */
OSCORE_MUST_USE static inline oscore_status oscore_derive_from(oscore_context *out, const oscore_parameters *parameters) {
    uint8_t unknown = (uint8_t)((parameters->tables | parameters->blocks | parameters->observe) & 0xfe);
    for (size_t i = 0; i < sizeof parameters->zero; i++) unknown |= parameters->zero[i];
    if (unknown != 0) return OSCORE_BAD_NUMBER;
    return oscore_derive(out, parameters->secret, parameters->secret_len, parameters->salt, parameters->salt_len,
                         parameters->id_context_len > 0, parameters->id_context, parameters->id_context_len, parameters->sender_id,
                         parameters->sender_id_len, parameters->recipient_id, parameters->recipient_id_len, parameters->tables == 1,
                         parameters->blocks == 1, parameters->observe == 1);
}

/* Writes a plain message, as it is to be sealed: its kind (0 CON, 1 NON, 2 ACK, 3 RST), its code (1 GET .. ; 69 is 2.05), message ID and
   token, its options in ascending order of their numbers, and its payload, which is behind a marker where it isn't empty. The first
   `out_len` bytes of `out` are the one datagram of such a message (RFC 7252, 3); how its options are spelled is no business of the
   caller's. Options of one number stay as they are handed in.
   Refused is, in this order: a kind above 3 (OSCORE_BAD_NUMBER); a token of more than 8 bytes (OSCORE_TOKEN_LENGTH); a message of code
   0 with a token, an option or a payload (OSCORE_EMPTY_WITH_REST); the first option whose number is below that of the one before it
   (OSCORE_OPTION_ORDER); the first whose value is longer than an option can say (OSCORE_VALUE_TOO_LONG); and a message that is longer
   than `out`, or than 65,535 bytes (OSCORE_NO_ROOM). No refusal writes to `out`. */
OSCORE_MUST_USE static inline oscore_status oscore_write_message(uint8_t kind, uint8_t code, uint16_t message_id, const uint8_t *token,
                                                                 oscore_size token_len, const oscore_option *options, oscore_size option_count,
                                                                 const uint8_t *payload, oscore_size payload_len, uint8_t *out, oscore_size out_room,
                                                                 oscore_size *out_len, oscore_size *detail) {
    OSCORE_SLOT oscore_size unwanted;
    if (!detail) detail = &unwanted;
    return oscore_write_message_v5(kind, code, message_id, token, token_len, options, option_count, payload, payload_len, out, out_room, out_len,
                                   detail);
}

/* Reads which context a request names. */
OSCORE_MUST_USE static inline oscore_status oscore_head(const uint8_t *datagram, oscore_size datagram_len, oscore_request_head *head,
                                                        oscore_size *detail) {
    OSCORE_SLOT oscore_size unwanted;
    if (!detail) detail = &unwanted;
    return oscore_head_v5(datagram, datagram_len, head, detail);
}

/* Seals a request, as the client, under a number below 2^40 that this context never sealed under before. `plain` is the datagram of
   the message that is to be sealed; the sealed one is the first `out_len` bytes of `out`. */
OSCORE_MUST_USE static inline oscore_status oscore_seal_request(const oscore_context *context, uint64_t number, const uint8_t *plain,
                                                                oscore_size plain_len, uint8_t *out, oscore_size out_room, oscore_size *out_len,
                                                                oscore_size *detail) {
    OSCORE_SLOT oscore_size unwanted;
    if (!detail) detail = &unwanted;
    return oscore_seal_request_v5(context, number, plain, plain_len, out, out_room, out_len, detail);
}

/* Seals the response to the request that had the number `request`, as the server: with a Partial IV of its own, which this
   context never sealed under before, or under the request's nonce, at most once for each request. */
OSCORE_MUST_USE static inline oscore_status oscore_seal_response(const oscore_context *context, uint64_t request, bool has_own, uint64_t own,
                                                                 const uint8_t *plain, oscore_size plain_len, uint8_t *out, oscore_size out_room,
                                                                 oscore_size *out_len, oscore_size *detail) {
    OSCORE_SLOT oscore_size unwanted;
    if (!detail) detail = &unwanted;
    return oscore_seal_response_v5(context, request, has_own, own, plain, plain_len, out, out_room, out_len, detail);
}

/* Opens a request, as the server, inside its datagram. Whether its number is new is the caller's to see. Refused with OSCORE_INNER,
   the datagram holds the plaintext, and the old tag behind it; refused otherwise, it is as it was. */
OSCORE_MUST_USE static inline oscore_status oscore_open_request(const oscore_context *context, uint8_t *datagram, oscore_size datagram_len,
                                                                oscore_option *options, oscore_size options_room, oscore_opened *opened,
                                                                oscore_size *detail) {
    OSCORE_SLOT oscore_size unwanted;
    if (!detail) detail = &unwanted;
    return oscore_open_request_v5(context, datagram, datagram_len, options, options_room, opened, detail);
}

/* Opens the response to the request that had the number `request`, as the client, inside its datagram. What a refusal leaves is
   said at `oscore_open_request`. */
OSCORE_MUST_USE static inline oscore_status oscore_open_response(const oscore_context *context, uint64_t request, uint8_t *datagram,
                                                                 oscore_size datagram_len, oscore_option *options, oscore_size options_room,
                                                                 oscore_opened *opened, oscore_size *detail) {
    OSCORE_SLOT oscore_size unwanted;
    if (!detail) detail = &unwanted;
    return oscore_open_response_v5(context, request, datagram, datagram_len, options, options_room, opened, detail);
}

/* A forward proxy. It has to read where a request goes, and by which scheme, so that isn't protected (RFC 8613, 4.1.3.3), and no call seals
   a request with Proxy-Uri (35) or Proxy-Scheme (39). A plain request with Proxy-Uri is split by `oscore_split_proxy_uri`, then sealed, by
   `oscore_peer_request` or `oscore_seal_request`, and then `oscore_ask_proxy` puts the scheme in. One that has Uri-Host and Uri-Port, and no
   Proxy-Uri, is sealed as it is, without Proxy-Scheme, which `oscore_ask_proxy` puts in. To send a request again, send what that wrote. */

/* Splits the Proxy-Uri of a plain request, before it is sealed, into Uri-Host, Uri-Port, Uri-Path and Uri-Query, which say the same (RFC
   7252, 5.10.2 and 6.4). `plain` is its datagram. The first `out_len` bytes of `out` are the request to seal: all else stays, and Uri-Port is
   there also where the URI names no port, with 5683 for coap and 5684 for coaps. The first `scheme_len` bytes of `scheme` are the URI's
   scheme, "coap" or "coaps", for `oscore_ask_proxy`.
   Refused is, in this order: what is no CoAP message; what is no request (OSCORE_NOT_THAT_KIND); one with no Proxy-Uri, or more than one
   (OSCORE_NOT_ONE_PROXY_URI); one that says otherwise too where it goes (OSCORE_MIXED); what is no URI of CoAP, by the first of OSCORE_SCHEME
   to OSCORE_PORT; an option that would have more than 255 bytes (OSCORE_PART_TOO_LONG); a request of more than 65,535 bytes
   (OSCORE_TOO_LONG); and one that is longer than `out` (OSCORE_NO_ROOM). */
OSCORE_MUST_USE static inline oscore_status oscore_split_proxy_uri(const uint8_t *plain, oscore_size plain_len, uint8_t *out, oscore_size out_room,
                                                                   oscore_size *out_len, uint8_t scheme[5], oscore_size *scheme_len,
                                                                   oscore_size *detail) {
    OSCORE_SLOT oscore_size unwanted;
    if (!detail) detail = &unwanted;
    return oscore_split_proxy_uri_v6(plain, plain_len, out, out_room, out_len, scheme, scheme_len, detail);
}

/* Puts Proxy-Scheme into a sealed request, which asks a forward proxy to send it on by this scheme (RFC 7252, 5.10.2). The first `out_len`
   bytes of `out` are the request to send; the scheme's length and 3 bytes more than the sealed request has are enough for it. All else stays.
   A proxy takes Proxy-Scheme out again, so that the request opens at the other end.
   Refused is, in this order: what is no CoAP message; what is no request (OSCORE_NOT_THAT_KIND); one that has Proxy-Uri or Proxy-Scheme
   (OSCORE_ASKED); a scheme without a byte, or of more than 255 (OSCORE_SCHEME_LENGTH); a request of more than 65,535 bytes (OSCORE_TOO_LONG);
   and one that is longer than `out` (OSCORE_NO_ROOM). Whether the request is sealed isn't looked at. */
OSCORE_MUST_USE static inline oscore_status oscore_ask_proxy(const uint8_t *sealed, oscore_size sealed_len, const uint8_t *scheme,
                                                             oscore_size scheme_len, uint8_t *out, oscore_size out_room, oscore_size *out_len,
                                                             oscore_size *detail) {
    OSCORE_SLOT oscore_size unwanted;
    if (!detail) detail = &unwanted;
    return oscore_ask_proxy_v6(sealed, sealed_len, scheme, scheme_len, out, out_room, out_len, detail);
}

/* A peer. A call that needs a number that isn't saved answers OSCORE_SAVE_FIRST, writes the record to save, and leaves all else as it was: the
   peer, its clock, the datagram, `out`, the rest. Then

       save the record durably, in the place of the one before: when that returns, a power cut can't take it back;
       tell the peer by `oscore_peer_saved`;
       make the same call again.

   In this order. Each life saves one record before anything else, whatever comes first. After that a record is saved for each request that is to be
   delivered and whose number isn't below the `received` that was saved, and for each 64 requests of its own, challenges, notifications and
   replies with a Partial IV of their own. So one datagram may take two saves. `record`
   is written at OSCORE_SAVE_FIRST alone. OSCORE_LIVES_EXHAUSTED comes in the place of OSCORE_SAVE_FIRST where the record would be the
   2^64th.

   A peer is in one call at a time. One that comes while another runs, from a thread or from what interrupted it, is OSCORE_BUSY: make it again
   later. A call that never returned, as behind a longjmp, leaves its peer busy: set it to zero, and begin it again. `oscore_peer_find`
   `oscore_peer_fits_at` and `oscore_peer_fits` only read, and don't see to this: no call of one of these peers may run meanwhile. */

/* Writes the name of a context, which its peers, their records and their tickets have. A store is opened by it (oscore_store.h), before a
   peer is begun. OSCORE_BAD_HANDLE leaves the name. */
#define oscore_peer_name oscore_peer_name_v5
OSCORE_MUST_USE oscore_status oscore_peer_name(const oscore_context *context, uint64_t *name);

/* Begins a peer of a context that was never used, neither by this end nor by another library: at its provisioning, once. A record that
   was lost is no reason: then the context can't be used any more. The window has 1, 32 or 64 places, any of them where the peer only asks;
   with 1 a request is delivered where its number is above each that was. A request of its own is pending for `life_ms` milliseconds and no
   longer; a registration that was notified, until its last response or `oscore_peer_forget`. From then on the peer counts the numbers of
   the context's sender: seal nothing by `context` beside it, and begin no second peer with its Sender Key, which would use the same nonces.
   Contexts with the same Master Secret differ in Sender ID, Master Salt or ID Context (RFC 8613, 3.3). OSCORE_BAD_HANDLE or
   OSCORE_BAD_NUMBER leave the peer. */
OSCORE_MUST_USE static inline oscore_status oscore_peer_begin_first(oscore_peer *peer, const oscore_context *context, uint8_t window_places,
                                                                    uint64_t life_ms) {
    if (!OSCORE_ENTER(&peer->busy)) return OSCORE_BUSY;
    oscore_status status = oscore_peer_begin_first_v5(peer, context, window_places, life_ms);
    OSCORE_LEAVE(&peer->busy);
    return status;
}

/* Begins a peer behind the record that was saved last. It delivers requests above the received number without a challenge; where none was
   delivered yet, the first one is challenged, but for a record with the numbers 0 and 0, whose context was never used: its peer begins as
   at `oscore_peer_begin_first`. OSCORE_BAD_HANDLE, OSCORE_BAD_NUMBER (the window), OSCORE_OLD_RECORD, or
   OSCORE_SEQUENCE_EXHAUSTED where no Sender Sequence Number is left: the peer stays. */
OSCORE_MUST_USE static inline oscore_status oscore_peer_begin_again(oscore_peer *peer, const oscore_context *context,
                                                                    const oscore_peer_record *record, uint8_t window_places, uint64_t life_ms) {
    if (!OSCORE_ENTER(&peer->busy)) return OSCORE_BUSY;
    oscore_status status = oscore_peer_begin_again_v5(peer, context, record, window_places, life_ms);
    OSCORE_LEAVE(&peer->busy);
    return status;
}

/* Says that this record is saved: one to save next, as the last OSCORE_SAVE_FIRST wrote it. It has the peer's name and the next
   generation; `sender` is as the peer's `reserved`, or where no number is left below that, the next number to reserve up to; `received`
   isn't below the peer's. So a greater `received`, up to 2^40, may stand in it: requests below that need no save of their own, and a life
   that begins behind the record delivers none of them. Another record is OSCORE_BAD_NUMBER, and the peer stays. */
OSCORE_MUST_USE static inline oscore_status oscore_peer_saved(oscore_peer *peer, const oscore_peer_record *record) {
    if (!OSCORE_ENTER(&peer->busy)) return OSCORE_BUSY;
    oscore_status status = oscore_peer_saved_v5(peer, record);
    OSCORE_LEAVE(&peer->busy);
    return status;
}

/* Says that this record is saved, though it is saved nowhere: for tests, and for a context that lives no longer than the program. If the
   context is ever used again, nonces are used twice, and requests are obeyed twice. It first raises `received` to 2^40, so that no request
   needs a save; what it answers is as at `oscore_peer_saved`. */
OSCORE_MUST_USE static inline oscore_status oscore_peer_saved_nowhere(oscore_peer *peer, oscore_peer_record *record) {
    record->received = (uint64_t)1 << 40;
    return oscore_peer_saved(peer, record);
}

/* Answers a datagram, where it lies. 0: a request is delivered. `opened` and `options` show it, and `ticket` is the right to answer it;
   these three are written at 0 alone. `now` is the time in milliseconds, by a clock that doesn't go back, and `mid` is a new message ID:
   hand in both anew with each datagram. `out_len` is always written: so many bytes of `out` go back to the sender, whatever the status;
   where it is 0, none do. So a replay, a bad tag and a challenge get the replies of RFC 8613, 7.4, 8.2 and B.1.2, and a request for a
   context that isn't the peer's gets a 4.01. The Echo value of a challenge is the number with which it is sealed.
   OSCORE_SAVE_FIRST comes right after OSCORE_BAD_HANDLE where a Sender Sequence Number may be needed, and else last, once it is known
   that the request is to be delivered: then the datagram is as it came, and is handed in again. `out_len` is 0 at both.
   These two, OSCORE_BUSY and OSCORE_LIVES_EXHAUSTED leave the peer as it was, the others move its clock; OSCORE_INNER spends the request's number too
   where the context's window is open, but not in a context that waits for an Echo value; OSCORE_CHALLENGE spends a Sender Sequence
   Number. From OSCORE_INNER on, the datagram's payload isn't what came.
   The clock is the latest `now`: an earlier one counts as that. So a moment from far ahead stays, and until the time has come there the
   clock stands: a challenge, which is good for 30 seconds, then doesn't end.
   A delivered request that comes again because its reply was lost is refused as a replay, though it was obeyed. So whoever speaks over
   UDP keeps the reply to each delivered request, by sender and message ID, for 247 seconds. If the request comes again, a CON gets that
   reply again, a NON gets nothing, and this isn't called (RFC 7252, 4.5 and 4.8.2). Any other request that comes again is handed in
   again. An empty message, as an acknowledgment, a reset or a ping, is OSCORE_NOT_THAT_KIND. */
OSCORE_MUST_USE static inline oscore_status oscore_peer_take(oscore_peer *peer, uint64_t now, uint16_t mid, uint8_t *datagram,
                                                             oscore_size datagram_len, oscore_option *options, oscore_size options_room,
                                                             oscore_opened *opened, oscore_ticket *ticket, uint8_t out[64], oscore_size *out_len,
                                                             oscore_peer_record *record, oscore_size *detail) {
    OSCORE_SLOT oscore_size unwanted;
    if (!detail) detail = &unwanted;
    if (!OSCORE_ENTER(&peer->busy)) {
        *detail = 0;
        *out_len = 0;
        return OSCORE_BUSY;
    }
    oscore_status status = oscore_peer_take_v6(peer, now, mid, datagram, datagram_len, options, options_room, opened, ticket, out, out_len,
                                               record, detail);
    if (status == OSCORE_DONE) ticket->answered = 0;
    OSCORE_LEAVE(&peer->busy);
    return status;
}

/* Writes the index of the first of several peers whose context a request names, by its kid and its kid context: a device with many
   contexts has an array of peers. It reads only, and passes over peers that were never begun. One of the datagram's faults,
   OSCORE_NOT_THAT_KIND, OSCORE_NO_OSCORE, OSCORE_UNDECODABLE, or OSCORE_NO_CONTEXT where it names none of theirs, leave the index. What goes
   back to the sender then, as a 4.01, is what `oscore_peer_take` of any of them writes. Which of them a response is for no byte of it says
   but its token: give it to `oscore_peer_hear` of each that asks. */
OSCORE_MUST_USE static inline oscore_status oscore_peer_find(const oscore_peer *peers, oscore_size peer_count, const uint8_t *datagram,
                                                             oscore_size datagram_len, oscore_size *index, oscore_size *detail) {
    OSCORE_SLOT oscore_size unwanted;
    if (!detail) detail = &unwanted;
    return oscore_peer_find_v5(peers, peer_count, datagram, datagram_len, index, detail);
}

/* Whether the peer at `index` of these may be begun anew with this context, which takes the place of the one that it has, as when both ends
   have made new keys: none of them, that one neither, has its Sender Key, since both would use the same nonces, and no other one has both
   its Recipient ID and its ID Context, since `oscore_peer_find` could find but one of them. It passes over peers that were never begun and
   whose bytes are 0. Of keys a branch depends on one thing alone: whether they are the same. No end remembers a context that it had before:
   never bring one back. */
static inline bool oscore_peer_fits_at(const oscore_peer *peers, size_t peer_count, size_t index, const oscore_context *context) {
    for (size_t i = 0; i < peer_count; i++) {
        if (peers[i].server.context.places == 0) continue;
        const oscore_context *other = &peers[i].server.context.context;
        uint8_t key = 0, id = other->recipient_len ^ context->recipient_len, id_context = other->id_context_len ^ context->id_context_len;
        for (size_t at = 0; at < sizeof context->sender_key; at++) key |= other->sender_key[at] ^ context->sender_key[at];
        for (size_t at = 0; at < sizeof context->recipient; at++)
            if (at < context->recipient_len) id |= other->recipient[at] ^ context->recipient[at];
        for (size_t at = 0; at < sizeof context->id_context; at++)
            if (at < context->id_context_len) id_context |= other->id_context[at] ^ context->id_context[at];
        if (key == 0 || (i != index && (id | id_context) == 0)) return false;
    }
    return true;
}

/* Whether a peer of this context may be begun beside these peers: none of them has its Sender Key, and none has both its Recipient ID and
   its ID Context, as at `oscore_peer_fits_at`. */
static inline bool oscore_peer_fits(const oscore_peer *peers, size_t peer_count, const oscore_context *context) {
    return oscore_peer_fits_at(peers, peer_count, peer_count, context);
}

/* Seals the answer to the request of a ticket: with a Partial IV of its own where `own` says so, else under the request's nonce, which
   needs no number. Of `plain`, which is a datagram, the code, the options and the payload are used; kind, message ID and token are those
   that the request asks for, and `mid` is the message ID where the request wasn't confirmable. Where it was, and has its ACK already, call `oscore_make_separate`
   behind this. A request is answered once:
   OSCORE_TICKET_SPENT where it has its answer. A refusal spends nothing.
   The answer to a registration has a Partial IV of its own whatever `own` says. It has no Observe, and so it is the last: the client then
   waits for nothing more.
   A request lies far back once one was delivered whose number is at least 64 above. Then the peer remembers it no more: an answer under
   its nonce is OSCORE_TICKET_SPENT, and one with a Partial IV of its own is sealed. This call marks the ticket with which it seals, and
   `oscore_peer_notify` and it refuse that with OSCORE_TICKET_SPENT, right behind OSCORE_BUSY. So keep one ticket, and not copies of it: by
   one from before, or by a forged one, a request that lies far back is answered once more. No nonce is used twice then. */
OSCORE_MUST_USE static inline oscore_status oscore_peer_reply(oscore_peer *peer, oscore_ticket *ticket, bool own, uint16_t mid,
                                                              const uint8_t *plain, oscore_size plain_len, uint8_t *out, oscore_size out_room,
                                                              oscore_size *out_len, oscore_peer_record *record, oscore_size *detail) {
    OSCORE_SLOT oscore_size unwanted;
    if (!detail) detail = &unwanted;
    if (!OSCORE_ENTER(&peer->busy)) {
        *detail = 0;
        return OSCORE_BUSY;
    }
    oscore_status status = OSCORE_TICKET_SPENT;
    if (ticket->answered)
        *detail = 0;
    else
        status = oscore_peer_reply_v6(peer, ticket, own, mid, plain, plain_len, out, out_room, out_len, record, detail);
    if (status == OSCORE_DONE) ticket->answered = 1;
    OSCORE_LEAVE(&peer->busy);
    return status;
}

/* Seals a notification to the registration of a ticket, with a new Partial IV of its own (RFC 7641, 3.2; RFC 8613, 8.3.1). It needs a number
   always. Of `plain`, which is a datagram, all is used but the token, which is the ticket's: kind and message ID too, so the first is an
   ACK with the message ID of the registration where that is a CON, and each later one a NON or a CON with a new one. It is of class 2 and
   has Observe, whose value stands outside, for whoever is in between; the client goes by the Partial IV. Any other response, as an error,
   is a reply, and ends the observation.
   The ticket stays, and so does the request's right to an answer. The library counts no observations: the program keeps the ticket as
   long as it has something to notify, and drops it where a request of the same context with the same token and options has Observe 1,
   where one registers with the same token (the new ticket takes its place), and where a notification is answered by a reset. A ticket may
   be notified by however many requests came since, in the life that gave it, until it gave the answer: then it is
   OSCORE_TICKET_SPENT. A refusal spends nothing. */
OSCORE_MUST_USE static inline oscore_status oscore_peer_notify(oscore_peer *peer, const oscore_ticket *ticket, const uint8_t *plain,
                                                               oscore_size plain_len, uint8_t *out, oscore_size out_room, oscore_size *out_len,
                                                               oscore_peer_record *record, oscore_size *detail) {
    OSCORE_SLOT oscore_size unwanted;
    if (!detail) detail = &unwanted;
    if (!OSCORE_ENTER(&peer->busy)) {
        *detail = 0;
        return OSCORE_BUSY;
    }
    oscore_status status = OSCORE_TICKET_SPENT;
    if (ticket->answered)
        *detail = 0;
    else
        status = oscore_peer_notify_v6(peer, ticket, plain, plain_len, out, out_room, out_len, record, detail);
    OSCORE_LEAVE(&peer->busy);
    return status;
}

/* Makes a reply a message of its own: its datagram gets the kind CON, or NON where it isn't confirmable, and this message ID; token, code,
   options and payload stay. `oscore_peer_reply` seals the reply to a CON for the ACK of that, with the message ID of the request. Where
   that CON has its ACK already, an empty one or a notification, call this behind it (RFC 7252, 5.2.2). Neither kind nor message ID is
   protected, so the reply opens as before (RFC 8613, 4.2). Fewer than 4 bytes, which are no datagram, stay. */
#define oscore_make_separate oscore_make_separate_v6
void oscore_make_separate(uint8_t *datagram, oscore_size datagram_len, bool is_confirmable, uint16_t message_id);

/* What a peer asks. Its requests that wait for their responses lie in an array of yours, of as many places as you give it: the first
   `*pending_count` of its `pending_room` places hold one each, oldest first. Begin with a count of 0 and zeroed places when you begin the
   peer, hand in both with each of these calls, and change nothing of them. They are one peer's: those of another have other numbers. A
   count above `pending_room`, or places that no call can have written, is OSCORE_BAD_HANDLE, as the peer's bytes are, and changes nothing.
   A peer that asks nothing needs none. */

/* Seals a request with the peer's next number, and puts it into the next place. It needs a number always. `plain` is its datagram, and its
   token is pending from then on. `now` is as at `oscore_peer_take`; a moment from far ahead ends all that is pending, and what is sealed
   after it is pending until the time has come there. A refusal from OSCORE_NOT_THAT_KIND on moves the clock, which ends what was pending
   for too long. To send a request again (RFC 7252, 4.2), send the same bytes: what is sealed anew is another request, and is obeyed once
   more. A registration gives way to a GET or FETCH under its token whose Observe is 0 or 1, which registers anew or cancels (RFC 7641,
   3.3.1 and 3.6): that takes its place, and nothing is heard for the old one from then on. A refusal leaves it pending. */
OSCORE_MUST_USE static inline oscore_status oscore_peer_request(oscore_peer *peer, oscore_pending *pending, oscore_size pending_room,
                                                                oscore_size *pending_count, uint64_t now, const uint8_t *plain, oscore_size plain_len,
                                                                uint8_t *out, oscore_size out_room, oscore_size *out_len, oscore_peer_record *record,
                                                                oscore_size *detail) {
    OSCORE_SLOT oscore_size unwanted;
    if (!detail) detail = &unwanted;
    if (!OSCORE_ENTER(&peer->busy)) {
        *detail = 0;
        return OSCORE_BUSY;
    }
    oscore_status status = oscore_peer_request_v5(peer, pending, pending_room, pending_count, now, plain, plain_len, out, out_room, out_len,
                                                  record, detail);
    OSCORE_LEAVE(&peer->busy);
    return status;
}

/* Answers a datagram that may be a response to one of these requests, where it lies. It needs no number, so a peer that asks and answers
   gives it each datagram first: a request is OSCORE_NOT_THAT_KIND here, as it came, and goes to `oscore_peer_take`.
   0: a response to a pending request, which is pending no more, and `request` is its number; that, `opened` and `options` are written at 0
   alone. Where `opened->is_notification` is true, it is a notification of the registration `request`, which stays pending, and later ones
   come in the same way; each is delivered once at most, and none after a later one, which is OSCORE_OLD. Any other response is the last
   one, also one without a Partial IV behind notifications. OSCORE_BUSY and OSCORE_BAD_HANDLE leave the peer as it was, the others move
   its clock.
   Each other refusal says that this datagram isn't the response, and nothing of the one that may still come: the request stays pending,
   and the caller keeps waiting, until 0, the end of `life_ms`, `oscore_peer_forget` or a new life. Anyone may have sent what is refused,
   and anyone can send an error without protection; OSCORE_INNER, and OSCORE_OLD without a Partial IV, alone say that it was sealed with
   the other end's Sender Key.
   An end that asks for an Echo value answers 0 with the code 129, 4.01, and the option 252. It may have lost what it knew, so this doesn't
   say that the request wasn't obeyed: it may have been obeyed before, and a copy of it that comes late may yet be. Where what is asked for
   may be done twice, ask anew with that option's value (RFC 9175, 2.3): that is another request, and is obeyed too.
   Empty messages are OSCORE_NOT_THAT_KIND here: by their message ID they tell the caller that a request arrived (ACK), so that it isn't
   sent again, or that it isn't answered (RST), so that it can be forgotten.
   Behind 0 and OSCORE_INNER the datagram holds what was inside, and the old tag behind it; so it does at OSCORE_OLD if it has no Partial
   IV. Else it is as it came. (What it holds is tested, and proved of the call behind this one.) */
OSCORE_MUST_USE static inline oscore_status oscore_peer_hear(oscore_peer *peer, oscore_pending *pending, oscore_size pending_room,
                                                             oscore_size *pending_count, uint64_t now, uint8_t *datagram, oscore_size datagram_len,
                                                             oscore_option *options, oscore_size options_room, oscore_opened *opened,
                                                             uint64_t *request, oscore_size *detail) {
    OSCORE_SLOT oscore_size unwanted;
    OSCORE_SLOT uint64_t unwanted_number;
    if (!detail) detail = &unwanted;
    if (!request) request = &unwanted_number;
    if (!OSCORE_ENTER(&peer->busy)) {
        *detail = 0;
        return OSCORE_BUSY;
    }
    oscore_status status = oscore_peer_hear_v5(peer, pending, pending_room, pending_count, now, datagram, datagram_len, options, options_room,
                                               opened, request, detail);
    OSCORE_LEAVE(&peer->busy);
    return status;
}

/* Waits no more for the response to the request of a token; OSCORE_NOT_PENDING where there is none. */
OSCORE_MUST_USE static inline oscore_status oscore_peer_forget(oscore_peer *peer, oscore_pending *pending, oscore_size pending_room,
                                                               oscore_size *pending_count, const uint8_t *token, oscore_size token_len) {
    if (!OSCORE_ENTER(&peer->busy)) return OSCORE_BUSY;
    oscore_status status = oscore_peer_forget_v5(peer, pending, pending_room, pending_count, token, token_len);
    OSCORE_LEAVE(&peer->busy);
    return status;
}

/* So many bytes are all that a peer knows beside its context: no key is among them. Their meaning stays, whatever structs a later library has.
   Byte 0 is 1 for this meaning. Byte 1 has the window's places, byte 2 those of the open window, byte 3 its gate; bytes 4 to 7 are 0, and
   bytes 8 to 15 are the Echo value. Then come 14 numbers of 8 bytes, low byte first: of the peer's context `at`, `spent_mask`, `next` and
   `life`; the clock of what answers, both numbers of `unanswered`, and the members of the peer from `reserved` to `generation`. What waits in
   your places isn't among them. */
#define OSCORE_PEER_STATE 128

static inline uint64_t *oscore_peer_number(oscore_peer *peer, size_t which) {
    /* The numbers of a state, in their order. */
    oscore_server_context *own = &peer->server.context;
    uint64_t *numbers[14] = {&own->at, &own->spent_mask, &own->next, &own->life, &peer->server.clock, &peer->server.unanswered.highest,
                             &peer->server.unanswered.mask, &peer->reserved, &peer->received, &peer->life_ms, &peer->clock, &peer->name,
                             &peer->life, &peer->generation};
    return numbers[which];
}

/* Writes the state of a peer, for whoever keeps peers in a store of his own, or switches memory off. Who reads it goes on with this peer: so
   read it once, and use no more the peer that it was written of, or else nonces are used twice. Behind a save or a use of the peer it is old.
   Where the last record alone outlives the peer, `oscore_peer_begin_again` is the way. OSCORE_BUSY, or OSCORE_BAD_HANDLE, leave `state`. */
OSCORE_MUST_USE static inline oscore_status oscore_peer_state_write(oscore_peer *peer, uint8_t state[OSCORE_PEER_STATE]) {
    const oscore_peer_record none = OSCORE_ZERO;
    const oscore_server_context *own = &peer->server.context;
    if (!OSCORE_ENTER(&peer->busy)) return OSCORE_BUSY;
    /* A record of zeros is never the next one, so this changes nothing, and says what the bytes are. */
    bool is_peer = oscore_peer_saved_v5(peer, &none) != OSCORE_BAD_HANDLE;
    if (is_peer) {
        for (size_t i = 0; i < 16; i++) state[i] = 0;
        state[0] = 1, state[1] = own->places, state[2] = own->window_places, state[3] = own->gate;
        for (size_t i = 0; i < sizeof own->echo; i++) state[8 + i] = own->echo[i];
        for (size_t i = 16; i < OSCORE_PEER_STATE; i++) state[i] = (uint8_t)(*oscore_peer_number(peer, i / 8 - 2) >> 8 * (i % 8));
    }
    OSCORE_LEAVE(&peer->busy);
    return is_peer ? OSCORE_DONE : OSCORE_BAD_HANDLE;
}

/* Reads a state: the peer is as the one was of which it was written. Refused is, in this order: a bad context (OSCORE_BAD_HANDLE); bytes that
   `oscore_peer_state_write` never writes, as of a later library (OSCORE_BAD_NUMBER); the state of another context's peer
   (OSCORE_OLD_RECORD). A refusal leaves the peer. */
OSCORE_MUST_USE static inline oscore_status oscore_peer_state_read(oscore_peer *peer, const oscore_context *context,
                                                                   const uint8_t state[OSCORE_PEER_STATE]) {
    const oscore_peer_record none = OSCORE_ZERO;
    oscore_peer read = OSCORE_ZERO;
    oscore_server_context *own = &read.server.context;
    OSCORE_SLOT uint64_t name = 0;
    if (!OSCORE_ENTER(&peer->busy)) return OSCORE_BUSY;
    oscore_status status = oscore_peer_name(context, &name);
    if (status == OSCORE_DONE) {
        own->context = *context, own->places = state[1], own->window_places = state[2], own->gate = state[3];
        for (size_t i = 0; i < sizeof own->echo; i++) own->echo[i] = state[8 + i];
        for (size_t i = 16; i < OSCORE_PEER_STATE; i++) *oscore_peer_number(&read, i / 8 - 2) |= (uint64_t)state[i] << 8 * (i % 8);
        if (state[0] != 1 || (state[4] | state[5] | state[6] | state[7]) != 0 || oscore_peer_saved_v5(&read, &none) == OSCORE_BAD_HANDLE)
            status = OSCORE_BAD_NUMBER;
        else if (read.name != name) status = OSCORE_OLD_RECORD;
    }
    if (status == OSCORE_DONE) {
        peer->server = read.server, peer->reserved = read.reserved, peer->received = read.received, peer->life_ms = read.life_ms;
        peer->clock = read.clock, peer->name = read.name, peer->life = read.life, peer->generation = read.generation;
    }
    OSCORE_LEAVE(&peer->busy);
    return status;
}

/* Milliseconds of a tick that counts them in 32 bits and begins anew at 0 after 49 days: zero begins it. */
typedef struct oscore_clock {
    OSCORE_SLOT uint64_t now;
    uint32_t last;
} oscore_clock;

/* The moment of a tick, for `now` of the calls: the first is the tick itself, and each later one is as much later as the tick is. Ask it
   at least once in each 2^32 - 1 ticks, in the order in which they were read: an earlier tick counts as one of the next round. */
static inline uint64_t oscore_clock_at(oscore_clock *clock, uint32_t tick) {
    clock->now += (uint32_t)(tick - clock->last);
    clock->last = tick;
    return clock->now;
}

/* The library wipes nothing: what a call was given is the caller's, and below the caller's stack pointer lies what the call left there,
   keys among it (README.md, Wiping). `oscore_wipe` and `oscore_wipe_stack` do, and are code of the caller's program. */

#if defined(__GNUC__) || defined(__clang__)
#define OSCORE_BARRIER(bytes) __asm__ __volatile__("" : : "r"(bytes) : "memory")
#else
#define OSCORE_BARRIER(bytes) ((void)(bytes))
#endif

/* Sets bytes to 0, by writes that a compiler leaves where they stand, though nobody reads the bytes again. A context or a peer that was
   wiped is refused as OSCORE_BAD_HANDLE. */
static inline void oscore_wipe(void *bytes, size_t len) {
    volatile uint8_t *at = (volatile uint8_t *)bytes;
    while (len > 0) at[--len] = 0;
    OSCORE_BARRIER(bytes);
}

/* 1 where the compiler has a way to set registers to 0 at the end of a function: GCC from 11, Clang from 15 for x86 and for 64-bit ARM. For
   32-bit x86 it is 1 only where the program is compiled with SSE2: without that, registers for vectors wouldn't be reached. */
#define OSCORE_WIPES_REGISTERS 0
#if defined(__has_attribute) && (!defined(__clang__) || defined(__x86_64__) || defined(__i386__) || defined(__aarch64__)) \
    && (!defined(__i386__) || defined(__SSE2__))
#if __has_attribute(__zero_call_used_regs__)
#undef OSCORE_WIPES_REGISTERS
#define OSCORE_WIPES_REGISTERS 1
#endif
#endif

/* `oscore_wipe_stack` is there where a compiler has a way to say that a function is never made a part of its caller: for GCC and Clang. */
#if defined(__GNUC__) || defined(__clang__)
/* For `oscore_wipe_stack` alone. Its array lies where a call's stack lay. */
#if OSCORE_WIPES_REGISTERS
__attribute__((__zero_call_used_regs__("all")))
#endif
__attribute__((__noinline__, __unused__)) static void oscore_wipe_below(void) {
    volatile uint64_t below[(OSCORE_STACK + 7) / 8];
    for (size_t i = 0; i < sizeof below / sizeof below[0]; i++) below[i] = 0;
    OSCORE_BARRIER(below);
}

/* Sets OSCORE_STACK bytes below the caller's stack pointer to 0, and so what earlier calls left there; and where OSCORE_WIPES_REGISTERS is 1,
   each register that a call may leave otherwise than it found it: behind `oscore_derive` a key stands in one for vectors. Call it in the
   function that called the library, or in one that called that one, where fewer than 4,000 bytes of stack lie between: called from deeper,
   it begins too low. It reaches no other stack, as another thread's or a signal handler's, and no copy that the system made. Under
   AddressSanitizer and SafeStack it reaches no stack: they lay arrays elsewhere. */
__attribute__((__always_inline__)) static inline void oscore_wipe_stack(void) {
    oscore_wipe_below();
    /* So the call isn't the last thing of a function, which would give up its own stack before it: then it would begin too high. */
    OSCORE_BARRIER(0);
}
#endif

#ifdef __cplusplus
}
#endif

#endif

/* What exchange.c and exchange_libcoap.c have in common: the messages of RFC 8613, C.4 and C.7, as NON, and a clock. */
#include <stdint.h>
#include <stdio.h>
#include <stdlib.h>
#include <string.h>
#include <time.h>

enum { MOST = 2048, FIRST_NUMBER = 20, RESPONSE_HEAD = 8 };

/* RFC 8613, C.1. The client's identifier is empty. */
static const uint8_t SECRET[] = {1, 2, 3, 4, 5, 6, 7, 8, 9, 10, 11, 12, 13, 14, 15, 16};
static const uint8_t SALT[] = {0x9e, 0x7c, 0xa9, 0x22, 0x23, 0x78, 0x63, 0x40};
static const uint8_t SERVER_ID[] = {1};
/* C.4: GET coap://localhost/tv1. */
static const uint8_t PLAIN_REQUEST[] = {0x54, 0x01, 0x5d, 0x1f, 0x00, 0x00, 0x39, 0x74, 0x39, 'l', 'o',
                                        'c',  'a',  'l',  'h',  'o',  's',  't',  0x83, 't',  'v', '1'};
/* C.7: 2.05, whose payload is "Hello World!". */
static uint8_t plain_response[MOST] = {0x54, 0x45, 0x5d, 0x1f, 0x00, 0x00, 0x39, 0x74, 0xff};

/* Gives the response a payload of a length, and answers the length of the whole. */
static size_t prepare_response(size_t payload_len) {
    if (payload_len > MOST - 256) exit(2);
    for (size_t i = 0; i < payload_len; i++) plain_response[RESPONSE_HEAD + 1 + i] = (uint8_t)"Hello World!"[i % 12];
    return payload_len > 0 ? RESPONSE_HEAD + 1 + payload_len : RESPONSE_HEAD;
}

/* Exits unless the first exchange is what RFC 8613 prints: the payloads of C.4 and, where the response says "Hello World!", of C.7. What
   stands before them is the same but for the kind. */
static void compare_first(const uint8_t *request, size_t request_len, const uint8_t *response, size_t response_len) {
    static const uint8_t C_4[] = {0x61, 0x2f, 0x10, 0x92, 0xf1, 0x77, 0x6f, 0x1c, 0x16, 0x68, 0xb3, 0x82, 0x5e};
    static const uint8_t C_7[] = {0xdb, 0xaa, 0xd1, 0xe9, 0xa7, 0xe7, 0xb2, 0xa8, 0x13, 0xd3, 0xc3,
                                  0x15, 0x24, 0x37, 0x83, 0x03, 0xcd, 0xaf, 0xae, 0x11, 0x91, 0x06};
    if (request_len == 35 && !memcmp(request + request_len - sizeof C_4, C_4, sizeof C_4)
        && (response_len != 32 || !memcmp(response + response_len - sizeof C_7, C_7, sizeof C_7))) return;
    fprintf(stderr, "the exchange isn't that of RFC 8613, C.4 and C.7\n");
    exit(1);
}

static uint64_t nanoseconds(void) {
    struct timespec now;
    clock_gettime(CLOCK_MONOTONIC, &now);
    return (uint64_t)now.tv_sec * 1000000000 + (uint64_t)now.tv_nsec;
}

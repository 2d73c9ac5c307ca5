/* For the check that keys take one way: one key, in constant time; a context is made, a request sealed, opened by the other end, and refused with a spoilt tag. */
#include "board.h"
#include "oscore.h"
#ifndef KEY
#define KEY 1
#endif
#ifndef TABLES
#define TABLES false
#endif
static const uint8_t GET[] = {0x44, 0x01, 0x5d, 0x1f, 0x00, 0x00, 0x39, 0x74, 0x83, 't', 'v', '1', 0xff, 'o', 'p', 'e', 'n', ' ', 'i', 't', '!'};
static const volatile uint8_t key_byte = KEY; /* so that the code is the same for each key */
static uint8_t secret[16], out[96];

int main(void) {
    static const uint8_t one[1] = {1};
    static oscore_option options[4];
    static oscore_opened opened;
    oscore_context client = OSCORE_ZERO, server = OSCORE_ZERO;
    oscore_size len = 0, detail;
    for (uint32_t i = 0; i < sizeof secret; i++) secret[i] = (uint8_t)(key_byte * (i + 3) + 77 * key_byte * i * i);
#ifdef DEPENDS
    /* A way that depends on the key, which has to be found. */
    for (volatile uint32_t i = 0; i < (key_byte & 7u); i++) {}
#endif
    uint32_t wrong = 0;
    wrong |= oscore_derive(&client, secret, sizeof secret, NULL, 0, false, NULL, 0, NULL, 0, one, 1, TABLES, false, false);
    wrong |= oscore_derive(&server, secret, sizeof secret, NULL, 0, false, NULL, 0, one, 1, NULL, 0, TABLES, false, false);
    wrong |= oscore_seal_request(&client, 20, GET, sizeof GET, out, sizeof out, &len, &detail);
    out[len - 1] ^= 1;
    wrong |= oscore_open_request(&server, out, len, options, 4, &opened, &detail) != OSCORE_TAG;
    out[len - 1] ^= 1;
    wrong |= oscore_open_request(&server, out, len, options, 4, &opened, &detail);
    return (int)wrong;
}

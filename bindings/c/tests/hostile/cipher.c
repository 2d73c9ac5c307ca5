/* AES-128 (FIPS 197) and AES-CCM (RFC 3610), short and slow: a second implementation beside the library's, which seals what the library
   refuses to seal, and says byte by byte what it has to seal. */
#include "cipher.h"
#include <string.h>

static uint8_t substitution[256];

/* The product by x in GF(2^8) (FIPS 197, 4.2.1). */
static uint8_t doubled(uint8_t byte) {
    return (uint8_t)(byte << 1 ^ (byte & 0x80 ? 0x1b : 0));
}

static uint8_t rotated(uint8_t byte, int by) {
    return (uint8_t)(byte << by | byte >> (8 - by));
}

/* The S-box (FIPS 197, 5.1.1): x + 1 makes all of GF(2^8) but 0, so with each of its powers goes the inverse of that power. */
static void make_substitution(void) {
    uint8_t power = 1, inverse = 1;
    do {
        power ^= doubled(power);
        inverse ^= (uint8_t)(inverse << 1);
        inverse ^= (uint8_t)(inverse << 2);
        inverse ^= (uint8_t)(inverse << 4);
        if (inverse & 0x80) inverse ^= 0x09;
        substitution[power] = inverse ^ rotated(inverse, 1) ^ rotated(inverse, 2) ^ rotated(inverse, 3) ^ rotated(inverse, 4) ^ 0x63;
    } while (power != 1);
    substitution[0] = 0x63;
}

void expand_key(struct aes_key *key, const uint8_t bytes[16]) {
    uint8_t constant = 1;
    if (!substitution[0]) make_substitution();
    memcpy(key->rounds[0], bytes, 16);
    for (int round = 1; round < 11; round++, constant = doubled(constant)) {
        const uint8_t *before = key->rounds[round - 1];
        uint8_t *now = key->rounds[round];
        for (int i = 0; i < 4; i++) now[i] = before[i] ^ substitution[before[12 + (i + 1) % 4]];
        now[0] ^= constant;
        for (int i = 4; i < 16; i++) now[i] = before[i] ^ now[i - 4];
    }
}

static void add_round_key(uint8_t state[16], const uint8_t key[16]) {
    for (int i = 0; i < 16; i++) state[i] ^= key[i];
}

/* SubBytes and ShiftRows. Byte i stands in row i % 4, which moves by as many columns. */
static void substitute_and_shift(uint8_t state[16]) {
    uint8_t before[16];
    memcpy(before, state, 16);
    for (int i = 0; i < 16; i++) state[i] = substitution[before[(i + 4 * (i % 4)) % 16]];
}

static void mix_columns(uint8_t state[16]) {
    for (uint8_t *column = state; column < state + 16; column += 4) {
        uint8_t first = column[0], all = column[0] ^ column[1] ^ column[2] ^ column[3];
        for (int i = 0; i < 4; i++) column[i] ^= all ^ doubled(column[i] ^ (i < 3 ? column[i + 1] : first));
    }
}

void encrypt_block(const struct aes_key *key, uint8_t block[16]) {
    add_round_key(block, key->rounds[0]);
    for (int round = 1; round < 11; round++) {
        substitute_and_shift(block);
        if (round < 10) mix_columns(block);
        add_round_key(block, key->rounds[round]);
    }
}

/* Goes on with the CBC-MAC over some bytes, the first of them at a place of a block, and 0 behind the last (RFC 3610, 2.2). */
static void add_to_mac(const struct aes_key *key, uint8_t mac[16], oscore_size place, struct bytes bytes) {
    for (oscore_size i = 0; i < bytes.len; i++) {
        mac[place++] ^= bytes.at[i];
        if (place == 16) encrypt_block(key, mac), place = 0;
    }
    if (place) encrypt_block(key, mac);
}

static void encrypt_counter(const struct aes_key *key, const uint8_t nonce[NONCE_LEN], oscore_size counter, uint8_t block[16]) {
    block[0] = 0x01; /* L - 1 */
    memcpy(block + 1, nonce, NONCE_LEN);
    block[14] = (uint8_t)(counter >> 8), block[15] = (uint8_t)counter;
    encrypt_block(key, block);
}

struct text ccm_seal(const struct aes_key *key, const uint8_t nonce[NONCE_LEN], struct bytes additional, struct bytes plaintext) {
    struct text sealed = {.len = 0};
    uint8_t mac[16], stream[16];
    NEEDS(additional.len > 0 && additional.len < 0xff00);
    mac[0] = 0x40 | (TAG_LEN - 2) / 2 << 3 | 0x01; /* there is additional data, M and L (RFC 3610, 2.2) */
    memcpy(mac + 1, nonce, NONCE_LEN);
    mac[14] = (uint8_t)(plaintext.len >> 8), mac[15] = (uint8_t)plaintext.len;
    encrypt_block(key, mac);
    mac[0] ^= (uint8_t)(additional.len >> 8), mac[1] ^= (uint8_t)additional.len;
    add_to_mac(key, mac, 2, additional);
    add_to_mac(key, mac, 0, plaintext);
    for (oscore_size i = 0; i < plaintext.len; i++) {
        if (i % 16 == 0) encrypt_counter(key, nonce, i / 16 + 1, stream);
        add_byte(&sealed, plaintext.at[i] ^ stream[i % 16]);
    }
    encrypt_counter(key, nonce, 0, stream);
    for (int i = 0; i < TAG_LEN; i++) add_byte(&sealed, mac[i] ^ stream[i]);
    return sealed;
}

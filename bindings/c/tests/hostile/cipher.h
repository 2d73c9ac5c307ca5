/* AES-128 (FIPS 197) and AES-CCM with tags of 8 bytes and lengths of 2 (RFC 3610: M = 8, L = 2), as AES-CCM-16-64-128 has it. */
#ifndef HOSTILE_CIPHER_H
#define HOSTILE_CIPHER_H

#include "bytes.h"

enum { TAG_LEN = 8, NONCE_LEN = 13 };

struct aes_key {
    uint8_t rounds[11][16];
};

void expand_key(struct aes_key *key, const uint8_t bytes[16]);
void encrypt_block(const struct aes_key *key, uint8_t block[16]);
/* The ciphertext of a plaintext, and the tag behind it. */
struct text ccm_seal(const struct aes_key *key, const uint8_t nonce[NONCE_LEN], struct bytes additional, struct bytes plaintext);

#endif

/* Sealing as an end of a context does, and as none does, by the test's own cipher, nonce and additional data (RFC 8613, 5). */
#include "sealing.h"
#include <string.h>

/* Both ends of a context, and the schedules of their sender keys. */
static struct {
    oscore_context context;
    struct aes_key key;
} ends[CONTEXTS][2];

/* The nonce of a number, which the end of an identifier gave (RFC 8613, 5.2): the length of the identifier, the identifier behind zero
   bytes, the number behind zero bytes, all of it with the Common IV by exclusive or. */
static void make_nonce(const oscore_context *context, struct bytes owner, uint64_t number, uint8_t nonce[NONCE_LEN]) {
    memset(nonce, 0, NONCE_LEN);
    nonce[0] = (uint8_t)owner.len;
    if (owner.len) memcpy(nonce + 8 - owner.len, owner.at, owner.len);
    for (int i = 0; i < 5; i++) nonce[NONCE_LEN - 1 - i] = (uint8_t)(number >> 8 * i);
    for (int i = 0; i < NONCE_LEN; i++) nonce[i] ^= context->common_iv[i];
}

/* A byte string in CBOR, of fewer than 24 bytes. */
static void add_string(struct text *text, struct bytes bytes) {
    NEEDS(bytes.len < 24);
    add_byte(text, (uint8_t)(0x40 | bytes.len));
    add_bytes(text, bytes);
}

/* The additional data of a request and of its response (RFC 8613, 5.4): the array of "Encrypt0", no bytes, and as a string of bytes the
   array of the version 1, the array of the algorithm 10, the kid and the Partial IV of the request, and no bytes for class I. */
static struct text additional_data(struct bytes kid, uint64_t request) {
    struct text array = {.len = 0}, data = {.len = 0}, piv = spell_number(request);
    add_bytes(&array, BYTES(0x85, 0x01, 0x81, 0x0a));
    add_string(&array, kid);
    add_string(&array, bytes_of(&piv));
    add_byte(&array, 0x40);
    add_bytes(&data, BYTES(0x83, 0x68, 'E', 'n', 'c', 'r', 'y', 'p', 't', '0', 0x40));
    add_string(&data, bytes_of(&array));
    return data;
}

/* The ciphertext of a plaintext. A response without a Partial IV of its own has the nonce of its request (RFC 8613, 5.2). */
static struct text encrypt(struct sealed_as as, struct bytes plaintext) {
    const oscore_context *context = &ends[as.context][as.is_response].context;
    struct bytes sender = {context->sender, context->sender_len}, recipient = {context->recipient, context->recipient_len};
    struct bytes owner = as.is_response && !as.has_own ? recipient : sender;
    struct text additional = additional_data(as.is_response ? recipient : sender, as.request);
    uint8_t nonce[NONCE_LEN];
    make_nonce(context, owner, as.is_response && as.has_own ? as.own : as.request, nonce);
    return ccm_seal(&ends[as.context][as.is_response].key, nonce, bytes_of(&additional), plaintext);
}

/* The value of the OSCORE option: of a request the number, the kid, and the kid context where there is an ID Context; of a response its
   own Partial IV, where it has one (RFC 8613, 6.1). */
static struct text oscore_value(struct sealed_as as) {
    const struct agreed *agreed = &AGREED[as.context];
    struct value value = {.has_number = as.has_own, .number = as.own};
    if (!as.is_response)
        value = (struct value){true, agreed->id_context.len > 0, true, as.request, agreed->id_context, agreed->client};
    return spell_value(&value);
}

struct allowed allowed_as(struct sealed_as as) {
    struct allowed allowed = AGREED[as.context].allowed;
    allowed.observe = allowed.observe && (!as.is_response || as.to_registration);
    return allowed;
}

uint8_t outer_code(struct sealed_as as, bool observes) {
    bool is_observed = observes && allowed_as(as).observe;
    return as.is_response ? (is_observed ? OUTER_NOTIFICATION : OUTER_RESPONSE) : is_observed ? OUTER_FETCH : OUTER_REQUEST;
}

/* Whether this is the Observe that is sought, as `has_observe` says. None is sought behind the first. */
static bool is_sought(const struct option *option, bool *sought) {
    bool was_sought = *sought, is_observe = option->number == OBSERVE;
    *sought = was_sought && !is_observe;
    return was_sought && is_observe && option->value.len <= MOST_OBSERVE;
}

/* The plaintext of a message: its code, its options but the outer ones, its payload (RFC 8613, 5.3). In a response Observe is empty inside
   (RFC 8613, 4.1.3.5.2). */
static struct text plaintext_of(struct sealed_as as, const struct seen *plain) {
    struct spelling spelling = spell_plaintext(plain->head.code);
    bool sought = as.is_response;
    for (struct option option = begun(&plain->body); next_of(&option);) {
        bool is_empty = is_sought(&option, &sought);
        if (!is_outer(option.number)) spell_option(&spelling, option.number, is_empty ? (struct bytes){NULL, 0} : option.value);
    }
    return spell_end(&spelling, plain->body.payload);
}

void seal_other(struct sealed_as as, struct head head, struct bytes plain, struct bytes plaintext, struct sealed *sealed) {
    struct text ciphertext = encrypt(as, plaintext), value = oscore_value(as);
    struct spelling spelling = spell_datagram(head);
    struct seen seen;
    oscore_size place;
    NEEDS(!read_datagram(plain, &seen, &place));
    /* Observe stands outside too, where it is allowed (RFC 8613, 4.1.3.5). */
    bool sought = allowed_as(as).observe, has_value = false;
    for (struct option option = begun(&seen.body); next_of(&option);) {
        bool is_sought_one = is_sought(&option, &sought);
        if (!is_outer(option.number) && !is_sought_one) continue;
        /* The OSCORE option has its place among them (RFC 7252, 3.1). */
        if (option.number > OSCORE && !has_value) spell_option(&spelling, OSCORE, bytes_of(&value)), has_value = true;
        spell_option(&spelling, option.number, option.value);
    }
    if (!has_value) spell_option(&spelling, OSCORE, bytes_of(&value));
    *sealed = (struct sealed){.as = as, .datagram = spell_end(&spelling, bytes_of(&ciphertext))};
    add_bytes(&sealed->plaintext, plaintext);
}

void seal_plain(struct sealed_as as, struct head head, struct bytes plain, struct sealed *sealed) {
    struct seen seen;
    oscore_size place;
    NEEDS(!read_datagram(plain, &seen, &place));
    struct text plaintext = plaintext_of(as, &seen);
    seal_other(as, head, plain, bytes_of(&plaintext), sealed);
}

/* FIPS 197, C.1. */
static void needs_cipher(void) {
    static const uint8_t wanted[16] = {0x69, 0xc4, 0xe0, 0xd8, 0x6a, 0x7b, 0x04, 0x30, 0xd8, 0xcd, 0xb7, 0x80, 0x70, 0xb4, 0xc5, 0x5a};
    struct aes_key key;
    uint8_t bytes[16], block[16];
    for (int i = 0; i < 16; i++) bytes[i] = (uint8_t)i, block[i] = (uint8_t)(0x11 * i);
    expand_key(&key, bytes);
    encrypt_block(&key, block);
    NEEDS(!memcmp(block, wanted, 16));
}

/* RFC 8613, C.4 to C.8: a request under the number 20 in each context, and its response in the first, without and with a Partial IV of its
   own. */
static void needs_messages(void) {
    static const struct bytes plains[2] = {{(const uint8_t *)"\x44\x01\x5d\x1f\0\0\x39\x74\x39localhost\x83tv1", 22},
                                           {(const uint8_t *)"\x64\x45\x5d\x1f\0\0\x39\x74\xffHello World!", 21}};
    static const struct {
        struct sealed_as as;
        oscore_size len;
        const char *oscore; /* from the OSCORE option on */
    } printed[] = {
        {{false, false, 0, 20, 0, false}, 17, "\x62\x09\x14\xff\x61\x2f\x10\x92\xf1\x77\x6f\x1c\x16\x68\xb3\x82\x5e"},
        {{false, false, 1, 20, 0, false}, 18, "\x63\x09\x14\x00\xff\x4e\xd3\x39\xa5\xa3\x79\xb0\xb8\xbc\x73\x1f\xff\xb0"},
        {{false, false, 2, 20, 0, false}, 26,
         "\x6b\x19\x14\x08\x37\xcb\xf3\x21\x00\x17\xa2\xd3\xff\x72\xcd\x72\x73\xfd\x33\x1a\xc4\x5c\xff\xbe\x55\xc3"},
        {{true, false, 0, 20, 0, false}, 24, "\x90\xff\xdb\xaa\xd1\xe9\xa7\xe7\xb2\xa8\x13\xd3\xc3\x15\x24\x37\x83\x03\xcd\xaf\xae\x11\x91\x06"},
        {{true, true, 0, 20, 0, false}, 26,
         "\x92\x01\x00\xff\x4d\x4c\x13\x66\x93\x84\xb6\x73\x54\xb2\xb6\x17\x5f\xf4\xb8\x65\x8c\x66\x6a\x6c\xf8\x8e"},
    };
    for (oscore_size i = 0; i < sizeof printed / sizeof *printed; i++) {
        struct sealed_as as = printed[i].as;
        struct bytes plain = plains[as.is_response], wanted = {(const uint8_t *)printed[i].oscore, printed[i].len};
        struct head head = {as.is_response ? ACK : CON, as.is_response ? OUTER_RESPONSE : OUTER_REQUEST, 0x5d1f, {plain.at + 4, 4}};
        struct sealed sealed;
        seal_plain(as, head, plain, &sealed);
        NEEDS(sealed.datagram.len == (as.is_response ? 8 : 18) + wanted.len);
        NEEDS(is_same(behind(bytes_of(&sealed.datagram), as.is_response ? 8 : 18), wanted));
    }
}

void begin_sealing(void) {
    needs_cipher();
    for (oscore_size i = 0; i < CONTEXTS; i++) {
        for (int is_server = 0; is_server < 2; is_server++) {
            derive(i, is_server, false, &ends[i][is_server].context);
            expand_key(&ends[i][is_server].key, ends[i][is_server].context.sender_key);
        }
    }
    needs_messages();
}

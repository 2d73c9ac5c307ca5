/* Reads datagrams (RFC 7252, 3), plaintexts (RFC 8613, 5.3) and values of the OSCORE option (RFC 8613, 6.1). */
#include "reader.h"
#include "../../oscore.h"

/* The most bytes of a datagram, and the largest number of an option; own rules. */
enum { MOST_DATAGRAM = 65535, MOST_NUMBER = 65535 };

bool is_request_code(uint8_t code) {
    return code >= 1 && code <= 31;
}

bool is_response_code(uint8_t code) {
    return code >> 5 == 2 || code >> 5 == 4 || code >> 5 == 5;
}

bool is_request(struct head head) {
    return (head.kind == CON || head.kind == NON) && is_request_code(head.code);
}

bool is_response(struct head head) {
    return head.kind != RST && is_response_code(head.code);
}

/* A delta or a length by its nibble, and by the bytes at the front of the rest where it is 13 or 14 (RFC 7252, 3.1). */
static bool read_amount(uint8_t nibble, struct bytes *rest, uint32_t *amount) {
    oscore_size more = nibble < 13 ? 0 : nibble - 12u;
    if (more > rest->len) return false;
    *amount = more == 0 ? nibble : more == 1 ? 13u + rest->at[0] : 269u + (rest->at[0] * 256u + rest->at[1]);
    *rest = behind(*rest, more);
    return true;
}

/* The option in front of the rest, which isn't empty and begins with no marker. */
static uint32_t read_option(struct option *option) {
    uint8_t first = option->rest.at[0];
    struct bytes rest = behind(option->rest, 1);
    uint32_t delta, len;
    if (first >> 4 == 15 || (first & 15) == 15) return OSCORE_NIBBLE15;
    if (!read_amount(first >> 4, &rest, &delta) || !read_amount(first & 15, &rest, &len) || len > rest.len) return OSCORE_OPTION_CUT;
    if (option->number + delta > MOST_NUMBER) return OSCORE_NUMBER_TOO_LARGE;
    *option = (struct option){option->number + delta, front_of(rest, len), behind(rest, len)};
    return OSCORE_DONE;
}

struct option begun(const struct body *body) {
    return (struct option){0, {NULL, 0}, body->options};
}

bool next_of(struct option *option) {
    return option->rest.len && read_option(option) == OSCORE_DONE;
}

oscore_size count_of(const struct body *body, uint32_t number) {
    oscore_size count = 0;
    for (struct option option = begun(body); next_of(&option);) count += option.number == number;
    return count;
}

bool first_of(const struct body *body, uint32_t number, struct bytes *value) {
    for (struct option option = begun(body); next_of(&option);) {
        if (option.number != number) continue;
        *value = option.value;
        return true;
    }
    return false;
}

bool is_outer(uint32_t number) {
    static const uint32_t numbers[] = {URI_HOST, URI_PORT, OSCORE, HOP_LIMIT, EDHOC, PROXY_URI, PROXY_SCHEME};
    for (oscore_size i = 0; i < sizeof numbers / sizeof *numbers; i++)
        if (numbers[i] == number) return true;
    return false;
}

/* The first Observe, if it has at most 3 bytes. */
static bool observe_of(const struct body *body, struct bytes *value) {
    return first_of(body, OBSERVE, value) && value->len <= MOST_OBSERVE;
}

bool has_observe(const struct body *body) {
    struct bytes value;
    return observe_of(body, &value);
}

bool is_registration(uint8_t code, const struct body *body) {
    struct bytes value;
    if ((code != 1 && code != 5) || !observe_of(body, &value)) return false;
    for (oscore_size i = 0; i < value.len; i++)
        if (value.at[i]) return false;
    return true;
}

/* The number 1, with any count of leading zero bytes. */
bool is_cancellation(uint8_t code, const struct body *body) {
    struct bytes value;
    if ((code != 1 && code != 5) || !observe_of(body, &value) || !value.len || value.at[value.len - 1] != 1) return false;
    for (oscore_size i = 0; i + 1 < value.len; i++)
        if (value.at[i]) return false;
    return true;
}

bool is_notification(uint8_t code, const struct body *body) {
    return code >> 5 == 2 && has_observe(body);
}

static bool is_block(uint32_t number) {
    return number == BLOCK2 || number == BLOCK1 || number == Q_BLOCK1 || number == Q_BLOCK2;
}

static bool is_left_out(uint32_t number, struct allowed allowed) {
    return (number == OBSERVE && !allowed.observe) || (is_block(number) && !allowed.blocks);
}

uint32_t left_out_of(const struct body *body, struct allowed allowed) {
    for (struct option option = begun(body); next_of(&option);)
        if (is_left_out(option.number, allowed)) return option.number;
    return 0;
}

uint32_t unsupported_of(const struct body *body, struct allowed allowed) {
    for (struct option option = begun(body); next_of(&option);)
        if (is_left_out(option.number, allowed) || option.number == OSCORE || option.number == PROXY_URI || option.number == PROXY_SCHEME)
            return option.number;
    return 0;
}

/* Options and payload, or the first fault and its place. */
static uint32_t read_body(struct bytes bytes, struct body *body, oscore_size *place) {
    struct option option = {0, {NULL, 0}, bytes};
    while (option.rest.len && option.rest.at[0] != 0xff) {
        *place = bytes.len - option.rest.len;
        uint32_t fault = read_option(&option);
        if (fault) return fault;
    }
    *place = bytes.len - option.rest.len;
    if (option.rest.len == 1) return OSCORE_EMPTY_PAYLOAD;
    *body = (struct body){front_of(bytes, *place), behind(option.rest, 1)};
    return OSCORE_DONE;
}

uint32_t read_datagram(struct bytes datagram, struct seen *seen, oscore_size *place) {
    *place = datagram.len > MOST_DATAGRAM ? MOST_DATAGRAM : 0;
    if (datagram.len > MOST_DATAGRAM) return OSCORE_DATAGRAM_TOO_LONG;
    if (datagram.len < 4) return OSCORE_SHORT;
    uint8_t first = datagram.at[0], code = datagram.at[1];
    oscore_size token_len = first & 15, in_body;
    if (first >> 6 != 1) return OSCORE_VERSION;
    if (token_len > 8) return OSCORE_TOKEN_LENGTH;
    /* An empty message has nothing behind its message ID (RFC 7252, 4.1). */
    *place = code == 0 && token_len ? 0 : 4;
    if (code == 0 && (token_len || datagram.len > 4)) return OSCORE_EMPTY_WITH_REST;
    if (datagram.len < 4 + token_len) return OSCORE_TOKEN_CUT;
    struct bytes rest = behind(datagram, 4);
    seen->head = (struct head){first >> 4 & 3, code, (uint16_t)(datagram.at[2] << 8 | datagram.at[3]), front_of(rest, token_len)};
    uint32_t fault = read_body(behind(rest, token_len), &seen->body, &in_body);
    *place = fault ? 4 + token_len + in_body : 0;
    return fault;
}

bool read_inner(struct bytes plaintext, struct allowed allowed, uint8_t *code, struct body *body) {
    oscore_size place;
    if (!plaintext.len || read_body(behind(plaintext, 1), body, &place)) return false;
    *code = plaintext.at[0];
    for (struct option option = begun(body); next_of(&option);)
        if (is_outer(option.number)) return false;
    return !left_out_of(body, allowed);
}

/* Cuts so many bytes from the front of the rest. */
static bool cut(struct bytes *rest, oscore_size len, struct bytes *front) {
    if (len > rest->len) return false;
    *front = front_of(*rest, len), *rest = behind(*rest, len);
    return true;
}

/* 3 reserved bits, h, k and n, the Partial IV, a length and the kid context, the kid (RFC 8613, 6.1). A value with only zero bits in front
   is spelled as the empty one; a Partial IV has no leading zero but of the number 0 (RFC 8613, 5). */
bool read_value(struct bytes bytes, struct value *value) {
    struct bytes rest = bytes, piv, len = {NULL, 0};
    *value = (struct value){.has_number = false};
    if (!bytes.len) return true;
    uint8_t flag = bytes.at[0];
    rest = behind(rest, 1);
    if (bytes.len > 255 || flag == 0 || flag > 31 || (flag & 7) > 5 || !cut(&rest, flag & 7, &piv)) return false;
    if (piv.len > 1 && piv.at[0] == 0) return false;
    value->has_number = piv.len > 0, value->has_kid_context = flag & 16, value->has_kid = flag & 8;
    for (oscore_size i = 0; i < piv.len; i++) value->number = value->number << 8 | piv.at[i];
    if (value->has_kid_context && (!cut(&rest, 1, &len) || !cut(&rest, len.at[0], &value->kid_context))) return false;
    if (value->has_kid) value->kid = rest;
    return value->has_kid || !rest.len;
}

bool usable_value(const struct body *body, struct value *value) {
    struct bytes bytes;
    if (count_of(body, OSCORE) != 1 || !body->payload.len || count_of(body, PROXY_URI) || count_of(body, PROXY_SCHEME)) return false;
    return first_of(body, OSCORE, &bytes) && read_value(bytes, value);
}

/* Writes datagrams (RFC 7252, 3), plaintexts (RFC 8613, 5.3) and values of the OSCORE option (RFC 8613, 6.1), byte by byte. */
#include "reader.h"

struct spelling spell_datagram(struct head head) {
    struct spelling spelling = {.number = 0};
    add_byte(&spelling.text, (uint8_t)(0x40 | head.kind << 4 | head.token.len));
    add_byte(&spelling.text, head.code);
    add_byte(&spelling.text, (uint8_t)(head.message_id >> 8));
    add_byte(&spelling.text, (uint8_t)head.message_id);
    add_bytes(&spelling.text, head.token);
    return spelling;
}

struct spelling spell_plaintext(uint8_t code) {
    struct spelling spelling = {.number = 0};
    add_byte(&spelling.text, code);
    return spelling;
}

/* The values and numbers that are made here are so small that neither amount takes more than a byte behind its nibble. */
void spell_option(struct spelling *spelling, uint32_t number, struct bytes value) {
    oscore_size amounts[2] = {number - spelling->number, value.len};
    NEEDS(number >= spelling->number && amounts[0] < 269 && amounts[1] < 269);
    add_byte(&spelling->text, (uint8_t)((amounts[0] < 13 ? amounts[0] : 13) << 4 | (amounts[1] < 13 ? amounts[1] : 13)));
    for (int i = 0; i < 2; i++)
        if (amounts[i] >= 13) add_byte(&spelling->text, (uint8_t)(amounts[i] - 13));
    add_bytes(&spelling->text, value);
    spelling->number = number;
}

struct text spell_end(struct spelling *spelling, struct bytes payload) {
    if (payload.len) {
        add_byte(&spelling->text, 0xff);
        add_bytes(&spelling->text, payload);
    }
    return spelling->text;
}

struct text spell_number(uint64_t number) {
    struct text text = {.len = 0};
    for (int shift = 56; shift >= 0; shift -= 8)
        if (number >> shift || shift == 0) add_byte(&text, (uint8_t)(number >> shift));
    return text;
}

struct text spell_value(const struct value *value) {
    struct text text = {.len = 0}, number = spell_number(value->number);
    uint8_t flag = (uint8_t)((value->has_number ? number.len : 0) | (value->has_kid_context ? 16 : 0) | (value->has_kid ? 8 : 0));
    if (!flag) return text;
    add_byte(&text, flag);
    if (value->has_number) add_bytes(&text, bytes_of(&number));
    if (value->has_kid_context) {
        add_byte(&text, (uint8_t)value->kid_context.len);
        add_bytes(&text, value->kid_context);
    }
    if (value->has_kid) add_bytes(&text, value->kid);
    return text;
}

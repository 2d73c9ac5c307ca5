/* What is done to a datagram on its way. */
#include "making.h"
#include <string.h>

/* Where the last that was delivered lies; a long one has some bytes more than any may have. */
static uint8_t way[65600];

/* Values of the OSCORE option beside an empty one: good ones and bad ones. */
static const struct {
    oscore_size len;
    const char *at;
} VALUES[] = {
    {0, ""}, {1, "\x00"}, {1, "\x08"}, {1, "\x10"}, {1, "\x09"}, {2, "\x09\x14"}, {2, "\x01\x14"}, {3, "\x01\x14\xaa"},
    {3, "\x0a\x00\x14"}, {3, "\x0a\x00\x00"}, {3, "\x02\x00\x05"}, {6, "\x0d\xff\xff\xff\xff\xff"}, {7, "\x0e\1\2\3\4\5\6"},
    {3, "\x19\x14\x00"}, {4, "\x19\x14\x09\x01"}, {2, "\x29\x14"}, {3, "\x09\x14\x00"}, {2, "\x18\x01"},
};

static struct bytes draw_value(void) {
    oscore_size place = below(sizeof VALUES / sizeof *VALUES);
    return (struct bytes){(const uint8_t *)VALUES[place].at, VALUES[place].len};
}

/* Another number in the place of a value's own, mostly close to it. */
static void change_number(struct value *value) {
    uint64_t number = value->has_number ? value->number : 20, any = below(NUMBER_LIMIT), last = NUMBER_LIMIT - 1;
    uint64_t choice = below(4);
    value->has_number = choice > 0;
    value->number = choice == 1 ? any : choice == 2 ? (number ? number - 1 : 0) : number < last ? number + 1 : last;
}

/* What a value says, with one part changed. */
static void change(struct value *value) {
    static const uint8_t kids[2] = {0, 1}, id_contexts[1] = {0x37};
    const struct bytes parts[2][4] = {{{NULL, 0}, {NULL, 0}, {kids, 1}, {kids + 1, 1}},
                                      {{NULL, 0}, {NULL, 0}, AGREED[2].id_context, {id_contexts, 1}}};
    uint64_t choice = below(3), other = below(4);
    if (choice == 0) change_number(value);
    /* None, an empty one, and others. */
    if (choice == 1) value->has_kid = other > 0, value->kid = parts[0][other];
    if (choice == 2) value->has_kid_context = other > 0, value->kid_context = parts[1][other];
}

static struct text whole(struct bytes datagram) {
    struct text text = {.len = 0};
    add_bytes(&text, datagram);
    return text;
}

/* An option without a value, whose number is about the largest: a delta of 269 and what two bytes say (RFC 7252, 3.1). */
static void spell_far_option(struct spelling *spelling, uint32_t number) {
    uint32_t delta = number - spelling->number - 269;
    add_byte(&spelling->text, 0xe0);
    add_byte(&spelling->text, (uint8_t)(delta >> 8));
    add_byte(&spelling->text, (uint8_t)delta);
}

/* A datagram that is spelled again without what stands outside beside OSCORE, and with another part: its kind, its code, its payload, an
   option more, or its OSCORE values. */
static struct text respell(struct bytes datagram) {
    static const uint8_t codes[8] = {0, 1, 2, 31, 0x20, 0x45, 0x84, 0xa0};
    struct seen seen;
    struct bytes bytes = {NULL, 0}, other = draw_value(), none = {NULL, 0};
    struct value value;
    oscore_size place;
    if (read_datagram(datagram, &seen, &place)) return whole(datagram);
    oscore_size times = count_of(&seen.body, OSCORE);
    if (times != 1 || !first_of(&seen.body, OSCORE, &bytes)) times = 0;
    if (!read_value(bytes, &value)) value = (struct value){.has_number = false};
    change(&value);
    struct text changed = spell_value(&value);
    uint8_t code = codes[below(8)], kind = (uint8_t)below(4);
    uint32_t far = 65534 + (uint32_t)below(4);
    uint64_t choice = below(13);
    if (choice == 0) seen.head.code = code;
    if (choice == 6) seen.head.kind = kind;
    if (choice == 3 || choice == 4) times = choice == 3 ? 0 : 2;
    if (choice > 6 && choice < 12) bytes = choice < 9 ? other : bytes_of(&changed);
    struct spelling spelling = spell_datagram(seen.head);
    if (choice == 12) spell_option(&spelling, OBSERVE, none);
    if (times > 0) spell_option(&spelling, OSCORE, bytes);
    if (times > 1) spell_option(&spelling, OSCORE, other);
    if (choice == 2) spell_option(&spelling, PROXY_SCHEME, (struct bytes){(const uint8_t *)"coap", 4});
    if (choice == 5) spell_far_option(&spelling, far);
    return spell_end(&spelling, choice == 1 ? none : seen.body.payload);
}

/* Some bytes of a datagram's front, and some of another's end. */
static struct text splice(struct bytes front, struct bytes end) {
    oscore_size front_len = front.len ? below(front.len) : 0, cut = end.len ? below(end.len) : 0;
    struct text text = {.len = 0};
    add_bytes(&text, front_of(front, front_len));
    add_bytes(&text, behind(end, cut));
    return text;
}

/* A datagram with a byte turned by some bits. */
static struct text turn(struct bytes datagram, uint8_t bits) {
    struct text text = whole(datagram);
    if (text.len) text.at[below(text.len)] ^= bits;
    return text;
}

static struct text changed_on_its_way(bool to_client) {
    struct bytes other = any_sealed(), nothing = {NULL, 0};
    uint64_t which = below(8), trick = below(30);
    struct bytes datagram = which < 2 ? other : which < 4 ? last_by_library(to_client) : last_sealed();
    uint8_t bit = (uint8_t)(1 << below(8)), bits = (uint8_t)below(256);
    if (trick < 2) return splice(datagram, nothing);
    if (trick < 4) return turn(datagram, trick == 2 ? bit : bits);
    if (trick == 4) return splice(datagram, other);
    if (trick == 5) return draw_text(40);
    return trick < 15 ? respell(datagram) : whole(datagram);
}

/* Now and then a datagram is about as long as one may be: behind it stands one byte again and again, which in a payload is any, and in
   front of one an option without a value. */
struct bytes delivered(bool to_client) {
    static const uint8_t again[2] = {0x00, 0x10};
    struct text text = changed_on_its_way(to_client);
    bool is_long = one_in(1000);
    oscore_size len = is_long ? 65534 + below(4) : text.len;
    uint8_t byte = again[below(2)];
    memcpy(way, text.at, text.len);
    if (len > text.len) memset(way + text.len, byte, len - text.len);
    return (struct bytes){way, len};
}

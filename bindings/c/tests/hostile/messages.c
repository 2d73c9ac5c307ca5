/* Messages that are to be sealed, and plaintexts that aren't ones; the clients of the server's contexts. */
#include "making.h"
#include <string.h>

/* An option of block-wise transfer, or mostly none. */
static uint32_t draw_block(void) {
    static const uint32_t numbers[4] = {Q_BLOCK1, BLOCK2, BLOCK1, Q_BLOCK2};
    uint32_t number = numbers[below(4)];
    return one_in(10) ? number : 0;
}

struct plain draw_plain(uint8_t kind, uint8_t code, struct bytes token) {
    struct plain plain = {.kind = kind, .code = code};
    plain.message_id = (uint16_t)below(1 << 16);
    add_bytes(&plain.token, token);
    plain.has_host = one_in(3);
    plain.has_observe = one_in(6);
    plain.observe = draw_text(5);
    /* Where they have at most 3 bytes, half of them say register, by zeros or no byte, and a quarter cancels, by zeros and a 1. */
    bool registers = one_in(2), cancels = !registers && plain.observe.len && one_in(2);
    if (registers || cancels) memset(plain.observe.at, 0, plain.observe.len);
    if (cancels) plain.observe.at[plain.observe.len - 1] = 1;
    plain.has_further_observe = one_in(8);
    plain.further_observe = draw_text(5);
    plain.has_hop_limit = one_in(6);
    plain.has_edhoc = one_in(12);
    plain.block = draw_block();
    plain.payload = draw_text(9);
    return plain;
}

struct head head_of(const struct plain *plain, uint8_t code) {
    return (struct head){plain->kind, code, plain->message_id, bytes_of(&plain->token)};
}

struct text spell_plain(const struct plain *plain) {
    struct spelling spelling = spell_datagram(head_of(plain, plain->code));
    if (plain->has_host) spell_option(&spelling, URI_HOST, (struct bytes){(const uint8_t *)"localhost", 9});
    if (plain->has_observe) spell_option(&spelling, OBSERVE, bytes_of(&plain->observe));
    if (plain->has_observe && plain->has_further_observe) spell_option(&spelling, OBSERVE, bytes_of(&plain->further_observe));
    spell_option(&spelling, URI_PATH, (struct bytes){(const uint8_t *)"tv1", 3});
    if (plain->has_hop_limit) spell_option(&spelling, HOP_LIMIT, BYTES(10));
    if (plain->block == Q_BLOCK1) spell_option(&spelling, plain->block, BYTES(0x06));
    if (plain->has_edhoc) spell_option(&spelling, EDHOC, (struct bytes){NULL, 0});
    if (plain->block > EDHOC) spell_option(&spelling, plain->block, BYTES(0x06));
    if (plain->has_proxy) spell_option(&spelling, PROXY_SCHEME, (struct bytes){(const uint8_t *)"coap", 4});
    for (oscore_size i = 0; i < plain->echo_count; i++) spell_option(&spelling, ECHO, plain->echoes[i]);
    return spell_end(&spelling, bytes_of(&plain->payload));
}

/* A plaintext, mostly with a flaw, of a message that would have a code, where one of the other kind has another. */
static struct text draw_flawed(uint8_t code, uint8_t other_code) {
    static const uint8_t outer[12] = {URI_HOST, OBSERVE, URI_PORT, OSCORE, HOP_LIMIT, Q_BLOCK1, EDHOC, BLOCK2, BLOCK1, Q_BLOCK2, PROXY_URI, PROXY_SCHEME};
    static const uint8_t no_code[4] = {0, 0x20, 0x60, 0xe0}, nibbles[3] = {0x0f, 0xf0, 0xf1};
    uint8_t outer_number = outer[below(12)], wrong_code = no_code[below(4)], wrong_nibble = nibbles[below(3)];
    uint64_t flaw = below(9);
    if (flaw < 2) return draw_text(flaw == 0 ? 1 : 24);
    struct spelling spelling = spell_plaintext(flaw == 2 ? other_code : flaw == 3 ? wrong_code : code);
    if (flaw == 4) spell_option(&spelling, outer_number, BYTES('x'));
    spell_option(&spelling, ECHO, (struct bytes){(const uint8_t *)"12345678", 8});
    /* An option that is cut, nibbles of 15, and a marker with no payload. */
    if (flaw == 5) add_bytes(&spelling.text, BYTES(0x13, 0x61));
    if (flaw == 6) add_byte(&spelling.text, wrong_nibble);
    if (flaw == 7) add_byte(&spelling.text, 0xff);
    return spelling.text;
}

void seal_by_chance(struct sealed_as as, const struct plain *plain, uint8_t other_code, struct sealed *sealed) {
    struct head head = head_of(plain, outer_code(as, plain->has_observe && plain->observe.len <= MOST_OBSERVE));
    struct text datagram = spell_plain(plain);
    if (!one_in(4)) {
        seal_plain(as, head, bytes_of(&datagram), sealed);
        return;
    }
    struct text flawed = draw_flawed(plain->code, other_code);
    seal_other(as, head, bytes_of(&datagram), bytes_of(&flawed), sealed);
}

void learn(struct requester *requester, const struct life *life) {
    oscore_size len = sizeof requester->last;
    if (!life->is_challenged || !memcmp(requester->last, life->challenge.echo, len)) return;
    memcpy(requester->older, requester->last, len);
    memcpy(requester->last, life->challenge.echo, len);
}

void add_echoes(const struct requester *requester, struct plain *plain) {
    struct bytes last = {requester->last, 8}, older = {requester->older, 8};
    uint64_t choice = below(10);
    if (choice < 4) return;
    if (choice < 6) plain->echoes[plain->echo_count++] = older;
    if (choice > 4) plain->echoes[plain->echo_count++] = front_of(last, choice == 6 ? 7 : 8);
}

/* The number of a request: mostly the next or one ahead, else a late one. A step of about 64 is likely, since tickets and windows reach
   that far. */
static uint64_t draw_number(struct requester *requester, const struct life *life) {
    uint64_t far = one_in(4) ? 62 + below(4) : below(70), near = below(3), choice = below(8), last = NUMBER_LIMIT - 1;
    bool jumps = one_in(200);
    if (choice == 0) return requester->next > far ? requester->next - far - 1 : 0;
    if (choice <= 2) {
        /* About as far below the highest number that is spent as the window reaches. */
        uint64_t edge = near + (has_highest(life) ? highest_of(life) : requester->next), window = life->agreed->window_places;
        return edge > window ? (edge - window < last ? edge - window : last) : 0;
    }
    if (choice <= 4) requester->next += far;
    if (jumps) requester->next = last - far;
    uint64_t number = requester->next < last ? requester->next : last;
    requester->next = number + 1;
    return number;
}

void seal_next_request(struct requester *requester, const struct life *life, struct sealed *sealed) {
    static const uint8_t codes[8] = {1, 1, 1, 5, 5, 2, 3, 31};
    uint8_t kind = one_in(2) ? CON : NON, code = codes[below(8)];
    learn(requester, life);
    struct sealed_as as = {.context = requester->context, .request = draw_number(requester, life)};
    struct text token = draw_text(9);
    struct plain plain = draw_plain(kind, code, bytes_of(&token));
    add_echoes(requester, &plain);
    seal_by_chance(as, &plain, 0x45, sealed);
}

uint64_t next_moment(uint64_t *last, const uint64_t *began, uint64_t life_ms) {
    uint64_t near = *last + below(300), choice = below(80), back = below(life_ms), now = near;
    if (choice == 0) now = near + life_ms;
    if (choice == 1) return *last > back ? *last - back : 0;
    if (choice >= 2 && choice <= 9 && began) now = *began + life_ms;
    if (choice >= 10 && choice <= 13 && began) now = *began + life_ms + 1;
    if (*last < now) *last = now;
    return now;
}

uint64_t next_number(uint64_t times) {
    uint64_t small = below(3);
    return one_in(times) ? NUMBER_LIMIT - 1 - small : small;
}

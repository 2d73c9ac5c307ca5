/* Bytes that lie elsewhere, short texts, and chance. */
#include "bytes.h"
#include <stdio.h>
#include <stdlib.h>
#include <string.h>

static uint64_t chance;

void fails(const char *file, int line, const char *what) {
    printf("%s:%d: the test is wrong: %s\n", file, line, what);
    exit(2);
}

struct bytes front_of(struct bytes bytes, oscore_size len) {
    return (struct bytes){bytes.at, len < bytes.len ? len : bytes.len};
}

struct bytes behind(struct bytes bytes, oscore_size len) {
    return len < bytes.len ? (struct bytes){bytes.at + len, bytes.len - len} : (struct bytes){NULL, 0};
}

bool is_same(struct bytes one, struct bytes other) {
    return one.len == other.len && (one.len == 0 || !memcmp(one.at, other.at, one.len));
}

struct bytes bytes_of(const struct text *text) {
    return (struct bytes){text->at, text->len};
}

void add_byte(struct text *text, uint8_t byte) {
    NEEDS(text->len < TEXT_ROOM);
    text->at[text->len++] = byte;
}

void add_bytes(struct text *text, struct bytes bytes) {
    NEEDS(bytes.len <= TEXT_ROOM - text->len);
    if (bytes.len) memcpy(text->at + text->len, bytes.at, bytes.len);
    text->len += bytes.len;
}

void begin_chance(uint64_t seed) {
    chance = seed;
}

static uint64_t draw(void) {
    uint64_t mixed = chance += 0x9e3779b97f4a7c15;
    mixed = (mixed ^ mixed >> 30) * 0xbf58476d1ce4e5b9;
    mixed = (mixed ^ mixed >> 27) * 0x94d049bb133111eb;
    return mixed ^ mixed >> 31;
}

uint64_t below(uint64_t limit) {
    return draw() % limit;
}

bool one_in(uint64_t times) {
    return below(times) == 0;
}

void draw_bytes(uint8_t *at, oscore_size len) {
    for (oscore_size i = 0; i < len; i++) at[i] = (uint8_t)draw();
}

struct text draw_text(oscore_size limit) {
    struct text text = {.len = below(limit)};
    draw_bytes(text.at, text.len);
    return text;
}

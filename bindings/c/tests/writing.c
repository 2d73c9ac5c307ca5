/* Writing plain messages: those of RFC 8613, C.4 and C.7, and each edge of an option's spelling, worked out by hand from RFC 7252, 3 and
   3.1; random messages, compared with what an encoder of this file makes of them; each refusal, their order, and what they leave. All that
   is handed in lies against a guard page. Built with the sanitizers by .ci/run, and run under valgrind's memcheck with fewer rounds, which
   its only word says. */
#include "guarded.h"
#include "../oscore.h"

#define CHECK(holds) do { if (!(holds)) { printf("writing.c:%d: %s\n", __LINE__, #holds); exit(1); } } while (0)

/* What is handed in, each at a place of its own. */
enum { TOKEN, OPTIONS, PAYLOAD, OUT, WRITTEN_LEN, DETAIL, NAME, VALUES, MOST_OPTIONS = 8 };
enum { CON, NON, ACK, RST };
static oscore_size *out_len, *detail;
static int rounds = 20000;

static void lay_out(bool before) {
    guarded_before = before;
    out_len = guarded_room(WRITTEN_LEN, sizeof *out_len);
    detail = guarded_room(DETAIL, sizeof *detail);
}

static oscore_size hex(const char *text, uint8_t *bytes) {
    oscore_size len = 0;
    unsigned byte;
    for (; *text; text += 2, bytes[len++] = (uint8_t)byte) CHECK(sscanf(text, "%2x", &byte) == 1);
    return len;
}

/* A message, as it is asked for. */
typedef struct message {
    uint8_t kind, code;
    uint16_t message_id;
    uint8_t token[9];
    oscore_size token_len;
    oscore_option options[MOST_OPTIONS];
    oscore_size option_count;
    const uint8_t *payload;
    oscore_size payload_len;
} message;

/* Asks for a message in so much room, which holds the byte ee before. Nothing but the message is changed, and by a refusal nothing. */
static uint32_t write_in(const message *m, oscore_size room, const uint8_t **written) {
    uint8_t *token = guarded_copy(TOKEN, m->token, m->token_len), *payload = guarded_copy(PAYLOAD, m->payload, m->payload_len);
    oscore_option *options = guarded_copy(OPTIONS, m->options, m->option_count * sizeof *options);
    for (oscore_size i = 0; i < m->option_count; i++) options[i].value = guarded_copy(VALUES + i, m->options[i].value, options[i].value_len);
    uint8_t *out = guarded_room(OUT, room);
    memset(out, 0xee, room);
    *out_len = 99999, *detail = 99999;
    uint32_t status = oscore_write_message(m->kind, m->code, m->message_id, token, m->token_len, options, m->option_count, payload,
                                           m->payload_len, out, room, out_len, detail);
    CHECK(status ? *out_len == 99999 && *detail != 99999 : *out_len <= room && *detail == 99999);
    for (oscore_size i = status ? 0 : *out_len; i < room; i++) CHECK(out[i] == 0xee);
    *written = out;
    return status;
}

/* The message is these bytes, in as much room as they take and in more, and has no room in less. */
static void is(const message *m, const uint8_t *wanted, oscore_size len) {
    const uint8_t *out;
    CHECK(!write_in(m, len, &out) && *out_len == len && !memcmp(out, wanted, len));
    CHECK(!write_in(m, len + 7, &out) && *out_len == len && !memcmp(out, wanted, len));
    CHECK(write_in(m, len - 1, &out) == OSCORE_NO_ROOM && *detail == 0);
    CHECK(write_in(m, 0, &out) == OSCORE_NO_ROOM && *detail == 0);
}

static void is_text(const message *m, const char *wanted) {
    uint8_t bytes[64];
    is(m, bytes, hex(wanted, bytes));
}

#define OPTION(number, value) {number, (const uint8_t *)(value), sizeof(value) - 1}

static void writes_what_is_printed(void) {
    /* RFC 8613, C.4 and C.7: GET coap://localhost/tv1, and its answer. */
    message request = {CON, 1, 0x5d1f, {0, 0, 0x39, 0x74}, 4, {OPTION(3, "localhost"), OPTION(11, "tv1")}, 2, NULL, 0};
    message answer = {ACK, 69, 0x5d1f, {0, 0, 0x39, 0x74}, 4, {OPTION(0, "")}, 0, (const uint8_t *)"Hello World!", 12};
    is_text(&request, "44015d1f00003974396c6f63616c686f737483747631");
    is_text(&answer, "64455d1f00003974ff48656c6c6f20576f726c6421");
    /* RFC 7252, 4.3 and 4.2: a ping, and a reset to it. Then a token of 8 bytes, in a NON. */
    message ping = {CON, 0, 0x1234, {0}, 0, {OPTION(0, "")}, 0, NULL, 0}, reset = {RST, 0, 0x1234, {0}, 0, {OPTION(0, "")}, 0, NULL, 0};
    is_text(&ping, "40001234");
    is_text(&reset, "70001234");
    message longest = {NON, 4, 0xffff, {1, 2, 3, 4, 5, 6, 7, 8}, 8, {OPTION(0, "")}, 0, NULL, 0};
    is_text(&longest, "5804ffff0102030405060708");
}

/* A delta of up to 12 stands in the option's byte; from 13 on it is 13 and a byte, less 13; from 269 on 14 and two bytes, less 269. */
static void spells_numbers(void) {
    static const struct { uint16_t number; const char *wanted; } ROWS[] = {
        {0, "4001000100"}, {12, "40010001c0"}, {13, "40010001d000"}, {14, "40010001d001"}, {268, "40010001d0ff"}, {269, "40010001e00000"},
        {270, "40010001e00001"}, {525, "40010001e00100"}, {65535, "40010001e0fef2"},
    };
    message m = {CON, 1, 1, {0}, 0, {OPTION(0, "")}, 1, NULL, 0};
    for (oscore_size i = 0; i < sizeof ROWS / sizeof ROWS[0]; i++) {
        m.options[0].number = ROWS[i].number;
        is_text(&m, ROWS[i].wanted);
    }
    /* Uri-Path twice, Uri-Query, If-None-Match before them, and a number of 65,535 behind: each delta counts from the option before. */
    message several = {CON, 1, 1, {7}, 1, {OPTION(5, ""), OPTION(11, "a"), OPTION(11, "bc"), OPTION(15, "d=1"), OPTION(65535, "z")}, 5,
                       (const uint8_t *)"p", 1};
    is_text(&several, "410100010750616102626343643d31e1fee37aff70");
}

/* So is the length of a value. A value of no bytes may have no place. */
static void spells_lengths(void) {
    static const struct { oscore_size len; const char *front; } ROWS[] = {
        {0, "40010001b0"}, {1, "40010001b1"}, {12, "40010001bc"}, {13, "40010001bd00"}, {268, "40010001bdff"}, {269, "40010001be0000"},
        {270, "40010001be0001"}, {65528, "40010001befeeb"},
    };
    static uint8_t value[65528], wanted[65600];
    memset(value, 'v', sizeof value);
    for (oscore_size i = 0; i < sizeof ROWS / sizeof ROWS[0]; i++) {
        message m = {CON, 1, 1, {0}, 0, {{11, value, ROWS[i].len}}, 1, NULL, 0};
        oscore_size len = hex(ROWS[i].front, wanted);
        memset(wanted + len, 'v', ROWS[i].len);
        is(&m, wanted, len + ROWS[i].len);
    }
    oscore_option *none = guarded(OPTIONS, sizeof *none);
    uint8_t *out = guarded_room(OUT, 5);
    CHECK(!oscore_write_message(CON, 1, 1, NULL, 0, none, 1, NULL, 0, out, 5, out_len, detail) && *out_len == 5
        && !memcmp(out, "\x40\x01\x00\x01\x00", 5));
    CHECK(oscore_write_message(CON, 1, 1, NULL, 0, NULL, 0, NULL, 0, NULL, 0, out_len, detail) == OSCORE_NO_ROOM);
}

static uint32_t refused(const message *m, oscore_size room) {
    const uint8_t *out;
    return write_in(m, room, &out);
}

/* A message with every fault, of which one after the other is mended. */
static void refuses_in_order(void) {
    static uint8_t value[65805];
    message m = {4, 0, 1, {0}, 9, {{11, value, 65805}, {12, value, 2}, {12, value, 65805}, {9, value, 3}, {8, value, 65805}}, 5,
                 value, 1};
    CHECK(refused(&m, 1) == OSCORE_BAD_NUMBER && *detail == 0);
    m.kind = 255;
    CHECK(refused(&m, 1) == OSCORE_BAD_NUMBER && *detail == 0);
    m.kind = RST;
    CHECK(refused(&m, 1) == OSCORE_TOKEN_LENGTH && *detail == 0);
    m.token_len = 8;
    CHECK(refused(&m, 1) == OSCORE_EMPTY_WITH_REST && *detail == 0);
    m.code = 1;
    CHECK(refused(&m, 1) == OSCORE_OPTION_ORDER && *detail == 3);
    m.options[3].number = 12;
    CHECK(refused(&m, 1) == OSCORE_OPTION_ORDER && *detail == 4);
    m.options[4].number = 12;
    CHECK(refused(&m, 1) == OSCORE_VALUE_TOO_LONG && *detail == 0);
    m.options[0].value_len = 1;
    CHECK(refused(&m, 1) == OSCORE_VALUE_TOO_LONG && *detail == 2);
    m.options[2].value_len = 65804;
    CHECK(refused(&m, 1) == OSCORE_VALUE_TOO_LONG && *detail == 4);
    m.options[4].value_len = 0;
    CHECK(refused(&m, 1) == OSCORE_NO_ROOM && *detail == 0);
    CHECK(refused(&m, 65900) == OSCORE_NO_ROOM && *detail == 0);
    m.options[2].value_len = 4;
    /* 12 for head and token, then b1 and 1, 12 and 2, 04 and 4, 03 and 3, 00, then ff and 1. */
    CHECK(refused(&m, 28) == OSCORE_NO_ROOM && *detail == 0);
    CHECK(refused(&m, 29) == OSCORE_DONE && *out_len == 29);
}

/* Each of what a message of code 0.00 may not have, alone (RFC 7252, 4.1); and 65,535 bytes, which are the most. */
static void refuses_alone(void) {
    static uint8_t payload[65531];
    message token = {CON, 0, 1, {0}, 1, {OPTION(0, "")}, 0, NULL, 0}, option = {CON, 0, 1, {0}, 0, {OPTION(0, "")}, 1, NULL, 0};
    message filled = {CON, 0, 1, {0}, 0, {OPTION(0, "")}, 0, payload, 1}, late = {CON, 1, 1, {0}, 0, {OPTION(1, ""), OPTION(0, "")}, 2, NULL, 0};
    CHECK(refused(&token, 64) == OSCORE_EMPTY_WITH_REST && refused(&option, 64) == OSCORE_EMPTY_WITH_REST
        && refused(&filled, 64) == OSCORE_EMPTY_WITH_REST);
    CHECK(refused(&late, 64) == OSCORE_OPTION_ORDER && *detail == 1);
    filled.code = 1, filled.payload_len = 65530;
    CHECK(!refused(&filled, 65600) && *out_len == 65535);
    filled.payload_len = 65531;
    CHECK(refused(&filled, 65600) == OSCORE_NO_ROOM && *detail == 0);
}

static void names_statuses(void) {
    char *name = guarded_room(NAME, 24);
    oscore_status_name(OSCORE_OPTION_ORDER, name);
    CHECK(!strcmp(name, "OptionOrder"));
    oscore_status_name(OSCORE_VALUE_TOO_LONG, name);
    CHECK(!strcmp(name, "ValueTooLong"));
    oscore_status_name(OSCORE_SCHEME_LENGTH + 1, name);
    CHECK(!strcmp(name, "Unknown"));
}

/* A delta, or the length of a value, as RFC 7252, 3.1 spells it: its half of the option's byte, and then the bytes behind that. */
static unsigned half(unsigned n) {
    return n < 13 ? n : n < 269 ? 13 : 14;
}

static oscore_size put_behind(uint8_t *bytes, oscore_size len, unsigned n) {
    if (half(n) == 13) bytes[len++] = (uint8_t)(n - 13);
    if (half(n) == 14) bytes[len++] = (uint8_t)((n - 269) >> 8), bytes[len++] = (uint8_t)(n - 269);
    return len;
}

static oscore_size encode(const message *m, uint8_t *bytes) {
    oscore_size len = 4;
    unsigned last = 0;
    bytes[0] = (uint8_t)(1 << 6 | m->kind << 4 | (int)m->token_len), bytes[1] = m->code;
    bytes[2] = (uint8_t)(m->message_id >> 8), bytes[3] = (uint8_t)m->message_id;
    for (oscore_size i = 0; i < m->token_len; i++) bytes[len++] = m->token[i];
    for (oscore_size i = 0; i < m->option_count; i++) {
        unsigned delta = m->options[i].number - last, value_len = (unsigned)m->options[i].value_len;
        bytes[len++] = (uint8_t)(half(delta) << 4 | half(value_len));
        len = put_behind(bytes, put_behind(bytes, len, delta), value_len);
        for (oscore_size k = 0; k < value_len; k++) bytes[len++] = m->options[i].value[k];
        last = m->options[i].number;
    }
    if (m->payload_len > 0) bytes[len++] = 0xff;
    for (oscore_size i = 0; i < m->payload_len; i++) bytes[len++] = m->payload[i];
    return len;
}

/* Up to the ranges of one byte, of one byte more, and of two bytes more, each as often. */
static unsigned random_part(void) {
    static const unsigned RANGES[3] = {13, 269, 700};
    return (unsigned)rand() % RANGES[rand() % 3];
}

static void writes_at_random(void) {
    static uint8_t noise[1024], wanted[16384];
    for (oscore_size i = 0; i < sizeof noise; i++) noise[i] = (uint8_t)rand();
    for (int i = 0; i < rounds; i++) {
        message m = {(uint8_t)(rand() % 4), (uint8_t)(1 + rand() % 255), (uint16_t)rand(), {0}, (oscore_size)rand() % 9, {OPTION(0, "")}, 0,
                     noise + rand() % 256, random_part()};
        unsigned number = 0;
        for (oscore_size k = 0; k < m.token_len; k++) m.token[k] = (uint8_t)rand();
        for (oscore_size left = (oscore_size)rand() % (MOST_OPTIONS + 1); left > 0; left--) {
            number += random_part();
            m.options[m.option_count++] = (oscore_option){(uint16_t)number, noise + rand() % 256, random_part()};
        }
        oscore_size len = encode(&m, wanted);
        const uint8_t *out;
        CHECK(!write_in(&m, len + (oscore_size)rand() % 9, &out) && *out_len == len && !memcmp(out, wanted, len));
        CHECK(write_in(&m, (oscore_size)rand() % len, &out) == OSCORE_NO_ROOM);
        if (m.option_count < 2 || number == 0) continue;
        /* The last option in front of the first: the one that was first then comes late, or one before that doesn't ascend. */
        oscore_option last = m.options[m.option_count - 1];
        memmove(m.options + 1, m.options, (m.option_count - 1) * sizeof last);
        m.options[0] = last;
        if (m.options[1].number < last.number) CHECK(write_in(&m, len, &out) == OSCORE_OPTION_ORDER && *detail == 1);
    }
}

int main(int count, char **words) {
    srand(1);
    if (count > 1) rounds = atoi(words[1]);
    for (int before = 0; before < 2; before++) {
        lay_out(before);
        writes_what_is_printed();
        spells_numbers();
        spells_lengths();
        refuses_in_order();
        refuses_alone();
        names_statuses();
        writes_at_random();
    }
    printf("writing: what is printed, each edge of an option, each refusal; behind a guard page and before one %d messages at random\n", rounds);
    return 0;
}

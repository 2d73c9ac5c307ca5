#include "application.h"

enum { POST = 2, PUT = 3, CHANGED = 68, BAD_OPTION = 130, NOT_ALLOWED = 133, ACK = 2 };
enum { URI_PATH = 11, URI_QUERY = 15, DIGITS_MOST = 20, PAYLOAD_MOST = 1024 };

/* An odd number is an option that can't be passed over (RFC 7252, 5.4.1). */
static uint8_t judge(const item *of) {
    for (size_t i = 0; i < of->opened.option_count; i++) {
        uint16_t number = of->options[i].number;
        if (number % 2 == 1 && number != URI_PATH && number != URI_QUERY) return BAD_OPTION;
    }
    if (of->opened.has_more_options) return BAD_OPTION;
    return of->opened.code == POST || of->opened.code == PUT ? CHANGED : NOT_ALLOWED;
}

static void write_reply(item *of, uint8_t code, const uint8_t *payload, size_t len) {
    size_t detail;
    of->plain_len = 0;
    if (oscore_write_message(ACK, code, 0, NULL, 0, NULL, 0, payload, len, of->plain, sizeof of->plain, &of->plain_len, &detail)) of->plain_len = 0;
}

/* Writes a number in decimal, and says how many digits it has. */
static size_t write_decimal(uint64_t number, uint8_t to[DIGITS_MOST]) {
    uint8_t digits[DIGITS_MOST];
    size_t from = DIGITS_MOST;
    do digits[--from] = (uint8_t)('0' + number % 10);
    while ((number /= 10) > 0);
    memcpy(to, digits + from, DIGITS_MOST - from);
    return DIGITS_MOST - from;
}

void application_say(item *of, uint8_t code) {
    write_reply(of, code, NULL, 0);
}

void application_obey(item *of, bool counts) {
    uint8_t code = judge(of);
    if (code != CHANGED) {
        application_say(of, code);
        return;
    }
    if (counts) of->row.effect++;
    uint8_t text[DIGITS_MOST + 1 + PAYLOAD_MOST];
    size_t len = write_decimal(counts ? of->row.effect : 0, text);
    text[len++] = ' ';
    size_t payload_len = of->opened.payload_len < PAYLOAD_MOST ? of->opened.payload_len : PAYLOAD_MOST;
    if (payload_len > 0) memcpy(text + len, of->opened.payload, payload_len);
    if (payload_len >= 3 && !memcmp(of->opened.payload, "own", 3)) of->own = true;
    write_reply(of, CHANGED, text, len + payload_len);
    oscore_wipe(text, len + payload_len);
}

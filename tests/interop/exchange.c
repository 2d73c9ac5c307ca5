/* What one exchange costs, from bytes to bytes: one peer seals a request, another opens it and seals its response, the first opens that. The
   messages are those of RFC 8613, C.4 and C.7, but that both are NON, and that the response's payload has a length that is told. Numbers
   begin at 20.

       exchange LENGTH ROUNDS [tables] [each]

   It prints nanoseconds an exchange, of contexts in constant time or, with `tables`, by tables. A record that has to be saved first counts as
   saved, so no storage is measured: with all received numbers in it, so that no request asks for one, or, with `each`, as it is, so that each
   request asks for one and is then opened a second time. exchange_libcoap.c does the same by libcoap. */
#define _POSIX_C_SOURCE 200809L
#include "exchange.h"
#include "oscore.h"

enum { LIFE_MS = 60000 };

static oscore_peer asking, serving;
static oscore_pending pending[1];
static size_t pending_count;
static bool saves_each;

static void need(oscore_status status, const char *what) {
    char name[24];
    oscore_status_name(status, name);
    if (status == OSCORE_DONE) return;
    fprintf(stderr, "exchange: %s: %s\n", what, name);
    exit(1);
}

/* Whether a call asked for a record, which now counts as saved, so that the call is made again. */
static bool saves(oscore_peer *peer, oscore_peer_record *record, oscore_status status) {
    if (status != OSCORE_SAVE_FIRST) return false;
    need(saves_each ? oscore_peer_saved(peer, record) : oscore_peer_saved_nowhere(peer, record), "a record is saved");
    return true;
}

static size_t ask(uint8_t request[MOST]) {
    oscore_peer_record record;
    oscore_status status;
    size_t len, detail;
    do status = oscore_peer_request(&asking, pending, 1, &pending_count, 0, PLAIN_REQUEST, sizeof PLAIN_REQUEST, request, MOST, &len, &record,
                                    &detail);
    while (saves(&asking, &record, status));
    need(status, "the request is sealed");
    return len;
}

static oscore_ticket take(uint8_t *request, size_t len) {
    oscore_option options[8] = OSCORE_ZERO;
    oscore_opened opened = OSCORE_ZERO;
    oscore_ticket ticket = OSCORE_ZERO;
    oscore_peer_record record;
    oscore_status status;
    uint8_t out[64];
    size_t out_len, detail;
    do status = oscore_peer_take(&serving, 0, 1, request, len, options, 8, &opened, &ticket, out, &out_len, &record, &detail);
    while (saves(&serving, &record, status));
    need(status, "the request is opened");
    return ticket;
}

static size_t answer(oscore_ticket *ticket, size_t response_len, uint8_t response[MOST]) {
    oscore_peer_record record;
    oscore_status status;
    size_t len, detail;
    do status = oscore_peer_reply(&serving, ticket, false, 1, plain_response, response_len, response, MOST, &len, &record, &detail);
    while (saves(&serving, &record, status));
    need(status, "the response is sealed");
    return len;
}

static void hear(uint8_t *response, size_t len, size_t response_len) {
    oscore_option options[8] = OSCORE_ZERO;
    oscore_opened opened = OSCORE_ZERO;
    uint64_t number;
    size_t detail;
    need(oscore_peer_hear(&asking, pending, 1, &pending_count, 0, response, len, options, 8, &opened, &number, &detail), "the response is opened");
    if (opened.payload_len != response_len - RESPONSE_HEAD - 1 && response_len > RESPONSE_HEAD) need(OSCORE_INNER, "its length");
}

static void exchange(size_t response_len) {
    static uint8_t request[MOST], response[MOST], sent_request[MOST];
    bool is_first = asking.server.context.next == FIRST_NUMBER;
    size_t request_len = ask(request);
    if (is_first) memcpy(sent_request, request, request_len);
    oscore_ticket ticket = take(request, request_len);
    size_t len = answer(&ticket, response_len, response);
    if (is_first) compare_first(sent_request, request_len, response, len);
    hear(response, len, response_len);
}

static void begin(bool tables) {
    oscore_context client = OSCORE_ZERO, server = OSCORE_ZERO;
    oscore_peer_record record = {.generation = 1, .sender = FIRST_NUMBER};
    need(oscore_derive(&client, SECRET, sizeof SECRET, SALT, sizeof SALT, false, NULL, 0, NULL, 0, SERVER_ID, 1, tables, false, false), "the client");
    need(oscore_derive(&server, SECRET, sizeof SECRET, SALT, sizeof SALT, false, NULL, 0, SERVER_ID, 1, NULL, 0, tables, false, false), "the server");
    need(oscore_peer_name(&client, &record.name), "the client's name");
    need(oscore_peer_begin_again(&asking, &client, &record, 32, LIFE_MS), "the client");
    need(oscore_peer_begin_first(&serving, &server, 32, LIFE_MS), "the server");
}

int main(int count, char **words) {
    long rounds = count > 2 ? atol(words[2]) : 0;
    bool tables = count > 3 && !strcmp(words[3], "tables");
    if (count < 3) return 2;
    saves_each = count > 3 && !strcmp(words[count - 1], "each");
    size_t response_len = prepare_response((size_t)atol(words[1]));
    begin(tables);
    uint64_t began = nanoseconds();
    for (long left = rounds; left > 0; left--) exchange(response_len);
    printf("%.1f\n", (double)(nanoseconds() - began) / (double)rounds);
    return 0;
}

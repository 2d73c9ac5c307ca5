/* Makes the calls of the C library that lines on standard input ask for, and prints a line for each. Words stand a space apart; bytes are
   hex, "-" where there are none; "none" is what isn't there. A context is kept in one of SLOTS slots.

       derive SLOT TABLES BLOCKS OBSERVE SECRET SALT ID_CONTEXT SENDER RECIPIENT
           STATUS SENDER_KEY RECIPIENT_KEY COMMON_IV
       seal-request SLOT NUMBER PLAIN
       seal-response SLOT REQUEST OWN PLAIN
           STATUS DETAIL SEALED
       open-request SLOT DATAGRAM
       open-response SLOT REQUEST DATAGRAM
           STATUS DETAIL DATAGRAM_AFTERWARDS, and behind Done
           KIND CODE MESSAGE_ID TOKEN NUMBER URI_HOST URI_PORT PAYLOAD [OPTION VALUE]..
       serve SLOT RESTARTED
           STATUS
       take NOW MESSAGE_ID DATAGRAM
           STATUS DETAIL REPLY, and behind Done as above
       reply OWN MESSAGE_ID PLAIN
           STATUS DETAIL SEALED
       end

   There is one peer, which `serve` begins: as one of a context that was never used, or behind a record by which nothing was delivered yet, so
   that it asks for an Echo value. A record that it wants to be saved counts as saved, and the call is made again. A reply answers the request
   that it delivered last. What was printed is sent at `end`, so that whoever asks may write several lines before reading. Each run of bytes
   has memory of its own, of exactly its length, so that a sanitizer sees what reads or writes past it. */
#define _POSIX_C_SOURCE 200809L
#include "oscore.h"
#include <inttypes.h>
#include <stdio.h>
#include <stdlib.h>
#include <string.h>

enum { SLOTS = 4, MOST_OPTIONS = 64, MOST_RUNS = 16, PLACES = 32, LIFE_MS = 60000, USED = 64 };

typedef struct bytes {
    uint8_t *at;
    size_t len;
    bool is_there;
} bytes;

static oscore_context contexts[SLOTS];
static oscore_peer peer;
static oscore_peer_record record;
static oscore_ticket ticket;
static void *runs[MOST_RUNS];
static size_t run_count;

static _Noreturn void stop(const char *why) {
    fprintf(stderr, "calls: %s\n", why);
    exit(2);
}

/* So many bytes until the line is done; NULL for none. */
static uint8_t *room(size_t len) {
    if (len == 0) return NULL;
    uint8_t *at = malloc(len);
    if (!at || run_count == MOST_RUNS) stop("no memory");
    runs[run_count++] = at;
    return at;
}

static void free_runs(void) {
    while (run_count > 0) free(runs[--run_count]);
}

static const char *next_word(void) {
    const char *word = strtok(NULL, " \n");
    if (!word) stop("a word is missing");
    return word;
}

static uint64_t next_number(void) {
    return strtoull(next_word(), NULL, 10);
}

static oscore_context *next_slot(void) {
    uint64_t slot = next_number();
    if (slot >= SLOTS) stop("no such slot");
    return &contexts[slot];
}

static uint8_t digit(char letter) {
    const char *digits = "0123456789abcdef", *found = letter ? strchr(digits, letter) : NULL;
    if (!found) stop("bad hex");
    return (uint8_t)(found - digits);
}

static bytes next_bytes(void) {
    const char *word = next_word();
    bytes read = {.is_there = strcmp(word, "none") != 0};
    if (!read.is_there || !strcmp(word, "-")) return read;
    read.len = strlen(word) / 2;
    read.at = room(read.len);
    for (size_t i = 0; i < read.len; i++) read.at[i] = (uint8_t)(digit(word[2 * i]) << 4 | digit(word[2 * i + 1]));
    return read;
}

static void print_bytes(const uint8_t *at, size_t len) {
    putchar(' ');
    for (size_t i = 0; i < len; i++) {
        putchar("0123456789abcdef"[at[i] >> 4]);
        putchar("0123456789abcdef"[at[i] & 15]);
    }
    if (len == 0) putchar('-');
}

static void print_where(bool is_there, const uint8_t *at, size_t len) {
    if (is_there) print_bytes(at, len);
    else fputs(" none", stdout);
}

static void print_status(oscore_status status) {
    char name[24];
    oscore_status_name(status, name);
    fputs(name, stdout);
}

static void derive(void) {
    oscore_context *context = next_slot();
    bool tables = next_number() != 0, blocks = next_number() != 0, observe = next_number() != 0;
    bytes secret = next_bytes(), salt = next_bytes(), id_context = next_bytes(), sender = next_bytes(), recipient = next_bytes();
    *context = (oscore_context)OSCORE_ZERO;
    print_status(oscore_derive(context, secret.at, secret.len, salt.at, salt.len, id_context.is_there, id_context.at, id_context.len,
                               sender.at, sender.len, recipient.at, recipient.len, tables, blocks, observe));
    print_bytes(context->sender_key, sizeof context->sender_key);
    print_bytes(context->recipient_key, sizeof context->recipient_key);
    print_bytes(context->common_iv, sizeof context->common_iv);
}

static void seal(bool is_request) {
    const oscore_context *context = next_slot();
    uint64_t number = next_number(), own = 0;
    bool has_own = false;
    if (!is_request) {
        const char *word = next_word();
        has_own = strcmp(word, "none") != 0;
        own = has_own ? strtoull(word, NULL, 10) : 0;
    }
    bytes plain = next_bytes();
    size_t out_room = OSCORE_ROOM(plain.len), out_len = 0, detail = 0;
    uint8_t *out = room(out_room);
    oscore_status status = is_request
        ? oscore_seal_request(context, number, plain.at, plain.len, out, out_room, &out_len, &detail)
        : oscore_seal_response(context, number, has_own, own, plain.at, plain.len, out, out_room, &out_len, &detail);
    print_status(status);
    printf(" %zu", detail);
    print_bytes(out, out_len);
}

static void print_opened(const oscore_opened *opened, const oscore_option *options) {
    printf(" %u %u %u", opened->kind, opened->code, opened->message_id);
    print_bytes(opened->token, opened->token_len);
    if (opened->has_number) printf(" %" PRIu64, opened->number);
    else fputs(" none", stdout);
    print_where(opened->has_uri_host, opened->uri_host, opened->uri_host_len);
    print_where(opened->has_uri_port, opened->uri_port, opened->uri_port_len);
    print_bytes(opened->payload, opened->payload_len);
    for (size_t i = 0; i < opened->option_count; i++) {
        printf(" %u", options[i].number);
        print_bytes(options[i].value, options[i].value_len);
    }
    if (opened->has_more_options) stop("more options than there is room for");
}

static void open_message(bool is_request) {
    static oscore_option options[MOST_OPTIONS];
    oscore_opened opened = OSCORE_ZERO;
    const oscore_context *context = next_slot();
    uint64_t request = is_request ? 0 : next_number();
    bytes datagram = next_bytes();
    size_t detail = 0;
    oscore_status status = is_request
        ? oscore_open_request(context, datagram.at, datagram.len, options, MOST_OPTIONS, &opened, &detail)
        : oscore_open_response(context, request, datagram.at, datagram.len, options, MOST_OPTIONS, &opened, &detail);
    print_status(status);
    printf(" %zu", detail);
    print_bytes(datagram.at, datagram.len);
    if (status == OSCORE_DONE) print_opened(&opened, options);
}

static void serve(void) {
    const oscore_context *context = next_slot();
    bool restarted = next_number() != 0;
    peer = (oscore_peer)OSCORE_ZERO;
    record = (oscore_peer_record){.generation = 1, .sender = USED};
    oscore_status status = oscore_peer_name(context, &record.name);
    if (!status)
        status = restarted ? oscore_peer_begin_again(&peer, context, &record, PLACES, LIFE_MS)
            : oscore_peer_begin_first(&peer, context, PLACES, LIFE_MS);
    print_status(status);
}

/* A record that a call asks for counts as saved. Answers whether the call is to be made again. */
static bool saves(oscore_status status) {
    if (status != OSCORE_SAVE_FIRST) return false;
    if (oscore_peer_saved_nowhere(&peer, &record)) stop("not the record that was asked for");
    return true;
}

static void take(void) {
    static oscore_option options[MOST_OPTIONS];
    oscore_opened opened = OSCORE_ZERO;
    uint64_t now = next_number();
    uint16_t message_id = (uint16_t)next_number();
    bytes datagram = next_bytes();
    size_t out_len = 0, detail = 0;
    uint8_t *out = room(64);
    oscore_status status;
    do status = oscore_peer_take(&peer, now, message_id, datagram.at, datagram.len, options, MOST_OPTIONS, &opened, &ticket, out, &out_len,
                                 &record, &detail);
    while (saves(status));
    print_status(status);
    printf(" %zu", detail);
    print_bytes(out, out_len);
    if (status == OSCORE_DONE) print_opened(&opened, options);
}

static void reply(void) {
    bool own = next_number() != 0;
    uint16_t message_id = (uint16_t)next_number();
    bytes plain = next_bytes();
    size_t out_room = OSCORE_ROOM(plain.len), out_len = 0, detail = 0;
    uint8_t *out = room(out_room);
    oscore_status status;
    do status = oscore_peer_reply(&peer, &ticket, own, message_id, plain.at, plain.len, out, out_room, &out_len, &record, &detail);
    while (saves(status));
    print_status(status);
    printf(" %zu", detail);
    print_bytes(out, out_len);
}

static void answer(char *line) {
    const char *word = strtok(line, " \n");
    if (!word) stop("an empty line");
    if (!strcmp(word, "end")) {
        fflush(stdout);
        return;
    }
    if (!strcmp(word, "derive")) derive();
    else if (!strcmp(word, "seal-request")) seal(true);
    else if (!strcmp(word, "seal-response")) seal(false);
    else if (!strcmp(word, "open-request")) open_message(true);
    else if (!strcmp(word, "open-response")) open_message(false);
    else if (!strcmp(word, "serve")) serve();
    else if (!strcmp(word, "take")) take();
    else if (!strcmp(word, "reply")) reply();
    else stop("no such call");
    putchar('\n');
    free_runs();
}

int main(void) {
    char *line = NULL;
    size_t line_room = 0;
    setvbuf(stdout, NULL, _IOFBF, 1 << 20);
    while (getline(&line, &line_room, stdin) > 0) answer(line);
    free(line);
    return 0;
}

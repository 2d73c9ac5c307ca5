/* Requests through a forward proxy: the example of RFC 8613, 4.1.3.3, and requests worked by hand from RFC 7252, 3.1, 5.10.2 and 6.4; random
   requests, compared with what an encoder of this file makes of them; the request of RFC 8613, C.4, split, sealed, asked and opened; each
   status, their order, and that a refusal writes nothing. All that is handed in lies against a guard page. Built with the sanitizers by
   .ci/run, and run under valgrind's memcheck with fewer rounds, which its only word says. */
#include "guarded.h"
#include "../oscore.h"

#define CHECK(holds) do { if (!(holds)) { printf("proxies.c:%d: %s\n", __LINE__, #holds); exit(1); } } while (0)

/* What is handed in, each at a place of its own. */
enum { INPUT, SCHEME, OUT, WRITTEN_LEN, SCHEME_LEN, DETAIL, NAME, CONTEXT, OPTIONS, OPENED, SECRET, SALT, SENDER, RECIPIENT, MOST = 65600 };
static oscore_size *out_len, *scheme_len, *detail;
static uint8_t *scheme;
static int rounds = 20000;

static void lay_out(bool before) {
    guarded_before = before;
    out_len = guarded_room(WRITTEN_LEN, sizeof *out_len);
    scheme_len = guarded_room(SCHEME_LEN, sizeof *scheme_len);
    detail = guarded_room(DETAIL, sizeof *detail);
}

static oscore_size hex(const char *text, uint8_t *bytes) {
    oscore_size len = 0;
    unsigned byte;
    for (; *text; text += 2, bytes[len++] = (uint8_t)byte) CHECK(sscanf(text, "%2x", &byte) == 1);
    return len;
}

/* ---- one call, in so much room, which holds the byte ee before. Nothing but the request is written, and by a refusal nothing. */

static const uint8_t *written(oscore_status status, const uint8_t *out, oscore_size room) {
    CHECK(status ? *out_len == 99999 && *detail != 99999 : *out_len <= room && *detail == 99999);
    for (oscore_size i = status ? 0 : *out_len; i < room; i++) CHECK(out[i] == 0xee);
    return out;
}

static oscore_status split_in(const uint8_t *plain, oscore_size len, oscore_size room, const uint8_t **made) {
    uint8_t *input = guarded_copy(INPUT, plain, len), *out = memset(guarded_room(OUT, room), 0xee, room);
    scheme = memset(guarded_room(SCHEME, 5), 0xee, 5);
    *out_len = *scheme_len = *detail = 99999;
    oscore_status status = oscore_split_proxy_uri(input, len, out, room, out_len, scheme, scheme_len, detail);
    CHECK(status ? *scheme_len == 99999 : *scheme_len == 4 || *scheme_len == 5);
    for (oscore_size i = status ? 0 : *scheme_len; i < 5; i++) CHECK(scheme[i] == 0xee);
    *made = written(status, out, room);
    return status;
}

static oscore_status ask_in(const uint8_t *sealed, oscore_size len, const char *name, oscore_size name_len, oscore_size room, const uint8_t **made) {
    uint8_t *input = guarded_copy(INPUT, sealed, len), *wanted = guarded_copy(SCHEME, name, name_len);
    uint8_t *out = memset(guarded_room(OUT, room), 0xee, room);
    *out_len = *detail = 99999;
    oscore_status status = oscore_ask_proxy(input, len, wanted, name_len, out, room, out_len, detail);
    *made = written(status, out, room);
    return status;
}

/* What is split is these bytes, in as much room as they take and in more, and has no room in less. */
static void splits_into(const uint8_t *plain, oscore_size len, const uint8_t *wanted, oscore_size wanted_len, const char *name) {
    const uint8_t *out;
    for (oscore_size more = 0; more < 8; more += 7) {
        CHECK(split_in(plain, len, wanted_len + more, &out) == OSCORE_DONE && *out_len == wanted_len && !memcmp(out, wanted, wanted_len));
        CHECK(*scheme_len == strlen(name) && !memcmp(scheme, name, strlen(name)));
    }
    CHECK(split_in(plain, len, wanted_len - 1, &out) == OSCORE_NO_ROOM && *detail == 0);
    CHECK(split_in(plain, len, 0, &out) == OSCORE_NO_ROOM && *detail == 0);
}

/* The same of what asks; and the room that the header names is enough. */
static void asks_by(const uint8_t *sealed, oscore_size len, const char *name, const uint8_t *wanted, oscore_size wanted_len) {
    const uint8_t *out;
    oscore_size name_len = strlen(name);
    CHECK(wanted_len <= len + name_len + 3);
    for (oscore_size more = 0; more < 8; more += 7)
        CHECK(ask_in(sealed, len, name, name_len, wanted_len + more, &out) == OSCORE_DONE && *out_len == wanted_len && !memcmp(out, wanted, wanted_len));
    CHECK(ask_in(sealed, len, name, name_len, wanted_len - 1, &out) == OSCORE_NO_ROOM && *detail == 0);
    CHECK(ask_in(sealed, len, name, name_len, 0, &out) == OSCORE_NO_ROOM && *detail == 0);
}

/* ---- by hand */

/* The option's byte and those behind it by RFC 7252, 3.1: Proxy-Uri alone has a delta of 35, so d and 16, and its length behind that from 13 on. */
static const struct { const char *plain, *wanted, *scheme; } SPLIT[] = {
    /* RFC 8613, 4.1.3.3: coap://example.com/resource?q=1 */
    {"40010001dd1612636f61703a2f2f6578616d706c652e636f6d2f7265736f757263653f713d31", "400100013b6578616d706c652e636f6d421633487265736f7572636543713d31", "coap"},
    /* coap://EXAMPLE.com/a%2Fb/c?x&%41: the host in lower case, a slash inside a segment, an argument that is encoded */
    {"40010001dd1613636f61703a2f2f4558414d504c452e636f6d2f61253246622f633f7826253431", "400100013b6578616d706c652e636f6d42163343612f62016341780141", "coap"},
    /* COAPS://[::1]:61616, and coaps://h, whose port is 5684 */
    {"40010001dd1606434f4150533a2f2f5b3a3a315d3a3631363136", "40010001355b3a3a315d42f0b0", "coaps"},
    {"40010001d916636f6170733a2f2f68", "40010001316842" "1634", "coaps"},
    /* coap://h:0, coap://h:/ and coap://h//?& : no byte of a port, no digits, empty segments and arguments */
    {"40010001da16636f61703a2f2f683a30", "40010001316840", "coap"},
    {"40010001da16636f61703a2f2f683a2f", "400100013168421633", "coap"},
    {"40010001dc16636f61703a2f2f682f2f3f26", "40010001316842163340004000", "coap"},
    /* between Observe and Size1, in front of a payload; a NON with a token */
    {"40010001606132d90a636f61703a2f2f682fd10c05ff62", "400100013168301216335132d12305ff62", "coap"},
    {"54021234aabbccddd916636f61703a2f2f682f", "54021234aabbccdd3168421633", "coap"},
};

/* Proxy-Scheme has the number 39, so it stands behind OSCORE (9) and Hop-Limit (16), and in front of Size1 (60). */
static const struct { const char *sealed, *scheme, *wanted; } ASKED[] = {
    /* the sealed request of RFC 8613, C.4 */
    {"44025d1f00003974396c6f63616c686f7374620914ff612f1092f1776f1c1668b3825e", "coap",
     "44025d1f00003974396c6f63616c686f7374620914d411636f6170ff612f1092f1776f1c1668b3825e"},
    {"44025d1f00003974396c6f63616c686f7374620914710aff612f1092f1776f1c1668b3825e", "coap",
     "44025d1f00003974396c6f63616c686f7374620914710ad40a636f6170ff612f1092f1776f1c1668b3825e"},
    {"4002000190d026ff61", "coaps", "4002000190d511636f617073d008ff61"},
    {"40020001", "a", "40020001d11a61"},
};

static void by_hand(void) {
    uint8_t given[64], wanted[64];
    for (oscore_size i = 0; i < OSCORE_COUNT(SPLIT); i++) {
        oscore_size len = hex(SPLIT[i].plain, given), wanted_len = hex(SPLIT[i].wanted, wanted);
        splits_into(given, len, wanted, wanted_len, SPLIT[i].scheme);
    }
    for (oscore_size i = 0; i < OSCORE_COUNT(ASKED); i++) {
        oscore_size len = hex(ASKED[i].sealed, given), wanted_len = hex(ASKED[i].wanted, wanted);
        asks_by(given, len, ASKED[i].scheme, wanted, wanted_len);
    }
}

/* ---- RFC 8613, C.4, as it goes through a proxy */

/* GET coap://localhost/tv1 with Proxy-Uri. Uri-Port stands outside, so what is encrypted is that of C.4. */
static const char *ROUTED = "44015d1f00003974dd1607636f61703a2f2f6c6f63616c686f73742f747631";
static const char *SPLIT_C4 = "44015d1f00003974396c6f63616c686f73744216334374" "7631";
static const char *SEALED_C4 = "44025d1f00003974396c6f63616c686f7374421633220914ff612f1092f1776f1c1668b3825e";
static const char *ASKED_C4 = "44025d1f00003974396c6f63616c686f7374421633220914d411636f6170ff612f1092f1776f1c1668b3825e";

static oscore_context *derived(const uint8_t *sender, oscore_size sender_len, const uint8_t *recipient, oscore_size recipient_len) {
    uint8_t secret[16], salt[8];
    oscore_context *context = guarded(CONTEXT, sizeof *context);
    hex("0102030405060708090a0b0c0d0e0f10", secret), hex("9e7ca92223786340", salt);
    CHECK(!oscore_derive(context, guarded_copy(SECRET, secret, 16), 16, guarded_copy(SALT, salt, 8), 8, false, NULL, 0,
                         guarded_copy(SENDER, sender, sender_len), sender_len, guarded_copy(RECIPIENT, recipient, recipient_len), recipient_len,
                         false, false, false));
    return context;
}

static void through_a_proxy(void) {
    uint8_t plain[64], split[64], sealed[64], asked[64];
    static const uint8_t server[] = {1};
    const uint8_t *out;
    oscore_size plain_len = hex(ROUTED, plain), split_len = hex(SPLIT_C4, split), sealed_len = hex(SEALED_C4, sealed), asked_len = hex(ASKED_C4, asked);
    splits_into(plain, plain_len, split, split_len, "coap");
    oscore_context *client = derived(NULL, 0, server, 1);
    uint8_t *room = guarded_room(OUT, sealed_len);
    CHECK(oscore_seal_request(client, 20, guarded_copy(INPUT, plain, plain_len), plain_len, room, sealed_len, out_len, detail) == OSCORE_UNSUPPORTED
        && *detail == 35);
    CHECK(!oscore_seal_request(client, 20, guarded_copy(INPUT, split, split_len), split_len, room, sealed_len, out_len, detail));
    CHECK(*out_len == sealed_len && !memcmp(room, sealed, sealed_len));
    asks_by(sealed, sealed_len, "coap", asked, asked_len);
    CHECK(!ask_in(sealed, sealed_len, "coap", 4, asked_len, &out) && ask_in(asked, asked_len, "coap", 4, MOST, &out) == OSCORE_ASKED);
    /* The proxy takes Proxy-Scheme out. */
    oscore_option *options = guarded(OPTIONS, 4 * sizeof *options);
    oscore_opened *opened = guarded(OPENED, sizeof *opened);
    CHECK(!oscore_open_request(derived(server, 1, NULL, 0), guarded_copy(INPUT, sealed, sealed_len), sealed_len, options, 4, opened, detail));
    CHECK(opened->code == 1 && opened->number == 20 && opened->has_uri_host && opened->uri_host_len == 9 && !memcmp(opened->uri_host, "localhost", 9));
    CHECK(opened->has_uri_port && opened->uri_port_len == 2 && opened->uri_port[0] == 0x16 && opened->uri_port[1] == 0x33);
    CHECK(opened->option_count == 1 && options[0].number == 11 && options[0].value_len == 3 && !memcmp(options[0].value, "tv1", 3));
}

/* ---- at random, beside an encoder of this file */

typedef struct option {
    unsigned number, len;
    uint8_t value[1100];
} option;

/* Options in ascending order of their numbers; one comes behind those of its number. */
typedef struct list {
    option options[40];
    unsigned count;
} list;

static void put(list *of, unsigned number, const uint8_t *value, unsigned len) {
    unsigned at = of->count++;
    CHECK(of->count <= 40 && len <= sizeof of->options[at].value);
    for (; at > 0 && of->options[at - 1].number > number; at--) of->options[at] = of->options[at - 1];
    of->options[at].number = number, of->options[at].len = len;
    if (len > 0) memcpy(of->options[at].value, value, len);
}

static unsigned half(unsigned n) {
    return n < 13 ? n : n < 269 ? 13 : 14;
}

static oscore_size put_behind(uint8_t *bytes, oscore_size len, unsigned n) {
    if (half(n) == 13) bytes[len++] = (uint8_t)(n - 13);
    if (half(n) == 14) bytes[len++] = (uint8_t)((n - 269) >> 8), bytes[len++] = (uint8_t)(n - 269);
    return len;
}

/* The datagram of a request with these options (RFC 7252, 3 and 3.1). */
static oscore_size encoded(const uint8_t *head, oscore_size head_len, const list *of, const uint8_t *payload, oscore_size payload_len, uint8_t *bytes) {
    unsigned number = 0;
    oscore_size len = head_len;
    memcpy(bytes, head, head_len);
    for (unsigned i = 0; i < of->count; i++) {
        const option *one = &of->options[i];
        bytes[len++] = (uint8_t)(half(one->number - number) << 4 | half(one->len));
        len = put_behind(bytes, len, one->number - number), len = put_behind(bytes, len, one->len);
        memcpy(bytes + len, one->value, one->len);
        len += one->len, number = one->number;
    }
    if (payload_len > 0) bytes[len++] = 0xff;
    memcpy(bytes + len, payload, payload_len);
    return len + payload_len;
}

/* A URI as it grows. */
static uint8_t uri[16384];
static unsigned uri_len;

static void add(const char *text) {
    memcpy(uri + uri_len, text, strlen(text)), uri_len += (unsigned)strlen(text);
}

/* A part of at most so many bytes, of which some are percent-encoded, and of a host some in upper case: so an option of a number has it. */
static void add_part(list *wanted, unsigned number, unsigned least, unsigned most) {
    static const char PLAIN[] = "abcxyz0189-._~!$'()*+,;=";
    uint8_t value[255];
    char code[4];
    unsigned len = least + (unsigned)rand() % (most - least + 1);
    for (unsigned i = 0; i < len; i++) {
        value[i] = rand() % 4 ? (uint8_t)PLAIN[(unsigned)rand() % (sizeof PLAIN - 1)] : (uint8_t)rand();
        bool stands = value[i] > 0 && strchr(PLAIN, value[i]) && rand() % 8;
        snprintf(code, sizeof code, stands ? "%c" : rand() % 2 ? "%%%02x" : "%%%02X", value[i]);
        if (stands && number == 3 && value[i] >= 'a' && value[i] <= 'z' && rand() % 2) code[0] = (char)(code[0] - 32);
        add(code);
    }
    put(wanted, number, value, len);
}

static unsigned at_most(unsigned most) {
    return (unsigned)rand() % (rand() % 4 ? 8 : most + 1);
}

/* A URI of coap or coaps, and what it is to be split into. */
static const char *random_uri(list *wanted) {
    const char *name = rand() % 2 ? "coap" : "coaps", *spelled[] = {"coap", "coaps", "CoAP", "COAPS"};
    unsigned port = name[4] ? 5684 : 5683, segments = (unsigned)rand() % 6, arguments = (unsigned)rand() % 6;
    char digits[16];
    uri_len = 0;
    add(spelled[(name[4] ? 1 : 0) + 2 * (rand() % 2)]), add("://");
    add_part(wanted, 3, 1, 1 + at_most(254));
    if (rand() % 2) {
        port = (unsigned)rand() % (rand() % 2 ? 65536 : 300);
        snprintf(digits, sizeof digits, rand() % 2 ? ":%u" : ":%05u", port);
        add(digits);
    }
    const uint8_t bytes[2] = {(uint8_t)(port >> 8), (uint8_t)port};
    put(wanted, 7, port >= 256 ? bytes : bytes + 1, port >= 256 ? 2 : port > 0);
    if (segments == 0 && rand() % 2) add("/");
    for (unsigned i = 0; i < segments; i++) add("/"), add_part(wanted, 11, segments == 1, 1 + at_most(254));
    for (unsigned i = 0; i < arguments; i++) add(i ? "&" : "?"), add_part(wanted, 15, 0, at_most(255));
    return name;
}

/* What else a request may have beside its URI, and in front of Proxy-Scheme, and behind it. */
static void add_others(list *given, list *wanted) {
    static const unsigned NUMBERS[] = {1, 4, 5, 6, 8, 12, 14, 16, 17, 20, 23, 27, 60, 252, 258, 292, 300, 2049, 65000, 65535};
    uint8_t value[16];
    for (int left = rand() % 6; left > 0; left--) {
        unsigned number = NUMBERS[(unsigned)rand() % OSCORE_COUNT(NUMBERS)], len = (unsigned)rand() % 17;
        for (unsigned i = 0; i < len; i++) value[i] = (uint8_t)rand();
        put(given, number, value, len), put(wanted, number, value, len);
    }
}

static void at_random(void) {
    static uint8_t plain[16384], made[16384];
    static list given, wanted, others;
    uint8_t head[12] = {0}, payload[40];
    const char *name;
    for (int i = 0; i < rounds; i++) {
        oscore_size head_len = 4 + (oscore_size)rand() % 9, payload_len = (oscore_size)rand() % 40;
        given.count = wanted.count = 0;
        for (oscore_size k = 1; k < head_len; k++) head[k] = (uint8_t)rand();
        for (oscore_size k = 0; k < payload_len; k++) payload[k] = (uint8_t)rand();
        head[0] = (uint8_t)((rand() % 2 ? 0x40 : 0x50) | (head_len - 4)), head[1] = (uint8_t)(1 + rand() % 31);
        add_others(&given, &wanted);
        others = wanted;
        do wanted = others, name = random_uri(&wanted); while (uri_len > sizeof wanted.options[0].value);
        put(&given, 35, uri, uri_len);
        oscore_size len = encoded(head, head_len, &given, payload, payload_len, plain);
        oscore_size made_len = encoded(head, head_len, &wanted, payload, payload_len, made);
        splits_into(plain, len, made, made_len, name);
        /* Whether what asks is sealed isn't looked at. */
        put(&wanted, 39, (const uint8_t *)name, (unsigned)strlen(name));
        asks_by(made, made_len, name, plain, encoded(head, head_len, &wanted, payload, payload_len, plain));
    }
}

/* ---- each status, and their order */

static const struct { const char *plain; oscore_status status; oscore_size detail; } UNSPLIT[] = {
    {"", OSCORE_SHORT, 0}, {"80010001", OSCORE_VERSION, 0}, {"49010001", OSCORE_TOKEN_LENGTH, 0}, {"4000000101", OSCORE_EMPTY_WITH_REST, 4},
    {"4401000101", OSCORE_TOKEN_CUT, 4}, {"40010001b161f0", OSCORE_NIBBLE15, 6}, {"40010001b161036100", OSCORE_OPTION_CUT, 6},
    {"40010001e0ffff", OSCORE_NUMBER_TOO_LARGE, 4}, {"40010001ff", OSCORE_EMPTY_PAYLOAD, 4},
    {"60450001d916636f61703a2f2f682f", OSCORE_NOT_THAT_KIND, 0}, {"60010001d916636f61703a2f2f682f", OSCORE_NOT_THAT_KIND, 0},
    {"40450001", OSCORE_NOT_THAT_KIND, 0}, {"40000001", OSCORE_NOT_THAT_KIND, 0}, {"400100013168", OSCORE_NOT_ONE_PROXY_URI, 0},
    {"40010001", OSCORE_NOT_ONE_PROXY_URI, 0},
    {"400100013168d813636f61703a2f2f6808636f61703a2f2f68", OSCORE_NOT_ONE_PROXY_URI, 0},
    {"400100013168d913636f61703a2f2f682f", OSCORE_MIXED, 0}, {"4001000170d90f636f61703a2f2f682f", OSCORE_MIXED, 0},
    {"40010001b0d90b636f61703a2f2f682f", OSCORE_MIXED, 0}, {"40010001d10271d10768", OSCORE_MIXED, 0},
    {"40010001d916636f61703a2f2f682f44636f6170", OSCORE_MIXED, 0},
    {"40010001db16687474703a2f2f682f2361", OSCORE_SCHEME, 0}, {"40010001d416682f6162", OSCORE_SCHEME, 0}, {"40010001d016", OSCORE_SCHEME, 0},
    {"40010001da16636f61703a2f2f202361", OSCORE_FRAGMENT, 0}, {"40010001db16636f61703a2f2f682f2061", OSCORE_CHARACTER, 0},
    {"40010001d916636f61703a2f2f2534", OSCORE_CHARACTER, 0}, {"40010001d616636f61703a68", OSCORE_AUTHORITY, 0},
    {"40010001db16636f61703a2f2f7540682f", OSCORE_USERINFO, 0}, {"40010001d916636f61703a2f2f7540", OSCORE_USERINFO, 0},
    {"40010001d716636f61703a2f2f", OSCORE_HOST, 0}, {"40010001d916636f61703a2f2f3a78", OSCORE_HOST, 0},
    {"40010001db16636f61703a2f2f5b3a3a31", OSCORE_HOST, 0}, {"40010001dd1601636f61703a2f2f683a3635353336", OSCORE_PORT, 0},
    {"40010001db16636f61703a2f2f683a3161", OSCORE_PORT, 0},
};

static const struct { const char *sealed, *scheme; oscore_status status; oscore_size detail; } UNASKED[] = {
    {"", "", OSCORE_SHORT, 0}, {"40010001ff", "", OSCORE_EMPTY_PAYLOAD, 4}, {"60440001d41a636f6170", "", OSCORE_NOT_THAT_KIND, 0},
    {"64445d1f0000397490ffdbaad1e9a7e7b2a813d3c31524378303cdafae119106", "coap", OSCORE_NOT_THAT_KIND, 0},
    {"40000001", "coap", OSCORE_NOT_THAT_KIND, 0}, {"40020001d016", "", OSCORE_ASKED, 0}, {"40020001d41a636f6170", "coap", OSCORE_ASKED, 0},
    {"40020001", "", OSCORE_SCHEME_LENGTH, 0},
};

/* A request with Proxy-Uri coap://h and so many segments of so many letters, and a payload that fills up so many bytes. */
static oscore_size of_segments(unsigned segments, unsigned letters, oscore_size whole, uint8_t *bytes) {
    unsigned value_len = 8 + segments * (1 + letters);
    oscore_size len = hex("40010001", bytes);
    bytes[len++] = (uint8_t)(0xd0 | half(value_len)), bytes[len++] = 35 - 13;
    len = put_behind(bytes, len, value_len);
    memcpy(bytes + len, "coap://h", 8), len += 8;
    for (unsigned i = 0; i < segments; i++) bytes[len++] = '/', memset(bytes + len, 's', letters), len += letters;
    if (whole > len) bytes[len++] = 0xff, memset(bytes + len, 'p', whole - len), len = whole;
    return len;
}

static void refuses(void) {
    static uint8_t bytes[MOST];
    const uint8_t *out;
    for (oscore_size i = 0; i < OSCORE_COUNT(UNSPLIT); i++)
        for (oscore_size room = 0; room < 200; room += 100)
            CHECK(split_in(bytes, hex(UNSPLIT[i].plain, bytes), room, &out) == UNSPLIT[i].status && *detail == UNSPLIT[i].detail);
    for (oscore_size i = 0; i < OSCORE_COUNT(UNASKED); i++)
        for (oscore_size room = 0; room < 200; room += 100)
            CHECK(ask_in(bytes, hex(UNASKED[i].sealed, bytes), UNASKED[i].scheme, strlen(UNASKED[i].scheme), room, &out) == UNASKED[i].status
                && *detail == UNASKED[i].detail);
    /* A segment of 255 bytes fits into an option, whose length is d and f2 then; one of 256 doesn't. */
    oscore_size len = of_segments(1, 255, 0, bytes);
    CHECK(split_in(bytes, len, 265, &out) == OSCORE_NO_ROOM && !split_in(bytes, len, 266, &out) && out[9] == 0x4d && out[10] == 0xf2);
}

static void refuses_lengths(void) {
    static uint8_t bytes[MOST];
    static char name[256];
    const uint8_t *out;
    memset(name, 'a', sizeof name);
    CHECK(split_in(bytes, of_segments(1, 256, 0, bytes), 0, &out) == OSCORE_PART_TOO_LONG && *detail == 0);
    CHECK(split_in(bytes, of_segments(1, 1, MOST - 64, bytes), MOST, &out) == OSCORE_DATAGRAM_TOO_LONG && *detail == 65535);
    /* Ten segments of 13 letters take 140 bytes of the URI, and as options 150; the rest of Proxy-Uri takes 11, and the other two options 5. */
    CHECK(split_in(bytes, of_segments(10, 13, 65535, bytes), MOST, &out) == OSCORE_TOO_LONG && *detail == 0);
    CHECK(split_in(bytes, of_segments(10, 13, 65535, bytes), 0, &out) == OSCORE_TOO_LONG && *detail == 0);
    CHECK(!split_in(bytes, of_segments(10, 13, 65531, bytes), MOST, &out) && *out_len == 65535);
    CHECK(split_in(bytes, of_segments(10, 13, 65531, bytes), 65534, &out) == OSCORE_NO_ROOM);
    oscore_size len = hex("40020001ff", bytes);
    memset(bytes + len, 'p', MOST - len);
    CHECK(ask_in(bytes, 65536, name, 4, MOST, &out) == OSCORE_DATAGRAM_TOO_LONG && *detail == 65535);
    CHECK(ask_in(bytes, 65535, name, 256, 0, &out) == OSCORE_SCHEME_LENGTH && *detail == 0);
    CHECK(ask_in(bytes, 65530, name, 4, 0, &out) == OSCORE_TOO_LONG && *detail == 0);
    CHECK(!ask_in(bytes, 65529, name, 4, MOST, &out) && *out_len == 65535 && ask_in(bytes, 65529, name, 4, 65534, &out) == OSCORE_NO_ROOM);
    /* 255 bytes have their length behind the option's byte and delta: d and f2. */
    CHECK(!ask_in(bytes, 4, name, 255, 262, &out) && *out_len == 262 && out[4] == 0xdd && out[5] == 26 && out[6] == 0xf2);
    CHECK(!memcmp(out + 7, name, 255) && ask_in(bytes, 4, name, 255, 261, &out) == OSCORE_NO_ROOM);
}

static void names_statuses(void) {
    static const char *NAMES[] = {"NotOneProxyUri", "Mixed", "Scheme", "Fragment", "Character", "Authority", "Userinfo", "Host", "Port", "PartTooLong",
                                  "Asked", "SchemeLength", "Unknown"};
    char *name = guarded_room(NAME, 24);
    for (uint32_t i = 0; i < OSCORE_COUNT(NAMES); i++) {
        oscore_status_name(OSCORE_NOT_ONE_PROXY_URI + i, name);
        CHECK(!strcmp(name, NAMES[i]));
    }
}

int main(int count, char **words) {
    srand(1);
    if (count > 1) rounds = atoi(words[1]);
    for (int before = 0; before < 2; before++) {
        lay_out(before);
        by_hand();
        through_a_proxy();
        at_random();
        refuses();
        refuses_lengths();
        names_statuses();
    }
    printf("proxies: requests by hand, C.4 through a proxy, each status; behind a guard page and before one %d random requests split and asked\n", rounds);
    return 0;
}

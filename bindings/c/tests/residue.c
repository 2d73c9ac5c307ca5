/* What a call leaves below its caller's stack pointer and in registers, and that `oscore_wipe_stack` leaves nothing of it. Each call is made
   on a stack of its own, by tables and in constant time, and that whole stack is then searched for the Master Secret, for what HKDF makes of
   it, for the keys, the Common IV, and words of the schedules of the keys; and so are the registers that a function may change, as they
   are behind the call. Then the call and all it stands on is made under another Master Secret: each byte of that stack and of those
   registers that differs now depends on the secret. (Not all of these are secret: what is sent depends on it too.)
   Once the stack was wiped none of these may be there. The counts without wiping are printed; they depend on the library's compiler.

   Not for AddressSanitizer, which lays arrays elsewhere, so that the stack isn't as it is without it; nor for memcheck, which reports
   each read of what lies below a stack pointer. */
#define _DEFAULT_SOURCE
#include "../oscore.h"
#include <stdio.h>
#include <stdlib.h>
#include <string.h>
#include <sys/mman.h>
#include <ucontext.h>

#define CHECK(holds) ((holds) ? (void)0 : fails(__LINE__, #holds))

/* The stack, and behind it what stood in registers. */
enum { AREA = 1 << 16, REGISTERS = 512, WHOLE = AREA + REGISTERS, UNTOUCHED = 0xa5, ROOM = 128, NUMBER = 20, LIFE = 60000 };
/* Of round keys 1 to 10: the words, and what they are bitsliced. So many words by chance are none. */
enum { WORDS = 40, PLANES = 80, BY_CHANCE = 7 };

/* RFC 8613, C.1, and another Master Secret. */
static const uint8_t SECRETS[2][16] = {{1, 2, 3, 4, 5, 6, 7, 8, 9, 10, 11, 12, 13, 14, 15, 16},
                                       {91, 7, 201, 44, 158, 3, 77, 230, 19, 142, 66, 250, 35, 181, 108, 9}};
static const uint8_t SALT[8] = {0x9e, 0x7c, 0xa9, 0x22, 0x23, 0x78, 0x63, 0x40}, ONE = 1;
/* What HKDF makes of the first (RFC 5869, 2.2), by Python's hmac and cryptography: the pseudorandom key (PRK). And SHA-256's states
   behind the padded PRK, inner and outer (RFC 2104), from which the keys follow as well: by a SHA-256 in Python that goes on to them. */
static const uint8_t PRK[3][32] = {{0xbf, 0x4f, 0x72, 0xde, 0x4e, 0xed, 0x44, 0xa4, 0x95, 0x13, 0x90, 0xe7, 0x12, 0x78, 0x49, 0xde,
                                    0x97, 0xd6, 0x17, 0xb1, 0x94, 0x0f, 0x1a, 0xb6, 0xc1, 0x82, 0xb8, 0xa1, 0x47, 0xdb, 0x8d, 0xc4},
                                   {0x03, 0x57, 0x85, 0x81, 0xc8, 0xe9, 0xb3, 0x6e, 0x97, 0x8a, 0xc9, 0x23, 0x4f, 0xf9, 0xd9, 0x33,
                                    0xa6, 0xa6, 0xb8, 0xaa, 0xf6, 0x57, 0xfb, 0x57, 0xf2, 0x7f, 0x68, 0x7a, 0x56, 0x09, 0x13, 0xc4},
                                   {0xb5, 0x30, 0xac, 0xf8, 0xa6, 0x31, 0xf4, 0xa9, 0x66, 0xa1, 0xf6, 0x17, 0x89, 0x05, 0xf9, 0x2a,
                                    0x9a, 0x37, 0x08, 0x20, 0x6e, 0xff, 0x96, 0x8b, 0x7e, 0xd6, 0xba, 0x0c, 0x10, 0xf3, 0xd6, 0x8c}};
/* PUT /lock with the token 07, and with 08; an answer, and a notification. */
static const uint8_t ASKS[2][28] = {"\x41\3\0\1\7\xb4lock\xffthe door is shut", "\x41\3\0\2\x08\xb4lock\xffthe door is shut"};
static const uint8_t ANSWER[23] = "\x61\x44\0\1\7\xffthe door is shut", NOTE[24] = "\x61\x45\0\1\7\x60\xffthe door is shut";

/* Who wipes the stack behind a call: nobody, the function that made it, or the one that called that. */
static enum { NOBODY, CALLER, ITS_CALLER } wiping;
static const uint8_t *secret;
static bool tables;
static oscore_context client_end, server_end;
static oscore_ticket ticket;
static oscore_peer answering, asking;
static oscore_peer_record record;
static oscore_pending pending[2];
static oscore_opened opened;
static oscore_option options[4];
static uint8_t request[ROOM], response[ROOM], out[ROOM];
static oscore_size request_len, response_len, out_len, at, detail, pending_count;
static uint64_t number, name;

static void fails(int line, const char *condition) {
    printf("residue.c:%d: %s\n", line, condition);
    exit(1);
}

/* A function that makes one call. */
#define CALL(name, ...) \
    static oscore_status name(void) { \
        oscore_status status = oscore_##name(__VA_ARGS__); \
        if (wiping == CALLER) oscore_wipe_stack(); \
        return status; \
    }
CALL(derive, &client_end, secret, 16, SALT, 8, false, NULL, 0, NULL, 0, &ONE, 1, tables, false, true)
CALL(seal_request, &client_end, NUMBER, ASKS[0], sizeof ASKS[0] - 1, out, ROOM, &out_len, &detail)
CALL(seal_response, &server_end, NUMBER, false, 0, ANSWER, sizeof ANSWER - 1, response, ROOM, &response_len, &detail)
CALL(open_request, &server_end, request, request_len, options, 4, &opened, &detail)
CALL(open_response, &client_end, NUMBER, response, response_len, options, 4, &opened, &detail)
CALL(peer_name, &server_end, &name)
CALL(peer_begin_first, &answering, &server_end, 32, LIFE)
CALL(peer_begin_again, &answering, &server_end, &record, 32, LIFE)
CALL(peer_saved, &answering, &record)
CALL(peer_find, &answering, 1, request, request_len, &at, &detail)
CALL(peer_take, &answering, 0, 1, request, request_len, options, 4, &opened, &ticket, out, &out_len, &record, &detail)
CALL(peer_reply, &answering, &ticket, true, 1, ANSWER, sizeof ANSWER - 1, out, ROOM, &out_len, &record, &detail)
CALL(peer_notify, &answering, &ticket, NOTE, sizeof NOTE - 1, out, ROOM, &out_len, &record, &detail)
CALL(peer_request, &asking, pending, 2, &pending_count, 0, ASKS[1], sizeof ASKS[1] - 1, out, ROOM, &out_len, &record, &detail)
CALL(peer_hear, &asking, pending, 2, &pending_count, 0, response, response_len, options, 4, &opened, &number, &detail)
CALL(peer_forget, &asking, pending, 2, &pending_count, ASKS[0] + 4, 1)

/* What went before a call: the peer that answers has no record saved yet; a request was sent, and its number isn't saved, or is saved; it was
   turned on its way, or taken and comes again; or that peer began behind a record that tells of no request. */
typedef enum { UNSAVED, SENT, SAVED, TURNED, TAKEN, RESTARTED } before;
typedef struct row {
    const char *name;
    oscore_status (*call)(void);
    before before;
    oscore_status wanted;
} row;
static const row ROWS[] = {
    {"derive", derive, SENT, OSCORE_DONE},
    {"seal_request", seal_request, SENT, OSCORE_DONE},
    {"seal_response", seal_response, SENT, OSCORE_DONE},
    {"open_request", open_request, SENT, OSCORE_DONE},
    {"open_request, bad tag", open_request, TURNED, OSCORE_TAG},
    {"open_response", open_response, SENT, OSCORE_DONE},
    {"peer_name", peer_name, SENT, OSCORE_DONE},
    {"peer_begin_first", peer_begin_first, SENT, OSCORE_DONE},
    {"peer_begin_again", peer_begin_again, RESTARTED, OSCORE_DONE},
    {"peer_saved", peer_saved, UNSAVED, OSCORE_DONE},
    {"peer_find", peer_find, SENT, OSCORE_DONE},
    {"peer_take, save first", peer_take, SENT, OSCORE_SAVE_FIRST},
    {"peer_take", peer_take, SAVED, OSCORE_DONE},
    {"peer_take, bad tag", peer_take, TURNED, OSCORE_TAG},
    {"peer_take, challenge", peer_take, RESTARTED, OSCORE_CHALLENGE},
    {"peer_take, replay", peer_take, TAKEN, OSCORE_REPLAY},
    {"peer_reply", peer_reply, TAKEN, OSCORE_DONE},
    {"peer_notify", peer_notify, TAKEN, OSCORE_DONE},
    {"peer_request", peer_request, SENT, OSCORE_DONE},
    {"peer_hear", peer_hear, SENT, OSCORE_DONE},
    {"peer_forget", peer_forget, SENT, OSCORE_DONE},
};

/* The call that is made. */
static const row *now;

/* A peer behind a record of this generation, with its first record saved. */
static void begin_peer(oscore_peer *peer, const oscore_context *context, uint64_t sender, uint64_t received, bool saves) {
    CHECK(!oscore_peer_name(context, &name));
    record = (oscore_peer_record){name, 1, sender, received};
    CHECK(!oscore_peer_begin_again(peer, context, &record, 32, LIFE));
    record.generation = 2, record.sender = sender + 64;
    if (saves) CHECK(!oscore_peer_saved(peer, &record));
}

/* Makes peers of both contexts, and a request and its response under NUMBER, under one of the secrets. */
static void prepare(int which, before before) {
    uint8_t sent[ROOM];
    secret = SECRETS[which];
    CHECK(!derive());
    CHECK(!oscore_derive(&server_end, secret, 16, SALT, 8, false, NULL, 0, &ONE, 1, NULL, 0, tables, false, true));
    CHECK(!seal_response());
    begin_peer(&asking, &client_end, NUMBER, 0, true);
    memset(pending, 0, sizeof pending), pending_count = 0;
    CHECK(!oscore_peer_request(&asking, pending, 2, &pending_count, 0, ASKS[0], sizeof ASKS[0] - 1, request, ROOM, &request_len, &record, &detail));
    memcpy(sent, request, request_len);
    begin_peer(&answering, &server_end, 64, before == RESTARTED ? 0 : NUMBER, before != UNSAVED);
    if (before == SAVED || before == TAKEN) CHECK(peer_take() == OSCORE_SAVE_FIRST && !peer_saved());
    if (before == TAKEN) CHECK(!peer_take());
    /* As if it had registered. */
    ticket.observes = before == TAKEN;
    if (before == RESTARTED && now && now->call == peer_begin_again) record.generation = 1, record.sender = 64;
    memcpy(request, sent, request_len);
    if (before == TURNED) request[request_len - 1] ^= 1;
}

/* The registers that a function may change: those for vectors, and behind these the others. */
#if defined(__x86_64__)
enum { SEES_REGISTERS = 1 };
static struct { uint8_t vectors[16][16]; uint64_t others[9]; } registers;
#define STORE(i) "movups %%xmm" #i ", 16*" #i "+%0\n"
#define READ_REGISTERS() \
    __asm__ __volatile__(STORE(0) STORE(1) STORE(2) STORE(3) STORE(4) STORE(5) STORE(6) STORE(7) STORE(8) STORE(9) STORE(10) STORE(11) \
                         STORE(12) STORE(13) STORE(14) STORE(15) "movq %%rax, %1\nmovq %%rcx, 8+%1\nmovq %%rdx, 16+%1\nmovq %%rsi, 24+%1\n" \
                         "movq %%rdi, 32+%1\nmovq %%r8, 40+%1\nmovq %%r9, 48+%1\nmovq %%r10, 56+%1\nmovq %%r11, 64+%1" \
                         : "=m"(registers.vectors), "=m"(registers.others))
/* Those for vectors come from whoever ran before: a context of this C library doesn't have them. */
#define EMPTY(i) "pxor %%xmm" #i ", %%xmm" #i "\n"
#define EMPTY_VECTORS() \
    __asm__ __volatile__(EMPTY(0) EMPTY(1) EMPTY(2) EMPTY(3) EMPTY(4) EMPTY(5) EMPTY(6) EMPTY(7) EMPTY(8) EMPTY(9) EMPTY(10) EMPTY(11) \
                         EMPTY(12) EMPTY(13) EMPTY(14) EMPTY(15) : : : "xmm0", "xmm1", "xmm2", "xmm3", "xmm4", "xmm5", "xmm6", "xmm7", \
                         "xmm8", "xmm9", "xmm10", "xmm11", "xmm12", "xmm13", "xmm14", "xmm15")
#else
enum { SEES_REGISTERS = 0 };
static uint8_t registers[1];
#define READ_REGISTERS() ((void)0)
#define EMPTY_VECTORS() ((void)0)
#endif

/* The stack that calls are made on with room for the registers behind it, and a copy of both. */
static uint8_t *area, kept[WHOLE];
static ucontext_t here, fresh, there;
static oscore_status status;

static void on_area(void) {
    EMPTY_VECTORS();
    oscore_status answer = now->call();
    if (wiping == ITS_CALLER) oscore_wipe_stack();
    READ_REGISTERS();
    status = answer;
}

/* Makes a call on the area. It begins with the registers of `fresh`, which know of no secret. */
static void run(const row *row, int which) {
    now = row, there = fresh;
    prepare(which, row->before);
    memset(area, UNTOUCHED, WHOLE);
    there.uc_stack.ss_sp = area, there.uc_stack.ss_size = AREA, there.uc_link = &here;
    makecontext(&there, on_area, 0);
    CHECK(!swapcontext(&here, &there) && status == row->wanted);
    if (SEES_REGISTERS && (wiping == NOBODY || OSCORE_WIPES_REGISTERS)) memcpy(area + AREA, &registers, sizeof registers);
}

/* The deepest byte that was written. */
static size_t deepest(void) {
    size_t i = 0;
    while (i < AREA && area[i] == UNTOUCHED) i++;
    return i;
}

/* The substitution box (FIPS 197, 5.1.1): 3^i has the inverse 3^-i. */
static uint8_t box[256] = {0x63};
static void make_box(void) {
    for (unsigned p = 1, q = 1, i = 0; i < 255; i++) {
        unsigned twice = q | q << 8;
        box[p] = (uint8_t)(q ^ twice >> 7 ^ twice >> 6 ^ twice >> 5 ^ twice >> 4 ^ 0x63);
        p ^= p << 1 ^ (p & 0x80 ? 0x11b : 0);
        q ^= q << 1, q ^= q << 2, q ^= q << 4, q &= 0xff;
        if (q & 0x80) q ^= 0x09;
    }
}

/* Words 4 to 43 of a key (FIPS 197, 5.2), and as osc_aes has them bitsliced: where the byte in row r and column c stands turned right by
   r times the number of its round key, its bit t is bit 8r + 2c of plane t, and the next one, of the second block. */
static void expand(const uint8_t key[16], uint32_t schedule[WORDS + PLANES]) {
    uint8_t bytes[176], constant = 1;
    memcpy(bytes, key, 16);
    memset(schedule, 0, 4 * (WORDS + PLANES));
    for (int i = 16; i < 176; i++) {
        int round = i / 16, r = i % 4, c = (i / 4 + round * r) % 4;
        uint8_t last = bytes[i - 4];
        if (i % 16 < 4) last = box[bytes[r < 3 ? i - 3 : i - 7]];
        if (i % 16 == 0) last ^= constant, constant = (uint8_t)(constant << 1 ^ (constant & 0x80 ? 0x1b : 0));
        bytes[i] = bytes[i - 16] ^ last;
        for (int t = 0; t < 8; t++) schedule[WORDS + 8 * (round - 1) + t] |= (bytes[i] >> t & 1u) * (3u << (8 * r + 2 * c));
    }
    memcpy(schedule, bytes + 16, 4 * WORDS);
}

static uint32_t turned(uint32_t word) {
    return word >> 24 | (word >> 8 & 0xff00) | (word << 8 & 0xff0000) | word << 24;
}

/* How many words and planes of a key's schedule stand in the area, in either order of their bytes. */
static size_t words_of(const uint8_t key[16]) {
    uint32_t schedule[WORDS + PLANES], word;
    size_t met = 0;
    expand(key, schedule);
    for (int i = 0; i < WORDS + PLANES; i++)
        for (size_t place = deepest() / 4 * 4; place < WHOLE; place += 4) {
            memcpy(&word, area + place, 4);
            if (word != schedule[i] && turned(word) != schedule[i]) continue;
            met++;
            break;
        }
    return met;
}

/* At how many places from this one on these bytes stand, each with `pad` added, as they are or with each four of them turned. */
static size_t places_from(size_t first, const uint8_t *bytes, size_t len, uint8_t pad) {
    uint8_t plain[32], swapped[32];
    size_t met = 0;
    for (size_t i = 0; i < len; i++) plain[i] = bytes[i] ^ pad, swapped[i] = bytes[len % 4 ? i : i ^ 3] ^ pad;
    for (size_t i = first; i + len <= WHOLE; i++) met += !memcmp(area + i, plain, len) || !memcmp(area + i, swapped, len);
    return met;
}

/* The same of the whole area. */
static size_t places(const uint8_t *bytes, size_t len, uint8_t pad) {
    return places_from(0, bytes, len, pad);
}

/* `in_registers` counts keys, which `keys` counts too. */
typedef struct left { size_t secret, prk, keys, iv, words, depending, in_registers, stack; } left;

static left search(void) {
    left left = {.secret = places(SECRETS[0], 16, 0), .iv = places(client_end.common_iv, 13, 0), .stack = AREA - deepest()};
    left.prk = places(PRK[0], 32, 0) + places(PRK[0], 32, 0x36) + places(PRK[0], 32, 0x5c) + places(PRK[1], 32, 0) + places(PRK[2], 32, 0);
    left.keys = places(client_end.sender_key, 16, 0) + places(client_end.recipient_key, 16, 0);
    left.in_registers = places_from(AREA, client_end.sender_key, 16, 0) + places_from(AREA, client_end.recipient_key, 16, 0);
    size_t one = words_of(client_end.sender_key), other = words_of(client_end.recipient_key);
    left.words = one > other ? one : other;
    return left;
}

static left left_by(const row *row) {
    run(row, 0);
    memcpy(kept, area, WHOLE);
    left left = search();
    run(row, 1);
    for (size_t i = 0; i < WHOLE; i++) left.depending += area[i] != kept[i];
    return left;
}

/* Behind the wiping nothing is left of these, OSCORE_STACK bytes in a row are 0, and next to nothing was written deeper. */
static void check_wiped(const row *row) {
    left left = left_by(row);
    size_t zeros = 0, most = 0;
    for (size_t i = 0; i < AREA; i++) zeros = area[i] ? 0 : zeros + 1, most = zeros > most ? zeros : most;
    CHECK(!left.secret && !left.prk && !left.keys && !left.iv && left.words <= BY_CHANCE && !left.depending);
    CHECK(most >= OSCORE_STACK && left.stack < OSCORE_STACK + 1000);
}

/* The search finds what was laid there, and counts it. */
static void check_search(void) {
    static const uint8_t key[16] = {0x2b, 0x7e, 0x15, 0x16, 0x28, 0xae, 0xd2, 0xa6, 0xab, 0xf7, 0x15, 0x88, 0x09, 0xcf, 0x4f, 0x3c};
    uint32_t schedule[WORDS + PLANES];
    expand(key, schedule);
    CHECK(!memcmp(schedule + WORDS - 1, "\xb6\x63\x0c\xa6", 4)); /* FIPS 197, A.1 */
    prepare(0, SENT);
    memset(area, UNTOUCHED, WHOLE);
    memcpy(area + 101, SECRETS[0], 16);
    memcpy(area + 201, PRK[0], 32), memcpy(area + 301, PRK[2], 32);
    memcpy(area + 401, client_end.recipient_key, 16), memcpy(area + 501, client_end.common_iv, 13);
    expand(client_end.sender_key, schedule);
    memcpy(area + 600, schedule + WORDS - 2, 16);
    memcpy(area + AREA + 16, client_end.sender_key, 16);
    left left = search();
    CHECK(left.secret == 1 && left.prk == 2 && left.keys == 2 && left.iv == 1 && left.words == 4 && left.stack == AREA - 101);
    CHECK(left.in_registers == 1);
}

/* All bytes are wiped, and none beside them. A handle that was wiped is refused. */
static void check_handles(void) {
    static const uint8_t zeros[sizeof answering];
    memset(kept, UNTOUCHED, AREA);
    oscore_wipe(kept + 1, sizeof zeros);
    CHECK(kept[0] == UNTOUCHED && !memcmp(kept + 1, zeros, sizeof zeros) && kept[1 + sizeof zeros] == UNTOUCHED);
    oscore_wipe(&client_end, sizeof client_end), oscore_wipe(&server_end, sizeof server_end);
    oscore_wipe(&asking, sizeof asking), oscore_wipe(&answering, sizeof answering);
    CHECK(seal_request() == OSCORE_BAD_HANDLE && peer_name() == OSCORE_BAD_HANDLE && peer_begin_first() == OSCORE_BAD_HANDLE);
    CHECK(peer_request() == OSCORE_BAD_HANDLE && peer_hear() == OSCORE_BAD_HANDLE && peer_take() == OSCORE_BAD_HANDLE);
    CHECK(peer_find() == OSCORE_NO_CONTEXT);
}

/* Answers what is left where nobody wipes. */
static left check_row(const row *row) {
    wiping = NOBODY;
    left left = left_by(row);
    printf("%-22s %-13s %6zu %3zu %4zu %12zu %9zu %18zu %17zu\n", row->name, tables ? "tables" : "constant time", left.secret, left.prk,
           left.keys, left.in_registers, left.iv, left.words, left.depending);
    /* As oscore.h says of OSCORE_STACK. */
    CHECK(left.stack + 4000 < OSCORE_STACK);
    wiping = CALLER;
    check_wiped(row);
    wiping = ITS_CALLER;
    check_wiped(row);
    return left;
}

int main(void) {
    area = mmap(NULL, WHOLE, PROT_READ | PROT_WRITE, MAP_PRIVATE | MAP_ANONYMOUS, -1, 0);
    CHECK(area != MAP_FAILED && !getcontext(&fresh));
    make_box(), check_search(), check_handles();
    puts("                                     secret PRK keys in registers Common IV words of a schedule bytes that depend");
    for (int way = 0; way < 2; way++) {
        bool seen = false, in_registers = !SEES_REGISTERS;
        tables = way == 0;
        for (size_t i = 0; i < sizeof ROWS / sizeof *ROWS; i++) {
            left left = check_row(&ROWS[i]);
            seen = seen || (left.keys > 0 && left.words > BY_CHANCE && left.depending > 0);
            in_registers = in_registers || left.in_registers > 0;
        }
        CHECK(seen && in_registers);
    }
    puts("wiped: nothing of these");
    return 0;
}

/* The state of a peer in bytes: where each member stands, that a peer which reads it is as the one of which it was written, and goes on as that,
   that no key is in it, and what refuses it: each other first byte, each bit that has to be 0, the state of another context's peer, bytes that
   no peer has. Each bit of it is flipped. Built with the sanitizers by .ci/run, and run under valgrind's memcheck. */
#include "guarded.h"
#include "peer_bytes.h"

#define CHECK(holds) do { if (!(holds)) { printf("state.c:%d: %s\n", __LINE__, #holds); exit(1); } } while (0)

/* RFC 8613, C.4: the request with the number 20, for the server of C.1. */
static const uint8_t SEALED[35] = {0x44, 0x02, 0x5d, 0x1f, 0x00, 0x00, 0x39, 0x74, 0x39, 0x6c, 0x6f, 0x63, 0x61, 0x6c, 0x68, 0x6f, 0x73, 0x74,
                                   0x62, 0x09, 0x14, 0xff, 0x61, 0x2f, 0x10, 0x92, 0xf1, 0x77, 0x6f, 0x1c, 0x16, 0x68, 0xb3, 0x82, 0x5e};
static const uint8_t SECRET[16] = {1, 2, 3, 4, 5, 6, 7, 8, 9, 10, 11, 12, 13, 14, 15, 16}, SALT[8] = {0x9e, 0x7c, 0xa9, 0x22, 0x23, 0x78, 0x63, 0x40};
static const uint8_t ANSWER[4] = {0x60, 0x45, 0, 1}, SERVER = 1, OTHER = 2;

/* What is handed in, each at a place of its own. */
enum { CONTEXT, ANOTHER, PEER, READ, STATE, AGAIN };

static oscore_context *context, *another;
static oscore_peer *peer, *reader;
static uint8_t *state;
static oscore_ticket ticket;
static oscore_peer_record record;

static void lay_out(bool before) {
    guarded_before = before;
    context = guarded(CONTEXT, sizeof *context), another = guarded(ANOTHER, sizeof *another);
    peer = guarded(PEER, sizeof *peer), reader = guarded(READ, sizeof *reader), state = guarded(STATE, OSCORE_PEER_STATE);
    CHECK(!oscore_derive(context, SECRET, 16, SALT, 8, false, NULL, 0, &SERVER, 1, NULL, 0, true, false, false));
    CHECK(!oscore_derive(another, SECRET, 16, SALT, 8, false, NULL, 0, &OTHER, 1, NULL, 0, true, false, false));
    CHECK(!oscore_peer_begin_first(peer, context, 32, 5000));
}

/* The request of C.4. */
static oscore_status take(oscore_peer *by, uint8_t out[64], oscore_size *out_len) {
    uint8_t datagram[sizeof SEALED];
    oscore_option options[4];
    oscore_opened opened = OSCORE_ZERO;
    memcpy(datagram, SEALED, sizeof SEALED);
    return oscore_peer_take(by, 1000, 7, datagram, sizeof datagram, options, 4, &opened, &ticket, out, out_len, &record, NULL);
}

static uint64_t number_at(size_t place) {
    uint64_t number = 0;
    for (size_t i = 0; i < 8; i++) number += (uint64_t)state[place + i] << 8 * i;
    return number;
}

/* Each member has a value of its own, and stands at its place. */
static void stands_in_its_place(void) {
    oscore_server_context *own = &peer->server.context;
    own->places = 64, own->window_places = 32, own->gate = 3;
    for (uint8_t i = 0; i < 8; i++) own->echo[i] = 0xe0 + i;
    own->at = 0x1112131415, own->spent_mask = 0x2122232425262728, own->next = 0x3132333435, own->life = 0x4142434445464748;
    peer->server.clock = 0x5152535455565758, peer->server.unanswered.highest = 0x6162636465666768;
    peer->server.unanswered.mask = 0x7172737475767778, peer->reserved = 0x8182838485, peer->received = 0x9192939495;
    peer->life_ms = 0xa1a2a3a4a5a6a7a8, peer->clock = 0xb1b2b3b4b5b6b7b8, peer->name = 0xc1c2c3c4c5c6c7c8, peer->life = 0xd1d2d3d4d5d6d7d8;
    peer->generation = 0xf1f2f3f4f5f6f7f8;
    memset(state, 0xff, OSCORE_PEER_STATE);
    CHECK(can_be_peer(peer) && !oscore_peer_state_write(peer, state));
    const uint8_t first[16] = {1, 64, 32, 3, 0, 0, 0, 0, 0xe0, 0xe1, 0xe2, 0xe3, 0xe4, 0xe5, 0xe6, 0xe7};
    const uint64_t numbers[14] = {0x1112131415, 0x2122232425262728, 0x3132333435, 0x4142434445464748, 0x5152535455565758, 0x6162636465666768,
                                  0x7172737475767778, 0x8182838485, 0x9192939495, 0xa1a2a3a4a5a6a7a8, 0xb1b2b3b4b5b6b7b8, 0xc1c2c3c4c5c6c7c8,
                                  0xd1d2d3d4d5d6d7d8, 0xf1f2f3f4f5f6f7f8};
    CHECK(!memcmp(state, first, sizeof first));
    for (size_t i = 0; i < 14; i++) CHECK(number_at(16 + 8 * i) == numbers[i]);
    /* It is no state of this context's peer but for the name. */
    CHECK(oscore_peer_state_read(reader, context, state) == OSCORE_OLD_RECORD);
    uint64_t name;
    CHECK(!oscore_peer_name(context, &name));
    peer->name = name;
    CHECK(!oscore_peer_state_write(peer, state) && !oscore_peer_state_read(reader, context, state) && same_peers(reader, peer));
}

/* No 4 bytes that stand in its keys, one behind the other, stand in the state so. */
static void has_no_key(void) {
    const uint8_t *secret = context->sender_key;
    for (size_t at = 0; at + 4 <= 16 + 16 + 13; at++)
        for (size_t i = 0; i + 4 <= OSCORE_PEER_STATE; i++) CHECK(memcmp(state + i, secret + at, 4));
}

/* The reader is as the peer, and both answer the same to the same: a peer of which a copy goes on, here alone to compare. */
static void goes_on(oscore_status wanted) {
    uint8_t out[2][64] = {{0}}, reply[2][64] = {{0}};
    oscore_size out_len[2], reply_len[2] = {0, 0};
    memset(reader, 0, sizeof *reader);
    CHECK(!oscore_peer_state_write(peer, state) && !oscore_peer_state_read(reader, context, state) && same_peers(reader, peer));
    has_no_key();
    oscore_peer *both[2] = {peer, reader};
    uint64_t generation[2] = {0, 0};
    for (int i = 0; i < 2; i++) {
        CHECK(take(both[i], out[i], &out_len[i]) == wanted);
        if (wanted == OSCORE_SAVE_FIRST) generation[i] = record.generation, record.generation = 0;
        if (wanted == OSCORE_DONE || wanted == OSCORE_REPLAY)
            CHECK(oscore_peer_reply(both[i], &ticket, false, 7, ANSWER, 4, reply[i], 64, &reply_len[i], &record, NULL)
                  == (wanted == OSCORE_DONE ? OSCORE_DONE : OSCORE_TICKET_SPENT));
    }
    CHECK(out_len[0] == out_len[1] && !memcmp(out[0], out[1], 64) && reply_len[0] == reply_len[1] && !memcmp(reply[0], reply[1], 64));
    CHECK(same_peers(reader, peer));
    /* Both ask for one record, which a store takes once. */
    if (wanted == OSCORE_SAVE_FIRST) CHECK(generation[0] == peer->generation + 1 && generation[1] == generation[0]);
    record.generation = generation[0];
}

/* At each step of a peer: begun, saved, with its number saved, with the request delivered and answered. Then behind a challenge. */
static void goes_on_as_before(void) {
    goes_on(OSCORE_SAVE_FIRST);
    CHECK(!oscore_peer_saved(peer, &record));
    goes_on(OSCORE_SAVE_FIRST);
    CHECK(record.received == 21 && !oscore_peer_saved(peer, &record));
    goes_on(OSCORE_DONE);
    goes_on(OSCORE_REPLAY);
    const oscore_peer_record last = {peer->name, 5, 128, 0};
    CHECK(!oscore_peer_begin_again(peer, context, &last, 32, 5000));
    goes_on(OSCORE_SAVE_FIRST);
    CHECK(!oscore_peer_saved(peer, &record));
    goes_on(OSCORE_CHALLENGE);
    CHECK(peer->server.context.gate == 1);
    goes_on(OSCORE_CHALLENGE);
}

/* What a refusal leaves. */
static void is_refused(const oscore_context *by, oscore_status wanted) {
    const oscore_peer before = *reader;
    CHECK(oscore_peer_state_read(reader, by, state) == wanted && same_peers(reader, &before));
}

static void refuses(void) {
    uint8_t kept[OSCORE_PEER_STATE];
    CHECK(!oscore_peer_state_write(peer, state) && !oscore_peer_begin_first(reader, another, 64, 1));
    memcpy(kept, state, sizeof kept);
    is_refused(another, OSCORE_OLD_RECORD);
    for (int version = 0; version < 256; version++) {
        state[0] = (uint8_t)version;
        if (version != 1) is_refused(context, OSCORE_BAD_NUMBER), is_refused(another, OSCORE_BAD_NUMBER);
    }
    context->sender_len = 8;
    is_refused(context, OSCORE_BAD_HANDLE);
    context->sender_len = 1;
    memcpy(state, kept, sizeof kept);
    reader->busy = 1;
    is_refused(context, OSCORE_BUSY);
    reader->busy = 0, peer->busy = 1, state[0] = 9;
    CHECK(oscore_peer_state_write(peer, state) == OSCORE_BUSY && state[0] == 9);
    peer->busy = 0, peer->server.context.places = 33;
    CHECK(oscore_peer_state_write(peer, state) == OSCORE_BAD_HANDLE && state[0] == 9 && peer->busy == 0);
    peer->server.context.places = 32, state[0] = 1;
    CHECK(!memcmp(state, kept, sizeof kept));
}

/* Each bit says something: the state with another one is refused, or it is another peer's, which writes it so. */
static void each_bit_counts(void) {
    uint8_t kept[OSCORE_PEER_STATE], *again = guarded(AGAIN, OSCORE_PEER_STATE);
    CHECK(!oscore_peer_state_write(peer, state));
    memcpy(kept, state, sizeof kept);
    for (size_t bit = 0; bit < 8 * sizeof kept; bit++) {
        const oscore_peer before = *reader;
        state[bit / 8] ^= (uint8_t)(1 << bit % 8);
        oscore_status status = oscore_peer_state_read(reader, context, state);
        /* The first byte and the four that are 0, and the name. */
        if (bit / 8 == 0 || (bit / 8 >= 4 && bit / 8 < 8)) CHECK(status == OSCORE_BAD_NUMBER);
        else if (bit / 8 >= 104 && bit / 8 < 112) CHECK(status == OSCORE_OLD_RECORD);
        else CHECK(status == OSCORE_DONE || status == OSCORE_BAD_NUMBER);
        if (status) CHECK(same_peers(reader, &before));
        else CHECK(can_be_peer(reader) && !oscore_peer_state_write(reader, again) && !memcmp(again, state, sizeof kept));
        state[bit / 8] ^= (uint8_t)(1 << bit % 8);
    }
    CHECK(!memcmp(state, kept, sizeof kept));
}

int main(void) {
    for (int before = 0; before < 2; before++) {
        lay_out(before);
        goes_on_as_before();
        refuses();
        each_bit_counts();
        stands_in_its_place();
        each_bit_counts();
    }
    puts("all as said");
    return 0;
}

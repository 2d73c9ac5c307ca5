/* What each call writes for its caller, byte by byte, padding and what it leaves too: this program prints it. A library that is made another way
   has to print the same as the proved one on x86-64 (firmware/check): no byte comes from a stack that nobody wrote. Pointers, which lie in
   slots of 8 bytes, are told by where they point, and by the upper half of the slot. */
#include <stdio.h>
#include <stdlib.h>
#include <string.h>
#include "oscore.h"

#define CHECK(holds) do { if (!(holds)) { printf("written.c:%d: %s\n", __LINE__, #holds); exit(1); } } while (0)
#define SHOW(what) show(#what, &(what), sizeof (what))

static const uint8_t SECRET[16] = {1, 2, 3, 4, 5, 6, 7, 8, 9, 10, 11, 12, 13, 14, 15, 16}, SALT[8] = {0x9e, 0x7c, 0xa9, 0x22, 0x23, 0x78, 0x63, 0x40};
static const uint8_t SERVER[1] = {1}, GROUP[8] = {0x37, 0xcb, 0xf3, 0x21, 0, 0x17, 0xa2, 0xd3};
/* A GET with Uri-Host, Observe, Uri-Port and Uri-Path, one with two of Uri-Path, and answers: 2.05 with Content-Format, and 4.04; and a
   notification. */
static const uint8_t OBSERVES[] = {0x42, 1, 0x5d, 0x1f, 0xaa, 0xbb, 0x31, 'h', 0x30, 0x12, 0x16, 0x33, 0x52, 't', 'v'};
static const uint8_t PLAIN[] = {0x41, 1, 0x5d, 0x20, 0xcc, 0xb1, 'a', 0x01, 'b', 0xff, 'x'};
static const uint8_t ANSWER[] = {0x62, 0x45, 0, 0, 0xaa, 0xbb, 0xc1, 0x3c, 0xff, 'o', 'k'}, GONE[] = {0x62, 0x84, 0, 0, 0xaa, 0xbb};
static const uint8_t TELLS[] = {0x52, 0x45, 0, 9, 0xaa, 0xbb, 0x60, 0x61, 0x3c, 0xff, 'o', 'k'};

static oscore_context server, client;
static oscore_peer answers, asks;
static oscore_peer_record record;
static oscore_ticket ticket;
static oscore_opened opened;
static oscore_option options[4];
static oscore_request_head head;
static oscore_pending pending[3];
static oscore_size len, detail, count, index_of;
static uint64_t request;
static uint8_t datagram[128], out[64], sealed[128];

static void show(const char *name, const void *from, size_t size) {
    printf("%s ", name);
    for (size_t i = 0; i < size; i++) printf("%02x", ((const uint8_t *)from)[i]);
    printf("\n");
}

/* A pointer, by its place in the datagram, if it lies there. Its slot then holds that place in the lower half alone. */
static void tell(const uint8_t **pointer) {
    uint64_t slot = 0;
    uintptr_t place = (uintptr_t)*pointer - (uintptr_t)datagram;
    memcpy(&slot, pointer, 8);
    slot >>= 32;
    /* Where a pointer has 8 bytes, its upper half is part of it. */
    if (sizeof *pointer == 8) slot = 0;
    printf("at %d, above it %08lx\n", place < sizeof datagram ? (int)place : -1, (unsigned long)slot);
    memset((void *)pointer, 0, 8);
}

/* What a call left; all of it is another byte before the next one. */
static void left(const char *call, oscore_status status) {
    printf("== %s: %d\n", call, (int)status);
    if (status == OSCORE_DONE) {
        tell(&opened.uri_host), tell(&opened.uri_port), tell(&opened.payload), tell(&head.kid), tell(&head.kid_context);
        for (int i = 0; i < 4; i++) tell(&options[i].value);
    }
    SHOW(answers), SHOW(asks), SHOW(record), SHOW(ticket), SHOW(opened), SHOW(options), SHOW(head), SHOW(pending), SHOW(len), SHOW(detail);
    SHOW(count), SHOW(index_of), SHOW(request), SHOW(datagram), SHOW(out), SHOW(sealed);
    memset(&opened, 0, sizeof opened), memset(options, 0, sizeof options), memset(&head, 0, sizeof head);
    memset(out, 0x33, sizeof out), memset(sealed, 0x44, sizeof sealed);
    len = detail = index_of = 0x55;
}

#define CALL(call) left(#call, call)

static void copy(const uint8_t *from, size_t size) {
    memset(datagram, 0x66, sizeof datagram);
    memcpy(datagram, from, size);
}

/* What the other end says, sealed by hand. */
static oscore_size says(const uint8_t *plain, size_t size, uint64_t number) {
    oscore_size made = 0;
    memset(datagram, 0x66, sizeof datagram);
    CHECK(!oscore_seal_request(&client, number, plain, size, datagram, sizeof datagram, &made, NULL));
    return made;
}

static void takes(oscore_size size) {
    CALL(oscore_peer_take(&answers, 1000, 7, datagram, size, options, 4, &opened, &ticket, out, &len, &record, &detail));
}

static void of_a_server(void) {
    oscore_size size = says(OBSERVES, sizeof OBSERVES, 5);
    CALL(oscore_head(datagram, size, &head, &detail));
    CALL(oscore_peer_begin_first(&answers, &server, 32, 60000));
    takes(size);
    CALL(oscore_peer_saved(&answers, &record));
    takes(size);
    CALL(oscore_peer_saved(&answers, &record));
    CALL(oscore_peer_find(&answers, 1, datagram, size, &index_of, &detail));
    takes(size);
    CALL(oscore_peer_notify(&answers, &ticket, TELLS, sizeof TELLS, sealed, sizeof sealed, &len, &record, &detail));
    CALL(oscore_peer_reply(&answers, &ticket, false, 9, GONE, sizeof GONE, sealed, sizeof sealed, &len, &record, &detail));
    CALL(oscore_peer_reply(&answers, &ticket, false, 9, GONE, sizeof GONE, sealed, sizeof sealed, &len, &record, &detail));
    takes(says(OBSERVES, sizeof OBSERVES, 5));
    takes(says(PLAIN, sizeof PLAIN, 4));
    CALL(oscore_peer_reply(&answers, &ticket, false, 9, ANSWER, sizeof ANSWER, sealed, sizeof sealed, &len, &record, &detail));
    size = says(PLAIN, sizeof PLAIN, 6);
    datagram[size - 1] ^= 1;
    takes(size);
    takes(3);
    record = (oscore_peer_record){answers.name, record.generation + 1, 64, 0};
    CALL(oscore_peer_begin_again(&answers, &server, &record, 64, 60000));
    takes(says(PLAIN, sizeof PLAIN, 7));
    CALL(oscore_peer_saved(&answers, &record));
    takes(says(PLAIN, sizeof PLAIN, 7));
}

static void asks_for(const uint8_t *plain, size_t size) {
    CALL(oscore_peer_request(&asks, pending, 3, &count, 20, plain, size, sealed, sizeof sealed, &len, &record, &detail));
}

static void hears(const uint8_t *plain, size_t size, bool has_own, uint64_t own, uint64_t of) {
    oscore_size made = 0;
    memset(datagram, 0x66, sizeof datagram);
    CHECK(!oscore_seal_response(&server, of, has_own, own, plain, size, datagram, sizeof datagram, &made, NULL));
    CALL(oscore_peer_hear(&asks, pending, 3, &count, 30, datagram, made, options, 4, &opened, &request, &detail));
}

static void of_a_client(void) {
    CALL(oscore_peer_begin_first(&asks, &client, 1, 60000));
    asks_for(OBSERVES, sizeof OBSERVES);
    CALL(oscore_peer_saved(&asks, &record));
    asks_for(OBSERVES, sizeof OBSERVES);
    asks_for(PLAIN, sizeof PLAIN);
    hears((const uint8_t[]){0x51, 0x45, 0, 3, 0xcc, 0xff, 'y'}, 7, false, 0, 1);
    hears(GONE, sizeof GONE, true, 3, 0);
    asks_for(PLAIN, sizeof PLAIN);
    CALL(oscore_peer_forget(&asks, pending, 3, &count, PLAIN + 4, 1));
}

static void of_messages(void) {
    copy(OBSERVES, sizeof OBSERVES);
    CALL(oscore_seal_request(&client, 3, OBSERVES, sizeof OBSERVES, sealed, sizeof sealed, &len, &detail));
    CALL(oscore_open_request(&server, datagram, says(OBSERVES, sizeof OBSERVES, 3), options, 4, &opened, &detail));
    CALL(oscore_open_request(&server, datagram, says(OBSERVES, sizeof OBSERVES, 3), options, 1, &opened, &detail));
    CALL(oscore_seal_response(&server, 3, true, 8, ANSWER, sizeof ANSWER, datagram, sizeof datagram, &len, &detail));
    CHECK(!oscore_seal_response(&server, 3, true, 8, ANSWER, sizeof ANSWER, datagram, sizeof datagram, &len, NULL));
    CALL(oscore_open_response(&client, 3, datagram, len, options, 4, &opened, &detail));
}

int main(void) {
    for (int tables = 0; tables < 2; tables++) {
        CHECK(!oscore_derive(&server, SECRET, 16, SALT, 8, true, GROUP, 8, SERVER, 1, NULL, 0, tables, false, true));
        SHOW(server);
        CHECK(!oscore_derive(&client, SECRET, 16, SALT, 8, true, GROUP, 8, NULL, 0, SERVER, 1, tables, true, true));
        SHOW(client);
        client.blocks = server.blocks;
        of_messages(), of_a_server(), of_a_client();
    }
    return 0;
}

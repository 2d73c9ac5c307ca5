/* How often each answer came, and what came otherwise than it was judged. */
#include "sides.h"
#include <stdio.h>

/* How many differences are told, and how many bytes of each. */
enum { MOST_TOLD = 20, MOST_BYTES = 200, STATUSES = OSCORE_NOT_PENDING + 1 };

static const char *const CALL_NAMES[CALLS] = {"oscore_peer_find", "oscore_peer_take", "oscore_peer_reply", "oscore_peer_notify",
                                              "oscore_peer_begin_again, to serve", "oscore_peer_hear", "oscore_peer_request",
                                              "oscore_peer_forget", "oscore_peer_begin_again, to ask"};

/* The answers that have to come, ended by one that is none. */
static const uint8_t HAVE_TO_COME[CALLS][24] = {
    [FIND] = {OSCORE_DONE, OSCORE_DATAGRAM_TOO_LONG, OSCORE_SHORT, OSCORE_VERSION, OSCORE_TOKEN_LENGTH, OSCORE_EMPTY_WITH_REST,
              OSCORE_TOKEN_CUT, OSCORE_NIBBLE15, OSCORE_OPTION_CUT, OSCORE_NUMBER_TOO_LARGE, OSCORE_EMPTY_PAYLOAD, OSCORE_NOT_THAT_KIND,
              OSCORE_NO_OSCORE, OSCORE_UNDECODABLE, OSCORE_NO_CONTEXT, STATUSES},
    [TAKE] = {OSCORE_DONE, OSCORE_SAVE_FIRST, OSCORE_DATAGRAM_TOO_LONG, OSCORE_SHORT, OSCORE_VERSION, OSCORE_TOKEN_LENGTH, OSCORE_EMPTY_WITH_REST,
              OSCORE_TOKEN_CUT, OSCORE_NIBBLE15, OSCORE_OPTION_CUT, OSCORE_NUMBER_TOO_LARGE, OSCORE_EMPTY_PAYLOAD, OSCORE_NOT_THAT_KIND,
              OSCORE_NO_OSCORE, OSCORE_UNDECODABLE, OSCORE_NO_CONTEXT, OSCORE_REPLAY, OSCORE_TAG, OSCORE_INNER, OSCORE_CHALLENGE,
              OSCORE_SEQUENCE_EXHAUSTED, STATUSES},
    [REPLY] = {OSCORE_DONE, OSCORE_SAVE_FIRST, OSCORE_SHORT, OSCORE_TOKEN_CUT, OSCORE_OPTION_CUT, OSCORE_EMPTY_PAYLOAD, OSCORE_STALE_TICKET,
               OSCORE_TICKET_SPENT, OSCORE_NOT_THAT_KIND, OSCORE_UNSUPPORTED, OSCORE_SEQUENCE_EXHAUSTED, OSCORE_NO_ROOM, STATUSES},
    [NOTIFY] = {OSCORE_DONE, OSCORE_SAVE_FIRST, OSCORE_SHORT, OSCORE_TOKEN_CUT, OSCORE_OPTION_CUT, OSCORE_EMPTY_PAYLOAD, OSCORE_STALE_TICKET,
                OSCORE_NOT_THAT_KIND, OSCORE_UNSUPPORTED, OSCORE_SEQUENCE_EXHAUSTED, OSCORE_NO_ROOM, OSCORE_NOT_OBSERVING,
                OSCORE_NOT_NOTIFICATION, STATUSES},
    [BEGIN_SERVING] = {OSCORE_DONE, OSCORE_SEQUENCE_EXHAUSTED, STATUSES},
    [HEAR] = {OSCORE_DONE, OSCORE_DATAGRAM_TOO_LONG, OSCORE_SHORT, OSCORE_VERSION, OSCORE_TOKEN_LENGTH, OSCORE_EMPTY_WITH_REST,
                  OSCORE_TOKEN_CUT, OSCORE_NIBBLE15, OSCORE_OPTION_CUT, OSCORE_NUMBER_TOO_LARGE, OSCORE_EMPTY_PAYLOAD,
                  OSCORE_NOT_THAT_KIND, OSCORE_UNKNOWN_TOKEN, OSCORE_NO_OSCORE, OSCORE_UNDECODABLE, OSCORE_OLD, OSCORE_TAG, OSCORE_INNER,
                  STATUSES},
    [REQUEST] = {OSCORE_DONE, OSCORE_SAVE_FIRST, OSCORE_SHORT, OSCORE_TOKEN_CUT, OSCORE_OPTION_CUT, OSCORE_EMPTY_PAYLOAD, OSCORE_NOT_THAT_KIND,
                 OSCORE_UNSUPPORTED, OSCORE_TOKEN_IN_USE, OSCORE_PENDING_FULL, OSCORE_SEQUENCE_EXHAUSTED, OSCORE_NO_ROOM, STATUSES},
    [FORGET] = {OSCORE_DONE, OSCORE_NOT_PENDING, STATUSES},
    [BEGIN_ASKING] = {OSCORE_DONE, OSCORE_SEQUENCE_EXHAUSTED, STATUSES},
};

static unsigned long steps, differences, counts[CALLS][STATUSES];
/* What an end of the library sealed, and the other end of the library delivered. */
static unsigned long by_library[CALLS], notified, notified_by_library, gave_way;

void count_step(void) {
    steps++;
}

void count_save(enum call call) {
    counts[call][OSCORE_SAVE_FIRST]++;
}

static const char *name_of(uint32_t status) {
    static char names[2][24];
    static int turn;
    turn = !turn;
    oscore_status_name(status, names[turn]);
    return names[turn];
}

static void print_bytes(const char *what, struct bytes bytes) {
    printf("  %s, %llu bytes: ", what, (unsigned long long)bytes.len);
    for (oscore_size i = 0; i < bytes.len && i < MOST_BYTES; i++) printf("%02x", bytes.at[i]);
    puts(bytes.len > MOST_BYTES ? ".." : "");
}

static void tell(enum call call, const char *end, const struct judged *judged, const struct came *came, struct bytes handed) {
    if (++differences > MOST_TOLD) return;
    const char *judged_name = name_of(judged->status), *came_name = name_of(came->status);
    printf("step %lu: %s %s: %s: judged %s, came %s\n", steps, CALL_NAMES[call], end, came->differs, judged_name, came_name);
    print_bytes("handed in", handed);
    print_bytes("judged to be written", bytes_of(&judged->written));
    print_bytes("written", came->written);
}

void report(enum call call, const struct judged *judged, const struct came came[ENDS], struct bytes handed) {
    if (came[0].status < STATUSES) counts[call][came[0].status]++;
    by_library[call] += came[0].status == OSCORE_DONE && judged->opened && judged->opened->by_library;
    bool is_notified = came[0].status == OSCORE_DONE && judged->is_notification;
    notified += is_notified;
    gave_way += came[0].status == OSCORE_DONE && judged->takes_place;
    notified_by_library += is_notified && judged->opened->by_library;
    for (int end = 0; end < ENDS; end++)
        if (came[end].differs) tell(call, END_NAMES[end], judged, &came[end], handed);
}

/* A line of a call: how often each of its answers came. Answers whether those came that have to. */
static bool tell_answers(enum call call) {
    bool all = true;
    printf("%s:", CALL_NAMES[call]);
    for (uint32_t status = 0; status < STATUSES; status++)
        if (counts[call][status]) printf(" %s %lu", name_of(status), counts[call][status]);
    for (const uint8_t *status = HAVE_TO_COME[call]; *status < STATUSES; status++) {
        if (counts[call][*status]) continue;
        printf(", and %s never", name_of(*status));
        all = false;
    }
    puts("");
    return all;
}

int end_report(void) {
    bool all = by_library[TAKE] && by_library[HEAR] && notified && notified_by_library && gave_way;
    for (int call = 0; call < CALLS; call++) all &= tell_answers(call);
    printf("of the library's own: %lu requests delivered, %lu responses\n", by_library[TAKE], by_library[HEAR]);
    printf("notifications: %lu, of the library's own %lu\n", notified, notified_by_library);
    printf("registrations that gave way: %lu\n", gave_way);
    printf("hostile: %lu datagrams, %lu calls differ\n", steps, differences);
    return !all || differences > 0;
}

/* A peer whose record oscore_store.h keeps in a file, and which is killed anywhere: however many lives it has, it obeys each request once at most, and
   seals with each Sender Sequence Number once at most, though each datagram comes as often as somebody likes. A life that begins behind
   another challenges nobody, once one request was delivered. With a word it has fewer lives. */
#define _DEFAULT_SOURCE
#include "../oscore.h"
#include "../oscore_store.h"
#include <signal.h>
#include <stdio.h>
#include <stdlib.h>
#include <string.h>
#include <sys/wait.h>
#include <unistd.h>

#define CHECK(holds) do { if (!(holds)) { printf("peer_lives.c:%d: %s\n", __LINE__, #holds); exit(1); } } while (0)

enum { MOST = 1 << 17, ROOM = 96, SENT = 12 };
/* What a life tells: the number of a request that it obeyed, or a Sender Sequence Number that it sealed with. */
enum { OBEYED, SEALED, CHALLENGED };
typedef struct told { uint64_t what, number; } told;
typedef struct sent { uint64_t len; uint8_t bytes[ROOM]; } sent;

static const uint8_t SECRET[16] = {1, 2, 3, 4, 5, 6, 7, 8, 9, 10, 11, 12, 13, 14, 15, 16}, SERVER = 1, CLIENT = 2;
static char file[32];
static oscore_context own, other;
static sent requests[MOST];
static unsigned counts[3][MOST];

static void derive(oscore_context *context, const uint8_t *sender, const uint8_t *recipient) {
    oscore_parameters parameters = OSCORE_ZERO;
    parameters.secret = SECRET, parameters.secret_len = sizeof SECRET;
    parameters.sender_id = sender, parameters.sender_id_len = 1, parameters.recipient_id = recipient, parameters.recipient_id_len = 1;
    CHECK(!oscore_derive_from(context, &parameters));
}

/* A confirmable PUT with an Echo value, which a peer that asks for one gets so. */
static void request(uint64_t number, uint64_t echo) {
    oscore_size len, detail;
    uint8_t plain[32], value[8];
    for (int i = 0; i < 8; i++) value[i] = (uint8_t)(echo >> 8 * (7 - i));
    oscore_option option = {252, value, 8};
    CHECK(number < MOST && !oscore_write_message(0, 3, (uint16_t)number, NULL, 0, &option, 1, NULL, 0, plain, sizeof plain, &len, &detail));
    oscore_size sealed;
    CHECK(!oscore_seal_request(&other, number, plain, len, requests[number].bytes, ROOM, &sealed, &detail));
    requests[number].len = sealed;
}

/* ---- a life */

static oscore_store store;

static void save(oscore_peer *peer, const oscore_peer_record *record) {
    CHECK(!oscore_store_save(&store, record) && !oscore_peer_saved(peer, record));
}

/* Begins behind the record, or first where none was saved yet. */
static void begin(oscore_peer *peer, bool first) {
    oscore_peer_record record;
    uint64_t name;
    CHECK(!oscore_peer_name(&own, &name));
    oscore_stored stored = oscore_store_open(&store, file, first, name, &record);
    CHECK(stored == OSCORE_STORED || stored == OSCORE_STORE_EMPTY);
    if (stored == OSCORE_STORED) CHECK(!oscore_peer_begin_again(peer, &own, &record, 32, 0));
    else CHECK(!oscore_peer_begin_first(peer, &own, 32, 0));
}

static void tell(int to, uint64_t what, uint64_t number) {
    told it = {what, number};
    CHECK(write(to, &it, sizeof it) == sizeof it);
}

/* Takes what comes, obeys what is delivered, and answers it. */
static _Noreturn void live(int from, int to, bool first) {
    static oscore_peer peer;
    oscore_peer_record record = OSCORE_ZERO;
    sent datagram;
    begin(&peer, first);
    while (read(from, &datagram, sizeof datagram) == sizeof datagram) {
        oscore_option options[2] = OSCORE_ZERO;
        oscore_opened opened = OSCORE_ZERO;
        oscore_ticket ticket = OSCORE_ZERO;
        oscore_size out_len, detail;
        uint8_t out[64];
        uint32_t status;
        uint64_t next = peer.server.context.next;
        while ((status = oscore_peer_take(&peer, 0, 7, datagram.bytes, datagram.len, options, 2, &opened, &ticket, out, &out_len, &record,
                                          &detail)) == OSCORE_SAVE_FIRST)
            save(&peer, &record);
        if (status == OSCORE_CHALLENGE) tell(to, CHALLENGED, next);
        if (status == OSCORE_DONE) {
            static const uint8_t plain[] = {0x60, 0x44, 0, 0};
            tell(to, OBEYED, opened.number);
            next = peer.server.context.next;
            while ((status = oscore_peer_reply(&peer, &ticket, true, 7, plain, sizeof plain, out, sizeof out, &out_len, &record, &detail)) == OSCORE_SAVE_FIRST)
                save(&peer, &record);
            CHECK(!status);
            tell(to, SEALED, next);
        }
        CHECK(!status || status == OSCORE_REPLAY || status == OSCORE_CHALLENGE);
    }
    /* Without what a sanitizer does at exit, in another process, which would hold the store's lock for a moment more. */
    _exit(0);
}

/* ---- all lives */

/* Notes what a life tells. */
static void note(const told *it) {
    CHECK(it->number < MOST && ++counts[it->what][it->number] == 1);
    /* A challenge is sealed with a number too. */
    if (it->what == CHALLENGED) CHECK(!counts[SEALED][it->number]);
    if (it->what == SEALED) CHECK(!counts[CHALLENGED][it->number]);
}

/* One life gets new requests and old ones, and is killed when it told so much, or before it is done. Answers how many requests it obeyed. */
static int lives(bool first, uint64_t *next, uint64_t *echo, int wanted) {
    int in[2], out[2], obeyed = 0;
    told it;
    CHECK(!pipe(in) && !pipe(out));
    fflush(stdout);
    pid_t child = fork();
    CHECK(child >= 0);
    if (child == 0) {
        CHECK(!close(in[1]) && !close(out[0]));
        live(in[0], out[1], first);
    }
    CHECK(!close(in[0]) && !close(out[1]));
    for (int i = 0; i < SENT; i++) {
        bool old = *next > 0 && rand() % 2;
        uint64_t number = old ? (uint64_t)rand() % *next : (*next)++;
        if (!old) request(number, *echo);
        CHECK(write(in[1], &requests[number], sizeof requests[number]) == sizeof requests[number]);
    }
    CHECK(!close(in[1]));
    for (int got = 0; read(out[0], &it, sizeof it) == sizeof it; got++) {
        note(&it);
        obeyed += it.what == OBEYED;
        if (it.what == CHALLENGED) *echo = it.number;
        if (got == wanted) CHECK(!kill(child, SIGKILL));
    }
    int ended;
    CHECK(waitpid(child, &ended, 0) == child && !close(out[0]));
    CHECK(WIFSIGNALED(ended) ? WTERMSIG(ended) == SIGKILL : WIFEXITED(ended) && WEXITSTATUS(ended) == 0);
    return obeyed;
}

int main(int count, char **words) {
    /* The file lies beside the program. */
    char *slash = strrchr(words[0], '/');
    if (slash) *slash = '\0';
    CHECK(!slash || !chdir(slash == words[0] ? "/" : words[0]));
    int all = count > 1 ? 20 : 1000, obeyed = 0, challenged = 0;
    uint64_t next = 0, echo = 0;
    srand(1);
    signal(SIGPIPE, SIG_IGN);
    snprintf(file, sizeof file, "peer.%d", (int)getpid());
    derive(&own, &SERVER, &CLIENT), derive(&other, &CLIENT, &SERVER);
    for (int i = 0; i < all; i++) {
        int before = obeyed;
        obeyed += lives(i == 0, &next, &echo, i == 0 ? SENT : rand() % SENT);
        CHECK(i > 0 || obeyed > before);
    }
    for (unsigned i = 0; i < MOST; i++) challenged += (int)counts[CHALLENGED][i];
    CHECK(challenged == 0 && obeyed > all && !unlink(file));
    printf("peer_lives: %d lives, %llu requests sealed, %d obeyed once\n", all, (unsigned long long)next, obeyed);
    return 0;
}

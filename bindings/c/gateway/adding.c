#include "adding.h"
#include <stdio.h>
#include <stdlib.h>
#include <string.h>

enum { SECRET, SALT, OWN, THEIR, ID_CONTEXT, STATE, NEXT };
static const size_t ROOMS[] = {64, 64, 7, 7, 32};

typedef struct named_bytes {
    uint8_t bytes[64];
    size_t len;
} named_bytes;

typedef struct description {
    named_bytes bytes[ID_CONTEXT + 1];
    bool restarted, tables, blocks, observe;
    uint64_t next;
} description;

static int hex_digit(char of) {
    if (of >= '0' && of <= '9') return of - '0';
    if (of >= 'a' && of <= 'f') return of - 'a' + 10;
    if (of >= 'A' && of <= 'F') return of - 'A' + 10;
    return -1;
}

/* Hex digits, or `-` for no bytes. */
static bool read_bytes(const char *word, size_t room, named_bytes *to) {
    to->len = 0;
    if (!strcmp(word, "-")) return true;
    for (; *word; word += 2) {
        int high = hex_digit(word[0]), low = high < 0 ? -1 : hex_digit(word[1]);
        if (low < 0 || to->len == room) return false;
        to->bytes[to->len++] = (uint8_t)(high << 4 | low);
    }
    return to->len > 0;
}

static bool read_number(const char *word, uint64_t *to) {
    size_t len = strspn(word, "0123456789");
    if (len == 0 || len > 15 || word[len]) return false;
    *to = strtoull(word, NULL, 10);
    return *to < NUMBERS;
}

/* What is wrong with the words, or NULL. */
static const char *read_words(char *words[], size_t count, description *to) {
    static const char *const FAULTS[] = {"the secret", "the salt", "the own identifier", "the other's identifier", "the ID context"};
    memset(to, 0, sizeof *to);
    if (count < WORDS_LEAST || count > WORDS_MOST) return "the number of words";
    for (size_t i = SECRET; i <= ID_CONTEXT; i++)
        if (!read_bytes(words[i], ROOMS[i], &to->bytes[i])) return FAULTS[i];
    to->restarted = !strcmp(words[STATE], "restarted");
    if (!to->restarted && strcmp(words[STATE], "fresh")) return "the state, which is fresh or restarted";
    if (!read_number(words[NEXT], &to->next)) return "the next number";
    if (!to->restarted && to->next > 0) return "the next number, which is 0 of a fresh context";
    for (size_t i = WORDS_LEAST; i < count; i++) {
        if (!strcmp(words[i], "tables")) to->tables = true;
        else if (!strcmp(words[i], "blocks")) to->blocks = true;
        else if (!strcmp(words[i], "observe")) to->observe = true;
        else return "a word behind the next number";
    }
    return NULL;
}

static oscore_status make_context(const description *of, oscore_context *context) {
    const named_bytes *b = of->bytes;
    oscore_parameters parameters = OSCORE_ZERO;
    parameters.secret = b[SECRET].bytes, parameters.secret_len = b[SECRET].len;
    parameters.salt = b[SALT].bytes, parameters.salt_len = b[SALT].len;
    parameters.id_context = b[ID_CONTEXT].bytes, parameters.id_context_len = b[ID_CONTEXT].len;
    parameters.sender_id = b[OWN].bytes, parameters.sender_id_len = b[OWN].len;
    parameters.recipient_id = b[THEIR].bytes, parameters.recipient_id_len = b[THEIR].len;
    parameters.tables = of->tables, parameters.blocks = of->blocks, parameters.observe = of->observe;
    return oscore_derive_from(context, &parameters);
}

static store_answer refuse(char why[WHY_ROOM], const char *what) {
    memcpy(why, what, strlen(what) + 1);
    return STORE_NOT;
}

/* What a context becomes on its way into a store. */
typedef struct making {
    oscore_context context;
    row row;
    row_bytes bytes;
} making;

/* A context that was restarted begins as behind the first record of a life before. */
static oscore_status begin(const description *of, making *m) {
    oscore_status status = make_context(of, &m->context);
    if (status != OSCORE_DONE) return status;
    return of->restarted ? life_begin_again(&m->row.peer, &m->context, 1, of->next) : life_begin_first(&m->row.peer, &m->context);
}

static store_answer add(store *to, const description *of, making *m, char why[WHY_ROOM]) {
    row_key key;
    uint8_t fingerprint[FINGERPRINT_LEN];
    char name[24];
    oscore_status status = begin(of, m);
    if (status != OSCORE_DONE) {
        oscore_status_name(status, name);
        return refuse(why, name);
    }
    if (!row_fingerprint(&m->context, fingerprint)) return refuse(why, "no fingerprint");
    row_key_of_context(&key, &m->context);
    row_write(&m->row, &key, &m->bytes);
    store_answer answer = to->calls->add(to, &key, fingerprint, &m->bytes);
    return answer == STORE_NOT ? refuse(why, "there is a context with this name, or with this Sender Key") : answer;
}

store_answer add_context(store *to, char *words[], size_t count, char why[WHY_ROOM]) {
    description read;
    making m;
    memset(&m, 0, sizeof m);
    const char *fault = read_words(words, count, &read);
    store_answer answer = fault ? refuse(why, fault) : add(to, &read, &m, why);
    oscore_wipe(&read, sizeof read);
    oscore_wipe(&m, sizeof m);
    oscore_wipe_stack();
    return answer;
}

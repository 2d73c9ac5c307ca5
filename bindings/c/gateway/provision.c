#include "provision.h"
#include "adding.h"
#include "trial.h"
#include <string.h>

enum { LINE_ROOM = 512, LINES_MOST = 32 };

/* The words of a text, at most so many: where there are more, one more than that is the answer. */
static size_t words_of(char *text, char *words[], size_t most) {
    size_t count = 0;
    char *rest;
    for (char *word = strtok_r(text, " \t\r\n", &rest); word && count <= most; word = strtok_r(NULL, " \t\r\n", &rest))
        if (count++ < most) words[count - 1] = word;
    return count;
}

/* Adds the context of a line, if there is one on it. */
static store_answer add_line(store *to, char *text, size_t *added, char why[WHY_ROOM]) {
    char *words[WORDS_MOST] = {NULL};
    size_t count = words_of(text, words, WORDS_MOST);
    if (count == 0 || words[0][0] == '#') return STORE_DONE;
    store_answer answer = add_context(to, words, count, why);
    *added += answer == STORE_DONE;
    return answer;
}

static bool add_all(store *to, FILE *lines, size_t *added) {
    char text[LINE_ROOM], why[WHY_ROOM] = "its length";
    store_answer answer = STORE_DONE;
    for (size_t number = 1; answer == STORE_DONE && fgets(text, sizeof text, lines); number++) {
        answer = strchr(text, '\n') || feof(lines) ? add_line(to, text, added, why) : STORE_NOT;
        if (answer == STORE_NOT) fprintf(stderr, "provision: line %zu: %s\n", number, why);
    }
    if (ferror(lines)) perror("provision");
    oscore_wipe(text, sizeof text);
    return answer == STORE_DONE && !ferror(lines);
}

static bool take_back(store *to) {
    if (!to->calls->undo(to)) fputs("provision: what was added wasn't taken back\n", stderr);
    return false;
}

bool provision(store *to, FILE *lines, size_t *added) {
    *added = 0;
    if (!to->calls->make(to) || !to->calls->begin(to)) return false;
    if (add_all(to, lines, added)) return to->calls->commit(to);
    *added = 0;
    return take_back(to);
}

/* The context is added and its line removed, or the line is marked. */
static store_answer take(store *to, waiting_line *line, provisioned *taken) {
    char *words[WORDS_MOST], why[WHY_ROOM];
    for (size_t i = 0; i < WORDS_LEAST; i++) words[i] = line->words[i];
    size_t count = WORDS_LEAST + words_of(line->words[WORDS_LEAST], words + WORDS_LEAST, WORDS_MOST - WORDS_LEAST);
    store_answer answer = add_context(to, words, count, why);
    if (answer == STORE_DONE) {
        trial_reach(TRIAL_ADDED);
        answer = to->calls->clear(to, line->number);
        taken->added++;
    } else if (answer == STORE_NOT) {
        fprintf(stderr, "provision: line %lld of the table: %s\n", (long long)line->number, why);
        answer = to->calls->refuse(to, line->number, why);
        taken->refused++;
    }
    return answer;
}

bool provision_waiting(store *to, provisioned *taken) {
    waiting_line line;
    *taken = (provisioned){0, 0};
    store_answer answer = to->calls->next(to, &line);
    oscore_wipe(&line, sizeof line);
    if (answer != STORE_DONE) return answer == STORE_NOT;
    if (!to->calls->begin(to)) return false;
    for (size_t count = to->calls->one_writes ? LINES_MOST : 1; count > 0 && answer == STORE_DONE; count--) {
        answer = to->calls->next(to, &line);
        if (answer == STORE_NOT) break;
        if (answer == STORE_DONE && take(to, &line, taken) != STORE_DONE) answer = STORE_BROKEN;
        oscore_wipe(&line, sizeof line);
    }
    return answer == STORE_BROKEN ? take_back(to) : to->calls->commit(to);
}

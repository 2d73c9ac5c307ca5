/* A store holds one row for each context. All of the gateway's safety over several workers rests on two things of it, which are premises:
   a write happens only where the version is still the one that was read, whoever else writes; and what it answers as written stays so.

   No call reports a secret: errors go to standard error in the words of the database, without the values of a row. */
#ifndef GATEWAY_STORE_H
#define GATEWAY_STORE_H

#include "row.h"

typedef enum store_answer {
    STORE_DONE,   /* it is read, or written for good (between begin and commit: it will be, if commit answers true) */
    STORE_NOT,    /* there is no such row; its version is another; or there is a row like the one to add */
    STORE_BROKEN  /* anything else. It isn't known whether a write happened: whoever gets this sends nothing, acts on nothing, and ends */
} store_answer;

typedef struct store store;

/* One of several rows that are read or written by one call. */
typedef struct store_row {
    row_key key;
    row_bytes bytes;
    store_answer answer; /* DONE or NOT */
} store_row;

/* A line of the table `provision`, into which contexts are inserted by SQL: its number and its columns. A column that is no text, or has no
   room here, is a word that no column may have. */
enum { LINE_COLUMNS = 8, WORD_ROOM = 160 };
#define LINE_NO_WORD "?"

typedef struct waiting_line {
    int64_t number;
    char words[LINE_COLUMNS][WORD_ROOM]; /* secret, salt, own, their, idcontext, state, next, words */
} waiting_line;

typedef struct store_calls {
    const char *name;
    bool one_writes; /* whether one transaction writes at a time: then several steps may share one, and none waits for another inside of it */
    bool is_within; /* whether the worker does its work, and no server, which wants a processor for it */
    store_answer (*get)(store *, const row_key *, row_bytes *);
    store_answer (*put)(store *, const row_key *, const row_bytes *);
    /* Of a store that has several rows sooner at once than one after the other; any other has NULL. put_all is a transaction of its own: once
       it answers, what is DONE is written for good. NOT may mean, too, that the database undid all of it. The keys of the rows ascend: two who
       write some of the same rows then never wait for each other. False: BROKEN. */
    bool (*get_all)(store *, store_row *rows[], size_t count);
    bool (*put_all)(store *, store_row *rows[], size_t count);
    store_answer (*add)(store *, const row_key *, const uint8_t fingerprint[FINGERPRINT_LEN], const row_bytes *);
    store_answer (*next)(store *, waiting_line *);                    /* the first line that waits; between begin and commit nobody else has it */
    store_answer (*clear)(store *, int64_t number);                   /* removes a line */
    store_answer (*refuse)(store *, int64_t number, const char *why); /* marks a line: it waits no longer */
    bool (*make)(store *); /* the tables, where there are none */
    bool (*begin)(store *);
    bool (*commit)(store *);
    bool (*undo)(store *);
    void (*close)(store *);
} store_calls;

/* Each kind of store has a struct of its own that begins with this one. */
struct store {
    const store_calls *calls;
};

/* Opens a store by its name, and says on standard error why it can't: NULL. store_names says which names there are.
   What is behind the colon may hold a password, so it is never printed. */
store *store_open(const char *name);
extern const char *const store_names;

/* Read, or write, so many rows: by one call, where the store has one, else one after the other. False: BROKEN. */
bool store_get_all(store *of, store_row *rows[], size_t count);
bool store_put_all(store *of, store_row *rows[], size_t count);

store *store_sqlite_open(const char *file, bool full);
store *store_postgres_open(const char *conninfo, bool on);
store *store_memory_open(const char *file);

#endif

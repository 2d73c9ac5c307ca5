/* The store over SQLite: a file, in WAL mode, synced at each commit. */
#include "store.h"
#include <errno.h>
#include <fcntl.h>
#include <sqlite3.h>
#include <stdio.h>
#include <stdlib.h>
#include <string.h>
#include <sys/file.h>
#include <unistd.h>

/* What is in the log goes into the file after so many pages of it. Each page goes there once, however often it changed, and then both are synced:
   the rarer, the less there is to write. */
enum { BUSY_MS = 20000, PATH_ROOM = 512, LOG_PAGES = 4000 };

/* Of a new file. Whatever is written of a row, its whole page goes into the log at a commit, and is synced. In smaller pages than these SQLite
   would part a row of 256 bytes. */
#define PAGES "PRAGMA page_size=2048"

typedef struct sqlite_store {
    store of;
    sqlite3 *db;
    sqlite3_stmt *get, *put, *add, *next, *clear, *refuse, *begin, *commit, *undo;
    bool prepared, lines_prepared;
    int turn; /* a file whose lock says whose turn it is to write: SQLite's own wait looks again and again, this one is woken */
} sqlite_store;

static store_answer broken(sqlite_store *s, const char *what) {
    fprintf(stderr, "sqlite: %s: %s\n", what, sqlite3_errmsg(s->db));
    return STORE_BROKEN;
}

static bool prepare(sqlite_store *s, const char *sql, sqlite3_stmt **to) {
    if (sqlite3_prepare_v3(s->db, sql, -1, SQLITE_PREPARE_PERSISTENT, to, NULL) == SQLITE_OK) return true;
    broken(s, "is there a table?");
    return false;
}

/* These need the table: so they are prepared before the first use, which make precedes. */
static bool prepare_all(sqlite_store *s) {
    s->prepared = s->prepared || (prepare(s, "SELECT v, h, r FROM contexts WHERE k = ?1", &s->get)
        && prepare(s, "UPDATE contexts SET v = v + 1, h = ?1, r = ?2 WHERE k = ?3 AND v = ?4", &s->put)
        && prepare(s, "INSERT INTO contexts (k, v, f, h, r) VALUES (?1, 0, ?2, ?3, ?4) ON CONFLICT DO NOTHING", &s->add));
    return s->prepared;
}

static bool bind_bytes(sqlite3_stmt *to, int place, const uint8_t *bytes, size_t len) {
    return sqlite3_bind_blob(to, place, bytes, (int)len, SQLITE_STATIC) == SQLITE_OK;
}

/* The longer replies are beside the state; where there is none, there is NULL. */
static bool bind_reply(sqlite3_stmt *to, int place, const row_bytes *row) {
    if (row->reply_len == 0) return sqlite3_bind_null(to, place) == SQLITE_OK;
    return bind_bytes(to, place, row->reply, row->reply_len);
}

/* Takes a column where it has room. */
static bool take_column(sqlite3_stmt *from, int column, uint8_t *to, size_t room, size_t *len) {
    const void *bytes = sqlite3_column_blob(from, column);
    *len = (size_t)sqlite3_column_bytes(from, column);
    if (*len > room) return false;
    if (*len > 0) memcpy(to, bytes, *len);
    return true;
}

static store_answer get(store *of, const row_key *key, row_bytes *row) {
    sqlite_store *s = (sqlite_store *)of;
    store_answer answer = STORE_NOT;
    int status = SQLITE_ERROR;
    if (prepare_all(s) && bind_bytes(s->get, 1, key->bytes, key->len)) status = sqlite3_step(s->get);
    if (status == SQLITE_ROW) {
        row->version = (uint64_t)sqlite3_column_int64(s->get, 0);
        bool fits = take_column(s->get, 1, row->state, sizeof row->state, &row->state_len)
            && take_column(s->get, 2, row->reply, sizeof row->reply, &row->reply_len);
        answer = fits ? STORE_DONE : broken(s, "a row is too long");
    } else if (status != SQLITE_DONE) {
        answer = broken(s, "read");
    }
    if (sqlite3_reset(s->get) != SQLITE_OK && answer != STORE_BROKEN) answer = broken(s, "read");
    return answer;
}

/* Runs a statement that writes one row, or none. */
static store_answer write_one(sqlite_store *s, sqlite3_stmt *statement, bool bound, const char *what) {
    store_answer answer = STORE_BROKEN;
    if (bound && sqlite3_step(statement) == SQLITE_DONE) answer = sqlite3_changes(s->db) == 1 ? STORE_DONE : STORE_NOT;
    if (answer == STORE_BROKEN) broken(s, what);
    if (sqlite3_reset(statement) != SQLITE_OK) answer = STORE_BROKEN;
    if (sqlite3_clear_bindings(statement) != SQLITE_OK) answer = STORE_BROKEN;
    return answer;
}

static store_answer put(store *of, const row_key *key, const row_bytes *row) {
    sqlite_store *s = (sqlite_store *)of;
    bool bound = prepare_all(s) && bind_bytes(s->put, 1, row->state, row->state_len) && bind_reply(s->put, 2, row)
        && bind_bytes(s->put, 3, key->bytes, key->len)
        && sqlite3_bind_int64(s->put, 4, (sqlite3_int64)row->version) == SQLITE_OK;
    return write_one(s, s->put, bound, "write");
}

static store_answer add(store *of, const row_key *key, const uint8_t fingerprint[FINGERPRINT_LEN], const row_bytes *row) {
    sqlite_store *s = (sqlite_store *)of;
    bool bound = prepare_all(s) && bind_bytes(s->add, 1, key->bytes, key->len) && bind_bytes(s->add, 2, fingerprint, FINGERPRINT_LEN)
        && bind_bytes(s->add, 3, row->state, row->state_len) && bind_reply(s->add, 4, row);
    return write_one(s, s->add, bound, "add");
}

static bool tell(sqlite_store *s, const char *sql) {
    if (sqlite3_exec(s->db, sql, NULL, NULL, NULL) == SQLITE_OK) return true;
    broken(s, sql);
    return false;
}

/* What is cleared is overwritten in the file, since a line holds a secret. */
static bool prepare_lines(sqlite_store *s) {
    s->lines_prepared = s->lines_prepared || (tell(s, "PRAGMA secure_delete=ON")
        && prepare(s, "SELECT n, secret, salt, own, their, idcontext, state, CAST(next AS TEXT), words FROM provision WHERE refused IS NULL"
                      " ORDER BY n LIMIT 1", &s->next)
        && prepare(s, "DELETE FROM provision WHERE n = ?1", &s->clear)
        && prepare(s, "UPDATE provision SET refused = ?2 WHERE n = ?1", &s->refuse));
    return s->lines_prepared;
}

static void take_word(sqlite3_stmt *from, int column, char word[WORD_ROOM]) {
    const char *text = sqlite3_column_type(from, column) == SQLITE_TEXT ? (const char *)sqlite3_column_text(from, column) : NULL;
    size_t len = text ? (size_t)sqlite3_column_bytes(from, column) : WORD_ROOM;
    if (len >= WORD_ROOM || strlen(text) != len) text = LINE_NO_WORD;
    memcpy(word, text, strlen(text) + 1);
}

static store_answer next(store *of, waiting_line *line) {
    sqlite_store *s = (sqlite_store *)of;
    int status = prepare_lines(s) ? sqlite3_step(s->next) : SQLITE_ERROR;
    store_answer answer = status == SQLITE_ROW ? STORE_DONE : status == SQLITE_DONE ? STORE_NOT : broken(s, "the next line");
    if (answer == STORE_DONE) {
        line->number = sqlite3_column_int64(s->next, 0);
        for (int i = 0; i < LINE_COLUMNS; i++) take_word(s->next, i + 1, line->words[i]);
    }
    if (sqlite3_reset(s->next) != SQLITE_OK && answer != STORE_BROKEN) answer = broken(s, "the next line");
    return answer;
}

static store_answer clear(store *of, int64_t number) {
    sqlite_store *s = (sqlite_store *)of;
    return write_one(s, s->clear, prepare_lines(s) && sqlite3_bind_int64(s->clear, 1, number) == SQLITE_OK, "clear a line");
}

static store_answer refuse(store *of, int64_t number, const char *why) {
    sqlite_store *s = (sqlite_store *)of;
    bool bound = prepare_lines(s) && sqlite3_bind_int64(s->refuse, 1, number) == SQLITE_OK
        && sqlite3_bind_text(s->refuse, 2, why, -1, SQLITE_STATIC) == SQLITE_OK;
    return write_one(s, s->refuse, bound, "mark a line");
}

static bool run(sqlite_store *s, sqlite3_stmt *statement, const char *what) {
    bool done = sqlite3_step(statement) == SQLITE_DONE;
    if (!done) broken(s, what);
    return sqlite3_reset(statement) == SQLITE_OK && done;
}

static bool take_turn(sqlite_store *s, int how) {
    int status;
    while ((status = flock(s->turn, how)) && errno == EINTR) {}
    if (status) perror("sqlite: the turn");
    return status == 0;
}

static bool begin(store *of) {
    sqlite_store *s = (sqlite_store *)of;
    return take_turn(s, LOCK_EX) && run(s, s->begin, "begin");
}

static bool commit(store *of) {
    sqlite_store *s = (sqlite_store *)of;
    return run(s, s->commit, "commit") && take_turn(s, LOCK_UN);
}

static bool undo(store *of) {
    sqlite_store *s = (sqlite_store *)of;
    return run(s, s->undo, "undo") && take_turn(s, LOCK_UN);
}

static bool make(store *of) {
    sqlite_store *s = (sqlite_store *)of;
    return tell(s, "CREATE TABLE IF NOT EXISTS contexts (k BLOB PRIMARY KEY, v INTEGER NOT NULL, f BLOB NOT NULL UNIQUE, h BLOB NOT NULL, r BLOB)"
                   " WITHOUT ROWID")
        && tell(s, "CREATE TABLE IF NOT EXISTS provision (n INTEGER PRIMARY KEY AUTOINCREMENT, secret TEXT NOT NULL, salt TEXT NOT NULL DEFAULT '-',"
                   " own TEXT NOT NULL, their TEXT NOT NULL, idcontext TEXT NOT NULL DEFAULT '-', state TEXT NOT NULL, next INTEGER NOT NULL,"
                   " words TEXT NOT NULL DEFAULT '', refused TEXT)");
}

static void close_sqlite(store *of) {
    sqlite_store *s = (sqlite_store *)of;
    sqlite3_stmt *statements[] = {s->get, s->put, s->add, s->next, s->clear, s->refuse, s->begin, s->commit, s->undo};
    /* What their last runs said was looked at. */
    for (size_t i = 0; i < sizeof statements / sizeof statements[0]; i++) (void)sqlite3_finalize(statements[i]);
    if (s->db && sqlite3_close(s->db) != SQLITE_OK) broken(s, "close");
    if (s->turn >= 0 && close(s->turn)) perror("sqlite: the turn");
    free(s);
}

static const store_calls CALLS = {"sqlite", true, true, get, put, NULL, NULL, add, next, clear, refuse, make, begin, commit, undo, close_sqlite};

static bool open_turn(sqlite_store *s, const char *file) {
    char path[PATH_ROOM];
    int len = snprintf(path, sizeof path, "%s-turn", file);
    if (len < 0 || (size_t)len >= sizeof path) return false;
    s->turn = open(path, O_RDWR | O_CREAT | O_CLOEXEC, 0600);
    if (s->turn < 0) perror("sqlite: the file of turns");
    return s->turn >= 0;
}

static bool set_up(sqlite_store *s, bool full) {
    return sqlite3_busy_timeout(s->db, BUSY_MS) == SQLITE_OK && sqlite3_wal_autocheckpoint(s->db, LOG_PAGES) == SQLITE_OK
        && tell(s, PAGES) && tell(s, "PRAGMA journal_mode=WAL")
        && tell(s, full ? "PRAGMA synchronous=FULL" : "PRAGMA synchronous=NORMAL") && tell(s, "PRAGMA cache_size=-65536")
        && prepare(s, "BEGIN IMMEDIATE", &s->begin) && prepare(s, "COMMIT", &s->commit) && prepare(s, "ROLLBACK", &s->undo);
}

store *store_sqlite_open(const char *file, bool full) {
    sqlite_store *s = calloc(1, sizeof *s);
    if (!s) return NULL;
    s->of.calls = &CALLS;
    s->turn = -1;
    int status = sqlite3_open_v2(file, &s->db, SQLITE_OPEN_READWRITE | SQLITE_OPEN_CREATE, NULL);
    if (status != SQLITE_OK) broken(s, "open");
    if (status == SQLITE_OK && open_turn(s, file) && set_up(s, full)) return &s->of;
    close_sqlite(&s->of);
    return NULL;
}

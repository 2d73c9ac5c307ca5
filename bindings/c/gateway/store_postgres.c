/* The store over PostgreSQL: any number of workers on any number of machines. What is written is answered once its commit is. Several rows go
   by a pipeline: all is asked for before the first answer is waited for. */
#include "store.h"
#include "bytes.h"
#include <libpq-fe.h>
#include <stdio.h>
#include <stdlib.h>

typedef struct postgres_store {
    store of;
    PGconn *connection;
    bool prepared, lines_prepared;
} postgres_store;

enum { BYTEA = 17, INT8 = 20, TEXT = 25, MOST_VALUES = 4 };

/* What each value is, and each answer: no text. */
static const int BINARY[MOST_VALUES] = {1, 1, 1, 1};

/* A statement's values, each as bytes. */
typedef struct values {
    const char *bytes[MOST_VALUES];
    int lens[MOST_VALUES], count;
} values;

static void add_value(values *to, const uint8_t *bytes, size_t len) {
    to->bytes[to->count] = (const char *)bytes;
    to->lens[to->count++] = (int)len;
}

static void add_number(values *to, uint8_t bytes[VERSION_LEN], uint64_t number) {
    cursor at = {bytes};
    put_number(&at, number, VERSION_LEN);
    add_value(to, bytes, VERSION_LEN);
}

static void add_reply(values *to, const row_bytes *row) {
    add_value(to, row->reply_len > 0 ? row->reply : NULL, row->reply_len);
}

/* What went wrong, without the values: of a server's error its first line alone. */
static void report(const char *what, PGconn *connection, const PGresult *result) {
    const char *said = result ? PQresultErrorField(result, PG_DIAG_MESSAGE_PRIMARY) : NULL;
    if (!said) said = PQerrorMessage(connection);
    fprintf(stderr, "pg: %s: %s\n", what, said);
}

static bool tell(postgres_store *s, const char *sql) {
    PGresult *result = PQexec(s->connection, sql);
    bool done = PQresultStatus(result) == PGRES_COMMAND_OK;
    if (!done) report(sql, s->connection, result);
    PQclear(result);
    return done;
}

static bool undo(store *of) {
    return tell((postgres_store *)of, "ROLLBACK");
}

/* A transaction that failed is ended by COMMIT too, but not as a commit. */
static bool committed(postgres_store *s, PGresult *result) {
    bool done = PQresultStatus(result) == PGRES_COMMAND_OK && !strcmp(PQcmdStatus(result), "COMMIT");
    if (!done) report("commit", s->connection, result);
    PQclear(result);
    return done;
}

static bool prepare(postgres_store *s, const char *name, const char *sql, int count, const Oid *types) {
    PGresult *result = PQprepare(s->connection, name, sql, count, types);
    bool done = PQresultStatus(result) == PGRES_COMMAND_OK;
    if (!done) report(name, s->connection, result);
    PQclear(result);
    return done;
}

/* These need the table: so they are prepared before the first use, which make precedes. */
static bool prepare_all(postgres_store *s) {
    if (s->prepared) return true;
    s->prepared = prepare(s, "get", "SELECT v, h, r FROM contexts WHERE k = $1", 1, (const Oid[]){BYTEA})
        && prepare(s, "put", "UPDATE contexts SET v = v + 1, h = $1, r = $2 WHERE k = $3 AND v = $4", 4, (const Oid[]){BYTEA, BYTEA, BYTEA, INT8})
        && prepare(s, "add", "INSERT INTO contexts (k, v, f, h, r) VALUES ($1, 0, $2, $3, $4) ON CONFLICT DO NOTHING", 4,
                   (const Oid[]){BYTEA, BYTEA, BYTEA, BYTEA})
        && prepare(s, "begin", "BEGIN ISOLATION LEVEL READ COMMITTED", 0, NULL) && prepare(s, "commit", "COMMIT", 0, NULL);
    return s->prepared;
}

/* A line that another gateway has at the moment is passed over. Of a column no more is asked for than shows that it is too long. */
static bool prepare_lines(postgres_store *s) {
    if (s->lines_prepared) return true;
    s->lines_prepared = prepare(s, "next", "SELECT n, substr(secret, 1, 160), substr(salt, 1, 160), substr(own, 1, 160), substr(their, 1, 160),"
                                           " substr(idcontext, 1, 160), substr(state, 1, 160), next::text, substr(words, 1, 160) FROM provision"
                                           " WHERE refused IS NULL ORDER BY n LIMIT 1 FOR UPDATE SKIP LOCKED", 0, NULL)
        && prepare(s, "clear", "DELETE FROM provision WHERE n = $1", 1, (const Oid[]){INT8})
        && prepare(s, "refuse", "UPDATE provision SET refused = $2 WHERE n = $1", 2, (const Oid[]){INT8, TEXT});
    return s->lines_prepared;
}

static PGresult *run(postgres_store *s, const char *name, const values *of) {
    return PQexecPrepared(s->connection, name, of->count, of->bytes, of->lens, BINARY, 1);
}

/* Takes a column where it has room. */
static bool take_column(const PGresult *from, int column, uint8_t *to, size_t room, size_t *len) {
    *len = PQgetisnull(from, 0, column) ? 0 : (size_t)PQgetlength(from, 0, column);
    if (*len > room) return false;
    memcpy(to, PQgetvalue(from, 0, column), *len);
    return true;
}

static bool take_row(const PGresult *from, row_bytes *row) {
    uint8_t version[VERSION_LEN];
    size_t len;
    if (PQnfields(from) != 3 || !take_column(from, 0, version, sizeof version, &len) || len != sizeof version) return false;
    reader at = {version};
    row->version = get_number(&at, VERSION_LEN);
    return take_column(from, 1, row->state, sizeof row->state, &row->state_len)
        && take_column(from, 2, row->reply, sizeof row->reply, &row->reply_len);
}

/* What a look-up came to. */
static store_answer look(postgres_store *s, PGresult *result, row_bytes *row) {
    store_answer answer = STORE_BROKEN;
    if (PQresultStatus(result) == PGRES_TUPLES_OK && PQntuples(result) == 0) answer = STORE_NOT;
    else if (PQresultStatus(result) == PGRES_TUPLES_OK && take_row(result, row)) answer = STORE_DONE;
    if (answer == STORE_BROKEN) report("read", s->connection, result);
    PQclear(result);
    return answer;
}

static values values_of_get(const row_key *key) {
    values with = {.count = 0};
    add_value(&with, key->bytes, key->len);
    return with;
}

static store_answer get(store *of, const row_key *key, row_bytes *row) {
    postgres_store *s = (postgres_store *)of;
    values with = values_of_get(key);
    return look(s, prepare_all(s) ? run(s, "get", &with) : NULL, row);
}

/* What a statement that writes one row, or none, came to. */
static store_answer written(postgres_store *s, const char *name, PGresult *result) {
    store_answer answer = STORE_BROKEN;
    if (PQresultStatus(result) == PGRES_COMMAND_OK) answer = !strcmp(PQcmdTuples(result), "1") ? STORE_DONE : STORE_NOT;
    else report(name, s->connection, result);
    PQclear(result);
    return answer;
}

static store_answer write_one(postgres_store *s, bool is_prepared, const char *name, const values *with) {
    return written(s, name, is_prepared ? run(s, name, with) : NULL);
}

static values values_of_put(const row_key *key, const row_bytes *row, uint8_t version[VERSION_LEN]) {
    values with = {.count = 0};
    add_value(&with, row->state, row->state_len);
    add_reply(&with, row);
    add_value(&with, key->bytes, key->len);
    add_number(&with, version, row->version);
    return with;
}

static store_answer put(store *of, const row_key *key, const row_bytes *row) {
    uint8_t version[VERSION_LEN];
    postgres_store *s = (postgres_store *)of;
    values with = values_of_put(key, row, version);
    return write_one(s, prepare_all(s), "put", &with);
}

/* Asks for what a prepared statement says; its answer comes later. */
static bool ask(postgres_store *s, const char *name, const values *of) {
    return PQsendQueryPrepared(s->connection, name, of->count, of->bytes, of->lens, BINARY, 1) == 1;
}

/* The answer to what was asked for next; NULL where there is none. */
static PGresult *answer_of(postgres_store *s) {
    PGresult *result = PQgetResult(s->connection);
    if (result) PQclear(PQgetResult(s->connection)); /* the end of that answer, NULL */
    return result;
}

/* All was asked for. What comes behind the last answer says that the server is through. */
static bool end_pipeline(postgres_store *s) {
    PGresult *result = PQgetResult(s->connection);
    bool through = PQresultStatus(result) == PGRES_PIPELINE_SYNC && PQexitPipelineMode(s->connection);
    if (!through) report("pipeline", s->connection, result);
    PQclear(result);
    return through;
}

/* Each question is short: the system has room for all of them while the server waits until its answers are taken. */
static bool ask_to_get(postgres_store *s, store_row *rows[], size_t count) {
    bool good = prepare_all(s) && PQenterPipelineMode(s->connection);
    for (size_t i = 0; good && i < count; i++) {
        values with = values_of_get(&rows[i]->key);
        good = ask(s, "get", &with);
    }
    return good && PQpipelineSync(s->connection);
}

static bool get_all(store *of, store_row *rows[], size_t count) {
    postgres_store *s = (postgres_store *)of;
    bool good = ask_to_get(s, rows, count);
    if (!good) report("read", s->connection, NULL);
    for (size_t i = 0; good && i < count; i++) good = (rows[i]->answer = look(s, answer_of(s), &rows[i]->bytes)) != STORE_BROKEN;
    return good && end_pipeline(s);
}

/* Here the answers are short. */
static bool ask_to_put(postgres_store *s, store_row *rows[], size_t count) {
    static const values NONE = {.count = 0};
    uint8_t version[VERSION_LEN];
    bool good = prepare_all(s) && PQenterPipelineMode(s->connection) && ask(s, "begin", &NONE);
    for (size_t i = 0; good && i < count; i++) {
        values with = values_of_put(&rows[i]->key, &rows[i]->bytes, version);
        good = ask(s, "put", &with);
    }
    return good && ask(s, "commit", &NONE) && PQpipelineSync(s->connection);
}

/* What the next statement of a transaction came to. `undone`: it waited for another transaction, which waited for it (40P01). That undid it all,
   and what was asked for behind it is passed over. */
static store_answer next_written(postgres_store *s, const char *name, bool *undone) {
    PGresult *result = answer_of(s);
    const char *state = PQresultErrorField(result, PG_DIAG_SQLSTATE);
    bool undoes = state && !strcmp(state, "40P01"), passed_over = *undone && PQresultStatus(result) == PGRES_PIPELINE_ABORTED;
    if (!undoes && !passed_over) return written(s, name, result);
    if (undoes) report(name, s->connection, result);
    PQclear(result);
    *undone = true;
    return STORE_NOT;
}

/* Workers can't undo each other's, but who writes several rows by SQL can. */
static bool put_all(store *of, store_row *rows[], size_t count) {
    postgres_store *s = (postgres_store *)of;
    bool undone = false, good = ask_to_put(s, rows, count);
    if (!good) report("write", s->connection, NULL);
    good = good && next_written(s, "begin", &undone) != STORE_BROKEN;
    for (size_t i = 0; good && i < count; i++) good = (rows[i]->answer = next_written(s, "put", &undone)) != STORE_BROKEN;
    if (!good) return false;
    if (!undone) return committed(s, answer_of(s)) && end_pipeline(s);
    for (size_t i = 0; i < count; i++) rows[i]->answer = STORE_NOT;
    return next_written(s, "commit", &undone) != STORE_BROKEN && end_pipeline(s) && undo(of);
}

static store_answer add(store *of, const row_key *key, const uint8_t fingerprint[FINGERPRINT_LEN], const row_bytes *row) {
    postgres_store *s = (postgres_store *)of;
    values with = {.count = 0};
    add_value(&with, key->bytes, key->len);
    add_value(&with, fingerprint, FINGERPRINT_LEN);
    add_value(&with, row->state, row->state_len);
    add_reply(&with, row);
    return write_one(s, prepare_all(s), "add", &with);
}

static void take_word(const PGresult *from, int column, char word[WORD_ROOM]) {
    bool fits = PQgetlength(from, 0, column) < WORD_ROOM;
    const char *text = fits ? PQgetvalue(from, 0, column) : LINE_NO_WORD;
    memcpy(word, text, strlen(text) + 1);
}

static bool take_line(const PGresult *from, waiting_line *line) {
    if (PQnfields(from) != 1 + LINE_COLUMNS || PQgetlength(from, 0, 0) != VERSION_LEN) return false;
    reader at = {(const uint8_t *)PQgetvalue(from, 0, 0)};
    line->number = (int64_t)get_number(&at, VERSION_LEN);
    for (int i = 0; i < LINE_COLUMNS; i++) take_word(from, i + 1, line->words[i]);
    return true;
}

static store_answer next(store *of, waiting_line *line) {
    postgres_store *s = (postgres_store *)of;
    const values none = {.count = 0};
    PGresult *result = prepare_lines(s) ? run(s, "next", &none) : NULL;
    store_answer answer = STORE_BROKEN;
    if (PQresultStatus(result) == PGRES_TUPLES_OK && PQntuples(result) == 0) answer = STORE_NOT;
    else if (PQresultStatus(result) == PGRES_TUPLES_OK && take_line(result, line)) answer = STORE_DONE;
    if (answer == STORE_BROKEN) report("the next line", s->connection, result);
    PQclear(result);
    return answer;
}

static store_answer clear(store *of, int64_t number) {
    postgres_store *s = (postgres_store *)of;
    uint8_t bytes[VERSION_LEN];
    values with = {.count = 0};
    add_number(&with, bytes, (uint64_t)number);
    return write_one(s, prepare_lines(s), "clear", &with);
}

static store_answer refuse(store *of, int64_t number, const char *why) {
    postgres_store *s = (postgres_store *)of;
    uint8_t bytes[VERSION_LEN];
    values with = {.count = 0};
    add_number(&with, bytes, (uint64_t)number);
    add_value(&with, (const uint8_t *)why, strlen(why));
    return write_one(s, prepare_lines(s), "refuse", &with);
}

/* Half of each page stays free, so that a row is rewritten on its page, and no index changes. */
static bool make(store *of) {
    postgres_store *s = (postgres_store *)of;
    return tell(s, "CREATE TABLE IF NOT EXISTS contexts (k bytea PRIMARY KEY, v bigint NOT NULL, f bytea NOT NULL UNIQUE, h bytea NOT NULL, r bytea)"
                   " WITH (fillfactor = 50)")
        && tell(s, "CREATE TABLE IF NOT EXISTS provision (n bigint GENERATED BY DEFAULT AS IDENTITY PRIMARY KEY, secret text NOT NULL,"
                   " salt text NOT NULL DEFAULT '-', own text NOT NULL, their text NOT NULL, idcontext text NOT NULL DEFAULT '-',"
                   " state text NOT NULL, next bigint NOT NULL, words text NOT NULL DEFAULT '', refused text)");
}

static bool begin(store *of) {
    return tell((postgres_store *)of, "BEGIN");
}

static bool commit(store *of) {
    postgres_store *s = (postgres_store *)of;
    return committed(s, PQexec(s->connection, "COMMIT"));
}

static void close_postgres(store *of) {
    postgres_store *s = (postgres_store *)of;
    PQfinish(s->connection);
    free(s);
}

/* What the server notes, as that a table is there already, is nobody's business here. */
static void pass_over(void *unused, const char *note) {
    (void)unused, (void)note;
}

store *store_postgres_open(const char *conninfo, bool on) {
    static const store_calls CALLS = {"pg", false, false, get, put, get_all, put_all, add, next, clear, refuse, make, begin, commit, undo, close_postgres};
    postgres_store *s = calloc(1, sizeof *s);
    if (!s) return NULL;
    s->of.calls = &CALLS;
    s->connection = PQconnectdb(conninfo);
    if (PQstatus(s->connection) != CONNECTION_OK) report("open", s->connection, NULL);
    else if (PQsetNoticeProcessor(s->connection, pass_over, NULL) && !PQsetClientEncoding(s->connection, "SQL_ASCII") && tell(s, on ? "SET synchronous_commit = on" : "SET synchronous_commit = off"))
        return &s->of;
    close_postgres(&s->of);
    return NULL;
}

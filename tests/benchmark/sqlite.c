// SQLite: one table by an integer key, a log of its own (WAL), and no sync unless BENCHMARK_SYNC is set.
#include "work.h"
#include <sqlite3.h>

static char path[4096];

static _Thread_local sqlite3 *writer;

static _Thread_local sqlite3_stmt *begin, *commit, *update;

static sqlite3 *connect_to(void) {
    sqlite3 *it;
    if (sqlite3_open(path, &it)) fail("opening");
    sqlite3_busy_timeout(it, 60000);
    const char *pragmas = getenv("BENCHMARK_SYNC") ? "PRAGMA journal_mode=WAL; PRAGMA synchronous=FULL"
                                                   : "PRAGMA journal_mode=WAL; PRAGMA synchronous=OFF";
    if (sqlite3_exec(it, pragmas, 0, 0, 0)) fail("a pragma");
    return it;
}

static sqlite3_stmt *prepared(sqlite3 *it, const char *text) {
    sqlite3_stmt *made;
    if (sqlite3_prepare_v2(it, text, -1, &made, 0)) fail(text);
    return made;
}

static void step(sqlite3_stmt *it) {
    if (sqlite3_step(it) != SQLITE_DONE) fail(sqlite3_sql(it));
    sqlite3_reset(it);
}

static void put(sqlite3_stmt *it, uint64_t key, uint64_t number) {
    sqlite3_bind_int64(it, 1, (sqlite3_int64)key);
    sqlite3_bind_blob(it, 2, &number, 8, SQLITE_TRANSIENT);
    step(it);
}

static void make(uint64_t keys) {
    sqlite3 *it = connect_to();
    if (sqlite3_exec(it, "CREATE TABLE rows (key INTEGER PRIMARY KEY, row BLOB); BEGIN", 0, 0, 0)) fail("the table");
    sqlite3_stmt *insert = prepared(it, "INSERT INTO rows VALUES (?1, ?2)");
    for (uint64_t key = 0; key < keys; key++) put(insert, key_of(key), ~key);
    sqlite3_finalize(insert);
    if (sqlite3_exec(it, "COMMIT", 0, 0, 0) || sqlite3_close(it)) fail("the rows");
}

void store_open(const char *folder, uint64_t keys) {
    snprintf(path, sizeof path, "%s/sqlite.db", folder);
    make(keys);
    store_join();
}

// A connection of its own.
void store_join(void) {
    writer = connect_to();
    begin = prepared(writer, "BEGIN IMMEDIATE");
    commit = prepared(writer, "COMMIT");
    update = prepared(writer, "UPDATE rows SET row = ?2 WHERE key = ?1");
}

void store_commit(uint64_t first, uint64_t end, uint64_t keys) {
    step(begin);
    for (uint64_t number = first; number < end; number++) put(update, next_key(number, keys), number);
    step(commit);
}

static int found_in(sqlite3_stmt *select, uint64_t key) {
    sqlite3_bind_int64(select, 1, (sqlite3_int64)key);
    int found = sqlite3_step(select) == SQLITE_ROW && sqlite3_column_bytes(select, 0) == 8;
    sqlite3_reset(select);
    return found;
}

int64_t store_read(uint64_t reads, uint64_t keys) {
    sqlite3_stmt *select = prepared(writer, "SELECT row FROM rows WHERE key = ?1");
    int64_t found = 0;
    step(begin);
    for (uint64_t number = 0; number < reads; number++) found += found_in(select, next_key(number, keys));
    step(commit);
    return found;
}

int64_t store_read_alone(uint64_t reads, uint64_t keys) {
    sqlite3_stmt *select = prepared(connect_to(), "SELECT row FROM rows WHERE key = ?1");
    int64_t found = 0;
    for (uint64_t number = 0; number < reads; number++) found += found_in(select, number * STRIDE % keys);
    return found;
}

/* bindings thread|stack|sqlite FOLDER SECONDS: gets and commits of rows of 8 bytes, from C, over a file in the folder. It prints a line
 * for each piece of work: its name, and how many were done per second. With a fourth word, THREADS, it makes commits of a row alone, by
 * that many threads, each of which updates keys of its own. */
#include "nipamast.h"
#include <pthread.h>
#include <sqlite3.h>
#include <stdio.h>
#include <stdlib.h>
#include <string.h>
#include <time.h>
#include <unistd.h>

enum { KEYS = 1024, ROWS = 32, THREADS = 8, MOST_THREADS = 62 };

static const char *path;
static double seconds;
static char row[8] = "abcdefgh";

static double now(void) {
    struct timespec t;
    clock_gettime(CLOCK_MONOTONIC, &t);
    return (double)t.tv_sec + (double)t.tv_nsec * 1e-9;
}

static void must(int is_done, const char *what) {
    if (is_done) return;
    fprintf(stderr, "%s failed\n", what);
    exit(1);
}

/* Does this work again and again, a number of times between two looks at the clock. */
static void measure(const char *name, void (*work)(void *, long), void *context, long together) {
    double start = now(), end;
    long made = 0;
    do {
        for (long i = 0; i < together; i++) work(context, made + i);
        made += together;
    } while ((end = now()) - start < seconds);
    printf("%s %.0f\n", name, (double)made / (end - start));
    fflush(stdout);
}

struct thread {
    pthread_t thread;
    void (*work)(void *, long);
    void *context;
    long made, number;
    double end;
};

static void *run_thread(void *p) {
    struct thread *t = p;
    for (double end = t->end; now() < end; t->made++) t->work(t->context, t->number * 100 + t->made % 100);
    return NULL;
}

static void measure_threads(const char *name, void (*work)(void *, long), void **contexts, long count) {
    struct thread threads[MOST_THREADS];
    double start = now();
    long made = 0;
    for (long i = 0; i < count; i++) {
        threads[i] = (struct thread){ .work = work, .context = contexts[i], .number = i, .end = start + seconds };
        must(!pthread_create(&threads[i].thread, NULL, run_thread, &threads[i]), "a thread");
    }
    for (long i = 0; i < count; i++) {
        pthread_join(threads[i].thread, NULL);
        made += threads[i].made;
    }
    printf("%s %.0f\n", name, (double)made / (now() - start));
}

/* --- nipamast */

static nipamast_store *store;

static void n_get(void *context, long i) {
    char found[96];
    size_t length = sizeof found;
    (void)context;
    must(!nipamast_read(store, 1, (uint64_t)(i % KEYS), found, &length), "read");
}

static void n_get_within(void *txn, long i) {
    char found[96];
    size_t length = sizeof found;
    must(!nipamast_get(txn, 1, (uint64_t)(i % KEYS), found, &length), "get");
}

static void n_write(long first, long count) {
    nipamast_write w[ROWS];
    for (long i = 0; i < count; i++) w[i] = (nipamast_write){ (uint64_t)((first + i) % KEYS), row, sizeof row, 1, 0 };
    must(!nipamast_apply(store, w, (size_t)count, NULL), "apply");
}

static void n_commit(void *context, long i) { (void)context; n_write(i, 1); }
static void n_commit_many(void *context, long i) { (void)context; n_write(i * ROWS, ROWS); }

static void measure_nipamast(int calls) {
    nipamast_options o = NIPAMAST_OPTIONS;
    nipamast_txn *t;
    void *contexts[THREADS] = { 0 };
    o.slots = 16384;
    o.calls = (uint8_t)calls;
    must(!nipamast_open(path, &o, &store), "open");
    for (long i = 0; i < KEYS; i += ROWS) n_write(i, ROWS);
    measure("get", n_get, NULL, 64);
    must(!nipamast_begin(store, &t), "begin");
    measure("get-within", n_get_within, t, 64);
    nipamast_abort(t);
    measure("commit", n_commit, NULL, 8);
    measure("commit-rows", n_commit_many, NULL, 4);
    measure_threads("commit-threads", n_commit, contexts, THREADS);
    must(!nipamast_close(store), "close");
}

/* The keys 8 n to 8 n + 7 are the thread's whose context is n. Each thread has a channel, since a commit keeps its channel up to its sync:
 * with fewer of them than threads, the others' commits would wait for the next group. */
static void n_commit_own(void *context, long i) { n_write(*(long *)context * 8 + i % 8, 1); }

static void measure_committers(int calls, long count) {
    nipamast_options o = NIPAMAST_OPTIONS;
    long numbers[MOST_THREADS];
    void *contexts[MOST_THREADS];
    must(count > 0 && count <= MOST_THREADS, "1 to 62 threads:");
    o.slots = 16384;
    o.channels = (uint8_t)count;
    o.calls = (uint8_t)calls;
    must(!nipamast_open(path, &o, &store), "open");
    for (long i = 0; i < count; i++) {
        numbers[i] = i;
        contexts[i] = &numbers[i];
    }
    measure_threads("commit-own", n_commit_own, contexts, count);
    must(!nipamast_close(store), "close");
}

/* --- SQLite */

struct db {
    sqlite3 *db;
    sqlite3_stmt *get, *put, *begin, *commit;
};

static sqlite3_stmt *prepared(sqlite3 *db, const char *text) {
    sqlite3_stmt *made = NULL;
    must(!sqlite3_prepare_v2(db, text, -1, &made, NULL), text);
    return made;
}

static struct db *connect(void) {
    struct db *d = calloc(1, sizeof *d);
    must(d && !sqlite3_open(path, &d->db), "open");
    sqlite3_busy_timeout(d->db, 60000);
    const char *first = "PRAGMA journal_mode=WAL; PRAGMA synchronous=FULL; CREATE TABLE IF NOT EXISTS kv(k INTEGER PRIMARY KEY, v BLOB)";
    must(!sqlite3_exec(d->db, first, NULL, NULL, NULL), first);
    d->get = prepared(d->db, "SELECT v FROM kv WHERE k=?");
    d->put = prepared(d->db, "INSERT OR REPLACE INTO kv VALUES(?,?)");
    d->begin = prepared(d->db, "BEGIN IMMEDIATE");
    d->commit = prepared(d->db, "COMMIT");
    return d;
}

static void step(sqlite3_stmt *s, int expected) {
    must(sqlite3_step(s) == expected, "a step");
    sqlite3_reset(s);
}

static void s_get(void *context, long i) {
    struct db *d = context;
    sqlite3_bind_int64(d->get, 1, i % KEYS);
    step(d->get, SQLITE_ROW);
}

static void s_put(struct db *d, long i) {
    sqlite3_bind_int64(d->put, 1, i % KEYS);
    sqlite3_bind_blob(d->put, 2, row, sizeof row, SQLITE_STATIC);
    step(d->put, SQLITE_DONE);
}

static void s_commit(void *context, long i) { s_put(context, i); }

static void s_commit_many(void *context, long i) {
    struct db *d = context;
    step(d->begin, SQLITE_DONE);
    for (long k = 0; k < ROWS; k++) s_put(d, i * ROWS + k);
    step(d->commit, SQLITE_DONE);
}

static void disconnect(struct db *d) {
    sqlite3_finalize(d->get);
    sqlite3_finalize(d->put);
    sqlite3_finalize(d->begin);
    sqlite3_finalize(d->commit);
    sqlite3_close(d->db);
    free(d);
}

static void measure_sqlite(void) {
    struct db *d = connect();
    void *contexts[THREADS];
    for (long i = 0; i < KEYS / ROWS; i++) s_commit_many(d, i);
    measure("get", s_get, d, 64);
    step(d->begin, SQLITE_DONE);
    measure("get-within", s_get, d, 64);
    step(d->commit, SQLITE_DONE);
    measure("commit", s_commit, d, 8);
    measure("commit-rows", s_commit_many, d, 4);
    disconnect(d);
    for (int i = 0; i < THREADS; i++) contexts[i] = connect();
    measure_threads("commit-threads", s_commit, contexts, THREADS);
    for (int i = 0; i < THREADS; i++) disconnect(contexts[i]);
}

int main(int count, char **words) {
    char name[4200];
    must(count == 4 || (count == 5 && strcmp(words[1], "sqlite")), "bindings thread|stack|sqlite FOLDER SECONDS, or bindings thread|stack FOLDER SECONDS THREADS:");
    seconds = atof(words[3]);
    snprintf(name, sizeof name, "%s/bindings.db", words[2]);
    path = name;
    int calls = !strcmp(words[1], "stack") ? NIPAMAST_BY_STACK : NIPAMAST_BY_THREAD;
    if (count == 5) measure_committers(calls, atol(words[4]));
    else if (!strcmp(words[1], "sqlite")) measure_sqlite();
    else measure_nipamast(calls);
    return 0;
}

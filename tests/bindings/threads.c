/* threads FILE SEED thread|stack: the process that threads.py kills, in C. It does the same as the one in Python there, and prints the
 * same lines: what each thread finds at first, what it will write, that a commit was acknowledged, and what is wrong. */
#define _GNU_SOURCE
#include "nipamast.h"
#include <pthread.h>
#include <stdarg.h>
#include <stdio.h>
#include <stdlib.h>
#include <string.h>
#include <unistd.h>

enum { THREADS = 16, KEYS = 6, ACCOUNTS = 8, MONEY = 1000, SLOTS = 16384, OWN = 1, SHARED = 2 };

static nipamast_store *store;

/* The numbers under a thread's own keys, of which 0 stands for no row. */
struct worker {
    pthread_t thread;
    int number;
    unsigned seed;
    uint64_t rows[KEYS];
};

/* A line is written by one call, so that a pipe takes it whole whatever other threads write. */
static void say(const char *line, int length) { if (write(1, line, (size_t)length) != length) _exit(4); }

static void wrong(const struct worker *w, const char *what, ...) {
    char text[200], line[300];
    va_list more;
    va_start(more, what);
    vsnprintf(text, sizeof text, what, more);
    va_end(more);
    say(line, snprintf(line, sizeof line, "wrong %d %s\n", w->number, text));
    _exit(3);
}

/* A store may be full for a while: another thread that had to wait for a processor keeps old versions. */
static int is_done(const struct worker *w, int result, const char *what) {
    char text[200];
    if (result == NIPAMAST_OK || result == NIPAMAST_FULL) return result == NIPAMAST_OK;
    nipamast_errmsg(text, sizeof text);
    wrong(w, "%s returned %d: %s", what, result, text);
    return 0;
}

static uint64_t key_of(const struct worker *w, int i) { return (uint64_t)(w->number * KEYS + i); }

static int add_row(void *context, uint64_t key, const void *row, size_t length) {
    struct worker *w = context;
    memcpy(&w->rows[key % KEYS], row, length);
    return 0;
}

static int add_number(void *context, uint64_t key, const void *row, size_t length) {
    uint64_t number = 0;
    (void)key;
    memcpy(&number, row, length);
    *(uint64_t *)context += number;
    return 0;
}

/* Says what this thread's keys have when the store was opened. */
static void find(struct worker *w) {
    nipamast_txn *t;
    char line[400];
    int length = snprintf(line, sizeof line, "has %d", w->number);
    if (!is_done(w, nipamast_begin(store, &t), "begin")) wrong(w, "the store is full");
    is_done(w, nipamast_for_each(t, OWN, key_of(w, 0), key_of(w, KEYS - 1), add_row, w), "for_each");
    nipamast_abort(t);
    for (int i = 0; i < KEYS; i++)
        if (w->rows[i]) length += snprintf(line + length, sizeof line - (size_t)length, " %lu=%lu", key_of(w, i), w->rows[i]);
    line[length++] = '\n';
    say(line, length);
}

/* Compares this thread's keys with what it wrote, and writes some of them, in an open transaction. */
static int change(struct worker *w, nipamast_txn *t, const uint64_t *rows, const int *is_changed) {
    for (int i = 0; i < KEYS; i++) {
        uint64_t found = 0;
        size_t length = sizeof found;
        int result = nipamast_get(t, OWN, key_of(w, i), &found, &length);
        if (result != NIPAMAST_NOT_FOUND) is_done(w, result, "get");
        if (found != w->rows[i]) wrong(w, "key %lu has %lu, not %lu", key_of(w, i), found, w->rows[i]);
    }
    for (int i = 0; i < KEYS; i++) {
        if (!is_changed[i]) continue;
        int result = rows[i] ? nipamast_put(t, OWN, key_of(w, i), &rows[i], 8) : nipamast_del(t, OWN, key_of(w, i));
        if (!is_done(w, result, "put or del")) return 0;
    }
    return 1;
}

/* Writes or deletes some of its own keys, and says so before and after. */
static void write_own(struct worker *w, uint64_t count) {
    nipamast_txn *t;
    char line[400];
    uint64_t rows[KEYS];
    int is_changed[KEYS], length = snprintf(line, sizeof line, "try %d", w->number);
    for (int i = 0, first = (int)((unsigned)rand_r(&w->seed) % KEYS); i < KEYS; i++) {
        is_changed[i] = i == first || rand_r(&w->seed) % 2;
        rows[i] = is_changed[i] ? rand_r(&w->seed) % 3 ? count : 0 : w->rows[i];
        if (!is_changed[i]) continue;
        length += snprintf(line + length, sizeof line - (size_t)length, rows[i] ? " %lu=%lu" : " %lu=-", key_of(w, i), rows[i]);
    }
    line[length++] = '\n';
    if (!is_done(w, nipamast_begin(store, &t), "begin")) return;
    if (!change(w, t, rows, is_changed)) {
        nipamast_abort(t);
        return;
    }
    say(line, length);
    if (!is_done(w, nipamast_commit(t, NULL), "commit")) wrong(w, "a commit found the store full");
    say(line, snprintf(line, sizeof line, "kept %d\n", w->number));
    memcpy(w->rows, rows, sizeof rows);
}

/* Moves money between two accounts, which other threads do too. */
static int move(void *context, nipamast_txn *t) {
    struct worker *w = context;
    uint64_t sum = 0, left = 0, there = 0, source = (unsigned)rand_r(&w->seed) % ACCOUNTS;
    uint64_t target = (source + 1 + (unsigned)rand_r(&w->seed) % (ACCOUNTS - 1)) % ACCOUNTS;
    size_t length = 8;
    int result = nipamast_for_each(t, SHARED, 0, UINT64_MAX, add_number, &sum);
    if (!result && sum != ACCOUNTS * MONEY) wrong(w, "the accounts have %lu", sum);
    if (!result) result = nipamast_get(t, SHARED, source, &left, &length);
    if (!result) result = nipamast_get(t, SHARED, target, &there, &length);
    if (result) return result;
    uint64_t moved = (unsigned)rand_r(&w->seed) % (left + 1);
    left -= moved, there += moved;
    result = nipamast_put(t, SHARED, source, &left, 8);
    return result ? result : nipamast_put(t, SHARED, target, &there, 8);
}

static void *work(void *context) {
    struct worker *w = context;
    for (uint64_t count = 1;; count++) {
        write_own(w, count);
        is_done(w, nipamast_transact(store, 0, move, w, NULL), "transact");
    }
    return NULL;
}

static void open_store(struct worker *w, const char *path, int calls) {
    nipamast_options o = NIPAMAST_OPTIONS;
    nipamast_write writes[ACCOUNTS];
    uint64_t found, money = MONEY;
    size_t length = 8;
    o.slots = SLOTS;
    o.channels = THREADS + 1;
    o.calls = (uint8_t)calls;
    is_done(w, nipamast_open(path, &o, &store), "open");
    int result = nipamast_read(store, SHARED, 0, &found, &length);
    if (result != NIPAMAST_NOT_FOUND) {
        is_done(w, result, "read");
        return;
    }
    for (int i = 0; i < ACCOUNTS; i++) writes[i] = (nipamast_write){ (uint64_t)i, &money, 8, SHARED, 0 };
    is_done(w, nipamast_apply(store, writes, ACCOUNTS, NULL), "apply");
}

int main(int count, char **words) {
    static struct worker workers[THREADS];
    if (count != 4) return 2;
    open_store(workers, words[1], !strcmp(words[3], "stack") ? NIPAMAST_BY_STACK : NIPAMAST_BY_THREAD);
    for (int i = 0; i < THREADS; i++) {
        workers[i].number = i;
        workers[i].seed = (unsigned)atol(words[2]) * THREADS + (unsigned)i;
        find(&workers[i]);
    }
    for (int i = 0; i < THREADS; i++)
        if (pthread_create(&workers[i].thread, NULL, work, &workers[i])) wrong(&workers[i], "no thread");
    for (int i = 0; i < THREADS; i++) pthread_join(workers[i].thread, NULL);
    return 0;
}

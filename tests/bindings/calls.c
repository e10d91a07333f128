/* calls FOLDER thread|stack [few]: calls the library in each way that its header speaks of, and in each way that it forbids. It prints a
 * line for each test, `ok NAME` or `failed NAME: ..`. With `few` loops are short, for runs under valgrind. */
#define _GNU_SOURCE
#include "nipamast.h"
#include <dirent.h>
#include <pthread.h>
#include <stdio.h>
#include <stdlib.h>
#include <string.h>
#include <sys/resource.h>
#include <sys/stat.h>
#include <sys/wait.h>
#include <unistd.h>

static const char *folder;
static int calls, few;
static char path[4000];
static const char *broken; /* what the test expected */
static int broken_at;

#define EXPECT(x) do { if (!(x) && !broken) { broken = #x; broken_at = __LINE__; } } while (0)
#define IS(call, result) EXPECT((call) == (result))
#define OK(call) IS(call, NIPAMAST_OK)
#define MISUSED(call) IS(call, NIPAMAST_MISUSE)

static int times(int n) { return few ? n / 50 + 1 : n; }

static nipamast_options options(uint32_t slots, int channels) {
    nipamast_options o = NIPAMAST_OPTIONS;
    o.slots = slots;
    o.channels = (uint8_t)channels;
    o.calls = (uint8_t)calls;
    return o;
}

/* A store that is new, in a file of its own. */
static nipamast_store *fresh(uint32_t slots, int channels) {
    nipamast_options o = options(slots, channels);
    nipamast_store *s = NULL;
    unlink(path);
    OK(nipamast_open(path, &o, &s));
    return s;
}

static nipamast_store *again(int channels) {
    nipamast_options o = options(0, channels);
    nipamast_store *s = NULL;
    OK(nipamast_open(path, &o, &s));
    return s;
}

static int put_one(nipamast_store *s, uint64_t key, const void *row, size_t length) {
    nipamast_write w = { key, row, (uint32_t)length, 1, 0 };
    return nipamast_apply(s, &w, 1, NULL);
}

/* The row under this key is these bytes. */
static int has(nipamast_store *s, uint64_t key, const char *row) {
    char found[96];
    size_t length = sizeof found;
    return nipamast_read(s, 1, key, found, &length) == NIPAMAST_OK && length == strlen(row) && !memcmp(found, row, length);
}

static int lacks(nipamast_store *s, uint64_t key) {
    char found[96];
    size_t length = sizeof found;
    return nipamast_read(s, 1, key, found, &length) == NIPAMAST_NOT_FOUND;
}

static int text_has(const char *word) {
    char text[512];
    nipamast_errmsg(text, sizeof text);
    return strstr(text, word) != NULL;
}

/* --- what the calls do ----------------------------------------------------------------------------------------------------------- */

static void a_commit_is_there_when_it_is_opened_again(void) {
    nipamast_store *s = fresh(64, 2);
    nipamast_txn *t;
    uint64_t first = 0, second = 0, none = 7;
    OK(nipamast_begin(s, &t));
    OK(nipamast_put(t, 1, 5, "hello", 5));
    OK(nipamast_put(t, 1, UINT64_MAX, "last", 4));
    OK(nipamast_commit(t, &first));
    OK(nipamast_begin(s, &t));
    OK(nipamast_del(t, 1, UINT64_MAX));
    OK(nipamast_commit(t, &second));
    EXPECT(first && first < second);
    OK(nipamast_begin(s, &t));
    OK(nipamast_commit(t, &none));
    EXPECT(!none);
    EXPECT(has(s, 5, "hello") && lacks(s, UINT64_MAX));
    OK(nipamast_close(s));
    s = again(1);
    EXPECT(has(s, 5, "hello") && lacks(s, UINT64_MAX));
    OK(nipamast_close(s));
}

static void a_transaction_sees_its_writes_and_one_instant(void) {
    nipamast_store *s = fresh(64, 4);
    nipamast_txn *t, *late;
    char row[96];
    size_t length = 96;
    OK(put_one(s, 1, "old", 3));
    OK(nipamast_begin(s, &t));
    OK(nipamast_begin(s, &late));
    OK(put_one(s, 1, "new", 3));
    OK(nipamast_put(t, 1, 2, "own", 3));
    OK(nipamast_get(t, 1, 2, row, &length));
    EXPECT(length == 3 && !memcmp(row, "own", 3));
    length = 96;
    OK(nipamast_get(t, 1, 1, row, &length));
    EXPECT(length == 3 && !memcmp(row, "old", 3));
    OK(nipamast_del(t, 1, 2));
    length = 96;
    IS(nipamast_get(t, 1, 2, row, &length), NIPAMAST_NOT_FOUND);
    OK(nipamast_commit(t, NULL));
    OK(nipamast_put(late, 1, 1, "late", 4));
    IS(nipamast_commit(late, NULL), NIPAMAST_CONFLICT);
    EXPECT(text_has("1 1"));
    MISUSED(nipamast_commit(late, NULL));
    EXPECT(has(s, 1, "new"));
    OK(nipamast_close(s));
}

static void rows_have_their_lengths(void) {
    char row[481], found[480];
    size_t length = 480;
    memset(row, 'r', sizeof row);
    nipamast_store *s = fresh(64, 2);
    nipamast_txn *t;
    OK(put_one(s, 1, row, 32));
    OK(put_one(s, 2, "", 0));
    IS(put_one(s, 3, row, 33), NIPAMAST_ROW_TOO_LONG);
    EXPECT(text_has("32"));
    IS(put_one(s, 3, row, 481), NIPAMAST_ROW_TOO_LONG);
    EXPECT(text_has("too long"));
    OK(nipamast_begin(s, &t));
    IS(nipamast_put(t, 1, 3, row, 33), NIPAMAST_ROW_TOO_LONG);
    IS(nipamast_put(t, 1, 3, row, SIZE_MAX), NIPAMAST_ROW_TOO_LONG);
    nipamast_abort(t);
    OK(nipamast_read(s, 1, 2, found, &length));
    EXPECT(length == 0);
    OK(nipamast_read(s, 1, 2, NULL, &length));
    length = 31;
    IS(nipamast_read(s, 1, 1, found, &length), NIPAMAST_TOO_SMALL);
    EXPECT(length == 32);
    OK(nipamast_read(s, 1, 1, found, &length));
    EXPECT(lacks(s, 3));
    OK(nipamast_close(s));
    nipamast_options o = options(64, 2);
    o.wide = 1;
    unlink(path);
    OK(nipamast_open(path, &o, &s));
    OK(put_one(s, 1, row, 96));
    length = 96;
    OK(nipamast_read(s, 1, 1, found, &length));
    EXPECT(length == 96 && !memcmp(row, found, 96));
    nipamast_status status = { .size = sizeof status };
    OK(nipamast_stat(s, &status));
    EXPECT(status.row_limit == 96 && status.slots == 64 && status.rows == 1 && status.free == 63 && status.versions == 1 && status.persisted == 1);
    OK(nipamast_close(s));
    o.wide = 0;
    o.lines = 8;
    o.slots = 65600;
    unlink(path);
    OK(nipamast_open(path, &o, &s));
    OK(put_one(s, 1, row, 480));
    IS(put_one(s, 1, row, 481), NIPAMAST_ROW_TOO_LONG);
    length = 480;
    OK(nipamast_read(s, 1, 1, found, &length));
    EXPECT(length == 480 && !memcmp(row, found, 480));
    OK(nipamast_stat(s, &status));
    EXPECT(status.row_limit == 480 && status.slots == 65600);
    OK(nipamast_close(s));
}

static void many_writes_are_kept_together_or_not_at_all(void) {
    nipamast_store *s = fresh(256, 2);
    nipamast_write w[40];
    uint64_t at = 0;
    for (int i = 0; i < 40; i++) w[i] = (nipamast_write){ (uint64_t)i, "row", 3, 1, 0 };
    IS(nipamast_apply(s, w, 33, &at), NIPAMAST_TOO_MANY_KEYS);
    EXPECT(lacks(s, 0) && lacks(s, 31) && !at);
    OK(nipamast_apply(s, w, 32, &at));
    EXPECT(has(s, 0, "row") && has(s, 31, "row") && lacks(s, 32) && at == 1);
    w[1].row = NULL;
    w[2].length = 33;
    char wide[33] = { 0 };
    w[2].row = wide;
    IS(nipamast_apply(s, w, 3, &at), NIPAMAST_ROW_TOO_LONG);
    EXPECT(has(s, 1, "row"));
    OK(nipamast_apply(s, w, 2, &at));
    EXPECT(lacks(s, 1) && at == 2);
    OK(nipamast_apply(s, NULL, 0, &at));
    EXPECT(at == 0);
    OK(nipamast_close(s));
}

static void a_row_is_written_or_deleted_by_one_call(void) {
    nipamast_store *s = fresh(64, 2);
    char row[481] = { 0 };
    uint64_t at = 0;
    OK(nipamast_write_row(s, 1, 5, "row", 3, &at));
    EXPECT(at == 1 && has(s, 5, "row"));
    OK(nipamast_write_row(s, 1, 6, "", 0, NULL));
    EXPECT(has(s, 6, "") && has(s, 5, "row"));
    IS(nipamast_write_row(s, 1, 5, row, 33, &at), NIPAMAST_ROW_TOO_LONG);
    EXPECT(!at && has(s, 5, "row"));
    at = 7;
    IS(nipamast_write_row(s, 1, 5, row, 481, &at), NIPAMAST_ROW_TOO_LONG);
    IS(nipamast_write_row(s, 1, 5, row, (size_t)1 << 32, &at), NIPAMAST_ROW_TOO_LONG);
    EXPECT(at == 7 && has(s, 5, "row"));
    OK(nipamast_write_row(s, 1, 5, NULL, 0, &at));
    EXPECT(at == 3 && lacks(s, 5) && has(s, 6, ""));
    OK(nipamast_close(s));
}

static void a_full_store_refuses_a_put(void) {
    nipamast_store *s = fresh(4, 2);
    nipamast_write w[5];
    for (int i = 0; i < 5; i++) w[i] = (nipamast_write){ (uint64_t)i, "row", 3, 1, 0 };
    IS(nipamast_apply(s, w, 5, NULL), NIPAMAST_FULL);
    EXPECT(lacks(s, 0));
    OK(nipamast_apply(s, w, 4, NULL));
    IS(put_one(s, 9, "row", 3), NIPAMAST_FULL);
    EXPECT(text_has("slot"));
    EXPECT(has(s, 3, "row") && lacks(s, 9));
    OK(nipamast_close(s));
}

struct seen { int count, stops_at, result; uint64_t keys[64]; nipamast_txn *txn; nipamast_store *store; };

static int see(void *context, uint64_t key, const void *row, size_t length) {
    struct seen *seen = context;
    (void)row;
    EXPECT(length == 3);
    seen->keys[seen->count++ % 64] = key;
    if (seen->txn) OK(nipamast_put(seen->txn, 1, 100 + key, "new", 3));
    return seen->count == seen->stops_at ? seen->result : 0;
}

static void ranges_have_an_order_a_limit_and_ends(void) {
    nipamast_store *s = fresh(64, 2), *other = s;
    nipamast_txn *t;
    nipamast_rows *rows;
    uint64_t key;
    const void *row;
    size_t length;
    const uint64_t keys[] = { 0, 3, 7, UINT64_MAX };
    for (int i = 0; i < 4; i++) OK(put_one(s, keys[i], "row", 3));
    OK(nipamast_begin(s, &t));
    OK(nipamast_scan(t, 1, 0, UINT64_MAX, 0, 0, &rows));
    OK(nipamast_put(t, 1, 1, "row", 3));
    for (int i = 0; i < 4; i++) {
        OK(nipamast_next(rows, &key, &row, &length));
        EXPECT(key == keys[i] && length == 3 && !memcmp(row, "row", 3));
    }
    IS(nipamast_next(rows, &key, &row, &length), NIPAMAST_NOT_FOUND);
    IS(nipamast_next(rows, &key, &row, &length), NIPAMAST_NOT_FOUND);
    nipamast_rows_close(rows);
    MISUSED(nipamast_next(rows, &key, &row, &length));
    nipamast_rows_close(rows);
    nipamast_rows_close(NULL);
    OK(nipamast_scan(t, 1, 1, 7, 2, NIPAMAST_FALLING, &rows));
    OK(nipamast_next(rows, &key, &row, &length));
    EXPECT(key == 7);
    nipamast_abort(t);
    OK(nipamast_next(rows, &key, &row, &length));
    EXPECT(key == 3);
    IS(nipamast_next(rows, &key, &row, &length), NIPAMAST_NOT_FOUND);
    nipamast_rows_close(rows);
    OK(nipamast_begin(s, &t));
    OK(nipamast_scan(t, 1, 8, 7, 0, 0, &rows));
    IS(nipamast_next(rows, &key, &row, &length), NIPAMAST_NOT_FOUND);
    nipamast_rows_close(rows);
    OK(nipamast_scan(t, 2, 0, UINT64_MAX, 0, 0, &rows));
    IS(nipamast_next(rows, &key, &row, &length), NIPAMAST_NOT_FOUND);
    nipamast_rows_close(rows);
    struct seen seen = { .txn = t };
    OK(nipamast_for_each(t, 1, 0, 7, see, &seen));
    EXPECT(seen.count == 3 && seen.keys[2] == 7);
    seen = (struct seen){ .stops_at = 3, .result = NIPAMAST_NOT_FOUND };
    IS(nipamast_for_each(t, 1, 0, 7, see, &seen), NIPAMAST_NOT_FOUND);
    seen = (struct seen){ .stops_at = 2, .result = -5 };
    IS(nipamast_for_each(t, 1, 0, UINT64_MAX, see, &seen), -5);
    nipamast_abort(t);
    OK(nipamast_close(other));
}

struct body { nipamast_store *store; int tries, conflicts, result; };

static int add_one(void *context, nipamast_txn *t) {
    struct body *b = context;
    b->tries++;
    if (b->tries <= b->conflicts) OK(put_one(b->store, 1, "other", 5));
    int result = nipamast_put(t, 1, 1, "mine", 4);
    return result ? result : b->result;
}

static int close_within(void *context, nipamast_txn *t) {
    struct body *b = context;
    OK(nipamast_close(b->store));
    MISUSED(nipamast_put(t, 1, 1, "mine", 4));
    return 0;
}

static void a_conflict_is_tried_again(void) {
    nipamast_store *s = fresh(64, 4);
    uint64_t at = 0;
    struct body b = { s, 0, 3, 0 };
    OK(nipamast_transact(s, 0, add_one, &b, &at));
    EXPECT(b.tries == 4 && at == 4 && has(s, 1, "mine"));
    b = (struct body){ s, 0, 9, 0 };
    IS(nipamast_transact(s, 5, add_one, &b, NULL), NIPAMAST_CONFLICT);
    EXPECT(b.tries == 5 && has(s, 1, "other"));
    b = (struct body){ s, 0, 0, 77 };
    IS(nipamast_transact(s, 0, add_one, &b, NULL), 77);
    EXPECT(b.tries == 1 && has(s, 1, "other"));
    MISUSED(nipamast_transact(s, 0, NULL, NULL, NULL));
    MISUSED(nipamast_transact(s, 0, close_within, &b, NULL));
    MISUSED(nipamast_close(s));
}

/* --- misuse ---------------------------------------------------------------------------------------------------------------------- */

/* Every call of this handle, as a store, a transaction and a cursor, is refused. */
static void refuses(const void *handle, int as_store, int as_txn, int as_rows) {
    void *h = (void *)(uintptr_t)handle;
    char row[96];
    size_t length = 96;
    uint64_t key;
    const void *found;
    nipamast_txn *t = NULL;
    nipamast_rows *rows = NULL;
    nipamast_status status = { .size = sizeof status };
    nipamast_write w = { 1, "row", 3, 1, 0 };
    struct seen seen = { 0 };
    struct body b = { 0 };
    if (as_store) {
        MISUSED(nipamast_begin(h, &t));
        EXPECT(!t);
        MISUSED(nipamast_read(h, 1, 1, row, &length));
        MISUSED(nipamast_apply(h, &w, 1, NULL));
        MISUSED(nipamast_write_row(h, 1, 1, "row", 3, NULL));
        MISUSED(nipamast_stat(h, &status));
        MISUSED(nipamast_transact(h, 0, add_one, &b, NULL));
        MISUSED(nipamast_close(h));
    }
    if (as_txn) {
        MISUSED(nipamast_get(h, 1, 1, row, &length));
        MISUSED(nipamast_put(h, 1, 1, "row", 3));
        MISUSED(nipamast_del(h, 1, 1));
        MISUSED(nipamast_scan(h, 1, 0, 9, 0, 0, &rows));
        MISUSED(nipamast_scan(h, 1, 9, 0, 0, 0, &rows));
        EXPECT(!rows);
        MISUSED(nipamast_for_each(h, 1, 0, 9, see, &seen));
        nipamast_abort(h);
        MISUSED(nipamast_commit(h, NULL));
    }
    if (as_rows) {
        MISUSED(nipamast_next(h, &key, &found, &length));
        nipamast_rows_close(h);
    }
}

static void handles_that_are_not_open_are_refused(void) {
    nipamast_store *s = fresh(64, 3), *old = s;
    nipamast_txn *t, *late;
    nipamast_rows *rows;
    unsigned seed = 1;
    refuses(NULL, 1, 1, 1);
    OK(nipamast_begin(s, &t));
    OK(nipamast_scan(t, 1, 0, 9, 0, 0, &rows));
    refuses(s, 0, 1, 1);
    refuses(t, 1, 0, 1);
    refuses(rows, 1, 1, 0);
    refuses(&seed, 1, 1, 1);
    refuses((void *)-1, 1, 1, 1);
    for (int i = 0; i < times(20000); i++) {
        uintptr_t made_up = (uintptr_t)rand_r(&seed) << 33 ^ (uintptr_t)rand_r(&seed) << 13 ^ (uintptr_t)rand_r(&seed);
        refuses((void *)made_up, 1, 1, 1);
    }
    /* one bit of a name changed */
    for (int bit = 0; bit < 64; bit++) {
        uintptr_t one = (uintptr_t)1 << bit;
        refuses((void *)((uintptr_t)s ^ one), 1, 1, 1);
        refuses((void *)((uintptr_t)t ^ one), 1, 1, 1);
        refuses((void *)((uintptr_t)rows ^ one), 1, 1, 1);
    }
    OK(nipamast_put(t, 1, 1, "row", 3));
    OK(nipamast_commit(t, NULL));
    refuses(t, 1, 1, 1);
    nipamast_rows_close(rows);
    refuses(rows, 1, 1, 1);
    OK(nipamast_begin(s, &late));
    refuses(t, 1, 1, 1);
    OK(nipamast_close(s));
    refuses(s, 1, 1, 1);
    refuses(late, 1, 1, 1);
    s = again(3);
    EXPECT(has(s, 1, "row"));
    refuses(old, 1, 1, 1);
    refuses(late, 1, 1, 1);
    OK(nipamast_close(s));
}

static void null_pointers_and_wrong_numbers_are_refused(void) {
    nipamast_store *s = fresh(64, 2), *other = (void *)1;
    nipamast_txn *t;
    nipamast_rows *rows;
    char row[96], long_path[5000];
    size_t length = 96;
    uint64_t key;
    const void *found;
    OK(nipamast_begin(s, &t));
    OK(nipamast_scan(t, 1, 0, 9, 0, 0, &rows));
    MISUSED(nipamast_begin(s, NULL));
    MISUSED(nipamast_read(s, 1, 1, row, NULL));
    MISUSED(nipamast_read(s, 1, 1, NULL, &length));
    MISUSED(nipamast_get(t, 1, 1, row, NULL));
    MISUSED(nipamast_get(t, 1, 1, NULL, &length));
    MISUSED(nipamast_put(t, 1, 1, NULL, 3));
    OK(nipamast_put(t, 1, 1, NULL, 0));
    MISUSED(nipamast_apply(s, NULL, 1, NULL));
    MISUSED(nipamast_write_row(s, 1, 1, NULL, 3, NULL));
    nipamast_write w = { 1, "row", 3, 1, 1 };
    MISUSED(nipamast_apply(s, &w, 1, NULL));
    MISUSED(nipamast_scan(t, 1, 0, 9, 0, 0, NULL));
    nipamast_rows_close(rows);
    MISUSED(nipamast_scan(t, 1, 0, 9, 0, 2, &rows));
    EXPECT(!rows);
    OK(nipamast_scan(t, 1, 0, 9, 0, 0, &rows));
    MISUSED(nipamast_next(rows, NULL, &found, &length));
    MISUSED(nipamast_next(rows, &key, NULL, &length));
    MISUSED(nipamast_next(rows, &key, &found, NULL));
    MISUSED(nipamast_for_each(t, 1, 0, 9, NULL, NULL));
    MISUSED(nipamast_stat(s, NULL));
    nipamast_status status = { .size = 8 };
    MISUSED(nipamast_stat(s, &status));
    nipamast_rows_close(rows);
    nipamast_abort(t);
    OK(nipamast_close(s));
    nipamast_options o = options(64, 2), bad;
    MISUSED(nipamast_open(NULL, &o, &other));
    EXPECT(!other);
    MISUSED(nipamast_open(path, &o, NULL));
    memset(long_path, 'a', sizeof long_path);
    long_path[4999] = 0;
    MISUSED(nipamast_open(long_path, &o, &other));
    MISUSED(nipamast_open("\xff\xfe", &o, &other));
    bad = o; bad.size--; MISUSED(nipamast_open(path, &bad, &other));
    bad = o; bad.channels = 0; MISUSED(nipamast_open(path, &bad, &other));
    bad = o; bad.channels = 63; MISUSED(nipamast_open(path, &bad, &other));
    bad = o; bad.wide = 2; MISUSED(nipamast_open(path, &bad, &other));
    bad = o; bad.calls = 2; MISUSED(nipamast_open(path, &bad, &other));
    bad = o; bad.lines = 9; MISUSED(nipamast_open(path, &bad, &other));
    bad = o; bad.lines = 2; bad.wide = 1; MISUSED(nipamast_open(path, &bad, &other));
    for (int i = 0; i < 4; i++) {
        bad = o;
        if (i == 0) bad.slots = 65537;
        if (i == 1) bad.places = 1;
        if (i == 2) bad.window = 3;
        if (i == 3) bad.window = 1025;
        unlink(path);
        EXPECT(nipamast_open(path, &bad, &other) >= NIPAMAST_FILE && !other);
    }
}

static void as_many_are_open_as_may_be(void) {
    nipamast_store *s = fresh(64, 3);
    nipamast_txn *t[3], *more;
    char row[96];
    size_t length = 96;
    for (int i = 0; i < 3; i++) OK(nipamast_begin(s, &t[i]));
    IS(nipamast_begin(s, &more), NIPAMAST_TOO_MANY_OPEN);
    EXPECT(!more && text_has("open"));
    IS(nipamast_read(s, 1, 1, row, &length), NIPAMAST_TOO_MANY_OPEN);
    IS(put_one(s, 1, "row", 3), NIPAMAST_TOO_MANY_OPEN);
    nipamast_abort(t[1]);
    OK(put_one(s, 1, "row", 3));
    OK(nipamast_begin(s, &t[1]));
    static nipamast_rows *rows[1024];
    for (int i = 0; i < 1024; i++) OK(nipamast_scan(t[0], 1, 0, 9, 0, 0, &rows[i]));
    nipamast_rows *no_more;
    IS(nipamast_scan(t[0], 1, 0, 9, 0, 0, &no_more), NIPAMAST_TOO_MANY_OPEN);
    for (int i = 0; i < 1024; i++) nipamast_rows_close(rows[i]);
    OK(nipamast_scan(t[0], 1, 0, 9, 0, 0, &no_more));
    nipamast_rows_close(no_more);
    OK(nipamast_close(s));
}

static void the_store_says_why_it_is_not_opened(void) {
    nipamast_store *s = fresh(64, 2), *other;
    nipamast_options o = options(128, 2);
    IS(nipamast_open(path, &o, &other), NIPAMAST_FILE);
    EXPECT(!other && text_has(path));
    OK(nipamast_close(s));
    IS(nipamast_open(path, &o, &other), NIPAMAST_LAYOUT);
    EXPECT(text_has("64 slots"));
    unlink(path);
    o.slots = 0;
    IS(nipamast_open(path, &o, &other), NIPAMAST_NO_STORE);
    EXPECT(access(path, F_OK));
    FILE *f = fopen(path, "w");
    fputs("this is a text and not a store", f);
    fclose(f);
    IS(nipamast_open(path, &o, &other), NIPAMAST_FILE);
    o.slots = 64;
    IS(nipamast_open(path, &o, &other), NIPAMAST_FILE);
    IS(nipamast_open("/nowhere/at/all", &o, &other), NIPAMAST_FILE);
    IS(nipamast_open("", &o, &other), NIPAMAST_FILE);
    unlink(path);
}

static void each_result_has_a_text(void) {
    char text[8];
    for (int i = -2; i < 40; i++) EXPECT(nipamast_strerror(i) && *nipamast_strerror(i));
    EXPECT(!strcmp(nipamast_version(), "0.1.0"));
    nipamast_store *s = fresh(64, 1);
    IS(put_one(s, 1, "0123456789012345678901234567890123456789", 40), NIPAMAST_ROW_TOO_LONG);
    size_t length = nipamast_errmsg(text, sizeof text);
    EXPECT(strlen(text) == 7 && length > 20 && !strncmp(text, "the row", 7));
    EXPECT(nipamast_errmsg(NULL, 0) == length && nipamast_errmsg(text, 0) == length);
    OK(nipamast_close(s));
}

/* --- threads and processes ------------------------------------------------------------------------------------------------------- */

enum { ACCOUNTS = 8, PAYERS = 4, START = 100 };

static struct {
    nipamast_store *store;
    _Atomic int stop, odd, each, done;
    _Atomic(nipamast_txn *) shared;
    _Atomic long busy, misused, late;
} all;

#define ODD(x) do { if (x) all.odd++; } while (0)

static uint64_t balance(nipamast_txn *t, uint64_t account, int *result) {
    uint64_t sum = 0;
    size_t length = 8;
    *result = nipamast_get(t, 1, account, &sum, &length);
    return sum;
}

static int pay(void *context, nipamast_txn *t) {
    unsigned *seed = context;
    int result;
    uint64_t from = (unsigned)rand_r(seed) % ACCOUNTS, to = (unsigned)rand_r(seed) % ACCOUNTS;
    uint64_t x = balance(t, from, &result);
    if (result || !x || from == to) return result;
    uint64_t y = balance(t, to, &result);
    if (result) return result;
    x--, y++;
    if ((result = nipamast_put(t, 1, from, &x, 8))) return result;
    return nipamast_put(t, 1, to, &y, 8);
}

static void *payer(void *p) {
    unsigned seed = (unsigned)(uintptr_t)p;
    for (int i = 0; i < all.each;) {
        int result = nipamast_transact(all.store, 0, pay, &seed, NULL);
        ODD(result && result != NIPAMAST_TOO_MANY_OPEN && result != NIPAMAST_CONFLICT);
        i += !result || all.odd;
    }
    return NULL;
}

static void *auditor(void *p) {
    (void)p;
    while (!all.stop) {
        nipamast_txn *t;
        int result = nipamast_begin(all.store, &t);
        if (result == NIPAMAST_TOO_MANY_OPEN) continue;
        uint64_t sum = 0;
        for (uint64_t i = 0; !result && i < ACCOUNTS; i++) sum += balance(t, i, &result);
        ODD(result || sum != START * ACCOUNTS);
        nipamast_abort(t);
        if (all.odd) break;
    }
    return NULL;
}

/* Hands its transactions to others, who are in calls of them when they end. */
static void *sharer(void *p) {
    (void)p;
    while (!all.stop) {
        nipamast_txn *t;
        if (nipamast_begin(all.store, &t)) continue;
        all.shared = t;
        char row[96];
        for (int i = 0; i < 10; i++) {
            size_t length = 96;
            int result = nipamast_get(t, 1, 1, row, &length);
            ODD(result && result != NIPAMAST_BUSY);
        }
        int result;
        while ((result = nipamast_commit(t, NULL)) == NIPAMAST_BUSY) {}
        ODD(result);
    }
    return NULL;
}

static void *abuser(void *p) {
    unsigned seed = (unsigned)(uintptr_t)p;
    char row[96];
    while (!all.stop) {
        size_t length = 96;
        void *made_up = (void *)((uintptr_t)rand_r(&seed) << 32 ^ (uintptr_t)rand_r(&seed));
        ODD(nipamast_get(made_up, 1, 1, row, &length) != NIPAMAST_MISUSE);
        length = 96;
        int result = nipamast_get(all.shared, 1, 1, row, &length);
        if (result == NIPAMAST_BUSY) all.busy++;
        else if (result == NIPAMAST_MISUSE) all.misused++;
        else ODD(result);
    }
    return NULL;
}

static void no_payment_is_lost_among_threads(void) {
    pthread_t payers[PAYERS], others[5];
    void *(*const what[5])(void *) = { auditor, auditor, sharer, abuser, abuser };
    all.store = fresh(4096, 8);
    all.stop = all.odd = 0;
    all.each = times(300);
    uint64_t start = START;
    for (uint64_t i = 0; i < ACCOUNTS; i++) OK(put_one(all.store, i, &start, 8));
    for (uintptr_t i = 0; i < 5; i++) pthread_create(&others[i], NULL, what[i], (void *)(i + 1));
    for (uintptr_t i = 0; i < PAYERS; i++) pthread_create(&payers[i], NULL, payer, (void *)(i + 1));
    for (int i = 0; i < PAYERS; i++) pthread_join(payers[i], NULL);
    all.stop = 1;
    for (int i = 0; i < 5; i++) pthread_join(others[i], NULL);
    OK(nipamast_close(all.store));
    EXPECT(!all.odd);
    nipamast_store *s = again(2);
    nipamast_txn *t;
    uint64_t sum = 0;
    int result;
    OK(nipamast_begin(s, &t));
    for (uint64_t i = 0; i < ACCOUNTS; i++) sum += balance(t, i, &result);
    EXPECT(sum == START * ACCOUNTS);
    OK(nipamast_close(s));
}

static void *writer(void *p) {
    uint64_t me = (uintptr_t)p;
    for (int i = 0; i < all.each; i++) ODD(put_one(all.store, me, &(uint64_t){ (uint64_t)i }, 8));
    return NULL;
}

static void calls_wait_for_one_another(void) {
    pthread_t threads[8];
    all.store = fresh(4096, 1);
    all.odd = 0;
    all.each = times(200);
    for (uintptr_t i = 0; i < 8; i++) pthread_create(&threads[i], NULL, writer, (void *)i);
    for (int i = 0; i < 8; i++) pthread_join(threads[i], NULL);
    EXPECT(!all.odd);
    uint64_t last = (uint64_t)all.each - 1, found = 0;
    for (uint64_t i = 0; i < 8; i++) {
        size_t length = 8;
        OK(nipamast_read(all.store, 1, i, &found, &length));
        EXPECT(found == last);
    }
    OK(nipamast_close(all.store));
}

/* Counts its commits until the store is closed under it. */
static void *committer(void *p) {
    uint64_t me = (uintptr_t)p, made = 0;
    for (;;) {
        uint64_t next = made + 1;
        int result = put_one(all.store, me, &next, 8);
        if (result == NIPAMAST_MISUSE) break;
        ODD(result);
        if (all.odd) break;
        made = next;
        all.done++;
    }
    return (void *)(uintptr_t)made;
}

static void *beginner(void *p) {
    (void)p;
    for (;;) {
        nipamast_txn *t;
        int result = nipamast_begin(all.store, &t);
        if (result == NIPAMAST_MISUSE) break;
        if (result == NIPAMAST_TOO_MANY_OPEN) continue;
        ODD(result);
        result = nipamast_put(t, 2, 1, "row", 3);
        ODD(result && result != NIPAMAST_MISUSE);
        if (result == NIPAMAST_MISUSE) continue;
        nipamast_abort(t);
    }
    return NULL;
}

static void a_close_waits_for_calls(void) {
    for (int round = 0; round < (few ? 1 : 5); round++) {
        pthread_t threads[4], beginners[2];
        void *made;
        all.store = fresh(4096, 5);
        all.odd = all.done = 0;
        for (uintptr_t i = 0; i < 4; i++) pthread_create(&threads[i], NULL, committer, (void *)i);
        for (int i = 0; i < 2; i++) pthread_create(&beginners[i], NULL, beginner, NULL);
        while (all.done < 20 && !all.odd) usleep(100);
        OK(nipamast_close(all.store));
        nipamast_store *s = again(2);
        for (uint64_t i = 0; i < 4; i++) {
            uint64_t found = 0;
            size_t length = 8;
            pthread_join(threads[i], &made);
            int result = nipamast_read(s, 1, i, &found, &length);
            EXPECT(result == (made ? NIPAMAST_OK : NIPAMAST_NOT_FOUND) && found == (uintptr_t)made);
        }
        for (int i = 0; i < 2; i++) pthread_join(beginners[i], NULL);
        EXPECT(!all.odd);
        OK(nipamast_close(s));
    }
}

static int status_of_child(void) {
    int status = -1;
    wait(&status);
    return WIFEXITED(status) ? WEXITSTATUS(status) : 255;
}

static void the_child_of_a_fork_has_no_open_store(void) {
    nipamast_store *s = fresh(64, 2);
    nipamast_txn *t;
    nipamast_rows *rows;
    OK(put_one(s, 1, "row", 3));
    OK(nipamast_begin(s, &t));
    OK(nipamast_scan(t, 1, 0, 9, 0, 0, &rows));
    fflush(stdout);
    if (!fork()) {
        char own[4100];
        nipamast_store *mine = NULL, *same = NULL;
        nipamast_options o = options(64, 2);
        alarm(60);
        refuses(s, 1, 1, 1);
        refuses(t, 1, 1, 1);
        refuses(rows, 1, 1, 1);
        IS(nipamast_open(path, &o, &same), NIPAMAST_FILE);
        snprintf(own, sizeof own, "%s.child", path);
        OK(nipamast_open(own, &o, &mine));
        OK(put_one(mine, 1, "own", 3));
        EXPECT(has(mine, 1, "own"));
        OK(nipamast_close(mine));
        unlink(own);
        if (broken) fprintf(stderr, "in the child, line %d: %s\n", broken_at, broken);
        if (!broken) execl("/bin/true", "true", (char *)NULL);
        _exit(1);
    }
    EXPECT(status_of_child() == 0);
    OK(nipamast_put(t, 1, 2, "row", 3));
    OK(nipamast_commit(t, NULL));
    nipamast_rows_close(rows);
    EXPECT(has(s, 2, "row"));
    /* a child that lives on doesn't hold the file */
    int ends[2], began[2];
    char byte = 0;
    EXPECT(!pipe(ends) && !pipe(began));
    if (!fork()) {
        close(ends[1]);
        _exit(write(began[1], &byte, 1) == 1 && read(ends[0], &byte, 1) == 0 && execl("/bin/true", "true", (char *)NULL));
    }
    EXPECT(read(began[0], &byte, 1) == 1);
    OK(nipamast_close(s));
    s = again(2);
    OK(nipamast_close(s));
    for (int i = 0; i < 2; i++) close(ends[i]), close(began[i]);
    EXPECT(status_of_child() == 0);
}

static int entries(const char *name) {
    int count = 0;
    DIR *d = opendir(name);
    while (d && readdir(d)) count++;
    if (d) closedir(d);
    return count;
}

static void a_closed_store_leaves_nothing_open(void) {
    OK(nipamast_close(fresh(64, 4)));
    int files = entries("/proc/self/fd"), threads = entries("/proc/self/task");
    for (int i = 0; i < (few ? 2 : 30); i++) {
        nipamast_store *s = again(4);
        nipamast_txn *t;
        OK(nipamast_begin(s, &t));
        OK(nipamast_close(s));
    }
    EXPECT(entries("/proc/self/fd") == files);
    for (int i = 0; i < 200 && entries("/proc/self/task") > threads; i++) usleep(10000);
    EXPECT(entries("/proc/self/task") <= threads);
}

static void many_stores_are_open_at_once(void) {
    nipamast_store *open[65] = { 0 };
    nipamast_options o = options(4, 1);
    char name[4100];
    int most = few ? 3 : 64;
    o.places = 2;
    o.window = 4;
    for (int i = 0; i < most; i++) {
        snprintf(name, sizeof name, "%s.%d", path, i);
        OK(nipamast_open(name, &o, &open[i]));
        OK(put_one(open[i], (uint64_t)i, "row", 3));
    }
    snprintf(name, sizeof name, "%s.more", path);
    if (!few) IS(nipamast_open(name, &o, &open[64]), NIPAMAST_TOO_MANY_OPEN);
    for (int i = 0; i < most; i++) {
        EXPECT(has(open[i], (uint64_t)i, "row"));
        OK(nipamast_close(open[i]));
        snprintf(name, sizeof name, "%s.%d", path, i);
        unlink(name);
    }
}

/* With ever less memory to be had an opening is refused, and never hangs. */
static void an_opening_without_memory_is_refused(void) {
    fflush(stdout);
    if (!fork()) {
        int refused = 0, opened = 0;
        alarm(100);
        OK(nipamast_close(fresh(64, 8)));
        for (int i = 0; i < 30; i++) {
            long pages = 0;
            FILE *f = fopen("/proc/self/statm", "r");
            EXPECT(f && fscanf(f, "%ld", &pages) == 1);
            if (f) fclose(f);
            struct rlimit most = { (rlim_t)pages * 4096 + (rlim_t)i * 4194304, RLIM_INFINITY };
            nipamast_store *s = NULL;
            nipamast_options o = options(0, 8);
            setrlimit(RLIMIT_AS, &most);
            int result = nipamast_open(path, &o, &s);
            most.rlim_cur = RLIM_INFINITY;
            setrlimit(RLIMIT_AS, &most);
            if (result) refused++;
            else opened++;
            EXPECT(result ? !s : s != NULL);
            if (s) OK(nipamast_close(s));
        }
        EXPECT(refused && opened);
        if (broken) fprintf(stderr, "in the child, line %d: %s (%d refused, %d opened)\n", broken_at, broken, refused, opened);
        _exit(broken ? 1 : 0);
    }
    EXPECT(status_of_child() == 0);
}

#define TEST(name) { #name, name, 0 }
static const struct { const char *name; void (*run)(void); int is_long; } tests[] = {
    TEST(a_commit_is_there_when_it_is_opened_again),
    TEST(a_transaction_sees_its_writes_and_one_instant),
    TEST(rows_have_their_lengths),
    TEST(many_writes_are_kept_together_or_not_at_all),
    TEST(a_row_is_written_or_deleted_by_one_call),
    TEST(a_full_store_refuses_a_put),
    TEST(ranges_have_an_order_a_limit_and_ends),
    TEST(a_conflict_is_tried_again),
    TEST(handles_that_are_not_open_are_refused),
    TEST(null_pointers_and_wrong_numbers_are_refused),
    TEST(as_many_are_open_as_may_be),
    TEST(the_store_says_why_it_is_not_opened),
    TEST(each_result_has_a_text),
    TEST(no_payment_is_lost_among_threads),
    TEST(calls_wait_for_one_another),
    TEST(a_close_waits_for_calls),
    TEST(the_child_of_a_fork_has_no_open_store),
    TEST(a_closed_store_leaves_nothing_open),
    TEST(many_stores_are_open_at_once),
    { "an_opening_without_memory_is_refused", an_opening_without_memory_is_refused, 1 },
};

int main(int count, char **words) {
    int failed = 0;
    if (count < 3) return 2;
    folder = words[1];
    calls = !strcmp(words[2], "stack") ? NIPAMAST_BY_STACK : NIPAMAST_BY_THREAD;
    few = count > 3 && !strcmp(words[3], "few");
    snprintf(path, sizeof path, "%s/calls.store", folder);
    setvbuf(stdout, NULL, _IOLBF, 0);
    for (size_t i = 0; i < sizeof tests / sizeof *tests; i++) {
        if (tests[i].is_long && count > 3) continue;
        broken = NULL;
        tests[i].run();
        if (broken) printf("failed %s: line %d: %s\n", tests[i].name, broken_at, broken);
        else printf("ok %s\n", tests[i].name);
        failed += broken != NULL;
    }
    unlink(path);
    return failed != 0;
}

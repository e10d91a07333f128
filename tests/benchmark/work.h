// What each of the other stores is asked to do: the same work as crates/bench does, printed in its words.
#include <pthread.h>
#include <stdatomic.h>
#include <stdint.h>
#include <stdio.h>
#include <stdlib.h>
#include <string.h>
#include <time.h>

// From one key to the next that a reader reads, so that each comes in turn.
enum { STRIDE = 367, READER_KEYS = 1024, MOST_READERS = 64 };

struct work {
    uint64_t keys, commits, group, reads;
};

// Whether the keys are numbers as if by chance from all over 64 bits, in an order in which none is near the one before, as in
// crates/bench/src/keys.rt. Otherwise they are counted.
static int random_keys;

static inline uint64_t key_of(uint64_t number) {
    if (!random_keys) return number;
    number *= 0x9E3779B97F4A7C15;
    number = (number ^ number >> 32) * 0xBF58476D1CE4E5B9;
    return number ^ number >> 29;
}

// The key that comes next once that many have come.
static inline uint64_t next_key(uint64_t number, uint64_t keys) {
    return key_of((random_keys ? number * 2654435761 : number) % keys);
}

// A store is opened in an empty folder, with a row of eight bytes under each key.
void store_open(const char *folder, uint64_t keys);
// A thread that commits calls this first.
void store_join(void);
// Updates the keys of these numbers, modulo the keys, in one transaction.
void store_commit(uint64_t first, uint64_t end, uint64_t keys);
// Reads that many rows in one transaction. How many it found, or -1 where reads are not measured.
int64_t store_read(uint64_t reads, uint64_t keys);
// Reads that many rows, each in a transaction of its own, as one of several threads. How many it found, or -1.
int64_t store_read_alone(uint64_t reads, uint64_t keys);

static inline void fail(const char *what) {
    fprintf(stderr, "%s failed\n", what);
    exit(1);
}

static inline double now(void) {
    struct timespec it;
    clock_gettime(CLOCK_MONOTONIC, &it);
    return it.tv_sec + it.tv_nsec / 1e9;
}

static inline void print_rate(const char *name, uint64_t count, double seconds) {
    printf("%llu %s in %.6f seconds, %.0f a second\n", (unsigned long long)count, name, seconds, count / seconds);
}

static void run_engine(const struct work *work) {
    double start = now();
    for (uint64_t first = 0; first < work->commits; first += work->group) {
        uint64_t end = first + work->group;
        store_commit(first, end < work->commits ? end : work->commits, work->keys);
    }
    print_rate("commits", work->commits, now() - start);
    start = now();
    int64_t found = store_read(work->reads, work->keys);
    if (found >= 0) {
        if ((uint64_t)found != work->reads) fail("a read");
        print_rate("reads", work->reads, now() - start);
    }
}

static _Atomic uint64_t readers_done;

static uint64_t reads_of_each;

static void *run_reader(void *found) {
    *(int64_t *)found = store_read_alone(reads_of_each, READER_KEYS);
    atomic_fetch_add(&readers_done, 1);
    return NULL;
}

// That many readers, each in a thread of its own, while a writer commits until the last of them is done.
static void run_readers(uint64_t readers, uint64_t reads) {
    pthread_t threads[MOST_READERS];
    int64_t found[MOST_READERS] = {0};
    reads_of_each = reads;
    double start = now();
    for (uint64_t i = 0; i < readers; i++)
        if (pthread_create(&threads[i], NULL, run_reader, &found[i])) fail("a thread");
    for (uint64_t number = 0; atomic_load(&readers_done) < readers; number++)
        store_commit(number, number + 1, READER_KEYS);
    for (uint64_t i = 0; i < readers; i++) pthread_join(threads[i], NULL);
    double seconds = now() - start;
    for (uint64_t i = 0; i < readers; i++) {
        if (found[i] < 0) return;
        if ((uint64_t)found[i] != reads) fail("a read");
    }
    print_rate("reads", readers * reads, seconds);
}

static struct work each;

static void *run_committer(void *number) {
    store_join();
    uint64_t first = *(uint64_t *)number * each.commits;
    for (uint64_t at = 0; at < each.commits; at++) store_commit(first + at, first + at + 1, each.keys);
    return NULL;
}

// That many threads, each of which makes that many commits of a row each.
static void run_committers(uint64_t threads) {
    pthread_t started[MOST_READERS];
    uint64_t numbers[MOST_READERS];
    double start = now();
    for (uint64_t i = 0; i < threads; i++) {
        numbers[i] = i;
        if (pthread_create(&started[i], NULL, run_committer, &numbers[i])) fail("a thread");
    }
    for (uint64_t i = 0; i < threads; i++) pthread_join(started[i], NULL);
    print_rate("commits", threads * each.commits, now() - start);
}

// FOLDER engine KEYS COMMITS GROUP READS [random], FOLDER readers N READS, or FOLDER committers KEYS N COMMITS
int main(int count, char **words) {
    if (count == 8 && !strcmp(words[7], "random")) random_keys = 1, count = 7;
    if (count == 7 && !strcmp(words[2], "engine")) {
        struct work work = {strtoull(words[3], 0, 10), strtoull(words[4], 0, 10), strtoull(words[5], 0, 10),
                            strtoull(words[6], 0, 10)};
        if (!work.keys || !work.group) fail("a number");
        store_open(words[1], work.keys);
        run_engine(&work);
        return 0;
    }
    if (count == 5 && !strcmp(words[2], "readers")) {
        uint64_t readers = strtoull(words[3], 0, 10);
        if (!readers || readers > MOST_READERS) fail("a number");
        store_open(words[1], READER_KEYS);
        run_readers(readers, strtoull(words[4], 0, 10));
        return 0;
    }
    if (count == 6 && !strcmp(words[2], "committers")) {
        uint64_t threads = strtoull(words[4], 0, 10);
        each.keys = strtoull(words[3], 0, 10), each.commits = strtoull(words[5], 0, 10);
        if (!each.keys || !threads || threads > MOST_READERS) fail("a number");
        store_open(words[1], each.keys);
        run_committers(threads);
        return 0;
    }
    fail("the words");
}

/* together THREADS MICROSECONDS ROUNDS [apart]: threads that only wait. Each call returns once all threads are in it and a sync's time has
 * passed, as the commits of a group do, so no commits of theirs could be more. With `apart` each thread has another one make its calls and
 * sleeps meanwhile, as callers by thread do. It prints how many calls were made per second. Python loads it, and calls write_row as it
 * calls the library's. */
#define _GNU_SOURCE
#include <limits.h>
#include <linux/futex.h>
#include <pthread.h>
#include <semaphore.h>
#include <stdatomic.h>
#include <stddef.h>
#include <stdint.h>
#include <stdio.h>
#include <stdlib.h>
#include <sys/syscall.h>
#include <time.h>
#include <unistd.h>

struct other {
    sem_t asked, replied;
};

static struct timespec sync_time;
static unsigned threads;
static int are_apart;
static long rounds;
static _Atomic unsigned here, round_now;
static _Thread_local struct other *other;

void wait_of(unsigned count, long microseconds, int apart)
{
    threads = count;
    are_apart = apart;
    sync_time = (struct timespec){ microseconds / 1000000, microseconds % 1000000 * 1000 };
}

static void wait_here(void)
{
    unsigned round = round_now;
    if (atomic_fetch_add(&here, 1) + 1 < threads) {
        while (round_now == round)
            syscall(SYS_futex, &round_now, FUTEX_WAIT_PRIVATE, round, NULL, NULL, 0);
        return;
    }
    here = 0;
    nanosleep(&sync_time, NULL);
    round_now = round + 1;
    syscall(SYS_futex, &round_now, FUTEX_WAKE_PRIVATE, INT_MAX, NULL, NULL, 0);
}

static void *wait_for(void *context)
{
    struct other *it = context;
    for (;;) {
        sem_wait(&it->asked);
        wait_here();
        sem_post(&it->replied);
    }
    return NULL;
}

static struct other *start_other(void)
{
    struct other *it = calloc(1, sizeof *it);
    pthread_t thread;
    if (!it || sem_init(&it->asked, 0, 0) || sem_init(&it->replied, 0, 0) || pthread_create(&thread, NULL, wait_for, it))
        abort();
    return it;
}

void wait_together(void)
{
    if (!are_apart) {
        wait_here();
        return;
    }
    if (!other)
        other = start_other();
    sem_post(&other->asked);
    sem_wait(&other->replied);
}

int write_row(void *store, uint16_t table, uint64_t key, const void *row, size_t length, uint64_t *timestamp)
{
    (void)store, (void)table, (void)key, (void)row, (void)length;
    wait_together();
    *timestamp = 1;
    return 0;
}

static void *run(void *context)
{
    for (long i = 0; i < rounds; i++)
        wait_together();
    return context;
}

static double now(void)
{
    struct timespec t;
    clock_gettime(CLOCK_MONOTONIC, &t);
    return (double)t.tv_sec + (double)t.tv_nsec * 1e-9;
}

int main(int count, char **words)
{
    pthread_t started[62];
    if (count < 4 || atoi(words[1]) < 1 || atoi(words[1]) > 62)
        return 2;
    wait_of((unsigned)atoi(words[1]), atol(words[2]), count > 4);
    rounds = atol(words[3]);
    double start = now();
    for (unsigned i = 0; i < threads; i++)
        if (pthread_create(&started[i], NULL, run, NULL))
            return 1;
    for (unsigned i = 0; i < threads; i++)
        pthread_join(started[i], NULL);
    printf("%.0f a second\n", (double)threads * (double)rounds / (now() - start));
    return 0;
}

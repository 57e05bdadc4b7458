/* What the time limit of a sleep takes: two threads take turns by futexes, with no limit, as the Rust crate sleeps, and with
   one that never ends, as the kit's parker does.

   Build and run it with gcc -O2 -pthread -o futex futex.c && ./futex 20000 60; it takes the turns of a run and the runs, and
   prints the best, the first quartile and the median of nanoseconds for a turn. */
#define _GNU_SOURCE
#include <linux/futex.h>
#include <pthread.h>
#include <stdint.h>
#include <stdio.h>
#include <stdlib.h>
#include <sys/syscall.h>
#include <time.h>
#include <unistd.h>

enum { RUNS = 1000, WAYS = 2 };

static const char *names[WAYS] = {"no limit", "a limit"};
static uint32_t first, second;
static int limited, turns;

static void park(uint32_t *note) {
    struct timespec never = {INT64_MAX, 0};
    while (__atomic_exchange_n(note, 0, __ATOMIC_SEQ_CST) == 0)
        syscall(SYS_futex, note, FUTEX_WAIT_PRIVATE, 0, limited ? &never : NULL);
}

static void unpark(uint32_t *note) {
    __atomic_store_n(note, 1, __ATOMIC_SEQ_CST);
    syscall(SYS_futex, note, FUTEX_WAKE_PRIVATE, 1);
}

static void *answer(void *unused) {
    for (int turn = 0; turn < turns; turn++) {
        park(&first);
        unpark(&second);
    }
    return unused;
}

/* Nanoseconds for a turn, of which each round has two. */
static double timed(void) {
    pthread_t other;
    struct timespec from, to;
    first = second = 0;
    pthread_create(&other, NULL, answer, NULL);
    clock_gettime(CLOCK_MONOTONIC, &from);
    for (int turn = 0; turn < turns; turn++) {
        unpark(&first);
        park(&second);
    }
    clock_gettime(CLOCK_MONOTONIC, &to);
    pthread_join(other, NULL);
    return ((to.tv_sec - from.tv_sec) * 1e9 + to.tv_nsec - from.tv_nsec) / turns / 2;
}

static int order(const void *one, const void *other) {
    double left = *(const double *)one, right = *(const double *)other;
    return (left > right) - (left < right);
}

int main(int count, char **words) {
    static double nanos[WAYS][RUNS];
    if (count != 3 || atoi(words[1]) < 1 || atoi(words[2]) < 1 || atoi(words[2]) > RUNS)
        return 2;
    turns = atoi(words[1]);
    int runs = atoi(words[2]);
    for (int run = 0; run < runs; run++)
        for (limited = 0; limited < WAYS; limited++)
            nanos[limited][run] = timed();
    for (int way = 0; way < WAYS; way++) {
        qsort(nanos[way], runs, sizeof(double), order);
        printf("%-10s %6.0f %6.0f %6.0f\n", names[way], nanos[way][0], nanos[way][runs / 4], nanos[way][runs / 2]);
    }
}

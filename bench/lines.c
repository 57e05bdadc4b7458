/* What the cache lines of a lock take that its threads write: 64 locks, each with a value, and threads that go along them at
   strides of their own. A lock and its value lie on one line, as in the Rust crate; the lock's word lies in a table, and its
   lot, index and value on a line of the lock's own, as ours; or word and value lie in the table.

   Build and run it with gcc -O2 -pthread -o lines lines.c && ./lines 4 20000 30; it takes the threads, the operations of
   each, and seconds. It prints quartiles of nanoseconds for an operation, of the runs in which all threads ran side by side. */
#include <pthread.h>
#include <stdint.h>
#include <stdio.h>
#include <stdlib.h>
#include <string.h>
#include <time.h>

enum { LOCKS = 64, LAYOUTS = 3, RUNS = 100000, MOST_THREADS = 64, GAP = 8 };
enum layout { TOGETHER, OURS, IN_TABLE };

struct lot { uint64_t count; uint64_t *words; };
struct lock { struct lot *lot; uint64_t index; uint64_t value; uint64_t apart[29]; };

static const char *names[LAYOUTS] = {"one line", "as ours", "in the table"};
static struct lot lot;
static struct lock *locks;
static int threads;
static enum layout layout;
static uint64_t each;
static volatile int ready;
static double begun[MOST_THREADS], nanos[MOST_THREADS], share[MOST_THREADS];

static int is_taken(uint64_t *word) {
    uint64_t free = 0;
    return __atomic_compare_exchange_n(word, &free, 1, 0, __ATOMIC_SEQ_CST, __ATOMIC_SEQ_CST);
}

static void rest(int rounds) {
    while (rounds--)
        __builtin_ia32_pause();
}

static void take(uint64_t *word) {
    for (int rounds = 4; !is_taken(word); rounds += rounds < 64 ? rounds : 0)
        do
            rest(rounds);
        while (__atomic_load_n(word, __ATOMIC_SEQ_CST) != 0);
}

/* The word is found anew for each step, as through a lock's lot. */
static inline uint64_t *word_of(struct lock *lock, enum layout how) {
    if (how == TOGETHER)
        return &lock->index;
    struct lot *its = *(struct lot *volatile *)&lock->lot;
    return *(uint64_t *volatile *)&its->words + *(volatile uint64_t *)&lock->index;
}

static inline void add(struct lock *lock, enum layout how) {
    uint64_t *word = word_of(lock, how);
    take(word);
    (*(volatile uint64_t *)(how == IN_TABLE ? word + 1 : &lock->value))++;
    __atomic_fetch_sub(word_of(lock, how), 1, __ATOMIC_SEQ_CST);
}

static uint64_t now(int clock) {
    struct timespec told;
    clock_gettime(clock, &told);
    return told.tv_sec * 1000000000ull + told.tv_nsec;
}

static inline void go_along(uint64_t number, enum layout how) {
    uint64_t place = number * 7, stride = 2 * number + 1;
    for (uint64_t left = each; left > 0; left--, place += stride)
        add(&locks[place % LOCKS], how);
}

static void *run(void *number) {
    uintptr_t me = (uintptr_t)number;
    __atomic_fetch_add(&ready, 1, __ATOMIC_SEQ_CST);
    for (int tries = 0; ready < threads && tries < 200000; tries++)
        rest(1);
    uint64_t from = now(CLOCK_MONOTONIC), worked = now(CLOCK_THREAD_CPUTIME_ID);
    switch (layout) {
    case TOGETHER: go_along(me, TOGETHER); break;
    case OURS: go_along(me, OURS); break;
    case IN_TABLE: go_along(me, IN_TABLE); break;
    }
    begun[me] = from;
    nanos[me] = now(CLOCK_MONOTONIC) - from;
    share[me] = (now(CLOCK_THREAD_CPUTIME_ID) - worked) / nanos[me];
    return NULL;
}

/* For how long all threads were at it. */
static double together(void) {
    double from = begun[0], to = begun[0] + nanos[0];
    for (int thread = 1; thread < threads; thread++) {
        double end = begun[thread] + nanos[thread];
        from = begun[thread] > from ? begun[thread] : from;
        to = end < to ? end : to;
    }
    return to - from;
}

/* Nanoseconds for an operation of all threads together, or 0 where one of them did not run all the while. */
static double timed(uint64_t *table) {
    pthread_t others[MOST_THREADS];
    double most = 0, least_share = 1;
    memset(table, 0, LOCKS * GAP * sizeof(uint64_t));
    for (int lock = 0; lock < LOCKS; lock++)
        locks[lock] = (struct lock){.lot = &lot, .index = layout == TOGETHER ? 0 : lock * GAP};
    ready = 0;
    for (uintptr_t thread = 1; thread < (uintptr_t)threads; thread++)
        pthread_create(&others[thread], NULL, run, (void *)thread);
    run(NULL);
    for (int thread = 1; thread < threads; thread++)
        pthread_join(others[thread], NULL);
    for (int thread = 0; thread < threads; thread++) {
        most = nanos[thread] > most ? nanos[thread] : most;
        least_share = share[thread] < least_share ? share[thread] : least_share;
    }
    return least_share > 0.97 && together() > 0.8 * most ? most / (each * threads) : 0;
}

static int order(const void *one, const void *other) {
    double left = *(const double *)one, right = *(const double *)other;
    return (left > right) - (left < right);
}

int main(int count, char **words) {
    static double got[LAYOUTS][RUNS];
    int many[LAYOUTS] = {0};
    if (count != 4 || atoi(words[1]) < 1 || atoi(words[1]) > MOST_THREADS || atoll(words[2]) < 1)
        return 2;
    threads = atoi(words[1]);
    each = atoll(words[2]);
    locks = aligned_alloc(256, LOCKS * sizeof(struct lock));
    uint64_t *table = aligned_alloc(64, LOCKS * GAP * sizeof(uint64_t));
    if (!locks || !table)
        return 1;
    lot.words = table;
    uint64_t end = now(CLOCK_MONOTONIC) + atof(words[3]) * 1e9;
    while (now(CLOCK_MONOTONIC) < end)
        for (layout = TOGETHER; layout <= IN_TABLE; layout++) {
            double nanos_each = timed(table);
            if (nanos_each > 0 && many[layout] < RUNS)
                got[layout][many[layout]++] = nanos_each;
        }
    for (int way = 0; way < LAYOUTS; way++) {
        int runs = many[way];
        qsort(got[way], runs, sizeof(double), order);
        if (runs)
            printf("%-14s %6d runs %6.1f %6.1f %6.1f\n", names[way], runs, got[way][runs / 4], got[way][runs / 2], got[way][runs * 3 / 4]);
    }
}

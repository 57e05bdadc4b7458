/* What a lock and an unlock by one thread take, and a look at a word, by their instructions and by where these lie.

   Each loop is what a compiler makes of such a pair or look, at sixteen positions four bytes apart. Build and run it with
   gcc -O2 -o pairs pairs.c && ./pairs; it prints the mean, the least and the greatest nanoseconds of each loop, and those at each position. */
#include <stdint.h>
#include <stdio.h>
#include <stdlib.h>
#include <time.h>

struct table { uint64_t key; uint64_t *words; };
struct lock { struct table *table; uint64_t index; };
struct token { uint8_t told; uint64_t from, by; };

/* As the flag that is tested behind each call that may wait. */
volatile uint8_t flag;

/* The exchange of 1 for 0, and the subtraction of 1, of a word that is found through the lock's table. */
#define LOCK "mov (%[lock]),%%rcx\n mov 8(%[lock]),%%rdx\n mov 8(%%rcx),%%rsi\n" \
             "mov $1,%%edi\n xor %%eax,%%eax\n lock cmpxchg %%rdi,(%%rsi,%%rdx,8)\n jne 9f\n"
#define UNLOCK "mov (%[lock]),%%rax\n mov 8(%[lock]),%%rcx\n mov 8(%%rax),%%rdx\n lock decq (%%rdx,%%rcx,8)\n"
#define FLAG "cmpb $0,flag(%%rip)\n jne 9f\n"
/* The owner's seat is split off the thread's by a load, and joined to it by another. */
#define SPLIT "mov 8(%%rcx),%%rax\n mov (%%rax),%%rax\n"
#define JOIN "mov 8(%%rax),%%rax\n mov (%%rax),%%rax\n"
/* Whether a section is told. */
#define TOLD "cmpb $1,(%[token])\n je 9f\n"
/* The same with the numbers that a token keeps: 0 and 1, and such as no step meets while a section is told. */
#define LOCK_BY "mov (%[lock]),%%rcx\n mov 8(%[lock]),%%rdx\n mov 8(%%rcx),%%rsi\n" \
                "mov $1,%%edi\n mov 8(%[token]),%%rax\n lock cmpxchg %%rdi,(%%rsi,%%rdx,8)\n jne 9f\n"
#define UNLOCK_BY "mov (%[lock]),%%rax\n mov 8(%[lock]),%%rcx\n mov 8(%%rax),%%rdx\n" \
                  "mov 16(%[token]),%%rdi\n lock subq %%rdi,(%%rdx,%%rcx,8)\n"

/* The same of a word that is found by one load: the lock has the address of the words. */
#define LOCK_NEAR "mov (%[lock]),%%rsi\n mov 8(%[lock]),%%rdx\n mov $1,%%edi\n mov 8(%[token]),%%rax\n" \
                  "lock cmpxchg %%rdi,(%%rsi,%%rdx,8)\n jne 9f\n"
#define UNLOCK_NEAR "mov (%[lock]),%%rdx\n mov 8(%[lock]),%%rcx\n mov 16(%[token]),%%rdi\n lock subq %%rdi,(%%rdx,%%rcx,8)\n"
#define LOOK_AT_COUNTER "mov (%[lock]),%%rax\n mov (%%rax),%%rax\n"
/* The same where the address of the words stays in the register in which the step found it. */
#define SPLIT_NEAR "mov (%%rsi),%%rax\n"
#define JOIN_NEAR "mov (%%rdx),%%rax\n"

#define LOOP(name, at, body) \
    __attribute__((noinline)) static void name##_##at(struct lock *lock, struct token *token, uint64_t n) { \
        __asm__ volatile(".p2align 6\n .rept " #at "\n nop\n .endr\n 1:\n" body "dec %[n]\n jne 1b\n 9:\n" \
                         : [n] "+r"(n) : [lock] "r"(lock), [token] "r"(token) \
                         : "rax", "rcx", "rdx", "rsi", "rdi", "memory", "cc"); \
    }
#define BARE "xor %%eax,%%eax\n mov $1,%%ecx\n lock cmpxchg %%cl,(%[token])\n jne 9f\n" \
             "mov $1,%%al\n xor %%ecx,%%ecx\n lock cmpxchg %%cl,(%[token])\n jne 9f\n"

/* A look, that of a notification where nobody waits: at a word whose address is in a register, and through a table, which forgets
   what section is told. */
#define GLANCE "mov (%[lock]),%%rcx\n test %%rcx,%%rcx\n je 9f\n"
#define LOOK "mov (%[lock]),%%rax\n mov 8(%[lock]),%%rcx\n movb $0,(%[token])\n mov 8(%%rax),%%rax\n" \
             "mov (%%rax,%%rcx,8),%%rcx\n test %%rcx,%%rcx\n jne 9f\n"

/* A reentrant mutex that is locked, and one that is locked twice, where a word a cache line on has its thread's number and the count:
   what is asked of that word, what is stored there, and how it is found. */
#define WORD "mov (%[lock]),%%rcx\n mov 8(%[lock]),%%rdx\n mov 8(%%rcx),%%rsi\n"
#define COUNT "mov 64(%%rsi,%%rdx,8),%%rax\n"
#define STORED "xchg %%rax,64(%%rsi,%%rdx,8)\n"
#define NAMES "mov %%rax,%%rdi\n shr $32,%%rdi\n cmp 16(%[token]),%%edi\n"
#define AGAIN WORD COUNT NAMES "je 9f\n" LOCK WORD "mov 16(%[token]),%%rax\n shl $32,%%rax\n inc %%rax\n" STORED FLAG
#define INSIDE WORD COUNT NAMES "jne 9f\n" WORD "inc %%rax\n" STORED FLAG WORD COUNT "cmp $1,%%eax\n je 9f\n dec %%rax\n" STORED FLAG
#define LAST WORD COUNT "cmp $1,%%eax\n jne 9f\n xor %%eax,%%eax\n" STORED UNLOCK "jne 9f\n" FLAG

#define AT(at) \
    LOOP(glance, at, GLANCE) \
    LOOP(look, at, LOOK FLAG) \
    LOOP(bare, at, BARE) \
    LOOP(take, at, LOCK FLAG UNLOCK "jne 9f\n" FLAG) \
    LOOP(dropped, at, LOCK SPLIT FLAG UNLOCK "jne 9f\n" FLAG) \
    LOOP(hold, at, LOCK SPLIT FLAG UNLOCK JOIN "jne 9f\n" FLAG) \
    LOOP(numbers, at, LOCK_BY SPLIT FLAG UNLOCK_BY JOIN "jne 9f\n" FLAG) \
    LOOP(near, at, LOCK_NEAR LOOK_AT_COUNTER FLAG UNLOCK_NEAR LOOK_AT_COUNTER "jne 9f\n" FLAG) \
    LOOP(near_kept, at, LOCK_NEAR SPLIT_NEAR FLAG UNLOCK_NEAR JOIN_NEAR "jne 9f\n" FLAG) \
    LOOP(near_dropped, at, LOCK_NEAR SPLIT_NEAR FLAG UNLOCK_NEAR "jne 9f\n" FLAG) \
    LOOP(near_alone, at, LOCK_NEAR FLAG UNLOCK_NEAR "jne 9f\n" FLAG) \
    LOOP(told, at, TOLD LOCK SPLIT FLAG TOLD UNLOCK JOIN "jne 9f\n" FLAG) \
    LOOP(once, at, AGAIN LAST) \
    LOOP(twice, at, AGAIN INSIDE LAST)
AT(0) AT(4) AT(8) AT(12) AT(16) AT(20) AT(24) AT(28) AT(32) AT(36) AT(40) AT(44) AT(48) AT(52) AT(56) AT(60)

typedef void (*loop)(struct lock *, struct token *, uint64_t);
enum { POSITIONS = 16, LOOPS = 14, RUNS = 25, PAIRS = 300000 };
static const char *names[LOOPS] = {"a look in a register", "a look through a table", "a pair in a register", "a pair through a table",
    "an owner apart, dropped", "an owner apart, joined", "a section told by numbers", "the same, by one load", "by one load, kept",
    "by one load, dropped", "by one load, no owner", "a told section", "reentrant", "reentrant, twice"};
/* The loops of a lock that has the address of the words. */
static int is_near(int which) { return 7 <= which && which <= 10; }
#define ROW(at) {glance_##at, look_##at, bare_##at, take_##at, dropped_##at, hold_##at, numbers_##at, near_##at, near_kept_##at, \
    near_dropped_##at, near_alone_##at, told_##at, once_##at, twice_##at}
static const loop loops[POSITIONS][LOOPS] = {ROW(0), ROW(4), ROW(8), ROW(12), ROW(16), ROW(20), ROW(24), ROW(28),
    ROW(32), ROW(36), ROW(40), ROW(44), ROW(48), ROW(52), ROW(56), ROW(60)};

static double now(void) {
    struct timespec t;
    clock_gettime(CLOCK_MONOTONIC, &t);
    return 1e9 * t.tv_sec + t.tv_nsec;
}

int main(void) {
    static double best[POSITIONS][LOOPS];
    /* Each at another place of its page: a load waits for a store before it whose address ends alike. */
    char *page = aligned_alloc(4096, 4096);
    struct table *table = (struct table *)page;
    struct lock *lock = (struct lock *)(page + 1024);
    struct token *token = (struct token *)(page + 2048);
    table->words = (uint64_t *)(page + 2560);
    lock->table = table;
    lock->index = 8;
    struct lock near = {(struct table *)table->words, 8};
    for (int run = 0; run < RUNS; run++)
        for (int at = 0; at < POSITIONS; at++)
            for (int which = 0; which < LOOPS; which++) {
                table->words[8] = table->words[16] = 0;
                *token = (struct token){.told = 0, .from = 0, .by = 1};
                double start = now();
                loops[at][which](is_near(which) ? &near : lock, token, PAIRS);
                double taken = (now() - start) / PAIRS;
                if (run == 0 || taken < best[at][which]) best[at][which] = taken;
            }
    for (int which = 0; which < LOOPS; which++) {
        double sum = 0, least = best[0][which], most = least;
        for (int at = 0; at < POSITIONS; at++) {
            double taken = best[at][which];
            sum += taken;
            if (taken < least) least = taken;
            if (taken > most) most = taken;
        }
        printf("%-26s %6.2f %6.2f %6.2f  ", names[which], sum / POSITIONS, least, most);
        for (int at = 0; at < POSITIONS; at++) printf(" %4.1f", best[at][which]);
        printf("\n");
    }
    return 0;
}

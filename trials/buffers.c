/*
 * Calls each function of lot.h with short, long, empty, cut and misaligned buffers, and with memory that is refused.
 *
 * Inputs lie in pages that can only be read, and every buffer lies between pages that cannot be touched: once it
 * ends at the one, once it begins at the other. The linker wraps the calls of malloc, realloc and free:
 *
 *     cc -I include trials/buffers.c ARCHIVES -Wl,--wrap=malloc,--wrap=realloc,--wrap=free
 */
#define _GNU_SOURCE
#include "lot.h"

#include <pthread.h>
#include <stdio.h>
#include <stdlib.h>
#include <string.h>
#include <sys/mman.h>

enum { PAGE = 4096, PAGES = 4, ROOM = PAGE * PAGES, FILLING = 0xa5, STATES = 20000 };

static int wrong;

static void expect(int holds, const char *what, size_t first, size_t second) {
    if (!holds && wrong++ < 20) {
        printf("%s: %zu, %zu\n", what, first, second);
    }
}

/* ---------------------------------------------------------------- memory that is refused */

void *__real_malloc(size_t size);
void *__real_realloc(void *block, size_t size);
void __real_free(void *block);

/* The request that is refused, counted from 1, or 0; how many there were; how many blocks are held. */
static size_t refused, requests;
static long held;

void *__wrap_malloc(size_t size) {
    if (++requests == refused) {
        return NULL;
    }
    void *block = __real_malloc(size);
    held += block != NULL;
    return block;
}

void *__wrap_realloc(void *block, size_t size) {
    if (++requests == refused) {
        return NULL;
    }
    void *moved = __real_realloc(block, size);
    held += block == NULL && moved != NULL;
    return moved;
}

void __wrap_free(void *block) {
    held -= block != NULL;
    __real_free(block);
}

/* ---------------------------------------------------------------- buffers between guards */

/* Pages between two that cannot be touched. */
static uint8_t *new_room(void) {
    uint8_t *all = mmap(NULL, ROOM + 2 * PAGE, PROT_NONE, MAP_PRIVATE | MAP_ANONYMOUS, -1, 0);
    if (all == MAP_FAILED || mprotect(all + PAGE, ROOM, PROT_READ | PROT_WRITE) != 0) {
        perror("mmap");
        exit(4);
    }
    return all + PAGE;
}

static uint8_t *inputs, *others, *outputs, *numbers;

/* A copy of some bytes that can only be read, at the end of its pages or at their beginning. */
static const uint8_t *placed(uint8_t *room, const uint8_t *bytes, size_t length, int at_end) {
    uint8_t *at = at_end ? room + ROOM - length : room;
    mprotect(room, ROOM, PROT_READ | PROT_WRITE);
    memcpy(at, bytes, length);
    mprotect(room, ROOM, PROT_READ);
    return at;
}

/* ---------------------------------------------------------------- calls */

/* What is called: of lot_step the first `cut` bytes are the state. */
struct call {
    const char *name;
    int is_step, is_search;
    size_t cut, told;
    uint32_t states;
};

static uint32_t make(const struct call *call, const uint8_t *bytes, size_t length, int at_end, uint8_t *output,
                     size_t capacity, size_t *written) {
    size_t cut = call->is_step ? call->cut : 0;
    const uint8_t *input = placed(inputs, bytes + cut, length - cut, at_end);
    if (call->is_step) {
        const uint8_t *state = placed(others, bytes, cut, at_end);
        return lot_step(state, cut, input, length - cut, call->told, output, capacity, written);
    }
    if (call->is_search) {
        return lot_explore(input, length, call->states, output, capacity, written);
    }
    return lot_replay(input, length, output, capacity, written);
}

struct text {
    uint8_t bytes[ROOM];
    size_t length;
    uint32_t status;
};

/* The text of a call whose buffer is long. */
static void tell(const struct call *call, const uint8_t *bytes, size_t length, struct text *text) {
    text->status = make(call, bytes, length, 1, text->bytes, ROOM, &text->length);
    expect(text->status <= LOT_NOT_ALL, call->name, text->status, length);
}

/* The same call with a buffer of this size, which lies at the end or the beginning of its pages. */
static void try_size(const struct call *call, const uint8_t *bytes, size_t length, const struct text *text,
                     size_t capacity, int at_end) {
    size_t *written = (size_t *)(numbers + ROOM - sizeof(size_t));
    uint8_t *output = at_end ? outputs + ROOM - capacity : outputs;
    memset(outputs, FILLING, ROOM);
    *written = 77;
    uint32_t status = make(call, bytes, length, at_end, output, capacity, written);
    size_t filled = capacity < text->length ? 0 : text->length;
    expect(status == (filled == text->length ? text->status : LOT_NO_ROOM), "the status", status, capacity);
    expect(*written == text->length, "the length", *written, text->length);
    expect(memcmp(output, text->bytes, filled) == 0, "the text", filled, capacity);
    for (size_t at = 0; at < ROOM; at++) {
        int is_text = outputs + at >= output && outputs + at < output + filled;
        expect(is_text || outputs[at] == FILLING, "a byte beside the text", at, capacity);
    }
}

static void try_sizes(const struct call *call, const uint8_t *bytes, size_t length) {
    static struct text text;
    tell(call, bytes, length, &text);
    size_t size = text.length;
    size_t sizes[] = {0, 1, size / 2, size == 0 ? 0 : size - 1, size, size + 1, size + 13, ROOM};
    for (size_t i = 0; i < sizeof sizes / sizeof *sizes; i++) {
        try_size(call, bytes, length, &text, sizes[i], 1);
        try_size(call, bytes, length, &text, sizes[i], 0);
    }
}

/* Answers whether a program says that a thread comes to its end. */
static int has_look(const uint8_t *bytes, size_t length) {
    return memmem(bytes, length, "ends ", 5) != NULL;
}

/* Refuses each request for memory in turn. */
static void try_refusals(const struct call *call, const uint8_t *bytes, size_t length) {
    static struct text text;
    static uint8_t output[ROOM];
    tell(call, bytes, length, &text);
    for (size_t request = 1; request < 100000; request++) {
        size_t written = 77;
        memset(output, FILLING, ROOM);
        long before = held;
        requests = 0;
        refused = request;
        uint32_t status = make(call, bytes, length, 1, output, ROOM, &written);
        refused = 0;
        expect(held == before, "blocks that stay", request, (size_t)(held - before));
        if (requests < request) {
            return;
        }
        if (status == LOT_BROKEN) {
            expect(written == 0, "the length where memory is refused", request, written);
        } else if (status == text.status) {
            /* A search that finds a schedule may lack the memory to tell it whole. */
            expect(call->is_search || written == text.length, "the text beside a refusal", request, written);
        } else {
            /* A look for loops that lacks memory says that it saw no state, as that of lotexplore does. */
            int is_look = has_look(bytes, length) && status == LOT_DONE;
            expect(status == LOT_NOT_ALL || is_look, "the status where memory is refused", request, status);
        }
        for (size_t at = written; at < ROOM; at++) {
            expect(output[at] == FILLING, "a byte where memory is refused", request, at);
        }
    }
    expect(0, "requests without end", length, 0);
}

/* ---------------------------------------------------------------- what is tried */

static const char *schedules[] = {
    "",
    "\n",
    "threads 1\nlock m mutex\nshow\n",
    "threads 2\nlock m mutex\n0 do lock m\n1 do lock m\n0 begin unlock m\n0 go\nshow",
    "threads 3\nlock r rwlock\nlock s semaphore 2\n0 do read r\n1 do write r\n2 do acquire s\nshow\n0 do unlock_shared r\n"
    "1 solo\nshow\n",
    "threads 2\nlock m mutex\nlock c condvar\n0 do lock m\n0 do wait c m\n1 do notify_one c\nshow\ndrain\nshow\n",
    "threads 1\nlock m mutex\nshow\nshow\r\n",
    "threads 0\n",
};

static const char *programs[] = {
    "",
    "threads 2\nlock m mutex\nthread 0 1\nlock m\nunlock m\n",
    "threads 2\nlock a mutex\nlock b mutex\nthread 0\nlock a\nlock b\nthread 1\nlock b\nlock a\n",
    "threads 2\nlock m mutex\nthread 0\nloop\nlock m\nunlock m\nend\nthread 1\nlock m\nunlock m\nends 1\n",
    "threads 1\nlock m mutex\nthread 0\nlock m\nends 0\n",
    "threads 1\nvar x 0\nthread 0\nset x 1\nassert x = 2\n",
    "threads 9\nlock m mutex\nthread 0\nlock m\n",
    "threads 2\n\377\n",
    "threads 2\nlock m mutexx\n",
};

static void try_schedule(const uint8_t *bytes, size_t length) {
    static struct text whole, part, rest;
    struct call replay = {"lot_replay", 0, 0, 0, 0, 0};
    struct call step = {"lot_step", 1, 0, 0, 0, 0};
    tell(&replay, bytes, length, &whole);
    try_sizes(&replay, bytes, length);
    try_refusals(&replay, bytes, length);
    for (size_t cut = 0; cut <= length; cut++) {
        tell(&replay, bytes, cut, &part);
        step.cut = cut;
        step.told = 0;
        tell(&step, bytes, length, &rest);
        expect(rest.status == whole.status && rest.length == whole.length, "lot_step, told 0", cut, rest.length);
        expect(memcmp(rest.bytes, whole.bytes, rest.length) == 0, "lot_step, its text", cut, rest.length);
        if (cut > 0 && bytes[cut - 1] == '\n' && part.status == LOT_DONE) {
            expect(memcmp(part.bytes, whole.bytes, part.length) == 0, "a text that begins another", cut, part.length);
            step.told = part.length;
            tell(&step, bytes, length, &rest);
            expect(part.length + rest.length == whole.length, "the lines' answers", cut, rest.length);
            expect(memcmp(rest.bytes, whole.bytes + part.length, rest.length) == 0, "an answer", cut, rest.length);
            try_sizes(&step, bytes, length);
        }
    }
    size_t beyond[] = {whole.length, whole.length + 1, SIZE_MAX};
    for (size_t i = 0; i < 3; i++) {
        step.told = beyond[i];
        tell(&step, bytes, length, &rest);
        expect(rest.length == 0 && rest.status == whole.status, "told too much", beyond[i], rest.length);
        try_sizes(&step, bytes, length);
    }
    try_refusals(&step, bytes, length);
}

static void try_program(const uint8_t *bytes, size_t length) {
    static struct text cut_short;
    uint32_t limits[] = {0, 1, 2, STATES};
    for (size_t i = 0; i < 4; i++) {
        struct call search = {"lot_explore", 0, 1, 0, 0, limits[i]};
        try_sizes(&search, bytes, length);
    }
    struct call search = {"lot_explore", 0, 1, 0, 0, STATES};
    for (size_t cut = 0; cut < length; cut++) {
        tell(&search, bytes, cut, &cut_short);
    }
    try_refusals(&search, bytes, length);
}

/* Bytes without sense, some of them words. */
static void try_noise(void) {
    static const char *words[] = {"threads ", "lock ", "m ", "mutex", "\n", "0 ", "1 ", "go", "show", "begin ", "do ",
                                  "unlock ", "2", " ", "thread ", "loop", "end", "\377", "rwlock 1"};
    uint8_t bytes[300];
    uint32_t state = 1;
    struct text *text = malloc(sizeof *text);
    for (int round = 0; text != NULL && round < 3000; round++) {
        size_t length = 0;
        while (length < 250) {
            state = state * 1664525u + 1013904223u;
            const char *word = words[(state >> 16) % (sizeof words / sizeof *words)];
            memcpy(bytes + length, word, strlen(word));
            length += strlen(word);
        }
        struct call replay = {"lot_replay", 0, 0, 0, 0, 0};
        struct call search = {"lot_explore", 0, 1, 0, 0, 50};
        tell(&replay, bytes, state % (length + 1), text);
        tell(&search, bytes, state % (length + 1), text);
    }
    free(text);
}

static void *run(void *unused) {
    for (size_t i = 0; i < sizeof schedules / sizeof *schedules; i++) {
        try_schedule((const uint8_t *)schedules[i], strlen(schedules[i]));
    }
    for (size_t i = 0; i < sizeof programs / sizeof *programs; i++) {
        try_program((const uint8_t *)programs[i], strlen(programs[i]));
    }
    try_noise();
    return unused;
}

/* All calls are made with little more of the stack than a call may take. */
int main(void) {
    enum { OWN = 65536 };
    pthread_t thread;
    pthread_attr_t attributes;
    inputs = new_room();
    others = new_room();
    outputs = new_room();
    numbers = new_room();
    pthread_attr_init(&attributes);
    if (pthread_attr_setstacksize(&attributes, LOT_STACK + OWN) != 0 ||
        pthread_create(&thread, &attributes, run, NULL) != 0) {
        printf("no thread\n");
        return 4;
    }
    pthread_join(thread, NULL);
    printf("%d wrong\n", wrong);
    return wrong != 0;
}

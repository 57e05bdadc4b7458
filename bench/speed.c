/* Times lot_replay on a schedule, and lot_step after so many of its lines: `speed SCHEDULE RUNS`, the best of the runs. */
#define _POSIX_C_SOURCE 200809L
#include "lot.h"

#include <stdio.h>
#include <stdlib.h>
#include <string.h>
#include <time.h>

enum { MOST = 1 << 26, STEPS = 200 };

static uint8_t input[MOST], output[MOST];

static double now(void) {
    struct timespec time;
    clock_gettime(CLOCK_MONOTONIC, &time);
    return (double)time.tv_sec + 1e-9 * (double)time.tv_nsec;
}

/* How many bytes so many lines have. */
static size_t bytes_of(size_t lines, size_t length) {
    size_t at = 0;
    for (size_t line = 0; line < lines && at < length; at++) {
        line += input[at] == '\n';
    }
    return at;
}

int main(int count, char **words) {
    FILE *file = count == 3 ? fopen(words[1], "rb") : NULL;
    if (file == NULL) {
        fprintf(stderr, "usage: speed SCHEDULE RUNS\n");
        return LOT_MALFORMED;
    }
    size_t length = fread(input, 1, MOST, file), lines = 0, written = 0;
    fclose(file);
    for (size_t at = 0; at < length; at++) {
        lines += input[at] == '\n';
    }
    double best = 1e9;
    for (int run = 0; run < atoi(words[2]); run++) {
        double began = now();
        uint32_t status = lot_replay(input, length, output, MOST, &written);
        double taken = now() - began;
        best = taken < best ? taken : best;
        if (status != LOT_DONE) {
            printf("status %u\n", (unsigned)status);
            return 1;
        }
    }
    printf("lot_replay: %.3f s, %.2f million lines a second\n", best, 1e-6 * (double)lines / best);
    for (size_t before = 10; before <= 10000 && before < lines; before *= 10) {
        size_t state = bytes_of(before, length), line = bytes_of(before + 1, length) - state, told = 0;
        lot_replay(input, state, output, MOST, &told);
        best = 1e9;
        for (int run = 0; run < STEPS; run++) {
            double began = now();
            lot_step(input, state, input + state, line, told, output, MOST, &written);
            double taken = now() - began;
            best = taken < best ? taken : best;
        }
        printf("lot_step after %zu lines: %.2f microseconds\n", before, 1e6 * best);
    }
    return 0;
}

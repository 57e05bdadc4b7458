/* Replays a schedule, goes through it line by line, and searches a program: `example SCHEDULE PROGRAM`. */
#include "lot.h"

#include <stdio.h>
#include <stdlib.h>
#include <string.h>

enum { MOST = 1 << 20, STATES = 2000000 };

static uint8_t input[MOST], output[MOST];

/* Reads a file, and returns how many bytes it has. */
static size_t read_file(const char *path) {
    FILE *file = fopen(path, "rb");
    if (file == NULL) {
        perror(path);
        exit(LOT_BROKEN);
    }
    size_t length = fread(input, 1, MOST, file);
    fclose(file);
    return length;
}

static void print(const char *call, uint32_t status, size_t written) {
    printf("%s: status %u\n", call, (unsigned)status);
    if (status < LOT_BROKEN) {
        fwrite(output, 1, written, stdout);
    }
}

/* Answers each line of a schedule in the world of the lines before it. */
static void step_through(size_t length) {
    size_t told = 0, written = 0, done = 0;
    while (done < length) {
        const uint8_t *feed = memchr(input + done, '\n', length - done);
        size_t line = feed == NULL ? length - done : (size_t)(feed - input) + 1 - done;
        uint32_t status = lot_step(input, done, input + done, line, told, output, MOST, &written);
        if (status != LOT_DONE) {
            print("lot_step", status, written);
            return;
        }
        fwrite(output, 1, written, stdout);
        told += written;
        done += line;
    }
}

int main(int count, char **words) {
    size_t written = 0;
    if (count != 3) {
        fprintf(stderr, "usage: example SCHEDULE PROGRAM\n");
        return LOT_MALFORMED;
    }
    size_t length = read_file(words[1]);
    uint32_t status = lot_replay(input, length, output, MOST, &written);
    print("lot_replay", status, written);
    printf("by lines:\n");
    step_through(length);
    length = read_file(words[2]);
    status = lot_explore(input, length, STATES, output, MOST, &written);
    print("lot_explore", status, written);
    return 0;
}

/*
 * Replays and searches of lock schedules, for programs in C and Rust. docs/LIBRARY.md says how to link.
 *
 * At each call:
 *
 * - No pointer is null, not even where the length is 0. A length is at most PTRDIFF_MAX, in bytes.
 * - The buffers of one call do not overlap. `written` is aligned, as each size_t is. Bytes need no alignment.
 * - Nothing is kept after a call, and no call waits. Threads may call at once, each with buffers of its own.
 * - Memory comes from malloc, realloc and free. A call is not made in a signal handler, nor in the forked child of
 *   a process with threads.
 * - A call takes at most LOT_STACK bytes of the stack.
 *
 * The text of a call goes to the front of `output`, and `*written` gets its length. The other bytes of `output`
 * stay as they were. No zero byte ends the text.
 */
#ifndef LOT_H
#define LOT_H

#include <stddef.h>
#include <stdint.h>

#ifdef __cplusplus
extern "C" {
#endif

/* The statuses, which are those of the programs `lotsim` and `lotexplore`, and one more. */
enum {
    /* All lines are answered; or all schedules were searched, and nothing was found. */
    LOT_DONE = 0,
    /* A schedule goes wrong (lot_explore). */
    LOT_FOUND = 1,
    /* A line is malformed: the text says which. */
    LOT_MALFORMED = 2,
    /* Memory was refused at a line, which the text names; or not all schedules were searched (lot_explore). */
    LOT_NOT_ALL = 3,
    /* Memory was refused for the text: nothing is written, and `*written` is 0. */
    LOT_BROKEN = 4,
    /* `output` is too short: nothing is written, and `*written` is the length that it takes. */
    LOT_NO_ROOM = 5
};

/* The most bytes of the stack that a call takes, by measurement. */
#define LOT_STACK 65536

/* The most bytes of a line of a schedule, without its line feed. A longer line is malformed. */
#define LOT_LINE 128

/*
 * Replays the schedule of `length` bytes at `input`, as `lotsim replay` does.
 *
 * Returns LOT_DONE, LOT_MALFORMED or LOT_NOT_ALL with the text that the schedule has; LOT_BROKEN or LOT_NO_ROOM.
 */
uint32_t lot_replay(const uint8_t *input, size_t length, uint8_t *output, size_t capacity, size_t *written);

/*
 * Answers lines in the world of a state. A state is the schedule of all lines so far, `state_length` bytes at
 * `state`, each line with its line feed; the first state is empty. It is replayed anew at each call.
 *
 * `told` is how many bytes its own text has: the sum of what `*written` was as each of its lines was answered.
 * Where it is, the text is what the lines at `lines` are answered. Any other number leaves out so many bytes of
 * the text of the whole schedule, and all of it if it has no more.
 *
 * Returns as lot_replay does. After LOT_DONE the lines may be put behind the state. After any other status they
 * are left out, and the state stays as it was.
 */
uint32_t lot_step(const uint8_t *state, size_t state_length, const uint8_t *lines, size_t lines_length,
                  size_t told, uint8_t *output, size_t capacity, size_t *written);

/*
 * Searches all schedules of the program of `length` bytes at `program`, as `lotexplore` does without flags.
 * It keeps at most `states` states; `lotexplore` itself keeps 2000000. A state takes some 100 bytes, and a
 * search of `states` states may take minutes: nothing stops it before.
 *
 * Returns LOT_DONE, LOT_FOUND, LOT_MALFORMED or LOT_NOT_ALL with the text that `lotexplore` prints on standard
 * output; LOT_BROKEN or LOT_NO_ROOM, after which the next call searches anew.
 */
uint32_t lot_explore(const uint8_t *program, size_t length, uint32_t states, uint8_t *output, size_t capacity,
                     size_t *written);

#ifdef __cplusplus
}
#endif

#endif

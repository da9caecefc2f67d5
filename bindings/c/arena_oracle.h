/* arena_oracle: runs of calls over a proved bump arena, for C.
 *
 * Link libarena_oracle.a and heap.c, through which it calls malloc, realloc and free. Each function reads bytes and numbers,
 * writes bytes and numbers, and keeps nothing: calls on several threads don't affect one another.
 *
 * Each pointer is to as many values as its length says. It isn't null, even where the length is 0, and is aligned for its
 * type. `out` and `report` overlap nothing else that is passed. malloc, realloc and free belong to one allocator. No call
 * is made from a signal handler, or in the forked child of a process with threads.
 *
 * docs/BINDINGS.md says what is proved of these functions, and crates/arena_oracle/CALLING.md by which contracts.
 */
#ifndef ARENA_ORACLE_H
#define ARENA_ORACLE_H

#include <stddef.h>
#include <stdint.h>

#ifdef __cplusplus
extern "C" {
#endif

enum arena_oracle_status {
    ARENA_ORACLE_DONE = 0,
    ARENA_ORACLE_BAD_LINE = 2,       /* report.line is the first line that isn't a call; nothing was run */
    ARENA_ORACLE_OUT_OF_MEMORY = 3,  /* also for a chunk within the limits, or for more than 4,294,967,295 calls */
    ARENA_ORACLE_INPUT_TOO_LONG = 6, /* there are more than 16,777,216 bytes of lines */
    ARENA_ORACLE_NO_ROOM = 7         /* out is unchanged; the text has report.length bytes */
};

struct arena_oracle_report {
    uint64_t length;  /* bytes of the text */
    uint64_t line;    /* the line that is refused, counted from 1, or 0 */
    uint64_t refused; /* requests for chunks that weren't granted: those that the limits refuse; with code 3, of a part of the run */
};

/* Runs lines of calls over a new arena, and puts the text of their replies at the front of out. Requests for chunks beyond
 * `budget` bytes in all are refused, and those whose numbers, counted from 1, are in `refuse`. Unless memory runs out, which
 * has code 3, no other request is. */
uint32_t arena_oracle_calls(const uint8_t *lines, size_t lines_len, uint64_t budget, const uint64_t *refuse, size_t refuse_len,
                            uint8_t *out, size_t out_len, struct arena_oracle_report *report);

/* The same for the summary of `count` pseudo-random calls, up to 4,294,967,295, generated from `start`. */
uint32_t arena_oracle_gen(uint64_t start, uint64_t count, uint64_t budget, const uint64_t *refuse, size_t refuse_len, uint8_t *out,
                          size_t out_len, struct arena_oracle_report *report);

/* The same for a picture of the arena after lines of calls, as SVG. */
uint32_t arena_oracle_draw(const uint8_t *lines, size_t lines_len, uint64_t budget, const uint64_t *refuse, size_t refuse_len,
                           uint8_t *out, size_t out_len, struct arena_oracle_report *report);

#ifdef __cplusplus
}
#endif
#endif

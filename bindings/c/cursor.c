/* cursor check CALLS    compares this many random calls with the rules written again in C, over memory of this program
 * cursor bench          nanoseconds for each block: by a pointer to the cursor, by numbers, and the same by hand */
#include "arena_cursor.h"
#include <stdio.h>
#include <stdlib.h>
#include <string.h>
#include <time.h>

enum { MEMORY = 1 << 20, NAMES = 16 };

static double now(void) {
    struct timespec t;
    clock_gettime(CLOCK_MONOTONIC, &t);
    return (double)t.tv_sec + (double)t.tv_nsec * 1e-9;
}

static uint64_t next_random(uint64_t *state) {
    uint64_t x = *state;
    x ^= x << 13;
    x ^= x >> 7;
    x ^= x << 17;
    return *state = x;
}

/* A block of this program. If its alignment is 0, there is none. */
struct block {
    uint64_t addr, size, align;
    unsigned char fill;
};

/* ---- The rules in C */

typedef unsigned __int128 wide;

static int is_layout(uint64_t size, uint64_t align) {
    return align && !(align & (align - 1)) && ((wide)size + align - 1) / align * align <= INT64_MAX;
}

/* The place of a block, or 0. */
static uint64_t place(const struct arena_cursor *at, uint64_t size, uint64_t align) {
    if (size > at->cursor) return 0;
    uint64_t p = (at->cursor - size) / align * align;
    return p < at->start ? 0 : p;
}

/* The address of a new block, or 0. Here and below, *cursor is set to the new cursor. */
static uint64_t allocated(const struct arena_cursor *at, uint64_t size, uint64_t align, uint64_t *cursor) {
    uint64_t p = place(at, size, align);
    if (p) *cursor = p;
    return p;
}

/* The address of a block that grows, or 0. */
static uint64_t grown(const struct arena_cursor *at, const struct block *b, uint64_t size, uint64_t align, uint64_t *cursor) {
    if (b->align < align || b->addr != at->cursor) return allocated(at, size, align, cursor);
    if (!is_layout(size - b->size, b->align)) return 0;
    uint64_t lower = allocated(at, size - b->size, b->align, cursor);
    return lower ? lower : allocated(at, size, align, cursor);
}

/* The address of a block that shrinks, or 0. */
static uint64_t shrunk(const struct arena_cursor *at, const struct block *b, uint64_t size, uint64_t align, uint64_t *cursor) {
    if (b->align < align) return b->addr % align ? allocated(at, size, align, cursor) : b->addr;
    uint64_t up = (b->size - size) / align * align;
    if (b->addr != at->cursor || 2 * up < b->size) return b->addr;
    return *cursor = b->addr + up;
}

/* Whether a block is in use: an empty one isn't, once the cursor moved up past it. */
static int in_use(const struct arena_cursor *at, const struct block *b) {
    return at->cursor <= b->addr;
}

/* ---- Random calls */

static int filled(const struct block *b, uint64_t n) {
    for (uint64_t i = 0; i < n; i++)
        if (((unsigned char *)(uintptr_t)b->addr)[i] != b->fill) return 0;
    return 1;
}

static int check_place(struct arena_cursor *at, struct block *b, uint64_t x) {
    struct arena_cursor was = *at;
    uint64_t size = x & 0xff000 ? x >> 40 & 255 : x, align = (x & 7) == 7 ? x >> 20 & 31 : 1ull << (x >> 8 & (x & 64 ? 63 : 7));
    uint64_t addr = 7, wanted = is_layout(size, align) ? place(&was, size, align) : 0;
    uint32_t code = arena_cursor_place(at, size, align, &addr);
    if (code != (!is_layout(size, align) ? 2 : wanted ? 0 : 1)) return 0;
    if (addr != (code ? 7 : wanted) || at->cursor != (code ? was.cursor : wanted)) return 0;
    if (code) return 1;
    b->addr = addr, b->size = size, b->align = align, b->fill = (unsigned char)x;
    memset((void *)(uintptr_t)addr, b->fill, size);
    return 1;
}

static int check_resize(struct arena_cursor *at, struct block *b, uint64_t x) {
    struct arena_cursor was = *at;
    uint64_t size = x >> 40 & 511, align = 1ull << (x >> 8 & 7), cursor = was.cursor, addr = b->addr;
    int grows = size >= b->size;
    uint64_t kept = grows ? b->size : size, wanted = 0;
    if (in_use(&was, b)) wanted = grows ? grown(&was, b, size, align, &cursor) : shrunk(&was, b, size, align, &cursor);
    uint32_t code = grows ? arena_cursor_grow(at, &addr, b->size, b->align, size, align)
                          : arena_cursor_shrink(at, &addr, b->size, b->align, size, align);
    if (code != (wanted ? 0 : in_use(&was, b) ? 1 : 6) || addr != (wanted ? wanted : b->addr) || at->cursor != cursor) return 0;
    if (code) return 1;
    memmove((void *)(uintptr_t)addr, (void *)(uintptr_t)b->addr, kept);
    b->addr = addr, b->size = size, b->align = align;
    if (!filled(b, kept)) return 0;
    memset((void *)(uintptr_t)addr, b->fill, size);
    return 1;
}

static int check_give_back(struct arena_cursor *at, struct block *b) {
    struct arena_cursor was = *at;
    uint64_t cursor = b->addr == was.cursor ? b->addr + b->size : was.cursor;
    uint32_t code = arena_cursor_give_back(at, b->addr, b->size);
    b->align = 0;
    return code == (in_use(&was, b) ? 0 : 7) && at->cursor == cursor;
}

static int check(long calls) {
    char *memory = malloc(MEMORY);
    if (!memory) return 3;
    struct arena_cursor at = arena_cursor_over(memory, MEMORY);
    struct block blocks[NAMES] = {{0, 0, 0, 0}};
    uint64_t state = 88172645463325252ull, rounds = 0;
    for (long i = 0; i < calls; i++) {
        uint64_t x = next_random(&state);
        struct block *b = &blocks[x >> 60];
        int agrees = !b->align ? check_place(&at, b, x)
                     : !filled(b, b->size) ? 0
                     : x & 3 ? check_resize(&at, b, x) : check_give_back(&at, b);
        if (!agrees) return printf("differs at call %ld\n", i), 1;
        if (at.cursor - at.start < 1024) {
            memset(blocks, 0, sizeof blocks);
            if (arena_cursor_back(&at, at.end)) return puts("back is refused"), 1;
            rounds++;
        }
    }
    printf("%ld calls agree, %llu times full\n", calls, (unsigned long long)rounds);
    free(memory);
    return 0;
}

/* ---- Speed */

__attribute__((noinline)) static uint32_t by_hand(struct arena_cursor *at, uint64_t size, uint64_t align, uint64_t *addr) {
    if (size > at->cursor) return 1;
    uint64_t p = (at->cursor - size) & ~(align - 1);
    if (p < at->start) return 1;
    at->cursor = p;
    *addr = p;
    return 0;
}

static uint32_t by_numbers(struct arena_cursor *at, uint64_t size, uint64_t align, uint64_t *addr) {
    uint64_t p = arena_cursor_find(at->start, at->cursor, size, align, at->min_align);
    if (!p) return 1;
    at->cursor = p;
    *addr = p;
    return 0;
}

static double nanoseconds(struct arena_cursor *at, uint32_t (*placed)(struct arena_cursor *, uint64_t, uint64_t, uint64_t *)) {
    uint64_t n = 0, addr;
    double from = now();
    for (int k = 0; k < 400; k++) {
        at->cursor = at->end;
        while (!placed(at, 24, 8, &addr)) n++;
    }
    return (now() - from) / (double)n * 1e9;
}

int main(int argc, char **argv) {
    if (argc > 2 && !strcmp(argv[1], "check")) return check(atol(argv[2]));
    if (argc < 2 || strcmp(argv[1], "bench")) return 1;
    char *memory = malloc(MEMORY);
    if (!memory) return 3;
    struct arena_cursor at = arena_cursor_over(memory, MEMORY);
    for (int r = 0; r < 5; r++)
        printf("place %.2f ns a block, find %.2f ns, by hand %.2f ns\n", nanoseconds(&at, arena_cursor_place),
               nanoseconds(&at, by_numbers), nanoseconds(&at, by_hand));
    free(memory);
    return 0;
}

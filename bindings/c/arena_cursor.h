/* arena_cursor: the proved arithmetic of a bump arena, for memory of your own, and an allocator over it.
 *
 * Link libarena_cursor.a. Its functions compute addresses: none reads or writes the memory, or allocates any. Any numbers
 * may be passed, and a function that returns another code than 0 changes nothing.
 *
 * Pointers aren't null, are aligned for their type, and those of a call don't overlap: `addr` isn't a field of `*at`. A
 * cursor is used by one thread at a time.
 *
 * docs/BINDINGS.md says what is proved of these functions, and crates/arena_cursor/CALLING.md by which contracts.
 */
#ifndef ARENA_CURSOR_H
#define ARENA_CURSOR_H

#include <stddef.h>
#include <stdint.h>
#include <string.h>

#ifdef __cplusplus
extern "C" {
#endif

/* 0 < start <= cursor <= end. The addresses from the cursor up to the end are in use, and blocks are placed downwards. All are
 * at multiples of the least alignment, which is 1, 2, 4, 8 or 16, as are the cursor and the end. */
struct arena_cursor {
    uint64_t start, cursor, end, min_align;
};

enum arena_cursor_code {
    ARENA_CURSOR_DONE = 0,
    ARENA_CURSOR_NO_PLACE = 1,
    ARENA_CURSOR_BAD_LAYOUT = 2,   /* the alignment is no power of two, or the size, rounded up to it, is above 2^63 - 1 */
    ARENA_CURSOR_BAD_CURSOR = 3,   /* the cursor isn't as above */
    ARENA_CURSOR_OUT_OF_RANGE = 4, /* a block or a mark isn't in use, or grow has a smaller size, or shrink a greater one;
                                    * or the tried size, the newest size or the region of a chunk is out of range */
    /* A block to resize that isn't to be moved within the chunk: */
    ARENA_CURSOR_REFUSED = 5,      /* the bytes that it lacks have no layout: it fails at once, without a new chunk */
    ARENA_CURSOR_ELSEWHERE = 6,    /* it is empty or in another chunk, and is allocated again */
    ARENA_CURSOR_STAYS = 7         /* it is empty or in another chunk, and stays; nothing is to be given back */
};

/* Returns where a block of `size` bytes is placed below a cursor, or 0 if there is no place, or if a number isn't as above.
 * This is arena_cursor_place on numbers: the caller moves its cursor to the result. */
uint64_t arena_cursor_find(uint64_t start, uint64_t cursor, uint64_t size, uint64_t align, uint64_t min_align);

/* Places a block of `size` bytes at a multiple of `align`, and writes its address to *addr. */
uint32_t arena_cursor_place(struct arena_cursor *at, uint64_t size, uint64_t align, uint64_t *addr);

/* Gives back the block of `size` bytes at addr. The cursor moves only if the block is at it. */
uint32_t arena_cursor_give_back(struct arena_cursor *at, uint64_t addr, uint64_t size);

/* Resizes the block at *addr, and writes its new address there. If that differs, the caller moves the bytes: the two blocks
 * may overlap. */
uint32_t arena_cursor_grow(struct arena_cursor *at, uint64_t *addr, uint64_t size, uint64_t align, uint64_t new_size,
                           uint64_t new_align);
uint32_t arena_cursor_shrink(struct arena_cursor *at, uint64_t *addr, uint64_t size, uint64_t align, uint64_t new_size,
                             uint64_t new_align);

/* Moves the cursor back to a mark, an earlier value of at->cursor: what was placed since is given back. */
uint32_t arena_cursor_back(struct arena_cursor *at, uint64_t mark);

/* ---- An arena that grows. */

/* A chunk to ask for: `bytes` bytes at a multiple of `align`. The first `size` are for blocks, and 48 more for the caller. */
struct arena_chunk {
    uint64_t size, bytes, align;
};

/* How many bytes of a chunk are in use, how many there are, and how many are below the cursor. */
struct arena_counts {
    uint64_t used, size, free;
};

/* Writes the request for a new chunk, for a block that has no place in the newest one, of `newest` bytes (0 without one),
 * after this many requests for it were refused. With code 1 the arena asks no more. The block has a place in the chunk. */
uint32_t arena_cursor_next_chunk(uint64_t newest, uint64_t size, uint64_t align, uint32_t refused, struct arena_chunk *chunk);

/* Writes the request for a chunk of at least `tried` bytes, above 0, in which the block has a place. */
uint32_t arena_cursor_chunk(uint64_t tried, uint64_t size, uint64_t align, struct arena_chunk *chunk);

/* Makes the cursor that of a new chunk: `size` bytes from `base` on, none in use. They end at a multiple of `min_align`. */
uint32_t arena_cursor_enter(struct arena_cursor *at, uint64_t base, uint64_t size, uint64_t min_align);

/* Gives everything back. */
uint32_t arena_cursor_reset(struct arena_cursor *at);

/* Writes how many bytes there are. */
uint32_t arena_cursor_count(const struct arena_cursor *at, struct arena_counts *counts);

/* ---- An allocator over a region of memory. This part is plain C, and not proved. */

/* A cursor over `size` bytes of memory, which isn't null. */
static inline struct arena_cursor arena_cursor_over(void *memory, size_t size) {
    uint64_t start = (uint64_t)(uintptr_t)memory;
    struct arena_cursor at = {start, start + size, start + size, 1};
    return at;
}

/* Returns a new block, or NULL if there is no room for it, or if size and alignment are no layout or the cursor isn't valid. */
static inline void *arena_cursor_alloc(struct arena_cursor *at, size_t size, size_t align) {
    uint64_t addr = 0;
    return arena_cursor_place(at, size, align, &addr) ? NULL : (void *)(uintptr_t)addr;
}

/* Resizes a block, and returns it with as many of its bytes as it still has room for. Returns NULL, and leaves the block as
 * it was, if there is no room, the layout or the cursor isn't valid, or the block isn't in use. */
static inline void *arena_cursor_realloc(struct arena_cursor *at, void *block, size_t size, size_t new_size, size_t align) {
    uint64_t addr = (uint64_t)(uintptr_t)block;
    if (size == 0) return arena_cursor_alloc(at, new_size, align);
    uint32_t code = size <= new_size ? arena_cursor_grow(at, &addr, size, align, new_size, align)
                                     : arena_cursor_shrink(at, &addr, size, align, new_size, align);
    if (code) return NULL;
    return memmove((void *)(uintptr_t)addr, block, size < new_size ? size : new_size);
}

/* Gives a block back. Its bytes are used again only if it is the newest block. */
static inline void arena_cursor_free(struct arena_cursor *at, void *block, size_t size) {
    (void)arena_cursor_give_back(at, (uint64_t)(uintptr_t)block, size);
}

#ifdef __cplusplus
}
#endif
#endif

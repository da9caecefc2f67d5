/* arena_growing: a bump arena that grows, over the proved functions of arena_cursor. This header is plain C, and not proved:
 * it asks malloc, moves bytes and keeps the list of chunks. All sizes and addresses come from libarena_cursor.a.
 *
 *     struct arena a = ARENA_EMPTY;
 *     int *numbers = (int *)arena_alloc(&a, 10 * sizeof *numbers, _Alignof(int));
 *     arena_free_all(&a);
 *
 * An arena is used by one thread at a time.
 */
#ifndef ARENA_GROWING_H
#define ARENA_GROWING_H

#include "arena_cursor.h"
#include <stdlib.h>

#ifdef __cplusplus
extern "C" {
#endif

/* Behind the data of each chunk: the chunk, with its cursor when it was left for a newer one; the next older one; and what
 * malloc returned. */
struct arena_footer {
    uint64_t start, cursor;
    struct arena_footer *older;
    void *memory;
};

/* An arena. Without a chunk the cursor is at 16, and nothing but an empty block has a place. */
struct arena {
    struct arena_cursor at;
    struct arena_footer *newest;
};

/* An arena without a chunk, all of whose blocks are at multiples of this: 1, 2, 4, 8 or 16. */
#define ARENA_EMPTY_ALIGNED(min_align) {{16, 16, 16, min_align}, NULL}
#define ARENA_EMPTY ARENA_EMPTY_ALIGNED(1)

/* A state of an arena. */
struct arena_mark {
    struct arena_footer *newest;
    uint64_t cursor;
};

/* Takes a chunk, which becomes the newest. Returns whether there is memory for it. */
static inline int arena_add_(struct arena *a, struct arena_chunk chunk) {
    /* malloc aligns to 16 at least on x86-64 and aarch64; for more, the chunk begins within a larger block. */
    uint64_t more = chunk.align > 16 ? chunk.align - 16 : 0;
    void *memory = chunk.bytes + more < chunk.bytes ? NULL : malloc(chunk.bytes + more);
    if (!memory) return 0;
    char *base = (char *)memory + (-(uint64_t)(uintptr_t)memory & (chunk.align - 1));
    struct arena_footer *footer = (struct arena_footer *)(void *)(base + chunk.size);
    if (a->newest) a->newest->cursor = a->at.cursor;
    (void)arena_cursor_enter(&a->at, (uint64_t)(uintptr_t)base, chunk.size, a->at.min_align);
    footer->start = a->at.start;
    footer->cursor = a->at.cursor;
    footer->older = a->newest;
    footer->memory = memory;
    a->newest = footer;
    return 1;
}

/* Frees the chunks from this one on, up to one that is kept. */
static inline void arena_drop_(struct arena_footer *chunk, struct arena_footer *kept) {
    while (chunk != kept && chunk) {
        struct arena_footer *older = chunk->older;
        free(chunk->memory);
        chunk = older;
    }
}

/* Makes a chunk that stayed the newest one, or none. */
static inline void arena_keep_(struct arena *a, struct arena_footer *chunk) {
    a->newest = chunk;
    a->at.start = chunk ? chunk->start : 16;
    a->at.cursor = chunk ? chunk->cursor : 16;
    a->at.end = chunk ? (uint64_t)(uintptr_t)chunk : 16;
}

/* Takes a first chunk of at least this many bytes. Returns whether there is memory for it. For an empty arena. */
static inline int arena_reserve(struct arena *a, size_t capacity) {
    struct arena_chunk chunk;
    return !arena_cursor_chunk(capacity, capacity, a->at.min_align, &chunk) && arena_add_(a, chunk);
}

/* A block in a new chunk. */
static inline void *arena_alloc_in_new_(struct arena *a, size_t size, size_t align) {
    struct arena_chunk chunk;
    uint64_t newest = a->at.end - a->at.start, addr = 0;
    for (uint32_t refused = 0; !arena_cursor_next_chunk(newest, size, align, refused, &chunk); refused++)
        if (arena_add_(a, chunk)) return arena_cursor_place(&a->at, size, align, &addr) ? NULL : (void *)(uintptr_t)addr;
    return NULL;
}

/* Returns a new block, or NULL without memory, or if size and alignment are no layout. */
static inline void *arena_alloc(struct arena *a, size_t size, size_t align) {
    uint64_t addr = arena_cursor_find(a->at.start, a->at.cursor, size, align, a->at.min_align);
    if (!addr) return arena_alloc_in_new_(a, size, align);
    a->at.cursor = addr;
    return (void *)(uintptr_t)addr;
}

/* Resizes a block, and returns it with as many of its bytes as it still has room for, or NULL, and then it is as it was. */
static inline void *arena_realloc(struct arena *a, void *block, size_t size, size_t new_size, size_t align) {
    uint64_t addr = (uint64_t)(uintptr_t)block;
    size_t kept = size < new_size ? size : new_size;
    uint32_t code = size <= new_size ? arena_cursor_grow(&a->at, &addr, size, align, new_size, align)
                                     : arena_cursor_shrink(&a->at, &addr, size, align, new_size, align);
    void *to = (void *)(uintptr_t)addr;
    if (code == ARENA_CURSOR_NO_PLACE) to = arena_alloc_in_new_(a, new_size, align);
    else if (code == ARENA_CURSOR_ELSEWHERE) to = arena_alloc(a, new_size, align);
    else if (code && code != ARENA_CURSOR_STAYS) return NULL;
    return to && kept ? memmove(to, block, kept) : to;
}

/* Gives a block back. Its bytes are used again only if it is the newest block. */
static inline void arena_free(struct arena *a, void *block, size_t size) {
    (void)arena_cursor_give_back(&a->at, (uint64_t)(uintptr_t)block, size);
}

/* Frees everything but the newest chunk, which is empty then. */
static inline void arena_reset(struct arena *a) {
    if (a->newest) {
        arena_drop_(a->newest->older, NULL);
        a->newest->older = NULL;
    }
    (void)arena_cursor_reset(&a->at);
}

/* Returns the state now. */
static inline struct arena_mark arena_mark(const struct arena *a) {
    struct arena_mark mark = {a->newest, a->at.cursor};
    return mark;
}

/* Frees all that was allocated since a mark, which is one of this arena since its last reset, and no later than one to which
 * it was taken back. */
static inline void arena_back(struct arena *a, struct arena_mark mark) {
    if (a->newest != mark.newest) {
        arena_drop_(a->newest, mark.newest);
        arena_keep_(a, mark.newest);
    }
    (void)arena_cursor_back(&a->at, mark.cursor);
}

/* Frees everything. */
static inline void arena_free_all(struct arena *a) {
    arena_drop_(a->newest, NULL);
    arena_keep_(a, NULL);
}

#ifdef __cplusplus
}
#endif
#endif

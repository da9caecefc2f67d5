/* compare CALLS: compares the proved exports of arena_cursor with those written by hand in by_hand.c, on random numbers near
 * the edges. Prints how often each export returned each code. */
#include "arena_cursor.h"
#include <stdio.h>
#include <stdlib.h>

uint64_t hand_find(uint64_t, uint64_t, uint64_t, uint64_t, uint64_t);
uint32_t hand_place(struct arena_cursor *, uint64_t, uint64_t, uint64_t *);
uint32_t hand_give_back(struct arena_cursor *, uint64_t, uint64_t);
uint32_t hand_grow(struct arena_cursor *, uint64_t *, uint64_t, uint64_t, uint64_t, uint64_t);
uint32_t hand_shrink(struct arena_cursor *, uint64_t *, uint64_t, uint64_t, uint64_t, uint64_t);
uint32_t hand_back(struct arena_cursor *, uint64_t);
uint32_t hand_next_chunk(uint64_t, uint64_t, uint64_t, uint32_t, struct arena_chunk *);
uint32_t hand_chunk(uint64_t, uint64_t, uint64_t, struct arena_chunk *);
uint32_t hand_enter(struct arena_cursor *, uint64_t, uint64_t, uint64_t);
uint32_t hand_reset(struct arena_cursor *);
uint32_t hand_count(const struct arena_cursor *, struct arena_counts *);

enum { EXPORTS = 11, CODES = 8 };
static const char *const names[EXPORTS] = {"find",       "place", "give_back", "grow",  "shrink", "back",
                                           "next_chunk", "chunk", "enter",     "reset", "count"};

static uint64_t state = 88172645463325252u;
static uint64_t next(void) {
    state ^= state << 13;
    state ^= state >> 7;
    return state ^= state << 17;
}
static uint64_t below(uint64_t n) { return (next() >> 11) % n; }

static uint64_t number(void) {
    static const uint64_t edges[] = {0,     1,     16,      48,         64,         4032,      4096,       16320,
                                     32704, 65472, 1 << 20, 1ull << 40, 1ull << 62, INT64_MAX, 1ull << 63, UINT64_MAX};
    switch (below(4)) {
    case 0: return below(200);
    case 1: return below(200000);
    case 2: return next() >> below(64);
    default: return edges[below(16)] + below(140) - 70;
    }
}
static uint64_t alignment(void) { return below(8) ? 1ull << below(below(3) ? 8 : 64) : number(); }
static uint64_t least(void) { return below(8) ? 1ull << below(5) : number(); }

/* A cursor, mostly a valid one. */
static struct arena_cursor cursor(void) {
    struct arena_cursor at = {number(), number(), number(), least()};
    if (below(8) && at.min_align) {
        uint64_t m = at.min_align;
        at.start = 1 + below(1 << 20);
        at.cursor = (at.start + number() % (1 << 20) + m - 1) / m * m;
        at.end = at.cursor + number() % (1 << 16) / m * m;
    }
    return at;
}

/* What a call is given, and what it wrote. */
struct call {
    struct arena_cursor at;
    struct arena_chunk chunk;
    struct arena_counts counts;
    uint64_t addr, size, align, to, to_align, k, found;
    uint32_t refused, code;
};

static void proved(struct call *c, int export) {
    switch (export) {
    case 0: c->found = arena_cursor_find(c->at.start, c->at.cursor, c->size, c->align, c->at.min_align); break;
    case 1: c->code = arena_cursor_place(&c->at, c->size, c->align, &c->addr); break;
    case 2: c->code = arena_cursor_give_back(&c->at, c->addr, c->size); break;
    case 3: c->code = arena_cursor_grow(&c->at, &c->addr, c->size, c->align, c->to, c->to_align); break;
    case 4: c->code = arena_cursor_shrink(&c->at, &c->addr, c->size, c->align, c->to, c->to_align); break;
    case 5: c->code = arena_cursor_back(&c->at, c->addr); break;
    case 6: c->code = arena_cursor_next_chunk(c->k, c->size, c->align, c->refused, &c->chunk); break;
    case 7: c->code = arena_cursor_chunk(c->k, c->size, c->align, &c->chunk); break;
    case 8: c->code = arena_cursor_enter(&c->at, c->k, c->to, c->at.min_align); break;
    case 9: c->code = arena_cursor_reset(&c->at); break;
    default: c->code = arena_cursor_count(&c->at, &c->counts);
    }
}

static void by_hand(struct call *c, int export) {
    switch (export) {
    case 0: c->found = hand_find(c->at.start, c->at.cursor, c->size, c->align, c->at.min_align); break;
    case 1: c->code = hand_place(&c->at, c->size, c->align, &c->addr); break;
    case 2: c->code = hand_give_back(&c->at, c->addr, c->size); break;
    case 3: c->code = hand_grow(&c->at, &c->addr, c->size, c->align, c->to, c->to_align); break;
    case 4: c->code = hand_shrink(&c->at, &c->addr, c->size, c->align, c->to, c->to_align); break;
    case 5: c->code = hand_back(&c->at, c->addr); break;
    case 6: c->code = hand_next_chunk(c->k, c->size, c->align, c->refused, &c->chunk); break;
    case 7: c->code = hand_chunk(c->k, c->size, c->align, &c->chunk); break;
    case 8: c->code = hand_enter(&c->at, c->k, c->to, c->at.min_align); break;
    case 9: c->code = hand_reset(&c->at); break;
    default: c->code = hand_count(&c->at, &c->counts);
    }
}

int main(int argc, char **argv) {
    long n = argc > 1 ? atol(argv[1]) : 1000000, codes[EXPORTS][CODES] = {{0}};
    for (long i = 0; i < n; i++) {
        struct call one, two;
        memset(&one, 0, sizeof one);
        one.at = cursor();
        one.addr = below(3) ? one.at.cursor + (below(2) ? 0 : number()) : number();
        one.size = number();
        one.align = alignment();
        one.to = below(3) ? number() : one.size / (1 + below(4));
        one.to_align = alignment();
        one.k = number();
        one.refused = (uint32_t)below(below(4) ? 4 : 70);
        if (below(3) && 1 + one.at.end - one.addr) one.size %= 1 + one.at.end - one.addr;
        memcpy(&two, &one, sizeof one);
        int export = (int)below(EXPORTS);
        proved(&one, export);
        by_hand(&two, export);
        if (one.code >= CODES || memcmp(&one, &two, sizeof one)) {
            printf("call %ld of %s: codes %u and %u\n", i, names[export], one.code, two.code);
            return 1;
        }
        codes[export][export ? one.code : one.found ? 0 : 1]++;
    }
    for (int export = 0; export < EXPORTS; export++) {
        printf("%-10s", names[export]);
        for (int code = 0; code < CODES; code++) printf(" %8ld", codes[export][code]);
        printf("\n");
    }
    return 0;
}

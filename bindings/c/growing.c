/* growing ROUNDS: random calls on the growing arena, each block beside a copy of it from malloc. */
#include "arena_growing.h"
#include <assert.h>
#include <stdio.h>

static uint64_t state = 88172645463325252u;
static uint64_t next(void) { state ^= state << 13; state ^= state >> 7; return state ^= state << 17; }
static uint64_t below(uint64_t n) { return (next() >> 11) % n; }

enum { NAMES = 24 };
struct held { unsigned char *block, *copy; size_t size, align; };

static void same(const struct held *h) { assert(!h->size || !memcmp(h->block, h->copy, h->size)); }

int main(int argc, char **argv) {
    long rounds = argc > 1 ? atol(argv[1]) : 2000, blocks = 0, chunks = 0;
    for (long r = 0; r < rounds; r++) {
        static const uint64_t least[] = {1, 2, 4, 8, 16};
        struct arena a = ARENA_EMPTY_ALIGNED(least[below(5)]);
        struct held held[NAMES] = {{0}};
        if (!below(3)) assert(arena_reserve(&a, 1 + below(100000)));
        for (int i = 0; i < 200; i++) {
            struct held *h = &held[below(NAMES)];
            size_t size = below(8) ? below(200) : below(40000), align = (size_t)1 << below(below(4) ? 5 : 10);
            switch (h->block ? 1 + below(4) : 0) {
            case 0:
                h->block = arena_alloc(&a, size, align);
                assert(h->block && (uintptr_t)h->block % align == 0 && (uintptr_t)h->block % a.at.min_align == 0);
                h->size = size; h->align = align; h->copy = malloc(size + 1);
                memset(h->block, i, size); memset(h->copy, i, size);
                blocks++;
                break;
            case 1: case 2:
                same(h);
                h->block = arena_realloc(&a, h->block, h->size, size, h->align);
                assert(h->block && (uintptr_t)h->block % h->align == 0);
                h->copy = realloc(h->copy, size + 1);
                if (size > h->size) { memset(h->block + h->size, i, size - h->size); memset(h->copy + h->size, i, size - h->size); }
                h->size = size;
                break;
            case 3:
                same(h);
                arena_free(&a, h->block, h->size);
                free(h->copy); h->block = h->copy = NULL; h->size = 0;
                break;
            default:
                if (below(20)) break;
                {
                    struct arena_mark mark = arena_mark(&a);
                    for (int k = 0; k < 30; k++) { size_t n = below(3000); memset(arena_alloc(&a, n, 8), 255, n); }
                    arena_back(&a, mark);
                }
            }
            for (int k = 0; k < NAMES; k++) if (held[k].block) same(&held[k]);
        }
        for (struct arena_footer *f = a.newest; f; f = f->older) chunks++;
        for (int k = 0; k < NAMES; k++) free(held[k].copy);
        if (below(2)) { arena_reset(&a); assert(!a.newest || (!a.newest->older && a.at.cursor == a.at.end)); }
        arena_free_all(&a);
    }
    printf("%ld rounds, %ld blocks, %ld chunks\n", rounds, blocks, chunks);
    return 0;
}

/* The three functions by which libarena_oracle.a asks for memory, over malloc. In Rust they are in bindings/rust/src/heap.rs. */
#include <stdint.h>
#include <stdlib.h>

/* Whether there is a block, and its address. */
struct result {
    uint64_t ok;
    void *at;
};

static struct result result(void *at) {
    static uint64_t empty;
    struct result it = {at != NULL, at ? at : &empty};
    return it;
}

/* A block of no bytes takes as many as its alignment, so that it isn't null. Alignments are at most 16, which malloc has. */
struct result rattle_alloc(size_t size, size_t align) { return result(malloc(size ? size : align)); }

struct result rattle_realloc(void *block, size_t kept, size_t size, size_t align) {
    (void)kept;
    return result(realloc(block, size ? size : align));
}

void rattle_dealloc(void *block) { free(block); }

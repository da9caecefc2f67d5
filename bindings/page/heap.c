// The module's heap: blocks one after another, each after its size in bytes. The newest block can be freed and resized in
// place. The page forgets all blocks before each run. Nothing here is proved.
typedef unsigned long long u64;
typedef unsigned char u8;

// What the compiled code expects: whether there is a block, and its address.
struct result {
    u64 ok;
    u8 *p;
};

#define PAGE 65536ull
#define EXPORT(name) __attribute__((export_name(#name))) name

extern u8 __heap_base;
static u64 top;
static u8 empty[16];

void *memcpy(void *to, const void *from, __SIZE_TYPE__ n) {
    __asm__ volatile("local.get %0\n\tlocal.get %1\n\tlocal.get %2\n\tmemory.copy 0, 0" : : "r"(to), "r"(from), "r"(n) : "memory");
    return to;
}

static u64 first(void) {
    return ((u64)&__heap_base + 15) & ~15ull;
}

static u8 *take(u64 n) {
    if (top == 0) top = first();
    if (n > 1ull << 40) return 0;
    u64 at = top + 16, end = (at + n + 15) & ~15ull, have = __builtin_wasm_memory_size(0) * PAGE;
    if (end > have && __builtin_wasm_memory_grow(0, (end - have + PAGE - 1) / PAGE) == (__SIZE_TYPE__)-1) return 0;
    *(u64 *)(at - 16) = n;
    top = end;
    return (u8 *)at;
}

static u64 size_of(u8 *p) {
    return *(u64 *)(p - 16);
}

static int is_last(u8 *p) {
    return (((u64)p + size_of(p) + 15) & ~15ull) == top;
}

static struct result result(u8 *p) {
    struct result it = {p != 0, p ? p : empty};
    return it;
}

struct result rattle_alloc(u64 n, u64 a) {
    return result(take(n ? n : a));
}

void rattle_dealloc(u8 *p) {
    if (is_last(p)) top = (u64)p - 16;
}

struct result rattle_realloc(u8 *p, u64 kept, u64 n, u64 a) {
    (void)kept;
    u64 old = size_of(p), wanted = n ? n : a;
    if (is_last(p)) {
        u64 before = top;
        top = (u64)p - 16;
        u8 *at = take(wanted);
        if (!at) top = before;
        return result(at);
    }
    if (wanted <= old) return result(p);
    u8 *to = take(wanted);
    if (to) memcpy(to, p, old);
    return result(to);
}

// For the page: room for what it passes, and forgetting all blocks.
u8 *EXPORT(heap_take)(u64 n) {
    return take(n);
}

void EXPORT(heap_forget)(void) {
    top = 0;
}

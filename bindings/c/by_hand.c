/* The exports of arena_cursor written again by hand, in plain C, to compare with the proved ones (compare.c). PLANT=1 to 3
 * are wrong on purpose, to see that comparisons find it. */
#include <stdint.h>
#ifndef PLANT
#define PLANT 0
#endif
#ifndef NAME
#define NAME(export) arena_cursor_##export
#endif
typedef unsigned __int128 wide;
typedef struct { uint64_t start, cursor, end, min_align; } cursor;
typedef struct { uint64_t size, bytes, align; } chunk;
typedef struct { uint64_t used, size, free; } counts;

enum { DONE, NO_PLACE, BAD_LAYOUT, BAD_CURSOR, OUT_OF_RANGE, REFUSED, ELSEWHERE, STAYS };

static int power(uint64_t n) { return n && !(n & (n - 1)); }
static wide up(wide n, wide d) { return (n + d - 1) / d * d; }
static int layout(wide size, uint64_t align) { return power(align) && up(size, align) <= INT64_MAX; }
static int least(uint64_t m) { return power(m) && m <= 16; }
static int valid(const cursor *at) {
    return at->start && at->start <= at->cursor && at->cursor <= at->end && least(at->min_align)
        && at->cursor % at->min_align == 0 && at->end % at->min_align == 0;
}
static int used(const cursor *at, uint64_t p, uint64_t n) { return at->cursor <= p && (wide)p + n <= at->end; }
static int outside(const cursor *at, uint64_t p, uint64_t n) { return !n || at->end < p || (wide)p + n <= at->start; }
static uint64_t unit(uint64_t align, uint64_t m) { return align < m ? m : align; }
static int below(const cursor *at, uint64_t size, uint64_t align, uint64_t *p) {
    uint64_t top = at->cursor < size ? 0 : at->cursor - size, d = unit(align, at->min_align);
    *p = top / d * d;
    return at->start <= *p;
}

uint64_t NAME(find)(uint64_t start, uint64_t end, uint64_t size, uint64_t align, uint64_t m) {
    cursor at = {start, end, end, m};
    uint64_t p;
    return start && least(m) && layout(size, align) && below(&at, size, align, &p) ? p : 0;
}
uint32_t NAME(place)(cursor *at, uint64_t size, uint64_t align, uint64_t *addr) {
    uint64_t p;
    if (!valid(at)) return BAD_CURSOR;
    if (!layout(size, align)) return BAD_LAYOUT;
    if (!below(at, size, align, &p)) return NO_PLACE;
    at->cursor = *addr = p;
    return DONE;
}
uint32_t NAME(give_back)(cursor *at, uint64_t addr, uint64_t size) {
    if (!valid(at)) return BAD_CURSOR;
    if (!used(at, addr, size)) return outside(at, addr, size) ? STAYS : OUT_OF_RANGE;
    if (addr == at->cursor) at->cursor = PLANT == 1 ? (addr + size) / at->min_align * at->min_align : up(addr + size, at->min_align);
    return DONE;
}
uint32_t NAME(grow)(cursor *at, uint64_t *addr, uint64_t size, uint64_t align, uint64_t n, uint64_t a) {
    uint64_t p;
    if (!valid(at)) return BAD_CURSOR;
    if (!layout(size, align) || !layout(n, a)) return BAD_LAYOUT;
    if (n < size) return OUT_OF_RANGE;
    if (!used(at, *addr, size)) return outside(at, *addr, size) ? ELSEWHERE : OUT_OF_RANGE;
    if (a <= align && *addr == at->cursor) {
        uint64_t more = up(n, at->min_align) - size;
        if (!layout(more, align)) return REFUSED;
        if (below(at, more, align, &p)) { at->cursor = *addr = p; return DONE; }
    }
    if (!below(at, n, a, &p)) return NO_PLACE;
    at->cursor = *addr = p;
    return DONE;
}
uint32_t NAME(shrink)(cursor *at, uint64_t *addr, uint64_t size, uint64_t align, uint64_t n, uint64_t a) {
    uint64_t p;
    if (!valid(at)) return BAD_CURSOR;
    if (!layout(size, align) || !layout(n, a)) return BAD_LAYOUT;
    if (n > size) return OUT_OF_RANGE;
    if (!used(at, *addr, size)) return !outside(at, *addr, size) ? OUT_OF_RANGE : align < a && *addr % a ? ELSEWHERE : STAYS;
    if (align < a) {
        if (*addr % a == 0) return DONE;
        if (!below(at, n, a, &p)) return NO_PLACE;
        at->cursor = *addr = p;
        return DONE;
    }
    uint64_t d = unit(a, at->min_align), by = (size - n) / d * d;
    if (*addr == at->cursor && size < 2 * (wide)by + (PLANT != 2)) at->cursor = *addr += by;
    return DONE;
}
uint32_t NAME(back)(cursor *at, uint64_t mark) {
    if (!valid(at)) return BAD_CURSOR;
    if (mark < at->cursor || at->end < mark || mark % at->min_align) return OUT_OF_RANGE;
    at->cursor = mark;
    return DONE;
}
static int request(uint64_t tried, uint64_t size, uint64_t align, chunk *out) {
    wide a = align < 16 ? 16 : align, m = up(size, a), n;
    if (m < tried) m = tried;
    if (m < 4096) { n = 1; while (n < m + 64) n *= 2; n -= 64; }
    else if (m <= ((wide)1 << 63) - 64) n = up(m + 64, 4096) - 64;
    else return 0;
    if (!layout(n + 48, a)) return 0;
    out->size = n; out->bytes = n + 48; out->align = a;
    return 1;
}
uint32_t NAME(chunk)(uint64_t tried, uint64_t size, uint64_t align, chunk *out) {
    if (!layout(size, align)) return BAD_LAYOUT;
    if (!tried) return OUT_OF_RANGE;
    return request(tried, size, align, out) ? DONE : NO_PLACE;
}
uint32_t NAME(next_chunk)(uint64_t newest, uint64_t size, uint64_t align, uint32_t refused, chunk *out) {
    chunk c;
    if (!layout(size, align)) return BAD_LAYOUT;
    if (newest >> 63) return OUT_OF_RANGE;
    uint64_t low = size < 16320 ? 16320 : size, tried = 2 * newest < low ? low : 2 * newest;
    for (; tried >= low; tried /= PLANT == 3 ? 4 : 2)
        if (request(tried, size, align, &c) && !refused--) { *out = c; return DONE; }
    return NO_PLACE;
}
uint32_t NAME(enter)(cursor *at, uint64_t base, uint64_t size, uint64_t m) {
    if (!base || size > UINT64_MAX - base || !least(m) || (base + size) % m) return OUT_OF_RANGE;
    at->start = base; at->cursor = at->end = base + size; at->min_align = m;
    return DONE;
}
uint32_t NAME(reset)(cursor *at) {
    if (!valid(at)) return BAD_CURSOR;
    at->cursor = at->end;
    return DONE;
}
uint32_t NAME(count)(const cursor *at, counts *out) {
    if (!valid(at)) return BAD_CURSOR;
    out->used = at->end - at->cursor; out->size = at->end - at->start; out->free = at->cursor - at->start;
    return DONE;
}

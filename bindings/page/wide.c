// Products and shifts of 128 bits, which LLVM calls by these names for wasm64. They are written without 128-bit operations,
// which would call themselves.
typedef unsigned long long u64;
typedef unsigned __int128 u128;

typedef union {
    u128 whole;
    struct {
        u64 low, high;
    };
} Halves;

// The low 128 bits of the product.
u128 __multi3(u128 x, u128 y) {
    Halves a = {x}, b = {y}, product;
    u64 a0 = (unsigned)a.low, a1 = a.low >> 32, b0 = (unsigned)b.low, b1 = b.low >> 32;
    u64 low = a0 * b0, mid = a1 * b0 + (low >> 32), other = a0 * b1 + (unsigned)mid;
    product.low = other << 32 | (unsigned)low;
    product.high = a1 * b1 + (mid >> 32) + (other >> 32) + a.low * b.high + a.high * b.low;
    return product.whole;
}

// Shifts by 0 to 127. A shift by 1 and then by 63 - n is one by 64 - n that is defined for n = 0.

u128 __ashlti3(u128 x, int n) {
    Halves a = {x}, shifted;
    int k = n & 63;
    shifted.low = n & 64 ? 0 : a.low << k;
    shifted.high = n & 64 ? a.low << k : a.high << k | a.low >> 1 >> (63 - k);
    return shifted.whole;
}

u128 __lshrti3(u128 x, int n) {
    Halves a = {x}, shifted;
    int k = n & 63;
    shifted.high = n & 64 ? 0 : a.high >> k;
    shifted.low = n & 64 ? a.high >> k : a.low >> k | a.high << 1 << (63 - k);
    return shifted.whole;
}

u128 __ashrti3(u128 x, int n) {
    Halves a = {x}, shifted;
    int k = n & 63;
    long long high = (long long)a.high;
    shifted.high = (u64)(n & 64 ? high >> 63 : high >> k);
    shifted.low = n & 64 ? (u64)(high >> k) : a.low >> k | a.high << 1 << (63 - k);
    return shifted.whole;
}

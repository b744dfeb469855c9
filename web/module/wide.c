// Arithmetic of 128 bits that LLVM calls by name: WebAssembly has 64 bits. None of it may multiply or shift 128 bits itself, since that would
// call it again. Division is written out in place of the last two calls (-expand-div-rem-bits=64).
typedef unsigned long long u64;
typedef long long i64;
typedef unsigned __int128 u128;
typedef __int128 i128;

union halves {
    u128 whole;
    struct {
        u64 low, high;
    } of;
};

static u128 whole(u64 low, u64 high) {
    union halves made;
    made.of.low = low;
    made.of.high = high;
    return made.whole;
}

// The product modulo 2^128. Of the lower halves the product is put together from four products of 32 bits.
u128 __multi3(u128 left, u128 right) {
    union halves a = {left}, b = {right};
    u64 mask = 0xffffffffULL;
    u64 a0 = a.of.low & mask, a1 = a.of.low >> 32, b0 = b.of.low & mask, b1 = b.of.low >> 32;
    u64 low = a0 * b0, cross = a1 * b0, other = a0 * b1;
    u64 carry = (low >> 32) + (cross & mask) + (other & mask);
    u64 high = a1 * b1 + (cross >> 32) + (other >> 32) + (carry >> 32);
    return whole((low & mask) | (carry << 32), high + a.of.low * b.of.high + a.of.high * b.of.low);
}

u128 __ashlti3(u128 number, int count) {
    union halves n = {number};
    count &= 127;
    if (count == 0) return number;
    if (count >= 64) return whole(0, n.of.low << (count - 64));
    return whole(n.of.low << count, n.of.high << count | n.of.low >> (64 - count));
}

u128 __lshrti3(u128 number, int count) {
    union halves n = {number};
    count &= 127;
    if (count == 0) return number;
    if (count >= 64) return whole(n.of.high >> (count - 64), 0);
    return whole(n.of.low >> count | n.of.high << (64 - count), n.of.high >> count);
}

i128 __ashrti3(i128 number, int count) {
    union halves n = {(u128)number};
    i64 high = (i64)n.of.high;
    count &= 127;
    if (count == 0) return number;
    if (count >= 64) return (i128)whole((u64)(high >> (count - 64)), (u64)(high >> 63));
    return (i128)whole(n.of.low >> count | n.of.high << (64 - count), (u64)(high >> count));
}

i128 __divti3(i128 left, i128 right) { return left / right; }
i128 __modti3(i128 left, i128 right) { return left % right; }

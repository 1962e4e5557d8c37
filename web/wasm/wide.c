/* SPDX-License-Identifier: Apache-2.0 */
/*
 * The functions on numbers of 128 bits that the compiler calls for WebAssembly, by their names in the run-time library of
 * LLVM and GCC.
 */
#include <stdint.h>

typedef __int128 wide;

union halves {
    wide all;
    struct {
        uint64_t low;
        uint64_t high;
    } part;
};

wide __multi3(wide one, wide other);
wide __ashlti3(wide number, int bits);
wide __lshrti3(wide number, int bits);

/* The upper half of the product of two numbers of 64 bits. */
static uint64_t upper_product(uint64_t one, uint64_t other)
{
    uint64_t one_low = (uint32_t)one, one_high = one >> 32;
    uint64_t other_low = (uint32_t)other, other_high = other >> 32;
    uint64_t middle = one_high * other_low + (one_low * other_low >> 32);
    uint64_t lower = one_low * other_high + (uint32_t)middle;

    return one_high * other_high + (middle >> 32) + (lower >> 32);
}

wide __multi3(wide one, wide other)
{
    union halves a = {.all = one}, b = {.all = other}, product;

    product.part.low = a.part.low * b.part.low;
    product.part.high = upper_product(a.part.low, b.part.low) + a.part.high * b.part.low + a.part.low * b.part.high;
    return product.all;
}

wide __ashlti3(wide number, int bits)
{
    union halves from = {.all = number}, to;

    bits &= 127;
    if (bits == 0) return number;
    to.part.low = bits < 64 ? from.part.low << bits : 0;
    to.part.high = bits < 64 ? from.part.high << bits | from.part.low >> (64 - bits) : from.part.low << (bits - 64);
    return to.all;
}

wide __lshrti3(wide number, int bits)
{
    union halves from = {.all = number}, to;

    bits &= 127;
    if (bits == 0) return number;
    to.part.high = bits < 64 ? from.part.high >> bits : 0;
    to.part.low = bits < 64 ? from.part.low >> bits | from.part.high << (64 - bits) : from.part.high >> (bits - 64);
    return to.all;
}

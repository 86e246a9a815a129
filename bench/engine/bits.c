/* Tricks with the bits of 64-bit numbers, on the numbers of a xorshift stream: straight code of shifts and masks. */
#include "entry.h"

#define ROUNDS 1700000

static u64 reversed(u64 x) {
    x = (x >> 1 & 0x5555555555555555) | (x & 0x5555555555555555) << 1;
    x = (x >> 2 & 0x3333333333333333) | (x & 0x3333333333333333) << 2;
    x = (x >> 4 & 0x0f0f0f0f0f0f0f0f) | (x & 0x0f0f0f0f0f0f0f0f) << 4;
    x = (x >> 8 & 0x00ff00ff00ff00ff) | (x & 0x00ff00ff00ff00ff) << 8;
    x = (x >> 16 & 0x0000ffff0000ffff) | (x & 0x0000ffff0000ffff) << 16;
    return x >> 32 | x << 32;
}

static u32 work(void) {
    u64 x = 88172645463325252, sum = 0;
    for (int round = 0; round < ROUNDS; round++) {
        x ^= x << 13;
        x ^= x >> 7;
        x ^= x << 17;
        u64 back = reversed(x);
        u32 ones = __builtin_popcountll(x);
        u32 front = __builtin_clzll(x), rear = __builtin_ctzll(back);
        if (front != rear || reversed(back) != x)
            return 0;
        sum = (sum << 7 | sum >> 57) + (back & -back) + ones * front;
        sum ^= sum >> 29;
    }
    return sum ^ sum >> 32;
}

ENTRY(1098916131u)

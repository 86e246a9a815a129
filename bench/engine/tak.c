/* Takeuchi's function: calls and little else. */
#include "entry.h"

#define ROUNDS 200

__attribute__((noinline)) static int tak(int x, int y, int z) {
    return y < x ? tak(tak(x - 1, y, z), tak(y - 1, z, x), tak(z - 1, x, y)) : z;
}

static u32 work(void) {
    u32 sum = 0;
    for (int round = 0; round < ROUNDS; round++)
        sum += tak(18 + (round & 1), 12, 6);
    return sum;
}

ENTRY(1900u)

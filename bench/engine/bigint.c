/* The digits of the factorial of 1,000, as numbers of 32-bit limbs: products and quotients of 64 bits. */
#include "entry.h"

#define ROUNDS 60
#define LIMBS 300

static u32 limbs[LIMBS];
static int used;

static void multiply(u32 by) {
    u64 carry = 0;
    for (int i = 0; i < used; i++) {
        carry += (u64)limbs[i] * by;
        limbs[i] = carry;
        carry >>= 32;
    }
    if (carry != 0)
        limbs[used++] = carry;
}

static u32 divide(u32 by) {
    u64 rest = 0;
    for (int i = used - 1; i >= 0; i--) {
        rest = rest << 32 | limbs[i];
        limbs[i] = rest / by;
        rest %= by;
    }
    while (used > 0 && limbs[used - 1] == 0)
        used--;
    return rest;
}

static u32 work(void) {
    u32 sum = 0;
    for (int round = 0; round < ROUNDS; round++) {
        limbs[0] = 1;
        used = 1;
        for (u32 n = 2; n <= 1000; n++)
            multiply(n);
        u32 digits = 0;
        while (used > 0)
            for (u32 group = divide(1000000000); group > 0; group /= 10)
                digits += group % 10;
        if (digits != 10539)
            return 0;
        sum += digits;
    }
    return sum;
}

ENTRY(632340u)

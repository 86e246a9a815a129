/* How many primes are below a million: the sieve of Eratosthenes, in bytes. */
#include "entry.h"

#define ROUNDS 3
#define BOUND 1000000

static u8 composite[BOUND];

static u32 primes(void) {
    u32 count = 0;
    for (u32 n = 0; n < BOUND; n++)
        composite[n] = 0;
    for (u32 n = 2; n < BOUND; n++)
        if (!composite[n]) {
            count++;
            for (u64 multiple = (u64)n * n; multiple < BOUND; multiple += n)
                composite[multiple] = 1;
        }
    return count;
}

static u32 work(void) {
    u32 sum = 0;
    for (int round = 0; round < ROUNDS; round++)
        sum += primes();
    return sum;
}

ENTRY(235494u)

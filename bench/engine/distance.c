/* The edit distances of words of 1,000 letters: a table row by row, each place the least of three. */
#include "entry.h"

#define ROUNDS 6
#define COUNT 1000

static u8 first[COUNT], second[COUNT];
static u32 row[COUNT + 1];

static u32 least(u32 a, u32 b) { return a < b ? a : b; }

static u32 distance(void) {
    for (u32 j = 0; j <= COUNT; j++)
        row[j] = j;
    for (u32 i = 0; i < COUNT; i++) {
        u32 corner = row[0];
        row[0] = i + 1;
        for (u32 j = 0; j < COUNT; j++) {
            u32 changed = corner + (first[i] != second[j]);
            corner = row[j + 1];
            row[j + 1] = least(changed, least(corner, row[j]) + 1);
        }
    }
    return row[COUNT];
}

static u32 work(void) {
    u32 seed = 9, sum = 0;
    for (int round = 0; round < ROUNDS; round++) {
        for (u32 i = 0; i < COUNT; i++) {
            first[i] = next_number(&seed) >> 30;
            second[i] = next_number(&seed) >> 30;
        }
        sum = sum * 31 + distance();
    }
    return sum;
}

ENTRY(2757562066u)

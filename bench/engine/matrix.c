/* Powers of a matrix of 80 times 80 numbers: three nested loops of products and sums. */
#include "entry.h"

#define ROUNDS 28
#define SIDE 80

static u32 left[SIDE][SIDE], right[SIDE][SIDE], product[SIDE][SIDE];

static void multiply(void) {
    for (int row = 0; row < SIDE; row++)
        for (int column = 0; column < SIDE; column++) {
            u32 sum = 0;
            for (int i = 0; i < SIDE; i++)
                sum += left[row][i] * right[i][column];
            product[row][column] = sum;
        }
}

static u32 work(void) {
    u32 seed = 3;
    for (int row = 0; row < SIDE; row++)
        for (int column = 0; column < SIDE; column++) {
            left[row][column] = row == column;
            right[row][column] = next_number(&seed);
        }
    for (int round = 0; round < ROUNDS; round++) {
        multiply();
        for (int row = 0; row < SIDE; row++)
            for (int column = 0; column < SIDE; column++)
                left[row][column] = product[row][column];
    }
    u32 mark = 0;
    for (int row = 0; row < SIDE; row++)
        for (int column = 0; column < SIDE; column++)
            mark = mark * 31 + left[row][column];
    return mark;
}

ENTRY(3042520657u)

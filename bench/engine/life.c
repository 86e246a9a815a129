/* Conway's game of life on a board of 128 times 128 cells whose edges meet. */
#include "entry.h"

#define ROUNDS 124
#define SIDE 128

static u8 boards[2][SIDE][SIDE];

static void step(u8 (*now)[SIDE], u8 (*after)[SIDE]) {
    for (int row = 0; row < SIDE; row++) {
        const u8 *above = now[(row + SIDE - 1) % SIDE], *here = now[row], *below = now[(row + 1) % SIDE];
        for (int column = 0; column < SIDE; column++) {
            int left = (column + SIDE - 1) % SIDE, right = (column + 1) % SIDE;
            int near = above[left] + above[column] + above[right] + here[left] + here[right] + below[left] +
                       below[column] + below[right];
            after[row][column] = near == 3 || (near == 2 && here[column]);
        }
    }
}

static u32 work(void) {
    u32 seed = 5, mark = 0;
    for (int row = 0; row < SIDE; row++)
        for (int column = 0; column < SIDE; column++)
            boards[0][row][column] = next_number(&seed) >> 30 == 0;
    for (int round = 0; round < ROUNDS; round++)
        step(boards[round & 1], boards[~round & 1]);
    for (int row = 0; row < SIDE; row++)
        for (int column = 0; column < SIDE; column++)
            mark = mark * 31 + boards[ROUNDS & 1][row][column];
    return mark;
}

ENTRY(143024233u)

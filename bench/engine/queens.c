/* In how many ways eleven queens stand on a board of eleven times eleven: recursion over sets of columns. */
#include "entry.h"

#define SIDE 11

static u32 columns[SIDE];

static int is_free(int row, u32 column) {
    for (int other = 0; other < row; other++) {
        u32 apart = columns[other] > column ? columns[other] - column : column - columns[other];
        if (apart == 0 || apart == (u32)(row - other))
            return 0;
    }
    return 1;
}

static u32 ways(int row) {
    if (row == SIDE)
        return 1;
    u32 sum = 0;
    for (u32 column = 0; column < SIDE; column++)
        if (is_free(row, column)) {
            columns[row] = column;
            sum += ways(row + 1);
        }
    return sum;
}

static u32 work(void) { return ways(0); }

ENTRY(2680u)

/* Quicksort of 32,768 numbers, in rising and falling order by turns: recursion, and comparisons called through a
   table of functions. */
#include "entry.h"

#define ROUNDS 10
#define COUNT 32768

static u32 numbers[COUNT];

static int rising(u32 a, u32 b) { return a < b; }
static int falling(u32 a, u32 b) { return a > b; }

static int (*const orders[2])(u32, u32) = {rising, falling};

static void sort(u32 *from, int count, int (*before)(u32, u32)) {
    while (count > 12) {
        u32 pivot = from[count / 2];
        int low = 0, high = count - 1;
        while (low <= high) {
            while (before(from[low], pivot))
                low++;
            while (before(pivot, from[high]))
                high--;
            if (low <= high) {
                u32 held = from[low];
                from[low++] = from[high];
                from[high--] = held;
            }
        }
        sort(from, high + 1, before);
        from += low;
        count -= low;
    }
    for (int i = 1; i < count; i++) {
        u32 held = from[i];
        int at = i;
        for (; at > 0 && before(held, from[at - 1]); at--)
            from[at] = from[at - 1];
        from[at] = held;
    }
}

static u32 work(void) {
    u32 seed = 7, sum = 0;
    for (int round = 0; round < ROUNDS; round++) {
        for (int i = 0; i < COUNT; i++)
            numbers[i] = next_number(&seed);
        int (*before)(u32, u32) = orders[round & 1];
        sort(numbers, COUNT, before);
        for (int i = 1; i < COUNT; i++)
            if (before(numbers[i], numbers[i - 1]))
                return 0;
        sum = sum * 31 + numbers[COUNT / 3];
    }
    return sum;
}

ENTRY(3765112762u)

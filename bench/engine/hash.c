/* A hash table of 8,192 places with open addressing: 64-bit keys are put in, counted up, found, and taken out. */
#include "entry.h"

#define ROUNDS 1200000
#define PLACES 8192

static u64 keys[PLACES];
static u32 counts[PLACES];

static u32 home(u64 key) { return key * 0x9e3779b97f4a7c15 >> 51; }

/* The place of the key, or the free place where it would stand. */
static u32 find(u64 key) {
    u32 place = home(key);
    while (keys[place] != 0 && keys[place] != key)
        place = (place + 1) % PLACES;
    return place;
}

/* Takes the place's key out and moves those behind it up, so that each is still found. */
static void take_out(u32 place) {
    for (u32 next = (place + 1) % PLACES; keys[next] != 0; next = (next + 1) % PLACES) {
        u32 far = (next - home(keys[next])) % PLACES, gap = (next - place) % PLACES;
        if (far >= gap) {
            keys[place] = keys[next];
            counts[place] = counts[next];
            place = next;
        }
    }
    keys[place] = 0;
}

static u32 work(void) {
    u32 seed = 13, held = 0, sum = 0;
    for (u32 round = 0; round < ROUNDS; round++) {
        u64 key = 1 + (u64)(next_number(&seed) % 20000) * 0x100000001;
        u32 place = find(key);
        if (keys[place] == 0) {
            if (held == PLACES * 3 / 4)
                continue;
            keys[place] = key;
            counts[place] = 1;
            held++;
        } else if (++counts[place] == 4) {
            take_out(place);
            held--;
            sum = sum * 31 + (u32)key;
        }
    }
    return sum + held;
}

ENTRY(3381691132u)

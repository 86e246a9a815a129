/* Compresses a text by copies of what came before (found by a hash of four bytes), expands it and compares: loads and
   stores of bytes, and branches that depend on them. */
#include "entry.h"

#define ROUNDS 24
#define SIZE 65536

static u8 text[SIZE], packed[2 * SIZE], unpacked[SIZE];
static u32 latest[4096];

static u32 word_at(u32 at) { return text[at] | text[at + 1] << 8 | text[at + 2] << 16 | (u32)text[at + 3] << 24; }

/* Each item is a count of bytes that follow, those bytes, the length of a copy, and how far back it begins. */
static u32 pack(void) {
    u32 out = 0, from = 0, at = 0;
    for (u32 i = 0; i < 4096; i++)
        latest[i] = 0;
    while (at < SIZE) {
        u32 length = 0, back = 0;
        if (at + 4 <= SIZE) {
            u32 slot = word_at(at) * 2654435761u >> 20;
            u32 before = latest[slot];
            latest[slot] = at + 1;
            if (before != 0 && at - (before - 1) < 65536) {
                back = at - (before - 1);
                while (length < 255 && at + length < SIZE && text[at + length] == text[at - back + length])
                    length++;
            }
        }
        if (length < 4)
            length = 0, at++;
        if (length != 0 || at - from == 255 || at == SIZE) {
            packed[out++] = at - from;
            while (from < at)
                packed[out++] = text[from++];
            packed[out++] = length;
            packed[out++] = back;
            packed[out++] = back >> 8;
            at += length;
            from = at;
        }
    }
    return out;
}

static u32 unpack(u32 count) {
    u32 at = 0, out = 0;
    while (at < count) {
        for (u32 plain = packed[at++]; plain > 0; plain--)
            unpacked[out++] = packed[at++];
        u32 length = packed[at], back = packed[at + 1] | packed[at + 2] << 8;
        at += 3;
        for (; length > 0; length--, out++)
            unpacked[out] = unpacked[out - back];
    }
    return out;
}

static u32 work(void) {
    static const char words[] = "process mailbox stream message worker journal turn entry link monitor signal fuel ";
    u32 seed = 11, sum = 0;
    for (int round = 0; round < ROUNDS; round++) {
        u32 at = 0;
        while (at < SIZE) {
            u32 from = next_number(&seed) % (sizeof words - 1), count = 3 + next_number(&seed) % 14;
            for (; count > 0 && at < SIZE; count--, from++)
                text[at++] = words[from % (sizeof words - 1)];
        }
        u32 count = pack();
        if (unpack(count) != SIZE)
            return 0;
        for (u32 i = 0; i < SIZE; i++)
            if (text[i] != unpacked[i])
                return 0;
        sum = sum * 31 + count;
    }
    return sum;
}

ENTRY(2835982302u)

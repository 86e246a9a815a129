/* CRC-32 of a buffer by a table of 256 words: loads of bytes and words. */
#include "entry.h"

#define ROUNDS 150

static u32 table[256];
static u8 buffer[65536];

static u32 crc(u32 crc, const u8 *bytes, u32 count) {
    crc = ~crc;
    for (u32 i = 0; i < count; i++)
        crc = table[(crc ^ bytes[i]) & 255] ^ crc >> 8;
    return ~crc;
}

static u32 work(void) {
    for (u32 n = 0; n < 256; n++) {
        u32 entry = n;
        for (int bit = 0; bit < 8; bit++)
            entry = entry & 1 ? 0xedb88320 ^ entry >> 1 : entry >> 1;
        table[n] = entry;
    }
    if (crc(0, (const u8 *)"123456789", 9) != 0xcbf43926)
        return 0;
    u32 seed = 1;
    for (u32 i = 0; i < sizeof buffer; i++)
        buffer[i] = next_number(&seed) >> 8;
    u32 sum = 0;
    for (int round = 0; round < ROUNDS; round++)
        sum = crc(sum, buffer, sizeof buffer);
    return sum;
}

ENTRY(477644605u)

// The CRC-32 of POSIX cksum: over the bytes and then over those of their number, lowest first.
#include <stddef.h>
#include <stdint.h>

struct crc32 {
    uint32_t table[256];
    uint32_t sum;
    unsigned long size;
};

static struct crc32 crc32_start(void)
{
    struct crc32 start = {.sum = 0, .size = 0};
    for (uint32_t byte = 0; byte < 256; byte++) {
        uint32_t rest = byte << 24;
        for (int bit = 0; bit < 8; bit++)
            rest = rest & 0x80000000u ? rest << 1 ^ 0x04C11DB7u : rest << 1;
        start.table[byte] = rest;
    }
    return start;
}

static void crc32_byte(struct crc32 *of, unsigned char byte)
{
    of->sum = of->sum << 8 ^ of->table[(of->sum >> 24 ^ byte) & 0xFF];
}

static void crc32_add(struct crc32 *of, const unsigned char *bytes, size_t count)
{
    of->size += count;
    for (size_t i = 0; i < count; i++)
        crc32_byte(of, bytes[i]);
}

static uint32_t crc32_end(struct crc32 *of)
{
    for (unsigned long rest = of->size; rest > 0; rest >>= 8)
        crc32_byte(of, (unsigned char)(rest & 0xFF));
    return ~of->sum;
}

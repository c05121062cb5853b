/* X-10 patterns of 22 and 62 places, read, refused for the last complement, and written. */
#include "bench.h"
#include "gateway.h"

static const uint8_t CODES[16] = {6, 14, 2, 10, 1, 9, 5, 13, 7, 15, 3, 11, 0, 8, 4, 12};
static const uint8_t INDEX[16] = {12, 4, 2, 10, 14, 6, 0, 8, 13, 5, 3, 11, 15, 7, 1, 9};

static inline int are_places(const uint8_t *p, int count)
{
    uint8_t bits = 0;
    for (int i = 0; i < count; i++) {
        bits |= p[i];
    }
    return bits <= 1;
}

/* The number that pairs of places spell, or -1; pairs that make 1 are 0 and 1. */
static inline int spell(const uint8_t *p, int bits)
{
    int n = 0;
    for (int i = 0; i < bits; i++, p += 2) {
        if (p[0] + p[1] != 1) return -1;
        n = n * 2 + p[0];
    }
    return n;
}

static inline uint64_t pack(uint64_t kind, uint64_t house, uint64_t key, uint64_t data, uint64_t command)
{
    return kind << 8 | house << 16 | key << 24 | data << 32 | command << 40;
}

PLAIN uint64_t plain_read(const uint8_t *p, size_t len)
{
    if (len < 22) return 1;
    if (p[0] != 1 || p[1] != 1 || p[2] != 1 || p[3] != 0) return are_places(p, 22) ? 2 : 8;
    int house = spell(p + 4, 4), key = spell(p + 12, 4), d16 = spell(p + 20, 1);
    if (house < 0 || key < 0 || d16 < 0) return are_places(p, 22) ? 5 : 8;
    if (d16 == 0) return len > 22 ? 4 : pack(0, INDEX[house], INDEX[key] + 1, 0, 0);
    if (key != 7) {
        if (key == 10 || key == 11 || key == 12) return 6;
        return len > 22 ? 4 : pack(1, INDEX[house], key, 0, 0);
    }
    if (len < 62) return 1;
    int unit = spell(p + 22, 4), data = spell(p + 30, 8), command = spell(p + 46, 8);
    if (unit < 0 || data < 0 || command < 0) return are_places(p + 22, 40) ? 5 : 8;
    return len > 62 ? 4 : pack(2, INDEX[house], INDEX[unit] + 1, data, command);
}

static inline void put(uint8_t *p, unsigned n, int bits)
{
    for (int i = bits - 1; i >= 0; i--, p += 2) {
        p[0] = n >> i & 1;
        p[1] = 1 - p[0];
    }
}

static inline void put_standard(uint8_t *p, unsigned house, unsigned key, unsigned d16)
{
    p[0] = p[1] = p[2] = 1;
    p[3] = 0;
    put(p + 4, house, 4);
    put(p + 12, key, 4);
    put(p + 20, d16, 1);
}

PLAIN uint64_t plain_write_unit(uint8_t house, uint8_t unit, uint8_t *out, size_t room)
{
    if (house > 15 || unit < 1 || unit > 16) return 8;
    if (room < 22) return 9;
    put_standard(out, CODES[house], CODES[unit - 1], 0);
    return 22 << 8;
}

PLAIN uint64_t plain_write_extended(uint8_t house, uint8_t unit, uint8_t data, uint8_t command, uint8_t *out, size_t room)
{
    if (house > 15 || unit < 1 || unit > 16) return 8;
    if (room < 62) return 9;
    put_standard(out, CODES[house], 7, 1);
    put(out + 22, CODES[unit - 1], 4);
    put(out + 30, data, 8);
    put(out + 46, command, 8);
    return 62 << 8;
}

enum { PATTERNS = 256 };
static uint8_t standard[PATTERNS][22], extended[PATTERNS][62], wrong_22[PATTERNS][22], wrong_62[PATTERNS][62], out[62];

SIDES(read_22, x10_read, plain_read, standard[i % PATTERNS], 22)
SIDES(read_62, x10_read, plain_read, extended[i % PATTERNS], 62)
SIDES(refuse_22, x10_read, plain_read, wrong_22[i % PATTERNS], 22)
SIDES(refuse_62, x10_read, plain_read, wrong_62[i % PATTERNS], 62)
SIDES(write_22, x10_write_unit, plain_write_unit, i % 16, i / 16 % 16 + 1, out, sizeof out)
SIDES(write_62, x10_write_extended, plain_write_extended, i % 16, i / 16 % 16 + 1, (uint8_t)(i * 37), (uint8_t)(i * 101), out, sizeof out)

int main(void)
{
    for (int i = 0; i < PATTERNS; i++) {
        plain_write_unit(i % 16, i / 16 + 1, standard[i], 22);
        plain_write_extended(i % 16, i / 16 + 1, i * 37 & 255, i * 101 & 255, extended[i], 62);
        memcpy(wrong_22[i], standard[i], 22);
        wrong_22[i][21] = wrong_22[i][20];
        memcpy(wrong_62[i], extended[i], 62);
        wrong_62[i][61] = wrong_62[i][60];
    }
    ROW("x10_read, 22 places", read_22, PATTERNS, out);
    ROW("x10_read, 62 places", read_62, PATTERNS, out);
    ROW("x10_read, 22 places, refused", refuse_22, PATTERNS, out);
    ROW("x10_read, 62 places, refused", refuse_62, PATTERNS, out);
    ROW("x10_write_unit", write_22, PATTERNS, out);
    ROW("x10_write_extended", write_62, PATTERNS, out);
    return 0;
}

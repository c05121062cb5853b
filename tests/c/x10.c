/* X-10 patterns from C, beside a plain implementation of document 01's section written here. */
#include "check.h"
#include "gateway.h"

/* Document 01: houses A to P, and units 1 to 16. */
static const char *const CODES[16] = {"0110", "1110", "0010", "1010", "0001", "1001", "0101", "1101",
                                      "0111", "1111", "0011", "1011", "0000", "1000", "0100", "1100"};

/* Document 001's functions that take 22 places, by D8 D4 D2 D1. */
static const char *const FUNCTIONS[12] = {"0000", "0001", "0010", "0011", "0100", "0101",
                                          "0110", "1000", "1001", "1101", "1110", "1111"};

static uint64_t packed(unsigned kind, unsigned house, unsigned key, unsigned data, unsigned command)
{
    return (uint64_t)kind << 8 | (uint64_t)house << 16 | (uint64_t)key << 24 | (uint64_t)data << 32 | (uint64_t)command << 40;
}

/* The place of a code of four characters in a list, or -1. */
static int found(const char *const *list, int count, const char *code)
{
    for (int i = 0; i < count; i++) {
        if (memcmp(list[i], code, 4) == 0) {
            return i;
        }
    }
    return -1;
}

/* The first of each pair as a character; 0 where a second place is not its complement. */
static int unpaired(const uint8_t *p, int bits, char *out)
{
    for (int i = 0; i < bits; i++) {
        if (p[2 * i] == p[2 * i + 1]) {
            return 0;
        }
        out[i] = (char)('0' + p[2 * i]);
    }
    return 1;
}

static int are_places(const uint8_t *p, int count)
{
    for (int i = 0; i < count; i++) {
        if (p[i] != 0 && p[i] != 1) {
            return 0;
        }
    }
    return 1;
}

static unsigned number(const char *bits, int count)
{
    unsigned n = 0;
    for (int i = 0; i < count; i++) {
        n += (unsigned)(bits[i] - '0') << (count - 1 - i);
    }
    return n;
}

static uint64_t want_read(const uint8_t *p, size_t len)
{
    char b[32];
    if (len < 22) {
        return 1;
    }
    if (!are_places(p, 22)) {
        return 8;
    }
    if (memcmp(p, (const uint8_t[]){1, 1, 1, 0}, 4) != 0) {
        return 2;
    }
    if (!unpaired(p + 4, 9, b)) {
        return 5;
    }
    unsigned house = (unsigned)found(CODES, 16, b);
    if (b[8] == '0') {
        return len > 22 ? 4 : packed(0, house, (unsigned)found(CODES, 16, b + 4) + 1, 0, 0);
    }
    if (memcmp(b + 4, "0111", 4) != 0) {
        if (found(FUNCTIONS, 12, b + 4) < 0) {
            return 6;
        }
        return len > 22 ? 4 : packed(1, house, number(b + 4, 4), 0, 0);
    }
    if (len < 62) {
        return 1;
    }
    if (!are_places(p + 22, 40)) {
        return 8;
    }
    if (!unpaired(p + 22, 20, b)) {
        return 5;
    }
    return len > 62 ? 4 : packed(2, house, (unsigned)found(CODES, 16, b) + 1, number(b + 4, 8), number(b + 12, 8));
}

/* The places of a string of bits, each followed by its complement. */
static uint8_t *paired(uint8_t *p, const char *bits, int count)
{
    for (int i = 0; i < count; i++) {
        *p++ = bits[i] == '1';
        *p++ = bits[i] == '0';
    }
    return p;
}

static uint8_t *byte_paired(uint8_t *p, unsigned n)
{
    char b[8];
    for (int i = 0; i < 8; i++) {
        b[i] = n & 0x80u >> i ? '1' : '0';
    }
    return paired(p, b, 8);
}

static void make_standard(uint8_t *p, const char *house, const char *key, const char *d16)
{
    memcpy(p, (const uint8_t[]){1, 1, 1, 0}, 4);
    paired(paired(paired(p + 4, house, 4), key, 4), d16, 1);
}

static void make_extended(uint8_t *p, const char *house, const char *key, unsigned data, unsigned command)
{
    make_standard(p, house, "0111", "1");
    byte_paired(byte_paired(paired(p + 22, key, 4), data), command);
}

static struct lent lent;

/* Reads a copy of the places with canaries around it; nothing may change. */
static void check_read(const uint8_t *p, size_t len)
{
    uint8_t *at = lend_copy(&lent, p, len);
    SAME(x10_read(at, len), want_read(p, len));
    CHECK(kept_from(&lent, 0));
}

static const char *four(unsigned n)
{
    static const char *const ALL[16] = {"0000", "0001", "0010", "0011", "0100", "0101", "0110", "0111",
                                        "1000", "1001", "1010", "1011", "1100", "1101", "1110", "1111"};
    return ALL[n];
}

static void example(void)
{
    static const uint8_t places[22] = {1, 1, 1, 0, 0, 1, 1, 0, 1, 0, 0, 1, 0, 1, 1, 0, 1, 0, 0, 1, 0, 1};
    SAME(x10_read(places, 22), packed(0, 0, 1, 0, 0));
    uint8_t out[22];
    SAME(x10_write_unit(0, 1, out, 22), 22 << 8);
    CHECK(memcmp(out, places, 22) == 0);
    SAME(x10_read(NULL, 0), 1);
    SAME(x10_write_unit(0, 1, NULL, 0), 9);
}

/* All 16 houses with all 32 keys, and each with every single wrong place, in every way that matters. */
static void houses_and_keys(void)
{
    static const uint8_t WRONG[] = {0, 1, 2, 3, 128, 254, 255};
    for (unsigned house = 0; house < 16; house++) {
        for (unsigned key = 0; key < 32; key++) {
            uint8_t p[64];
            memset(p, 7, sizeof p);
            make_standard(p, four(house), four(key / 2), key % 2 ? "1" : "0");
            check_read(p, 22);
            check_read(p, 23);
            check_read(p, 64);
            for (int at = 0; at < 22; at++) {
                uint8_t right = p[at];
                for (size_t w = 0; w < sizeof WRONG; w++) {
                    p[at] = WRONG[w];
                    check_read(p, 22);
                }
                p[at] = right;
            }
        }
    }
}

/* Each pair of wrong places of one pattern: which answer comes first. */
static void two_wrong_places(void)
{
    uint8_t p[62];
    make_extended(p, "0110", "1010", 0x5A, 0xC3);
    for (int a = 0; a < 62; a++) {
        for (int b = 0; b < 62; b++) {
            uint8_t q[62];
            memcpy(q, p, 62);
            q[a] ^= 1;
            q[b] ^= 2;
            check_read(q, 62);
            memcpy(q, p, 62);
            q[a] ^= 1;
            q[b] ^= 1;
            check_read(q, 62);
        }
    }
}

static void lengths(void)
{
    for (size_t len = 0; len <= 64; len++) {
        uint8_t p[64];
        for (int filler = 0; filler < 3; filler++) {
            memset(p, filler, sizeof p);
            make_standard(p, "1011", "0100", "0");
            check_read(p, len);
            make_standard(p, "1011", "1101", "1");
            check_read(p, len);
            make_standard(p, "1011", "1011", "1");
            check_read(p, len);
            make_standard(p, "1011", "0111", "1");
            check_read(p, len);
            make_extended(p, "1011", "0100", 200, 49);
            check_read(p, len);
        }
    }
}

static void extended_bytes(void)
{
    for (unsigned data = 0; data < 256; data++) {
        for (unsigned command = 0; command < 256; command++) {
            unsigned house = (data + command) % 16, unit = (data * 7 + command / 16) % 16;
            uint8_t want[62];
            make_extended(want, CODES[house], CODES[unit], data, command);
            SAME(x10_read(want, 62), packed(2, house, unit + 1, data, command));
            uint8_t *out = lend(&lent, 64);
            SAME(x10_write_extended((uint8_t)house, (uint8_t)(unit + 1), (uint8_t)data, (uint8_t)command, out, 64), 62 << 8);
            CHECK(memcmp(out, want, 62) == 0 && kept_from(&lent, 62));
        }
    }
    for (unsigned house = 0; house < 16; house++) {
        for (unsigned unit = 0; unit < 16; unit++) {
            uint8_t p[62];
            make_extended(p, CODES[house], CODES[unit], house * 16 + unit, 255 - unit);
            check_read(p, 62);
            for (int at = 22; at < 62; at++) {
                uint8_t right = p[at];
                p[at] = 1 - right;
                check_read(p, 62);
                p[at] = 2;
                check_read(p, 62);
                p[at] = right;
            }
        }
    }
}

/* A writer's answer and what it leaves, at one room. */
static void check_written(uint64_t got, uint64_t refusal, const uint8_t *want, size_t len, size_t room)
{
    const uint8_t *out = lent.all + CANARIES;
    if (refusal == 0 && room < len) {
        refusal = 9;
    }
    if (refusal) {
        SAME(got, refusal);
        CHECK(kept_from(&lent, 0));
    } else {
        SAME(got, (uint64_t)len << 8);
        CHECK(memcmp(out, want, len) == 0 && kept_from(&lent, len));
    }
}

static void writers(void)
{
    for (unsigned house = 0; house < 256; house++) {
        for (unsigned key = 0; key < 256; key++) {
            uint8_t want[62];
            int bad_house = house > 15, bad_unit = key < 1 || key > 16;
            if (!bad_house && !bad_unit) {
                make_standard(want, CODES[house], CODES[key - 1], "0");
            }
            uint8_t *out = lend(&lent, 30);
            check_written(x10_write_unit((uint8_t)house, (uint8_t)key, out, 30), bad_house || bad_unit ? 8 : 0, want, 22, 30);

            int unknown = key > 15 || found(FUNCTIONS, 12, four(key % 16)) < 0;
            if (!bad_house && !unknown) {
                make_standard(want, CODES[house], four(key), "1");
            }
            out = lend(&lent, 22);
            check_written(x10_write_function((uint8_t)house, (uint8_t)key, out, 22), unknown ? 6 : bad_house ? 8 : 0, want, 22, 22);

            if (!bad_house && !bad_unit) {
                make_extended(want, CODES[house], CODES[key - 1], 0x31, 0x8E);
            }
            out = lend(&lent, 62);
            check_written(x10_write_extended((uint8_t)house, (uint8_t)key, 0x31, 0x8E, out, 62), bad_house || bad_unit ? 8 : 0, want, 62, 62);
        }
    }
}

static void rooms(void)
{
    for (size_t room = 0; room <= 64; room++) {
        for (unsigned bad = 0; bad < 2; bad++) {
            uint8_t want[62], house = bad ? 16 : 9;
            make_standard(want, CODES[9], CODES[2], "0");
            uint8_t *out = lend(&lent, room);
            check_written(x10_write_unit(house, 3, out, room), bad ? 8 : 0, want, 22, room);
            make_standard(want, CODES[9], "1110", "1");
            out = lend(&lent, room);
            check_written(x10_write_function(house, 14, out, room), bad ? 8 : 0, want, 22, room);
            out = lend(&lent, room);
            check_written(x10_write_function(house, 7, out, room), 6, want, 22, room);
            make_extended(want, CODES[9], CODES[15], 1, 2);
            out = lend(&lent, room);
            check_written(x10_write_extended(house, 16, 1, 2, out, room), bad ? 8 : 0, want, 62, room);
        }
    }
}

/* Bytes are passed in registers: what stands above the byte must not matter. */
static void upper_bits(void)
{
    uint64_t (*unit)(uint64_t, uint64_t, uint8_t *, size_t) = (uint64_t (*)(uint64_t, uint64_t, uint8_t *, size_t))(void *)x10_write_unit;
    uint8_t out[22], want[22];
    make_standard(want, CODES[5], CODES[11], "0");
    SAME(unit(UINT64_C(0xFFFFFFFFFFFFFF05), UINT64_C(0x123456789ABCDE0C), out, 22), 22 << 8);
    CHECK(memcmp(out, want, 22) == 0);
}

int main(void)
{
    example();
    houses_and_keys();
    two_wrong_places();
    lengths();
    extended_bytes();
    writers();
    rooms();
    upper_bits();
    return check_end();
}

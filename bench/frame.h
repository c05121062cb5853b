/* Document 01, "Omni-Link frames", in plain C by the usual table. */
#ifndef FRAME_H
#define FRAME_H
#include <stddef.h>
#include <stdint.h>

static uint16_t table[256];

static inline void fill_table(void)
{
    for (unsigned n = 0; n < 256; n++) {
        unsigned r = n;
        for (int i = 0; i < 8; i++) {
            r = r & 1 ? r >> 1 ^ 0xA001 : r >> 1;
        }
        table[n] = (uint16_t)r;
    }
}

static inline uint16_t crc_next(uint16_t crc, uint8_t byte) { return (uint16_t)(crc >> 8 ^ table[(crc ^ byte) & 0xFF]); }

/* The number of the refusal, or 0. */
static inline unsigned frame_refusal(const uint8_t *s, size_t n)
{
    if (n == 0) return 1;
    if (s[0] != 0x5A) return 2;
    if (n == 1) return 1;
    unsigned l = s[1];
    if (l == 0 || l > 0x41) return 3;
    if (n < l + 4) return 1;
    if (n > l + 4) return 4;
    uint16_t crc = 0;
    for (size_t i = 1; i < l + 2; i++) {
        crc = crc_next(crc, s[i]);
    }
    return (s[l + 2] | s[l + 3] << 8) != crc ? 5 : 0;
}

/* Writes a frame of at most 64 data bytes where there is room. */
static inline uint64_t put_frame(unsigned type, const uint8_t *data, size_t n, uint8_t *out, size_t room)
{
    if (room < n + 5) return 9;
    out[0] = 0x5A;
    out[1] = (uint8_t)(n + 1);
    out[2] = (uint8_t)type;
    uint16_t crc = crc_next(crc_next(0, out[1]), out[2]);
    for (size_t i = 0; i < n; i++) {
        out[i + 3] = data[i];
        crc = crc_next(crc, data[i]);
    }
    out[n + 3] = (uint8_t)crc;
    out[n + 4] = (uint8_t)(crc >> 8);
    return (uint64_t)(n + 5) << 8;
}

#endif

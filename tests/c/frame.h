/* Document 01, "Omni-Link frames", written out: the CRC of document 000, Appendix A, a bit at a time; the order of checks; writing. */
#ifndef FRAME_H
#define FRAME_H
#include <stddef.h>
#include <stdint.h>
#include <string.h>

static inline unsigned crc_of(const uint8_t *bytes, size_t len)
{
    unsigned crc = 0;
    for (size_t i = 0; i < len; i++) {
        crc ^= bytes[i];
        for (int bit = 0; bit < 8; bit++) {
            crc = crc & 1 ? crc >> 1 ^ 0xA001 : crc >> 1;
        }
    }
    return crc;
}

/* The number of the refusal, or 0 where the frame is accepted. */
static inline unsigned frame_refusal(const uint8_t *s, size_t n)
{
    if (n == 0) return 1;
    if (s[0] != 0x5A) return 2;
    if (n == 1) return 1;
    unsigned l = s[1];
    if (l == 0 || l > 0x41) return 3;
    if (n < l + 4) return 1;
    if (n > l + 4) return 4;
    unsigned crc = crc_of(s + 1, l + 1);
    return s[l + 2] != (crc & 0xFF) || s[l + 3] != crc >> 8 ? 5 : 0;
}

/* Writes the frame of a type and data bytes, and answers how many bytes that are. */
static inline size_t frame_write(uint8_t type, const uint8_t *data, size_t n, uint8_t *out)
{
    out[0] = 0x5A;
    out[1] = (uint8_t)(n + 1);
    out[2] = type;
    memcpy(out + 3, data, n);
    unsigned crc = crc_of(out + 1, n + 2);
    out[n + 3] = (uint8_t)crc;
    out[n + 4] = (uint8_t)(crc >> 8);
    return n + 5;
}

#endif

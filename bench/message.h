/* Document 01, "Omni-Link messages", in plain C: what a type refuses of its data bytes. */
#ifndef MESSAGE_H
#define MESSAGE_H
#include <stddef.h>
#include <stdint.h>

static inline int command_listed(const uint8_t *d)
{
    unsigned p1 = d[1], p2 = (unsigned)d[2] << 8 | d[3];
    switch (d[0]) {
    case 0:
    case 1: return p2 != 0 && p1 != 100 && p1 != 200 && p1 <= 218;
    case 2:
    case 3: return p1 == 0;
    case 9: return p1 <= 100 && p2 != 0;
    case 10:
    case 11: return p1 == 0 && p2 != 0;
    case 12: return p2 != 0;
    default: return 0;
    }
}

static inline int log_listed(const uint8_t *d)
{
    if (d[0] == 0) return 0;
    if (d[1] == 0) return 1;
    return d[2] >= 1 && d[2] <= 12 && d[3] >= 1 && d[3] <= 31 && d[4] <= 23 && d[5] <= 59;
}

static inline int zones_listed(const uint8_t *d, size_t n)
{
    for (size_t i = 0; i < n; i += 2) {
        if ((d[i] & 0x03) == 0x03 || (d[i] & 0x0C) == 0x0C || d[i] >= 128) return 0;
    }
    return 1;
}

/* The refusal of a type and its data bytes, or 0 and the count of items. */
static inline unsigned message_refusal(unsigned type, const uint8_t *d, size_t n, size_t *items)
{
    *items = 0;
    switch (type) {
    case 0x05:
    case 0x06:
    case 0x0D:
    case 0x11:
    case 0x13:
    case 0x21:
    case 0x22: return n != 0 ? 7 : 0;
    case 0x20: return n != 4 ? 7 : d[0] > 9 || d[1] > 9 || d[2] > 9 || d[3] > 9 ? 8 : 0;
    case 0x15: return n != 2 ? 7 : d[0] == 0 || d[0] > d[1] ? 8 : 0;
    case 0x16:
        *items = n / 2;
        return n % 2 == 1 || n == 0 || n > 64 ? 7 : !zones_listed(d, n) ? 8 : 0;
    case 0x23:
        *items = n / 2;
        return n % 2 == 1 || n > 64 ? 7 : 0;
    case 0x25:
        *items = (n - 1) * 4;
        return n != 5 && n != 17 && n != 33 ? 7 : d[0] != 0 ? 8 : 0;
    case 0x0E: return n != 10 ? 7 : !log_listed(d) ? 8 : 0;
    case 0x0F: return n != 4 ? 7 : !command_listed(d) ? 8 : 0;
    default: return 6;
    }
}

#endif

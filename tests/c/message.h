/* Document 01, "Omni-Link messages", written out: the types, and what a type refuses of its data bytes. */
#ifndef MESSAGE_H
#define MESSAGE_H
#include <stddef.h>
#include <stdint.h>

static const uint8_t types[] = {0x05, 0x06, 0x0D, 0x0E, 0x0F, 0x11, 0x13, 0x15, 0x16, 0x20, 0x21, 0x22, 0x23, 0x25};

static inline int within(unsigned n, unsigned least, unsigned most) { return least <= n && n <= most; }

/* 0F: command, P1, P2 high, P2 low. */
static inline int command_listed(const uint8_t *d)
{
    unsigned p1 = d[1], p2 = (unsigned)d[2] << 8 | d[3];
    switch (d[0]) {
    case 0:
    case 1: return p2 >= 1 && (within(p1, 0, 99) || within(p1, 101, 199) || within(p1, 201, 218));
    case 2:
    case 3: return p1 == 0;
    case 9: return p1 <= 100 && p2 >= 1;
    case 10:
    case 11: return p1 == 0 && p2 >= 1;
    case 12: return p2 >= 1;
    default: return 0;
    }
}

/* 0E: number, time-valid flag, month, day, hour, minute and four more. */
static inline int log_listed(const uint8_t *d)
{
    if (d[0] == 0) return 0;
    if (d[1] == 0) return 1;
    return within(d[2], 1, 12) && within(d[3], 1, 31) && d[4] <= 23 && d[5] <= 59;
}

static inline int zone_listed(uint8_t status)
{
    return (status & 0x03) != 0x03 && (status & 0x0C) != 0x0C && (status & 0x80) == 0;
}

/* 6, 7, 8, or 0 with the count of items. */
static inline unsigned data_refusal(uint8_t type, const uint8_t *d, size_t n, unsigned *items)
{
    *items = 0;
    switch (type) {
    case 0x05:
    case 0x06:
    case 0x0D:
    case 0x11:
    case 0x13:
    case 0x21:
    case 0x22:
        return n == 0 ? 0 : 7;
    case 0x20:
        if (n != 4) return 7;
        return d[0] > 9 || d[1] > 9 || d[2] > 9 || d[3] > 9 ? 8 : 0;
    case 0x15:
        if (n != 2) return 7;
        return d[0] >= 1 && d[0] <= d[1] ? 0 : 8;
    case 0x16:
        if (n % 2 == 1 || n < 2 || n > 64) return 7;
        for (size_t i = 0; i < n; i += 2) {
            if (!zone_listed(d[i])) return 8;
        }
        *items = (unsigned)n / 2;
        return 0;
    case 0x23:
        if (n % 2 == 1 || n > 64) return 7;
        *items = (unsigned)n / 2;
        return 0;
    case 0x25:
        if (n + 1 != 0x06 && n + 1 != 0x12 && n + 1 != 0x22) return 7;
        if (d[0] != 0) return 8;
        *items = (unsigned)(n - 1) * 4;
        return 0;
    case 0x0E:
        if (n != 10) return 7;
        return log_listed(d) ? 0 : 8;
    case 0x0F:
        if (n != 4) return 7;
        return command_listed(d) ? 0 : 8;
    default:
        return 6;
    }
}

/* Data bytes that a type accepts at n of them, where it accepts any. */
static inline void accepted_data(uint8_t type, size_t n, uint8_t *d)
{
    for (size_t i = 0; i < n; i++) {
        d[i] = (uint8_t)(type == 0x16 ? (i % 2 ? i * 5 : (i * 16 & 0x70) + i / 2 % 3) : type == 0x20 ? i * 3 : i + 1);
    }
    if (type == 0x25 && n) {
        d[0] = 0;
    }
    if (type == 0x0F && n) {
        d[0] = 12;
    }
}

#endif

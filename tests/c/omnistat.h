/* Documents 01 and 02 on reading Omnistat2 messages, written out: the order of checks at both ends, texts, and the two habits of
   replies to group polls. */
#ifndef OMNISTAT_H
#define OMNISTAT_H
#include <stddef.h>
#include <stdint.h>

enum side { THERMOSTAT, HOST };
enum { NUMBERED, PRINTED };
enum { FIRST_TEXT = 172, LAST_TEXT = 181, TEXT_MAX = 60, TEXT_END = 0x03 };

/* An end of the line; the host names the habit of the thermostat and the group last polled. */
struct end {
    enum side side;
    unsigned habit, polled;
};

static inline int is_group(unsigned group) { return group >= 1 && group <= 3; }

/* How many values a group has. */
static inline size_t group_length(unsigned group) { return group == 3 ? 10 : 6; }

/* Whether what the host names is a habit and a group; the thermostat names nothing. */
static inline int is_end(struct end end)
{
    return end.side == THERMOSTAT || ((end.habit == NUMBERED || end.habit == PRINTED) && is_group(end.polled));
}

/* The group that a type carries to an end; 0 where it carries none. */
static inline unsigned group_carried(struct end end, unsigned type)
{
    if (end.side == THERMOSTAT || type < 3 || type > 5) {
        return 0;
    }
    if (end.habit == NUMBERED) {
        return type - 2;
    }
    return type == 3 ? end.polled : 0;
}

static inline int is_text_register(unsigned r) { return r >= FIRST_TEXT && r <= LAST_TEXT; }

static inline int is_character(unsigned c) { return c >= 0x20 && c <= 0x7E; }

/* Whether a first byte is for an end. */
static inline int is_first(enum side side, unsigned first)
{
    return side == THERMOSTAT ? first <= 0x7F || first == 0xFA : first >= 0x81;
}

static inline unsigned sum_of(const uint8_t *bytes, size_t n)
{
    unsigned sum = 0;
    for (size_t i = 0; i < n; i++) {
        sum += bytes[i];
    }
    return sum % 256;
}

/* A run of count registers ends at or below 255 and meets none of 172 to 181. */
static inline int run_is_allowed(unsigned start, unsigned count)
{
    for (unsigned r = start; r < start + count; r++) {
        if (r > 255 || is_text_register(r)) {
            return 0;
        }
    }
    return 1;
}

/* 6, 7, 8 or 0 for a type and its data bytes; start and count of an accepted message. */
static inline unsigned judge(struct end end, unsigned type, const uint8_t *data, size_t n, unsigned *start, unsigned *count)
{
    int run = end.side == THERMOSTAT ? type == 1 : type == 2;
    int poll = end.side == THERMOSTAT && type == 0;
    unsigned group = group_carried(end, type);
    *start = *count = 0;
    if (type > (end.side == THERMOSTAT ? 4u : 2u) && !group) {
        return 6;
    }
    if (run) {
        if (n < 2 || n > 15) {
            return 7;
        }
        *start = data[0];
        *count = (unsigned)n - 1;    /* from a text register on, only a text is written: no such run is allowed */
    } else if (poll) {
        if (n != 2) {
            return 7;
        }
        *start = data[0];
        *count = data[1];
        if (is_text_register(*start)) {
            return *count == 1 ? 0 : 8;
        }
        if (*count < 1 || *count > 14) {
            return 8;
        }
    } else if (group) {
        if (n != group_length(group)) {
            return 7;
        }
        *count = (unsigned)n;
        return 0;
    } else {
        return n != 0 ? 7 : 0;
    }
    return run_is_allowed(*start, *count) ? 0 : 8;
}

static inline uint64_t packed(unsigned type, unsigned address, unsigned start, unsigned count, unsigned half)
{
    return (uint64_t)type << 8 | (uint64_t)address << 16 | (uint64_t)start << 24 | (uint64_t)count << 32 | (uint64_t)half << 40;
}

/* A text of at least three bytes whose first byte is right: characters up to 03, then the sum. */
static inline uint64_t model_read_text(unsigned address, const uint8_t *bytes, size_t len)
{
    const uint8_t *text = bytes + 3;
    size_t after = len - 3, count = 0;
    while (count < after && count <= TEXT_MAX && text[count] != TEXT_END) {
        count++;
    }
    if (count > TEXT_MAX) {
        return 8;
    }
    if (after < count + 2) {
        return 1;
    }
    if (after > count + 2) {
        return 4;
    }
    if (sum_of(bytes, len - 1) != bytes[len - 1]) {
        return 5;
    }
    for (size_t i = 0; i < count; i++) {
        if (!is_character(text[i])) {
            return 8;
        }
    }
    return packed(bytes[1] & 15, address, bytes[2], (unsigned)count, bytes[1] >> 4);
}

static inline uint64_t model_read(struct end end, const uint8_t *bytes, size_t len)
{
    if (!is_end(end)) {
        return 8;
    }
    if (len == 0) {
        return 1;
    }
    if (!is_first(end.side, bytes[0])) {
        return 2;
    }
    if (len < 3) {
        return 1;
    }
    unsigned address = end.side == THERMOSTAT ? bytes[0] : bytes[0] - 0x80;
    if ((bytes[1] & 15) == (end.side == THERMOSTAT ? 1 : 2) && is_text_register(bytes[2])) {
        return model_read_text(address, bytes, len);
    }
    size_t n = bytes[1] >> 4;
    if (len < n + 3) {
        return 1;
    }
    if (len > n + 3) {
        return 4;
    }
    if (sum_of(bytes, len - 1) != bytes[len - 1]) {
        return 5;
    }
    unsigned type = bytes[1] & 15, start, count;
    unsigned refusal = judge(end, type, bytes + 2, n, &start, &count);
    if (refusal) {
        return refusal;
    }
    return packed(type, address, start, count, 0);
}

#endif

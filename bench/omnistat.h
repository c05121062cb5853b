/* Document 01, "Omnistat2 messages", and document 02's texts and habits, in plain C. */
#ifndef OMNISTAT_H
#define OMNISTAT_H
#include <stddef.h>
#include <stdint.h>
#include <string.h>

enum { TEXT_MAX = 60, TEXT_END = 0x03 };

static inline int is_text_register(unsigned r) { return r >= 172 && r <= 181; }

/* With no way out of the loop, so that the compiler takes many bytes at once. */
static inline int are_characters(const uint8_t *text, size_t n)
{
    int wrong = 0;
    for (size_t i = 0; i < n; i++) {
        wrong |= text[i] < 0x20 || text[i] > 0x7E;
    }
    return !wrong;
}

static inline uint8_t sum_of(const uint8_t *bytes, size_t n)
{
    uint8_t sum = 0;
    for (size_t i = 0; i < n; i++) {
        sum = (uint8_t)(sum + bytes[i]);
    }
    return sum;
}

static inline int run_is_allowed(unsigned start, size_t count)
{
    return start + count <= 256 && (start + count <= 172 || start > 181);
}

/* The checks of a frame whose direction is right or not: the refusal, or 0. */
static inline unsigned summed_refusal(int right, const uint8_t *bytes, size_t len)
{
    if (!right) return 2;
    if (len == 1) return 1;
    size_t n = bytes[1] >> 4;
    if (len < n + 3) return 1;
    if (len > n + 3) return 4;
    return sum_of(bytes, n + 2) != bytes[n + 2] ? 5 : 0;
}

/* Whether a message is a text, by its type for the end and its start register. */
static inline int is_text(unsigned type, const uint8_t *bytes, size_t len)
{
    return len > 2 && (bytes[1] & 15) == type && is_text_register(bytes[2]);
}

/* The checks of a text whose direction is right or not: the refusal, or 0 and the count of characters. */
static inline unsigned text_refusal(int right, const uint8_t *bytes, size_t len, size_t *count)
{
    if (!right) return 2;
    size_t after = len - 3;
    const uint8_t *end = memchr(bytes + 3, TEXT_END, after > TEXT_MAX ? TEXT_MAX + 1 : after);
    if (!end) return after > TEXT_MAX ? 8 : 1;
    size_t n = (size_t)(end - bytes) - 3;
    if (after < n + 2) return 1;
    if (after > n + 2) return 4;
    if (sum_of(bytes, len - 1) != bytes[len - 1]) return 5;
    if (!are_characters(bytes + 3, n)) return 8;
    *count = n;
    return 0;
}

/* The checks of a type and its data bytes, to a thermostat and to the host. */
static inline unsigned request_refusal(unsigned type, const uint8_t *data, size_t n)
{
    switch (type) {
    case 0:
        if (n != 2) return 7;
        if (is_text_register(data[0])) return data[1] != 1 ? 8 : 0;
        return data[1] < 1 || data[1] > 14 || !run_is_allowed(data[0], data[1]) ? 8 : 0;
    case 1: return n < 2 || n > 15 ? 7 : !run_is_allowed(data[0], n - 1) ? 8 : 0;
    case 2:
    case 3:
    case 4: return n != 0 ? 7 : 0;
    default: return 6;
    }
}

/* What a host names: the habit, numbered or printed, and the group last polled, 1 to 3. */
enum { NUMBERED, PRINTED };

static inline int is_group(unsigned group) { return group - 1 < 3; }

static inline int are_named(unsigned habit, unsigned polled) { return habit <= PRINTED && is_group(polled); }

static inline size_t group_length(unsigned group) { return group == 3 ? 10 : 6; }

static inline unsigned reply_refusal(unsigned habit, unsigned polled, unsigned type, const uint8_t *data, size_t n)
{
    switch (type) {
    case 0:
    case 1: return n != 0 ? 7 : 0;
    case 2: return n < 2 || n > 15 ? 7 : !run_is_allowed(data[0], n - 1) ? 8 : 0;
    case 3: return n != (habit == PRINTED ? group_length(polled) : 6) ? 7 : 0;
    case 4: return habit == PRINTED ? 6 : n != 6 ? 7 : 0;
    case 5: return habit == PRINTED ? 6 : n != 10 ? 7 : 0;
    default: return 6;
    }
}

static inline int is_request(unsigned first) { return first < 0x80 || first == 0xFA; }

/* The refusal of a message without text at the thermostat, or 0. */
static inline unsigned read_refusal(const uint8_t *bytes, size_t len)
{
    if (len == 0) return 1;
    unsigned refusal = summed_refusal(is_request(bytes[0]), bytes, len);
    return refusal ? refusal : request_refusal(bytes[1] & 15, bytes + 2, bytes[1] >> 4);
}

/* Copies n bytes and adds them up. */
static inline unsigned copy_summed(uint8_t *to, const uint8_t *from, size_t n)
{
    unsigned sum = 0;
    for (size_t i = 0; i < n; i++) {
        to[i] = from[i];
        sum += from[i];
    }
    return sum;
}

/* Closes a message around n data bytes that stand in their places and add up to `sum`. */
static inline uint64_t enclose(uint8_t *out, unsigned first, unsigned type, size_t n, unsigned sum)
{
    unsigned second = (unsigned)n << 4 | type;
    out[0] = (uint8_t)first;
    out[1] = (uint8_t)second;
    out[n + 2] = (uint8_t)(first + second + sum);
    return (uint64_t)(n + 3) << 8;
}

/* Writes a text that was checked, into room enough. */
static inline uint64_t put_text(uint8_t *out, unsigned first, unsigned second, unsigned start, const uint8_t *text, size_t n)
{
    out[0] = (uint8_t)first;
    out[1] = (uint8_t)second;
    out[2] = (uint8_t)start;
    unsigned sum = first + second + start + copy_summed(out + 3, text, n) + TEXT_END;
    out[n + 3] = TEXT_END;
    out[n + 4] = (uint8_t)sum;
    return (uint64_t)(n + 5) << 8;
}

#endif

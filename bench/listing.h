/* The listing of a capture in plain C: it keeps the places of the frames, measures the text where it might not fit, and writes it. */
#ifndef LISTING_H
#define LISTING_H
#include "frame.h"
#include <string.h>

enum { CAPTURE = 4096, ROOM = 8 * CAPTURE + 25, FRAMES = CAPTURE / 5 };

/* The places of the frames, which are at most a fifth of the bytes; answers how many there are. */
static inline size_t find(const uint8_t *s, size_t len, uint16_t *at)
{
    size_t frames = 0, i = 0;
    while (i + 5 <= len) {
        size_t size = s[i + 1] + 4u;
        if (s[i] == 0x5A && size <= len - i && frame_refusal(s + i, size) == 0) {
            at[frames++] = (uint16_t)i;
            i += size;
        } else {
            i++;
        }
    }
    return frames;
}

static inline size_t digits(size_t n) { return n < 10 ? 1 : n < 100 ? 2 : n < 1000 ? 3 : 4; }

/* In the functions below s starts with byte number `base` of the capture, and *from is where the bytes start that have no line. */

static inline size_t measure_frames(const uint8_t *s, size_t base, size_t *from, const uint16_t *at, size_t frames)
{
    size_t size = 0;
    for (size_t k = 0; k < frames; k++) {
        size_t here = base + at[k], count = s[at[k] + 1] + 4u;
        if (*from < here) size += 8 + digits(*from) + digits(here - *from);
        size += 9 + digits(here) + digits(count) + digits(s[at[k] + 2]);
        *from = here + count;
    }
    return size;
}

static inline size_t measure_end(size_t from, size_t end)
{
    return (from < end ? 8 + digits(from) + digits(end - from) : 0) + 5 + digits(end);
}

static inline uint8_t *put(uint8_t *out, const char *word, size_t len, size_t n)
{
    memcpy(out, word, len);
    size_t count = digits(n);
    for (size_t i = len + count; i-- > len; n /= 10) {
        out[i] = (uint8_t)('0' + n % 10);
    }
    return out + len + count;
}

static inline uint8_t *put_noise(size_t from, size_t past, uint8_t *out)
{
    if (from < past) {
        out = put(put(out, "noise ", 6, from), " ", 1, past - from);
        *out++ = '\n';
    }
    return out;
}

static inline uint8_t *put_frames(const uint8_t *s, size_t base, size_t *from, const uint16_t *at, size_t frames, uint8_t *out)
{
    for (size_t k = 0; k < frames; k++) {
        size_t here = base + at[k], count = s[at[k] + 1] + 4u;
        out = put_noise(*from, here, out);
        out = put(put(put(out, "frame ", 6, here), " ", 1, count), " ", 1, s[at[k] + 2]);
        *out++ = '\n';
        *from = here + count;
    }
    return out;
}

static inline uint8_t *put_end(size_t from, size_t end, uint8_t *out)
{
    out = put(put_noise(from, end, out), "end ", 4, end);
    *out = '\n';
    return out + 1;
}

#endif

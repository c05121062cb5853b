/* A capture in pieces, in plain C: as the whole listing, on the unread bytes and the piece joined. */
#ifndef PIECES_H
#define PIECES_H
#include "bench.h"
#include "listing.h"

enum { UNREAD = 69 };

/* What the library's state holds, in the same 74 bytes. */
struct pieces {
    uint16_t came, noise;
    uint8_t count;
    uint8_t unread[UNREAD];
};

/* Whether pieces lead to a state. */
static inline int reached(const struct pieces *p)
{
    if (p->count >= UNREAD || p->came > CAPTURE || p->noise + p->count > p->came) return 0;
    unsigned before = p->came - p->noise - p->count;
    if (before > 0 && before < 5) return 0;
    if (p->count > 0 && p->unread[0] != 0x5A) return 0;
    if (p->count > 1 && (p->unread[1] == 0 || p->unread[1] > 0x41 || p->count >= p->unread[1] + 4)) return 0;
    uint8_t behind = 0;
    for (size_t i = p->count; i < UNREAD; i++) {
        behind |= p->unread[i];
    }
    return behind == 0;
}

/* The places of the frames up to the first place that is still open, which is stored; answers how many frames there are. */
static inline size_t find_settled(const uint8_t *s, size_t len, uint16_t *at, size_t *open)
{
    size_t frames = 0, i = 0;
    while (i < len) {
        if (s[i] == 0x5A) {
            if (i + 1 == len) break;
            size_t size = s[i + 1] + 4u;
            if (size > 4 && size <= UNREAD) {
                if (size > len - i) break;
                if (frame_refusal(s + i, size) == 0) {
                    at[frames++] = (uint16_t)i;
                    i += size;
                    continue;
                }
            }
        }
        i++;
    }
    *open = i;
    return frames;
}

PLAIN uint64_t plain_piece(struct pieces *p, const uint8_t *bytes, size_t len, uint8_t *out, size_t room)
{
    uint8_t joined[UNREAD + CAPTURE];
    uint16_t at[FRAMES];
    const uint8_t *s = bytes;
    size_t all = p->count + len, open;
    if (!reached(p)) return 8;
    if (len > CAPTURE || p->came + len > CAPTURE) return 3;
    if (p->count > 0) {
        memcpy(joined, p->unread, p->count);
        memcpy(joined + p->count, bytes, len);
        s = joined;
    }
    size_t frames = find_settled(s, all, at, &open);
    size_t base = p->came - p->count, from = base - p->noise, measured = from;
    if (room < 8 * all && room < measure_frames(s, base, &measured, at, frames)) return 9;
    uint8_t *end = put_frames(s, base, &from, at, frames, out);
    p->came = (uint16_t)(p->came + len);
    p->noise = (uint16_t)(base + open - from);
    size_t before = p->count;
    p->count = (uint8_t)(all - open);
    memcpy(p->unread, s + open, all - open);
    if (before > p->count) memset(p->unread + p->count, 0, before - p->count);
    return (uint64_t)(end - out) << 8;
}

PLAIN uint64_t plain_finish(struct pieces *p, uint8_t *out, size_t room)
{
    uint16_t at[UNREAD / 5];
    if (!reached(p)) return 8;
    size_t frames = find(p->unread, p->count, at);
    size_t base = p->came - p->count, from = base - p->noise, measured = from;
    if (room < 8u * p->count + 25) {
        size_t size = measure_frames(p->unread, base, &measured, at, frames);
        if (room < size + measure_end(measured, p->came)) return 9;
    }
    uint8_t *end = put_end(from, p->came, put_frames(p->unread, base, &from, at, frames, out));
    memset(p, 0, sizeof *p);
    return (uint64_t)(end - out) << 8;
}

#endif

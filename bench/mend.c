/* Frames with one flipped bit, mended. The walk over the places is longest for place 8, and where no flip helps. */
#include "bench.h"
#include "frame.h"
#include "gateway.h"

enum { FRAME = 69, FIRST_PLACE = 8 };

/* What the CRC and the one that was sent differ by, where a frame's bytes are all there. */
static inline unsigned crc_difference(const uint8_t *s, size_t n)
{
    uint16_t crc = 0;
    for (size_t i = 1; i + 2 < n; i++) {
        crc = crc_next(crc, s[i]);
    }
    return (unsigned)(s[n - 2] | s[n - 1] << 8) ^ crc;
}

/* The place after the length byte whose bit alone makes this difference, or 0. A 1 in the last place makes 8000 hex; in each place before
   it, what one more turn of the CRC makes of that. */
static inline size_t place_of(unsigned difference, size_t n)
{
    unsigned turned = 0x8000;
    for (size_t place = 8 * (n - 1) - 1; place >= FIRST_PLACE; place--) {
        if (turned == difference) return place;
        turned = turned >> 1 ^ (turned & 1 ? 0xA001 : 0);
    }
    return 0;
}

PLAIN uint64_t plain_mend(const uint8_t *s, size_t n, uint8_t *out, size_t room)
{
    if (n == 0) return 1;
    if (s[0] != 0x5A) return 2;
    if (n == 1) return 1;
    unsigned l = s[1];
    if (l == 0 || l > 0x41) return 3;
    if (n < l + 4) return 1;
    if (n > l + 4) return 4;
    unsigned difference = crc_difference(s, n);
    if (difference == 0) return 8;
    size_t place = place_of(difference, n);
    if (place == 0) return 5;
    if (room < n) return 9;
    memcpy(out, s, n);
    out[place / 8 + 1] ^= (uint8_t)(1 << place % 8);
    return (uint64_t)place << 8 | (uint64_t)n << 24;
}

static uint8_t data[64], frame[FRAME], out[FRAME];
static size_t size;

SIDES(mend, frame_mend, plain_mend, frame, size, out, sizeof out)

static void flip(size_t place) { frame[place / 8 + 1] ^= (uint8_t)(1 << place % 8); }

/* A frame with a flipped bit; with two, where another place than 0 is given. */
static void row(const char *of, size_t bytes, size_t place, size_t other)
{
    char name[64];
    size = bytes;
    omnilink_frame_write(0x16, data, size - 5, frame, sizeof frame);
    flip(place);
    if (other) flip(other);
    snprintf(name, sizeof name, "frame_mend, %zu bytes, %s", size, of);
    ROW(name, mend, 16, out);
}

int main(void)
{
    fill_table();
    for (size_t i = 0; i < sizeof data; i++) {
        data[i] = (uint8_t)(i * 29 + 3);
    }
    row("place 8", FRAME, FIRST_PLACE, 0);
    row("no flip helps", FRAME, FIRST_PLACE, FIRST_PLACE + 100);
    row("the last place", FRAME, 8 * (FRAME - 1) - 1, 0);
    row("place 8", 21, FIRST_PLACE, 0);
    row("place 8", 5, FIRST_PLACE, 0);
    return 0;
}

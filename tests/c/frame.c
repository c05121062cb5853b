/* Omni-Link frames: each refusal at its edge, the frames that document 000 prints, the CRC at every length, writing into rooms from 0 up. */
#include "check.h"
#include "frame.h"
#include "gateway.h"

/* What the reader answers, packed. */
static uint64_t plain_read(const uint8_t *s, size_t n)
{
    unsigned refusal = frame_refusal(s, n);
    return refusal ? refusal : (uint64_t)s[2] << 8 | (uint64_t)(s[1] - 1) << 16;
}

static struct lent input, given, output;

/* Reads a lent copy, which no answer may change. */
static uint64_t read_lent(const uint8_t *bytes, size_t len)
{
    uint64_t r = omnilink_frame_read(lend_copy(&input, bytes, len), len);
    CHECK(kept_from(&input, 0));
    return r;
}

static void printed_frames(void)
{
    static const uint8_t frames[][5] = {
        {0x5A, 0x01, 0x05, 0xC1, 0x93}, {0x5A, 0x01, 0x06, 0x81, 0x92}, {0x5A, 0x01, 0x0D, 0xC0, 0x55},
        {0x5A, 0x01, 0x11, 0xC1, 0x9C}, {0x5A, 0x01, 0x13, 0x40, 0x5D}, {0x5A, 0x01, 0x21, 0xC1, 0x88},
        {0x5A, 0x01, 0x22, 0x81, 0x89},
    };
    for (size_t i = 0; i < sizeof frames / sizeof frames[0]; i++) {
        SAME(read_lent(frames[i], 5), (uint64_t)frames[i][2] << 8);
        uint8_t *out = lend(&output, 5);
        SAME(omnilink_frame_write(frames[i][2], NULL, 0, out, 5), 5 << 8);
        CHECK(memcmp(out, frames[i], 5) == 0 && kept_from(&output, 5));
    }
}

static void refusals_at_their_edges(void)
{
    SAME(omnilink_frame_read(NULL, 0), 1);
    for (unsigned start = 0; start < 256; start++) {
        uint8_t s[2] = {(uint8_t)start, 0x01};
        SAME(read_lent(s, 1), start == 0x5A ? 1 : 2);
        SAME(read_lent(s, 2), start == 0x5A ? 1 : 2);
    }
    for (unsigned l = 0; l < 256; l++) {
        uint8_t s[300] = {0x5A, (uint8_t)l, 0x77};
        for (size_t n = 2; n <= sizeof s; n++) {
            SAME(read_lent(s, n), plain_read(s, n));
        }
    }
    static const uint8_t wrong[5] = {0x5A, 0x01, 0x05, 0xC1, 0x92};
    static const uint8_t high_first[5] = {0x5A, 0x01, 0x05, 0x93, 0xC1};
    static const uint8_t longer[6] = {0x5A, 0x01, 0x05, 0xC1, 0x93, 0x00};
    SAME(read_lent(wrong, 5), 5);
    SAME(read_lent(high_first, 5), 5);
    SAME(read_lent(longer, 6), 4);
}

/* Every single changed bit of frames of every length is refused, and the frame itself is accepted. */
static void damaged_frames(void)
{
    for (size_t n = 0; n <= 64; n++) {
        uint8_t data[64], frame[69];
        for (size_t i = 0; i < n; i++) {
            data[i] = (uint8_t)(i * 31 + n * 7);
        }
        size_t size = frame_write((uint8_t)(n * 5 + 1), data, n, frame);
        SAME(read_lent(frame, size), (uint64_t)frame[2] << 8 | (uint64_t)n << 16);
        for (size_t bit = 0; bit < size * 8; bit++) {
            frame[bit / 8] ^= (uint8_t)(1 << bit % 8);
            SAME(read_lent(frame, size), plain_read(frame, size));
            CHECK(answer_of(omnilink_frame_read(frame, size)) != 0);
            frame[bit / 8] ^= (uint8_t)(1 << bit % 8);
        }
    }
}

/* Reads and writes a frame, and reads it with its CRC off by one bit. */
static void both_ways(uint8_t type, const uint8_t *data, size_t n)
{
    uint8_t want[69];
    size_t size = frame_write(type, data, n, want);
    uint8_t *out = lend(&output, size);
    SAME(omnilink_frame_write(type, data, n, out, size), (uint64_t)size << 8);
    CHECK(memcmp(out, want, size) == 0);
    SAME(read_lent(want, size), (uint64_t)type << 8 | (uint64_t)n << 16);
    want[size - 1 - n % 2] ^= (uint8_t)(1 << n % 8);
    SAME(read_lent(want, size), 5);
}

/* The CRC at every length: of every type, and with one set bit at each place. */
static void every_length(void)
{
    for (size_t n = 0; n <= 64; n++) {
        uint8_t data[64] = {0};
        for (unsigned type = 0; type < 256; type++) {
            both_ways((uint8_t)type, data, n);
        }
        for (size_t bit = 0; bit < n * 8; bit++) {
            data[bit / 8] = (uint8_t)(1 << bit % 8);
            both_ways(0, data, n);
            data[bit / 8] = 0;
        }
    }
}

static void writing(void)
{
    for (size_t n = 0; n <= 70; n++) {
        uint8_t data[70], want[80];
        for (size_t i = 0; i < n; i++) {
            data[i] = (uint8_t)(200 - i * 3);
        }
        for (size_t room = 0; room <= 80; room++) {
            uint8_t *lent_data = lend_copy(&given, data, n);
            uint8_t *out = lend(&output, room);
            uint64_t r = omnilink_frame_write((uint8_t)(n + 3), lent_data, n, out, room);
            CHECK(kept_from(&given, 0));
            if (n > 64) {
                SAME(r, 3);
                CHECK(kept_from(&output, 0));
            } else if (room < n + 5) {
                SAME(r, 9);
                CHECK(kept_from(&output, 0));
            } else {
                SAME(r, (uint64_t)(n + 5) << 8);
                CHECK(memcmp(out, want, frame_write((uint8_t)(n + 3), data, n, want)) == 0);
                CHECK(kept_from(&output, n + 5));
                SAME(omnilink_frame_read(out, n + 5), (uint64_t)(n + 3) << 8 | (uint64_t)n << 16);
            }
        }
    }
}

int main(void)
{
    printed_frames();
    refusals_at_their_edges();
    damaged_frames();
    every_length();
    writing();
    return check_end();
}

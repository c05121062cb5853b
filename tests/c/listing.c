/* The capture listing against a plain one: random captures, frames cut off at the end, nested starts, frames inside failed
   candidates, rooms around the size needed, and the stack that a capture of the shortest frames needs. */
#define _POSIX_C_SOURCE 200809L
#include "check.h"
#include "frame.h"
#include "gateway.h"
#include "stack.h"

enum { CAPTURE = 4096, ROOM = 8 * CAPTURE + 25 };

/* The count of bytes of the whole frame that starts here, or 0. */
static size_t plain_frame(const uint8_t *s, size_t left)
{
    size_t size = left < 2 ? 0 : s[1] + 4u;
    return size != 0 && size <= left && frame_refusal(s, size) == 0 ? size : 0;
}

/* Document 01's rule, written out: the size of the text. */
static size_t plain_listing(const uint8_t *s, size_t len, char *out)
{
    char *at = out;
    size_t noise = 0;
    for (size_t i = 0; i < len;) {
        size_t count = plain_frame(s + i, len - i);
        if (count == 0) {
            noise++;
            i++;
            continue;
        }
        if (noise) at += sprintf(at, "noise %zu %zu\n", i - noise, noise);
        at += sprintf(at, "frame %zu %zu %u\n", i, count, s[i + 2]);
        noise = 0;
        i += count;
    }
    if (noise) at += sprintf(at, "noise %zu %zu\n", len - noise, noise);
    at += sprintf(at, "end %zu\n", len);
    return (size_t)(at - out);
}

static uint8_t capture[CAPTURE + 100], before[CAPTURE + 100], out[ROOM + 64];
static char want[ROOM + 64];

/* One capture with one room: the text, or 9; the bytes behind it, and the capture, as they were. */
static void listed(size_t len, size_t room)
{
    size_t size = plain_listing(capture, len, want);
    CHECK(size <= 8 * len + 25);
    memset(out, 0xC5, sizeof out);
    memcpy(before, capture, sizeof capture);
    uint64_t r = capture_listing(capture, len, out + 32, room);
    size_t written = room < size ? 0 : size;
    SAME(r, room < size ? 9 : (uint64_t)size << 8);
    CHECK(memcmp(out + 32, want, written) == 0);
    CHECK(memcmp(before, capture, sizeof capture) == 0);
    int kept = 1;
    for (size_t i = 0; i < sizeof out; i++) {
        kept &= (i >= 32 && i < 32 + written) || out[i] == 0xC5;
    }
    CHECK(kept);
}

static uint32_t state = 12345;

static unsigned any(unsigned below)
{
    state = state * 1664525u + 1013904223u;
    return (state >> 8) % below;
}

/* A frame with random data into the capture, as much of it as there is place for. */
static size_t some_frame(size_t at, size_t len)
{
    uint8_t data[64], frame[69];
    size_t n = any(4) == 0 ? any(65) : any(6);
    for (size_t i = 0; i < n; i++) {
        data[i] = any(3) == 0 ? 0x5A : (uint8_t)any(256);
    }
    /* now and then the data holds a whole frame of its own */
    if (n >= 5 && any(2) == 0) {
        frame_write((uint8_t)any(256), NULL, 0, data + any((unsigned)n - 4));
    }
    size_t size = frame_write((uint8_t)any(256), data, n, frame);
    if (any(4) == 0) {
        frame[any((unsigned)size)] ^= (uint8_t)(1u << any(8));
    }
    size_t fits = size < len - at ? size : len - at;
    memcpy(capture + at, frame, fits);
    return fits;
}

static void random_captures(unsigned times, unsigned most)
{
    for (unsigned t = 0; t < times; t++) {
        size_t len = any(most + 1), at = 0;
        while (at < len) {
            switch (any(4)) {
            case 0:
                capture[at++] = (uint8_t)any(256);
                break;
            case 1: /* a start byte with a length that may lie */
                capture[at++] = 0x5A;
                if (at < len) capture[at++] = (uint8_t)any(0x48);
                break;
            default:
                at += some_frame(at, len);
            }
        }
        size_t size = plain_listing(capture, len, want);
        listed(len, ROOM);
        listed(len, size);
        listed(len, size - 1);
        listed(len, any((unsigned)size));
    }
}

static void examples(void)
{
    static const uint8_t example[] = {0x00, 0x5A, 0x01, 0x05, 0xC1, 0x93, 0x5A};
    static const char text[] = "noise 0 1\nframe 1 5 5\nnoise 6 1\nend 7\n";
    SAME(capture_listing(example, sizeof example, out, ROOM), (uint64_t)(sizeof text - 1) << 8);
    CHECK(memcmp(out, text, sizeof text - 1) == 0);
    SAME(capture_listing(NULL, 0, out, ROOM), 6 << 8);
    CHECK(memcmp(out, "end 0\n", 6) == 0);
    SAME(capture_listing(NULL, 0, NULL, 0), 9);
}

/* Every length of a frame, cut off after each of its bytes, behind noise that starts like a frame. */
static void cut_off(void)
{
    for (size_t n = 0; n <= 64; n++) {
        memset(capture, 0x5A, 3);
        size_t size = frame_write((uint8_t)n, before, n, capture + 3);
        for (size_t len = 0; len <= 3 + size; len++) {
            listed(len, ROOM);
        }
    }
}

static void longest(void)
{
    memset(capture, 0x5A, sizeof capture);
    listed(CAPTURE, ROOM);
    SAME(capture_listing(capture, CAPTURE + 1, out, 0), 3);
    SAME(capture_listing(capture, sizeof capture, out, ROOM), 3);
    for (size_t i = 0; i < CAPTURE; i++) {
        capture[i] = i % 2 ? 0x41 : 0x5A;
    }
    listed(CAPTURE, ROOM);
    for (size_t i = 0; i + 6 <= CAPTURE; i += 6) {
        capture[i] = 0xFF;
        frame_write(0xFF, NULL, 0, capture + i + 1);
    }
    listed(CAPTURE, ROOM);
    for (size_t i = 0; i + 5 <= CAPTURE; i += 5) {
        frame_write((uint8_t)i, NULL, 0, capture + i);
    }
    listed(CAPTURE, ROOM);
}

static void *call(void *unused)
{
    (void)unused;
    capture_listing(capture, CAPTURE, out, ROOM);
    return NULL;
}

int main(void)
{
    examples();
    cut_off();
    random_captures(4000, 300);
    random_captures(300, CAPTURE);
    longest();
    stack_stays_small(call, "4,096 bytes of five-byte frames");
    for (size_t i = 0; i + 6 <= CAPTURE; i += 6) {
        capture[i] = 0xFF;
        frame_write(0xFF, NULL, 0, capture + i + 1);
    }
    stack_stays_small(call, "4,096 bytes of a noise byte before each five-byte frame");
    for (size_t i = 0; i < CAPTURE; i++) {
        capture[i] = i % 2 ? 0x41 : 0x5A;
    }
    stack_stays_small(call, "4,096 bytes of 5A 41 repeated");
    return check_end();
}

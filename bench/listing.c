/* The listing of captures of 4,096 bytes: with room for any listing, where neither side measures, and with no more room than
   needed; then in pieces, with the finishing call. */
#include "bench.h"
#include "gateway.h"
#include "listing.h"
#include "pieces.h"

PLAIN uint64_t plain_listing(const uint8_t *s, size_t len, uint8_t *out, size_t room)
{
    uint16_t at[FRAMES];
    size_t from = 0, measured = 0;
    if (len > CAPTURE) return 3;
    size_t frames = find(s, len, at);
    if (room < 8 * len + 25) {
        size_t size = measure_frames(s, 0, &measured, at, frames);
        if (room < size + measure_end(measured, len)) return 9;
    }
    uint8_t *end = put_frames(s, 0, &from, at, frames, out);
    return (uint64_t)(put_end(from, len, end) - out) << 8;
}

static uint8_t capture[CAPTURE], text[ROOM];
static size_t room, size;

SIDES(listing, capture_listing, plain_listing, capture, CAPTURE, text, room)

/* All of the capture in pieces of `size` bytes and the finishing call, the lines one behind the other; answers the bytes of all
   lines, which no refused call adds to. */
static uint64_t ours_in_pieces(void)
{
    uint8_t state[CAPTURE_STATE] = {0};
    uint8_t *out = text;
    for (size_t i = 0; i < CAPTURE; i += size) {
        out += capture_piece(state, sizeof state, capture + i, size, out, (size_t)(text + ROOM - out)) >> 8;
    }
    out += capture_finish(state, sizeof state, out, (size_t)(text + ROOM - out)) >> 8;
    return (uint64_t)(out - text);
}

static uint64_t plain_in_pieces(void)
{
    struct pieces state = {0};
    uint8_t *out = text;
    for (size_t i = 0; i < CAPTURE; i += size) {
        out += plain_piece(&state, capture + i, size, out, (size_t)(text + ROOM - out)) >> 8;
    }
    out += plain_finish(&state, out, (size_t)(text + ROOM - out)) >> 8;
    return (uint64_t)(out - text);
}

SIDE(pieces_ours, ours_in_pieces)
SIDE(pieces_plain, plain_in_pieces)

static void row(const char *of)
{
    static const size_t sizes[] = {4096, 16, 1};
    char name[80];
    snprintf(name, sizeof name, "capture_listing, %s", of);
    room = ROOM;
    ROW(name, listing, 4, text);
    room = capture_listing(capture, CAPTURE, text, ROOM) >> 8;
    ROW("  the same, just enough room", listing, 4, text);
    for (size_t i = 0; i < sizeof sizes / sizeof *sizes; i++) {
        size = sizes[i];
        snprintf(name, sizeof name, "  the same, in pieces of %zu", size);
        ROW(name, pieces, 1, text);
    }
}

int main(void)
{
    fill_table();
    for (size_t i = 0; i < CAPTURE; i++) {
        capture[i] = (uint8_t)(i * 29 + i / 7);
    }
    row("noise");
    for (size_t i = 0; i + 5 <= CAPTURE; i += 5) {
        omnilink_frame_write((uint8_t)i, NULL, 0, capture + i, 5);
    }
    row("frames of 5 bytes");
    for (size_t i = 0; i + 31 <= CAPTURE; i += 31) {
        omnilink_frame_write(0x16, capture, 16, capture + i, 21);
        memset(capture + i + 21, (int)i, 10);
    }
    row("frames of 21 and noise");
    for (size_t i = 0; i < CAPTURE; i++) {
        capture[i] = i % 2 == 0 ? 0x5A : 0x41;
    }
    row("5A 41 repeated, the worst");
    return 0;
}

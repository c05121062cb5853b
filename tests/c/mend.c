/* Mending a frame (document 02, K8), beside a search that tries each flip: every single flip of frames of every length, pairs and
   triples of flips, every CRC, damage up to the length byte, rooms from 0 up, and the refusals in their order. */
#include "check.h"
#include "frame.h"
#include "gateway.h"

enum { FRAME = 69, FIRST_PLACE = 8, CONTENTS = 6 };

static size_t places_of(size_t size) { return 8 * (size - 1); }

/* Flips the bit at a place: counted from the length byte, from 0, the lowest bit of each byte first. */
static void flip(uint8_t *s, size_t place) { s[place / 8 + 1] ^= (uint8_t)(1 << place % 8); }

static uint64_t mended(size_t place, size_t size) { return (uint64_t)place << 8 | (uint64_t)size << 24; }

/* What the call answers; an accepted one writes what is left in `frame`. No second place makes a frame. */
static uint64_t plain_mend(const uint8_t *s, size_t n, size_t room, uint8_t *frame)
{
    unsigned refusal = frame_refusal(s, n);
    if (refusal == 0) return 8;
    if (refusal != 5) return refusal;
    uint8_t tried[FRAME];
    size_t found = 0;
    memcpy(tried, s, n);
    for (size_t place = FIRST_PLACE; place < places_of(n); place++) {
        flip(tried, place);
        if (frame_refusal(tried, n) == 0) {
            CHECK(found == 0);
            found = place;
            memcpy(frame, tried, n);
        }
        flip(tried, place);
    }
    if (found == 0) return 5;
    return room < n ? 9 : mended(found, n);
}

static struct lent input, output;

/* One call: its answer, what it writes, and everything else as it was lent. `frame` is not looked at for a refusal. */
static void answers(const uint8_t *s, size_t n, size_t room, uint64_t want, const uint8_t *frame)
{
    uint8_t *bytes = lend_copy(&input, s, n);
    uint8_t *out = lend(&output, room);
    size_t written = answer_of(want) == 0 ? n : 0;
    SAME(frame_mend(bytes, n, out, room), want);
    CHECK(written == 0 || memcmp(out, frame, written) == 0);
    CHECK(kept_from(&input, 0) && kept_from(&output, written));
}

static void refuses(const uint8_t *s, size_t n, size_t room, unsigned number) { answers(s, n, room, number, NULL); }

/* One call beside the search. */
static void as_searched(const uint8_t *s, size_t n, size_t room)
{
    uint8_t frame[FRAME];
    uint64_t want = plain_mend(s, n, room, frame);
    answers(s, n, room, want, frame);
}

/* A frame of a size, with one of several contents: zeros, FF, start bytes, then others. */
static void some_frame(size_t size, unsigned content, uint8_t *frame)
{
    static const uint8_t same[] = {0x00, 0xFF, 0x5A};
    uint8_t data[64];
    for (size_t i = 0; i < sizeof data; i++) {
        data[i] = content < sizeof same ? same[content] : (uint8_t)(i * 31 + i * i * content + size * 7);
    }
    frame_write((uint8_t)(content * 85 + size), data, size - 5, frame);
}

static void example(void)
{
    static const uint8_t damaged[] = {0x5A, 0x01, 0x05, 0xC1, 0x92}, frame[] = {0x5A, 0x01, 0x05, 0xC1, 0x93};
    uint8_t *out = lend(&output, 5);
    uint64_t r = frame_mend(damaged, 5, out, 5);
    SAME(r, UINT64_C(0x05001800));
    SAME(gateway_number(r), GATEWAY_ACCEPTED);
    SAME(gateway_word(r, 0), 24);
    SAME(gateway_word(r, 2), 5);
    CHECK(memcmp(out, frame, 5) == 0 && kept_from(&output, 5));
    SAME(omnilink_frame_read(out, 5), 0x0500);
}

/* Every single flip after the length byte comes back. The frame itself is refused. */
static void single_flips(void)
{
    for (size_t size = 5; size <= FRAME; size++) {
        for (unsigned content = 0; content < CONTENTS; content++) {
            uint8_t frame[FRAME], damaged[FRAME];
            some_frame(size, content, frame);
            refuses(frame, size, size, 8);
            memcpy(damaged, frame, size);
            for (size_t place = FIRST_PLACE; place < places_of(size); place++) {
                flip(damaged, place);
                answers(damaged, size, size + place % 3, mended(place, size), frame);
                SAME(omnilink_frame_read(damaged, size), 5);
                if (size < 12 || place % 67 == 0) as_searched(damaged, size, size);
                flip(damaged, place);
            }
        }
    }
}

/* Every pair of flips leaves at least two places to every frame: none is mended. */
static void pairs_of_flips(size_t size, unsigned content, int search)
{
    uint8_t s[FRAME];
    some_frame(size, content, s);
    for (size_t a = FIRST_PLACE; a < places_of(size); a++) {
        flip(s, a);
        for (size_t b = a + 1; b < places_of(size); b++) {
            flip(s, b);
            refuses(s, size, size, 5);
            if (search) as_searched(s, size, size);
            flip(s, b);
        }
        flip(s, a);
    }
}

/* Every triple of flips: mended to another frame, or not at all. */
static void triples_of_flips(size_t size, unsigned content)
{
    uint8_t frame[FRAME], s[FRAME];
    size_t others = 0;
    some_frame(size, content, frame);
    memcpy(s, frame, size);
    for (size_t a = FIRST_PLACE; a < places_of(size); a++) {
        flip(s, a);
        for (size_t b = a + 1; b < places_of(size); b++) {
            flip(s, b);
            for (size_t c = b + 1; c < places_of(size); c++) {
                flip(s, c);
                as_searched(s, size, size);
                uint8_t out[FRAME];
                if (frame_mend(s, size, out, sizeof out) != 5) {
                    others++;
                    CHECK(memcmp(out, frame, size) != 0 && answer_of(omnilink_frame_read(out, size)) == 0);
                }
                flip(s, c);
            }
            flip(s, b);
        }
        flip(s, a);
    }
    /* Each frame at distance four is met by four triples. */
    CHECK(others > 0 && others % 4 == 0);
}

/* Condition 3's pair: two frames at distance four. Three of the four flips in one are mended to the other, at the fourth place. */
static void nearer_to_another(void)
{
    static const uint8_t pair[2][5] = {{0x5A, 0x01, 0x05, 0xC1, 0x93}, {0x5A, 0x01, 0x85, 0xC0, 0x33}};
    static const size_t places[4] = {15, 16, 29, 31};
    for (unsigned one = 0; one < 2; one++) {
        for (unsigned left = 0; left < 4; left++) {
            uint8_t s[5];
            memcpy(s, pair[one], 5);
            for (unsigned k = 0; k < 4; k++) {
                if (k != left) flip(s, places[k]);
            }
            answers(s, 5, 5, mended(places[left], 5), pair[1 - one]);
            flip(s, places[left]);
            CHECK(memcmp(s, pair[1 - one], 5) == 0);
            refuses(s, 5, 5, 8);
        }
    }
}

/* Every CRC behind the same bytes: one is right, and as many are mended as there are places, each place once. */
static void every_crc(size_t size)
{
    uint8_t s[FRAME], seen[8 * FRAME] = {0};
    size_t right = 0, found = 0;
    some_frame(size, 3, s);
    for (unsigned crc = 0; crc < 65536; crc++) {
        uint8_t out[FRAME];
        s[size - 2] = (uint8_t)crc;
        s[size - 1] = (uint8_t)(crc >> 8);
        if (size == 5) as_searched(s, size, size);
        uint64_t r = frame_mend(s, size, out, sizeof out);
        right += r == 8;
        if (answer_of(r) != 0) {
            CHECK(r == 8 || r == 5);
            continue;
        }
        size_t place = bits_of(r, 8, 16);
        CHECK(r == mended(place, size) && place >= FIRST_PLACE && place < places_of(size) && !seen[place]++);
        CHECK(frame_refusal(out, size) == 0);
        flip(out, place);
        CHECK(memcmp(out, s, size) == 0);
        found++;
    }
    SAME(right, 1);
    SAME(found, places_of(size) - FIRST_PLACE);
}

/* A flip in the start byte is 2. One in the length byte is 3 outside 01 to 41, 1 where more bytes are needed, else 4. */
static void damage_up_to_the_length(void)
{
    for (size_t size = 5; size <= FRAME; size++) {
        for (unsigned bit = 0; bit < 8; bit++) {
            uint8_t s[FRAME];
            some_frame(size, bit % CONTENTS, s);
            s[0] ^= (uint8_t)(1 << bit);
            refuses(s, size, size, 2);
            s[0] = 0x5A;
            flip(s, bit);
            refuses(s, size, size, s[1] == 0 || s[1] > 0x41 ? 3 : s[1] + 4u > size ? 1 : 4);
            as_searched(s, size, size);
        }
    }
}

/* Every room: 9 below the size, but the other refusals come before it. */
static void rooms(void)
{
    for (size_t size = 5; size <= FRAME; size++) {
        uint8_t frame[FRAME + 1], s[FRAME];
        size_t place = FIRST_PLACE + size * 37 % (places_of(size) - FIRST_PLACE);
        some_frame(size, 4, frame);
        for (size_t room = 0; room <= size + 1; room++) {
            memcpy(s, frame, size);
            refuses(s, size, room, 8);
            flip(s, place);
            answers(s, size, room, room < size ? 9 : mended(place, size), frame);
            flip(s, place == FIRST_PLACE ? FIRST_PLACE + 1 : place - 1);
            refuses(s, size, room, 5);
            s[0] ^= 1;
            refuses(s, size, room, 2);
            s[0] ^= 1;
            refuses(s, size - 1, room, 1);
            s[1] = 0;
            refuses(s, size, room, 3);
            frame[size] = 0;
            refuses(frame, size + 1, room, 4);
        }
        SAME(frame_mend(frame, size, NULL, 0), 8);
        frame[size - 1] ^= 1;
        SAME(frame_mend(frame, size, NULL, 0), 9);
    }
}

/* Each count of bytes with each length byte, from none on; whole frames with bytes behind them, and cut. */
static void counts_of_bytes(void)
{
    static uint8_t s[LENT_MAX];
    SAME(frame_mend(NULL, 0, NULL, 0), 1);
    SAME(frame_mend(NULL, 0, lend(&output, FRAME), FRAME), 1);
    CHECK(kept_from(&output, 0));
    for (unsigned start = 0; start < 256; start++) {
        s[0] = (uint8_t)start;
        refuses(s, 0, FRAME, 1);
        refuses(s, 1, FRAME, start == 0x5A ? 1 : 2);
        refuses(s, FRAME + 1, FRAME, start == 0x5A ? 3 : 2);
    }
    s[0] = 0x5A;
    for (unsigned l = 0; l < 256; l++) {
        s[1] = (uint8_t)l;
        for (size_t n = 2; n <= 300; n++) {
            as_searched(s, n, n);
        }
    }
    for (size_t size = 5; size <= FRAME; size++) {
        for (unsigned damaged = 0; damaged < 2; damaged++) {
            memset(s, 0, FRAME + 8);
            some_frame(size, 5, s);
            s[2] ^= (uint8_t)damaged;
            for (size_t n = 2; n <= FRAME + 8; n++) {
                if (n != size) refuses(s, n, FRAME, n < size ? 1 : 4);
            }
            refuses(s, LENT_MAX, FRAME, 4);
        }
    }
}

int main(void)
{
    example();
    single_flips();
    for (unsigned content = 0; content < CONTENTS; content++) {
        for (size_t size = 5; size <= 9; size++) {
            pairs_of_flips(size, content, 1);
        }
    }
    pairs_of_flips(21, 3, 0);
    pairs_of_flips(FRAME, 3, 0);
    triples_of_flips(5, 0);
    triples_of_flips(6, 3);
    triples_of_flips(7, 4);
    nearer_to_another();
    every_crc(5);
    every_crc(21);
    every_crc(FRAME);
    damage_up_to_the_length();
    rooms();
    counts_of_bytes();
    return check_end();
}

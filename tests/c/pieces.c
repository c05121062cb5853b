/* A capture in pieces: the papers' examples, cuttings against the listing of the whole, states at the border of each rule, the
   order of the refusals, exact rooms, 4,096 bytes and one more, and the stack. */
#define _POSIX_C_SOURCE 200809L
#include "check.h"
#include "frame.h"
#include "gateway.h"
#include "stack.h"

enum { CAPTURE = 4096, ROOM = 8 * CAPTURE + 25, FINISH_ROOM = 569 };

static const uint8_t FRESH[CAPTURE_STATE];
static const uint8_t ACKNOWLEDGE[] = {0x5A, 0x01, 0x05, 0xC1, 0x93};

static struct lent in, out, kept;
static uint8_t state[CAPTURE_STATE];

/* In place of a piece: the finishing call. */
static const uint8_t FINISH[1];

/* A call on the global state, which becomes what the call left; the output behind what was written, and on a refusal all of it
   and the state, are as they were. */
static uint64_t lent_call(const uint8_t *bytes, size_t len, size_t room)
{
    uint8_t *s = lend_copy(&kept, state, sizeof state);
    uint8_t *o = lend(&out, room);
    uint64_t r;
    if (bytes == FINISH) {
        r = capture_finish(s, sizeof state, o, room);
    } else {
        uint8_t *b = lend_copy(&in, bytes, len);
        r = capture_piece(s, sizeof state, b, len, o, room);
        CHECK(kept_from(&in, 0));
    }
    memcpy(state, s, sizeof state);
    CHECK(kept_from(&kept, answer_of(r) == 0 ? sizeof state : 0));
    CHECK(kept_from(&out, answer_of(r) == 0 ? r >> 8 : 0));
    return r;
}

/* A call that gives these lines, in an exact and in a larger room; with a byte of room too few it is refused 9. */
static void gives(const uint8_t *bytes, size_t len, const char *lines)
{
    size_t size = strlen(lines);
    uint8_t before[CAPTURE_STATE], after[CAPTURE_STATE];
    memcpy(before, state, sizeof state);
    if (size > 0) {
        SAME(lent_call(bytes, len, 0), 9);
        SAME(lent_call(bytes, len, size - 1), 9);
    }
    SAME(lent_call(bytes, len, size), (uint64_t)size << 8);
    CHECK(memcmp(out.all + CANARIES, lines, size) == 0);
    memcpy(after, state, sizeof state);
    memcpy(state, before, sizeof state);
    SAME(lent_call(bytes, len, size + 40), (uint64_t)size << 8);
    CHECK(memcmp(out.all + CANARIES, lines, size) == 0);
    CHECK(memcmp(state, after, sizeof state) == 0);
}

#define PIECE(lines, ...) gives((const uint8_t[]){__VA_ARGS__}, sizeof(const uint8_t[]){__VA_ARGS__}, lines)
#define NO_BYTES() gives(NULL, 0, "")

static void ends(const char *lines)
{
    gives(FINISH, 0, lines);
    CHECK(memcmp(state, FRESH, sizeof state) == 0);
}

/* The state's numbers and unread bytes. */
static void holds(unsigned came, unsigned noise, const uint8_t *unread, size_t count)
{
    uint8_t want[CAPTURE_STATE] = {(uint8_t)(came >> 8), (uint8_t)came, (uint8_t)(noise >> 8), (uint8_t)noise, (uint8_t)count};
    if (count > 0) {
        memcpy(want + 5, unread, count);
    }
    CHECK(memcmp(state, want, sizeof state) == 0);
}

static void examples(void)
{
    ends("end 0\n");
    NO_BYTES();
    ends("end 0\n");

    PIECE("", 0x5A, 0x41, 0x5A, 0x01, 0x05, 0xC1, 0x93);
    holds(7, 0, (const uint8_t[]){0x5A, 0x41, 0x5A, 0x01, 0x05, 0xC1, 0x93}, 7);
    ends("noise 0 2\nframe 2 5 5\nend 7\n");

    PIECE("", 0x00, 0x5A, 0x01);
    holds(3, 1, (const uint8_t[]){0x5A, 0x01}, 2);
    NO_BYTES();
    PIECE("noise 0 1\nframe 1 5 5\n", 0x05, 0xC1, 0x93, 0x5A);
    holds(7, 0, (const uint8_t[]){0x5A}, 1);
    ends("noise 6 1\nend 7\n");

    /* what settles a place: another byte than 5A, a length byte out of its range, the last byte of a whole frame */
    PIECE("", 0x5A);
    PIECE("", 0x5A);
    holds(2, 1, (const uint8_t[]){0x5A}, 1);
    PIECE("", 0x00);
    holds(3, 3, NULL, 0);
    PIECE("", 0x5A);
    PIECE("", 0x42);
    holds(5, 5, NULL, 0);
    PIECE("", 0x5A, 0x01, 0x05, 0xC1);
    PIECE("noise 0 5\nframe 5 5 5\n", 0x93);
    holds(10, 0, NULL, 0);
    ends("end 10\n");

    /* a wrong CRC makes the start noise, and what follows is judged at once: a frame, and the start of another */
    PIECE("", 0x5A, 0x06, 0x5A, 0x01, 0x05, 0xC1, 0x93, 0x5A, 0x02);
    PIECE("noise 0 2\nframe 2 5 5\n", 0x77);
    holds(10, 0, (const uint8_t[]){0x5A, 0x02, 0x77}, 3);
    ends("noise 7 3\nend 10\n");
}

static uint8_t capture[CAPTURE + 100], whole[ROOM], joined[ROOM];

/* The first len bytes of the capture in pieces of `size`, an empty one before each, against their listing as a whole. */
static void cut(size_t len, size_t size)
{
    size_t at = 0;
    uint64_t listing = capture_listing(capture, len, whole, ROOM);
    for (size_t i = 0; i < len; i += size) {
        size_t n = size < len - i ? size : len - i;
        uint64_t none = capture_piece(state, sizeof state, NULL, 0, NULL, 0);
        uint64_t r = capture_piece(state, sizeof state, capture + i, n, joined + at, ROOM - at);
        CHECK(none == 0 && answer_of(r) == 0 && r >> 8 <= 8 * n + 544);
        at += r >> 8;
    }
    uint64_t r = capture_finish(state, sizeof state, joined + at, ROOM - at);
    CHECK(answer_of(r) == 0 && r >> 8 <= FINISH_ROOM);
    CHECK(memcmp(state, FRESH, sizeof state) == 0);
    at += r >> 8;
    SAME((uint64_t)at << 8, listing);
    CHECK(memcmp(joined, whole, at) == 0);
}

static void cuttings(size_t len)
{
    static const size_t sizes[] = {1, 2, 3, 5, 7, 16, 68, 69, 70, 100, 1000, CAPTURE};
    for (size_t i = 0; i < sizeof sizes / sizeof *sizes; i++) {
        cut(len, sizes[i]);
    }
}

/* The first bytes of the capture, up to 150, and all of it. */
static void every_length(void)
{
    for (size_t len = 0; len <= 150; len++) {
        cuttings(len);
    }
    cuttings(CAPTURE);
}

static void captures(void)
{
    uint8_t data[64];
    for (size_t i = 0; i < CAPTURE; i++) {
        capture[i] = (uint8_t)(i * 29 + i / 7);
    }
    every_length();
    memset(capture, 0x5A, CAPTURE);
    every_length();
    for (size_t i = 0; i < CAPTURE; i++) {
        capture[i] = i % 2 ? 0x41 : 0x5A;
    }
    every_length();
    for (size_t i = 0; i < CAPTURE; i += 5) {
        frame_write((uint8_t)i, NULL, 0, capture + i);
    }
    every_length();
    for (size_t i = 0; i < CAPTURE; i += 6) {
        capture[i] = 0xFF;
        frame_write(0xFF, NULL, 0, capture + i + 1);
    }
    every_length();
    /* starts that promise more than comes, with short frames behind them */
    for (size_t i = 0; i < CAPTURE; i += 68) {
        capture[i] = 0x5A;
        capture[i + 1] = 0x41;
        for (size_t k = 2; k + 6 <= 68; k += 6) {
            capture[i + k] = 0x00;
            frame_write((uint8_t)(i + k), NULL, 0, capture + i + k + 1);
        }
    }
    every_length();
    /* frames of every length, every third with a bit turned over, the data full of starts */
    memset(data, 0x5A, sizeof data);
    for (size_t i = 0, n = 0; i < CAPTURE; n++) {
        size_t size = frame_write((uint8_t)n, data, n % 65, capture + i);
        capture[i + size - 1] ^= n % 3 == 0 ? 0x10 : 0;
        i += size;
    }
    every_length();
}

/* Both calls take the global state, or refuse it 8 before they look at anything else. */
static void judged(int taken)
{
    uint8_t before[CAPTURE_STATE];
    memcpy(before, state, sizeof state);
    SAME(lent_call(NULL, 0, 0), taken ? 0 : 8);
    CHECK(memcmp(state, before, sizeof state) == 0);
    if (taken) {
        CHECK(answer_of(lent_call(FINISH, 0, FINISH_ROOM)) == 0);
        CHECK(memcmp(state, FRESH, sizeof state) == 0);
    } else {
        SAME(lent_call(capture, CAPTURE + 1, 0), 8);
        SAME(lent_call(FINISH, 0, FINISH_ROOM), 8);
        SAME(lent_call(FINISH, 0, 0), 8);
    }
}

static void state_of(unsigned came, unsigned noise, size_t count, const uint8_t *unread)
{
    memset(state, 0, sizeof state);
    state[0] = (uint8_t)(came >> 8);
    state[1] = (uint8_t)came;
    state[2] = (uint8_t)(noise >> 8);
    state[3] = (uint8_t)noise;
    state[4] = (uint8_t)count;
    if (count > 0) {
        memcpy(state + 5, unread, count);
    }
}

/* What came before the noise and the unread bytes ends with a frame: 0 bytes, or at least 5. */
static void numbers(void)
{
    static const uint8_t start[] = {0x5A, 0x01, 0x05};
    static const unsigned noises[] = {0, 1, 255, 256, 1000};
    for (size_t count = 0; count <= sizeof start; count++) {
        for (size_t i = 0; i < sizeof noises / sizeof *noises; i++) {
            unsigned rest = noises[i] + (unsigned)count;
            for (unsigned early = 0; early <= 12; early++) {
                state_of(early + rest, noises[i], count, start);
                judged(early == 0 || early >= 5);
            }
            for (unsigned over = 1; over <= 6 && over <= rest; over++) {
                state_of(rest - over, noises[i], count, start);
                judged(0);
            }
            state_of(CAPTURE, noises[i], count, start);
            judged(1);
            state_of(CAPTURE + 1, noises[i], count, start);
            judged(0);
            state_of(65535, noises[i], count, start);
            judged(0);
        }
        state_of(CAPTURE, CAPTURE - (unsigned)count, count, start);
        judged(1);
        state_of(CAPTURE + 1, CAPTURE + 1 - (unsigned)count, count, start);
        judged(0);
        state_of(100, 65535, count, start);
        judged(0);
    }
}

/* None, 5A alone, or 5A L with L 01 to 41 hex and fewer than L+4 bytes; the bytes behind them zero. */
static void unread_bytes(void)
{
    uint8_t unread[69];
    for (unsigned first = 0; first <= 255; first++) {
        state_of(100, 20, 1, (const uint8_t[]){(uint8_t)first});
        judged(first == 0x5A);
    }
    for (unsigned l = 0; l <= 255; l++) {
        memset(unread, (int)l, sizeof unread);
        unread[0] = 0x5A;
        for (size_t count = 2; count <= sizeof unread; count++) {
            state_of(100, 20, count, unread);
            judged(l >= 0x01 && l <= 0x41 && count < l + 4);
            if (l == 0x41) {
                state[5] = 0x41;
                judged(0);
            }
        }
    }
    for (unsigned count = 69; count <= 255; count++) {
        state_of(1000, 20, 68, unread);
        state[4] = (uint8_t)count;
        judged(0);
    }
    memset(unread, 0x41, sizeof unread);
    unread[0] = 0x5A;
    for (size_t count = 0; count <= 68; count++) {
        for (size_t at = 5 + count; at < CAPTURE_STATE; at++) {
            state_of(100, 20, count, unread);
            state[at] = at % 2 ? 1 : 0x80;
            judged(0);
        }
    }
}

/* Only CAPTURE_STATE bytes are a state; a null pointer with length 0 is none. */
static void sizes(void)
{
    static uint8_t zeros[65536 + CAPTURE_STATE];
    static const size_t others[] = {147, 148, 256, 256 + CAPTURE_STATE, 65536, sizeof zeros};
    for (size_t size = 0; size <= 80; size++) {
        SAME(capture_piece(zeros, size, NULL, 0, NULL, 0), size == CAPTURE_STATE ? 0 : 8);
        SAME(capture_piece(zeros, size, capture, CAPTURE + 1, NULL, 0), size == CAPTURE_STATE ? 3 : 8);
        SAME(capture_finish(zeros, size, NULL, 0), size == CAPTURE_STATE ? 9 : 8);
    }
    for (size_t i = 0; i < sizeof others / sizeof *others; i++) {
        SAME(capture_piece(zeros, others[i], NULL, 0, NULL, 0), 8);
        SAME(capture_finish(zeros, others[i], NULL, 0), 8);
    }
    SAME(capture_piece(NULL, 0, NULL, 0, NULL, 0), 8);
    SAME(capture_finish(NULL, 0, NULL, 0), 8);
    int kept_all = 1;
    for (size_t i = 0; i < sizeof zeros; i++) {
        kept_all &= zeros[i] == 0;
    }
    CHECK(kept_all);
}

/* Up to 4,096 bytes in all; 3 before 9, and neither for a piece of no bytes. */
static void longest(void)
{
    static uint8_t most[65536 + 10];
    memset(capture, 0, sizeof capture);
    memcpy(most, ACKNOWLEDGE, sizeof ACKNOWLEDGE);
    for (unsigned came = 0; came <= CAPTURE; came += came == 0 || came >= 4090 ? 1 : 4089) {
        size_t left = CAPTURE - came;
        state_of(came, came, 0, NULL);
        SAME(lent_call(capture, left + 1, LENT_MAX), 3);
        SAME(lent_call(capture, CAPTURE + 1, 0), 3);
        SAME(capture_piece(state, sizeof state, most, 65536, NULL, 0), 3);
        SAME(capture_piece(state, sizeof state, most, sizeof most, NULL, 0), 3);
        SAME(lent_call(NULL, 0, 0), 0);
        holds(came, came, NULL, 0);
        SAME(lent_call(capture, left, 0), 0);
        holds(CAPTURE, CAPTURE, NULL, 0);
        NO_BYTES();
        SAME(lent_call(capture, 1, 0), 3);
        SAME(lent_call(ACKNOWLEDGE, 5, 0), 3);
        ends("noise 0 4096\nend 4096\n");
    }
    /* a frame that ends the largest capture, and one that would end behind it */
    state_of(4092, 4092, 0, NULL);
    SAME(lent_call(ACKNOWLEDGE, 5, 0), 3);
    SAME(lent_call(ACKNOWLEDGE, 5, 100), 3);
    state_of(4091, 4091, 0, NULL);
    gives(ACKNOWLEDGE, 5, "noise 0 4091\nframe 4091 5 5\n");
    NO_BYTES();
    ends("end 4096\n");
    /* the last byte of the largest capture settles a start of 69 bytes */
    memset(capture, 0x41, 68);
    capture[0] = 0x5A;
    state_of(4095, 4027, 68, capture);
    memcpy(capture + 63, ACKNOWLEDGE, 5);
    memcpy(state + 5, capture, 68);
    PIECE("noise 0 4090\nframe 4090 5 5\n", 0x5A);
    holds(4096, 0, (const uint8_t[]){0x5A}, 1);
    SAME(lent_call(capture, 1, 0), 3);
    ends("noise 4095 1\nend 4096\n");
}

/* The room that the header calls enough: as many lines as one byte, and as the finishing call, can bring. */
static void rooms(void)
{
    uint8_t start[69] = {0x5A, 0x41};
    for (size_t i = 2; i + 6 <= sizeof start; i += 6) {
        start[i] = 0;
        frame_write(0xFF, NULL, 0, start + i + 1);
    }
    state_of(3000, 1500, 68, start);
    uint64_t r = lent_call(FINISH, 0, FINISH_ROOM);
    CHECK(answer_of(r) == 0 && r >> 8 > 300);
    state_of(3000, 1500, 68, start);
    r = lent_call((const uint8_t[]){0x00}, 1, 8 + 544);
    CHECK(answer_of(r) == 0 && r >> 8 > 300);
}

static void *pieces(void *unused)
{
    uint8_t s[CAPTURE_STATE] = {0};
    capture_piece(s, sizeof s, capture, CAPTURE, joined, ROOM);
    capture_finish(s, sizeof s, joined, ROOM);
    return unused;
}

static void stacks(void)
{
    for (size_t i = 0; i < CAPTURE; i += 6) {
        capture[i] = 0xFF;
        frame_write(0xFF, NULL, 0, capture + i + 1);
    }
    stack_stays_small(pieces, "a piece of 4,096 bytes and the finishing call, a noise byte before each five-byte frame");
    for (size_t i = 0; i < CAPTURE; i++) {
        capture[i] = i % 2 ? 0x41 : 0x5A;
    }
    stack_stays_small(pieces, "a piece of 4,096 bytes and the finishing call, 5A 41 repeated");
}

int main(void)
{
    examples();
    captures();
    numbers();
    unread_bytes();
    sizes();
    longest();
    rooms();
    stacks();
    return check_end();
}

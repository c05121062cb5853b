/* Omnistat2 messages against a plain implementation written from documents 01 and 02 and source document 004. */
#include "check.h"
#include "gateway.h"
#include "omnistat.h"

/* The thermostat, and the host with each habit and each group last polled. */
static const struct end ENDS[] = {{THERMOSTAT, 0, 0}, {HOST, NUMBERED, 1}, {HOST, NUMBERED, 2}, {HOST, NUMBERED, 3},
                                  {HOST, PRINTED, 1}, {HOST, PRINTED, 2}, {HOST, PRINTED, 3}};
enum { AT_THERMOSTAT, FIRST_HOST, END_COUNT = sizeof ENDS / sizeof *ENDS };

/* Whether an address or number may be written. */
static int is_address(enum side side, unsigned address)
{
    return side == THERMOSTAT ? is_first(side, address) : address >= 1 && address <= 0x7F;
}

/* Writes into bytes, which has room for all; answers as the call does. */
static uint64_t model_write(struct end end, unsigned address, unsigned type, const uint8_t *data, size_t n, size_t room, uint8_t *bytes)
{
    unsigned start, count;
    if (!is_end(end)) {
        return 8;
    }
    unsigned refusal = judge(end, type, data, n, &start, &count);
    if (refusal) {
        return refusal;
    }
    if (!is_address(end.side, address)) {
        return 8;
    }
    if (room < n + 3) {
        return 9;
    }
    bytes[0] = (uint8_t)(end.side == THERMOSTAT ? address : address + 0x80);
    bytes[1] = (uint8_t)(n << 4 | type);
    memcpy(bytes + 2, data, n);
    bytes[n + 2] = (uint8_t)sum_of(bytes, n + 2);
    return (uint64_t)(n + 3) << 8;
}

/* The type that the reply of a group has on the line. */
static unsigned group_type(unsigned habit, unsigned group) { return habit == PRINTED ? 3 : group + 2; }

/* The reply of a group, likewise. */
static uint64_t model_write_group(struct end end, unsigned number, unsigned group, const uint8_t *values, size_t n, size_t room,
                                  uint8_t *bytes)
{
    if (!is_end(end) || !is_group(group)) {
        return 8;
    }
    if (n != group_length(end.habit == PRINTED ? end.polled : group)) {
        return 7;
    }
    if (end.habit == PRINTED && group != end.polled) {
        return 8;
    }
    return model_write(end, number, group_type(end.habit, group), values, n, room, bytes);
}

/* The numbers that a text writer is given. */
struct text_head {
    enum side side;
    unsigned address, half, start;
};

static uint64_t model_write_text(struct text_head h, const uint8_t *text, size_t n, size_t room, uint8_t *bytes)
{
    if (!is_address(h.side, h.address) || h.half > 15 || !is_text_register(h.start) || n > TEXT_MAX) {
        return 8;
    }
    for (size_t i = 0; i < n; i++) {
        if (!is_character(text[i])) {
            return 8;
        }
    }
    if (room < n + 5) {
        return 9;
    }
    bytes[0] = (uint8_t)(h.side == THERMOSTAT ? h.address : h.address + 0x80);
    bytes[1] = (uint8_t)(h.half << 4 | (h.side == THERMOSTAT ? 1 : 2));
    bytes[2] = (uint8_t)h.start;
    memcpy(bytes + 3, text, n);
    bytes[n + 3] = TEXT_END;
    bytes[n + 4] = (uint8_t)sum_of(bytes, n + 4);
    return (uint64_t)(n + 5) << 8;
}

static uint64_t ours_read(struct end end, const uint8_t *bytes, size_t len)
{
    return end.side == THERMOSTAT ? omnistat_read_at_thermostat(bytes, len)
                                  : omnistat_read_at_host((uint8_t)end.habit, (uint8_t)end.polled, bytes, len);
}

static uint64_t ours_write(struct end end, unsigned address, unsigned type, const uint8_t *data, size_t n, uint8_t *to, size_t room)
{
    uint8_t habit = (uint8_t)end.habit, polled = (uint8_t)end.polled;
    return end.side == THERMOSTAT ? omnistat_write_to_thermostat((uint8_t)address, (uint8_t)type, data, n, to, room)
                                  : omnistat_write_to_host(habit, polled, (uint8_t)address, (uint8_t)type, data, n, to, room);
}

static uint64_t ours_write_text(struct text_head h, const uint8_t *text, size_t n, uint8_t *to, size_t room)
{
    uint8_t address = (uint8_t)h.address, half = (uint8_t)h.half, start = (uint8_t)h.start;
    return h.side == THERMOSTAT ? omnistat_write_text_to_thermostat(address, half, start, text, n, to, room)
                                : omnistat_write_text_to_host(address, half, start, text, n, to, room);
}

static struct lent in, out;

/* A message that was read is written back by its numbers: the same bytes. */
static void write_back(struct end end, uint64_t read, const uint8_t *bytes, size_t len)
{
    uint8_t back[TEXT_MAX + 5];
    unsigned type = bits_of(read, 8, 8), address = bits_of(read, 16, 8), start = bits_of(read, 24, 8);
    if (type == (end.side == THERMOSTAT ? 1u : 2u) && is_text_register(start)) {
        struct text_head h = {end.side, address, bits_of(read, 40, 8), start};
        SAME(ours_write_text(h, bytes + 3, bits_of(read, 32, 8), back, len), (uint64_t)len << 8);
    } else {
        SAME(ours_write(end, address, type, bytes + 2, len - 3, back, len), (uint64_t)len << 8);
    }
    CHECK(memcmp(back, bytes, len) == 0);
}

/* An end reads lent bytes as the model does; what it accepts is written back. */
static void read_one(struct end end, const uint8_t *bytes, size_t len)
{
    uint64_t got = ours_read(end, bytes, len);
    SAME(got, model_read(end, bytes, len));
    if (answer_of(got) == 0) {
        write_back(end, got, bytes, len);
    }
}

/* The same at both ends, at the host with either habit and every polled group; the bytes are left alone. */
static void read_both(const uint8_t *bytes, size_t len)
{
    uint8_t *lent = lend_copy(&in, bytes, len);
    for (size_t e = 0; e < END_COUNT; e++) {
        read_one(ENDS[e], lent, len);
    }
    CHECK(kept_from(&in, 0));
}

/* A writer answered and wrote as the model does, and left the rest alone: the count of bytes written, 0 where it refused. */
static size_t check_written(uint64_t got, uint64_t wanted, const uint8_t *written, const uint8_t *want)
{
    size_t count = answer_of(got) == 0 ? bits_of(got, 8, 16) : 0;
    SAME(got, wanted);
    CHECK(kept_from(&in, 0));
    CHECK(memcmp(written, want, count) == 0);
    CHECK(kept_from(&out, count));
    return count;
}

/* Writes as the model does, and what was written is read back as the same. */
static void write_one(struct end end, unsigned address, unsigned type, const uint8_t *data, size_t n, size_t room)
{
    uint8_t want[LENT_MAX];
    uint64_t wanted = model_write(end, address, type, data, n, room, want);
    uint8_t *lent_data = lend_copy(&in, data, n);
    uint8_t *lent_out = lend(&out, room);
    uint64_t got = ours_write(end, address, type, lent_data, n, lent_out, room);
    size_t written = check_written(got, wanted, lent_out, want);
    if (written == 0) {
        return;
    }
    uint64_t back = ours_read(end, lent_out, written);
    SAME(answer_of(back), 0);
    SAME(bits_of(back, 8, 8), type);
    SAME(bits_of(back, 16, 8), address);
}

/* At the host with either habit and every polled group. */
static void write_to_hosts(unsigned number, unsigned type, const uint8_t *data, size_t n, size_t room)
{
    for (size_t e = FIRST_HOST; e < END_COUNT; e++) {
        write_one(ENDS[e], number, type, data, n, room);
    }
}

/* Writes the reply of a group as the model does, and what was written is read back whole. */
static void write_group(struct end end, unsigned number, unsigned group, const uint8_t *values, size_t n, size_t room)
{
    uint8_t want[LENT_MAX];
    uint64_t wanted = model_write_group(end, number, group, values, n, room, want);
    uint8_t *lent_values = lend_copy(&in, values, n);
    uint8_t *lent_out = lend(&out, room);
    uint64_t got = omnistat_write_group_to_host((uint8_t)end.habit, (uint8_t)end.polled, (uint8_t)number, (uint8_t)group, lent_values, n,
                                                lent_out, room);
    size_t written = check_written(got, wanted, lent_out, want);
    if (written == 0) {
        return;
    }
    SAME(ours_read(end, lent_out, written), packed(group_type(end.habit, group), number, 0, (unsigned)n, 0));
    CHECK(memcmp(lent_out + 2, values, n) == 0);
    write_back(end, ours_read(end, lent_out, written), lent_out, written);
}

/* Writes a text as the model does, and what was written is read back whole. */
static void write_text(struct text_head h, const uint8_t *text, size_t n, size_t room)
{
    uint8_t want[TEXT_MAX + 5];
    uint64_t wanted = model_write_text(h, text, n, room, want);
    uint8_t *lent_text = lend_copy(&in, text, n);
    uint8_t *lent_out = lend(&out, room);
    uint64_t got = ours_write_text(h, lent_text, n, lent_out, room);
    size_t written = check_written(got, wanted, lent_out, want);
    if (written == 0) {
        return;
    }
    for (size_t e = 0; e < END_COUNT; e++) {
        if (ENDS[e].side == h.side) {
            SAME(ours_read(ENDS[e], lent_out, written), packed(h.side == THERMOSTAT ? 1 : 2, h.address, h.start, (unsigned)n, h.half));
        }
    }
    CHECK(memcmp(lent_out + 3, text, n) == 0);
}

/* Puts the right sum behind n bytes. */
static size_t summed(uint8_t *bytes, size_t n)
{
    bytes[n] = (uint8_t)sum_of(bytes, n);
    return n + 1;
}

/* A text message: the two bytes before the start register, the start register, n characters, 03 and the right sum. */
static size_t put_text(uint8_t *to, unsigned first, unsigned second, unsigned start, const uint8_t *text, size_t n)
{
    to[0] = (uint8_t)first;
    to[1] = (uint8_t)second;
    to[2] = (uint8_t)start;
    memcpy(to + 3, text, n);
    to[n + 3] = TEXT_END;
    return summed(to, n + 4);
}

static uint32_t seed = 12345;

static uint8_t any_byte(void)
{
    seed = seed * 1664525 + 1013904223;
    return (uint8_t)(seed >> 24);
}

/* Every first byte, N and type, cut short, one too long, and with a wrong sum. */
static void test_heads(void)
{
    for (unsigned first = 0; first < 256; first++) {
        for (unsigned second = 0; second < 256; second++) {
            uint8_t bytes[24] = {(uint8_t)first, (uint8_t)second, 59, 3};
            size_t n = second >> 4;
            for (size_t i = 4; i < n + 2; i++) {
                bytes[i] = (uint8_t)(i * 40);
            }
            size_t len = summed(bytes, n + 2);
            read_both(bytes, len);
            read_both(bytes, len - 1);
            read_both(bytes, len + 1);
            bytes[len - 1] ^= 1;
            read_both(bytes, len);
        }
    }
}

/* Every start register with every count, in polls, sets and data. */
static void test_runs(void)
{
    for (unsigned start = 0; start < 256; start++) {
        for (unsigned count = 0; count < 256; count++) {
            uint8_t poll[5] = {0x7F, 0x20, (uint8_t)start, (uint8_t)count};
            read_both(poll, summed(poll, 4));
            write_one(ENDS[AT_THERMOSTAT], 1, 0, poll + 2, 2, 5);
        }
        for (unsigned n = 0; n < 16; n++) {
            uint8_t set[20] = {0xFA, (uint8_t)(n << 4 | 1), (uint8_t)start};
            read_both(set, summed(set, n + 2));
            set[1] = (uint8_t)(n << 4 | 2);
            read_both(set, summed(set, n + 2));
            write_one(ENDS[AT_THERMOSTAT], 0xFA, 1, set + 2, n, 18);
            write_to_hosts(0x7A, 2, set + 2, n, 18);
        }
    }
}

/* Every address or number, type and count of data bytes to write, and rooms around what is needed; at the host with either habit
   and every polled group. */
static void test_writes(void)
{
    uint8_t data[40];
    for (size_t i = 0; i < sizeof data; i++) {
        data[i] = (uint8_t)(i + 1);
    }
    for (size_t e = 0; e < END_COUNT; e++) {
        for (unsigned address = 0; address < 256; address++) {
            for (unsigned type = 0; type < 18; type++) {
                for (size_t n = 0; n < 18; n++) {
                    write_one(ENDS[e], address, type, data, n, 18);
                }
            }
        }
        for (unsigned type = 0; type < 256; type++) {
            for (size_t n = 0; n < 20; n++) {
                for (size_t room = 0; room < 24; room++) {
                    write_one(ENDS[e], 1, type, data, n, room);
                }
            }
        }
        write_one(ENDS[e], 1, 1, data, 40, 64);
        write_one(ENDS[e], 1, 2, data, 40, 64);
    }
}

/* Data bytes of a reply: a run of registers from 60 on, and a group of any length. */
static const uint8_t VALUES[LENT_MAX] = {60, 0x7C, 3, 0, 1, 0x78, 169, 18, 19, 20, 74, 0x87, 7, 165, 166, 167, 255, 128, 127};

/* Replies by type and count of data bytes: those that the habits tell apart, and others. */
static const struct reply {
    uint8_t type, n;
} REPLIES[] = {{3, 6}, {3, 10}, {4, 6}, {5, 10}, {3, 7}, {4, 10}, {5, 6}, {0, 0}, {1, 0}, {2, 3}, {2, 1}, {6, 6}};
enum { REPLY_COUNT = sizeof REPLIES / sizeof *REPLIES };

static size_t put_reply(uint8_t *to, unsigned number, struct reply r)
{
    to[0] = (uint8_t)(number + 0x80);
    to[1] = (uint8_t)(r.n << 4 | r.type);
    memcpy(to + 2, VALUES, r.n);
    return summed(to, r.n + 2u);
}

/* Every habit with every polled group, also those that are none: on no bytes, on one, on a reply, on a text, on a wrong sum and on a
   wrong direction; and to the writers, with room and with none, also for a wrong number. */
static void test_habits(void)
{
    for (unsigned habit = 0; habit < 256; habit++) {
        for (unsigned polled = 0; polled < 256; polled++) {
            struct end end = {HOST, habit, polled};
            struct reply r = REPLIES[(habit + polled) % REPLY_COUNT];
            uint8_t bytes[24];
            size_t len = put_reply(bytes, 9, r);
            read_one(end, NULL, 0);
            read_one(end, bytes, 1);
            read_one(end, bytes, len);
            len = put_text(bytes, 0x89, 0x32, 172, VALUES, 1);
            read_one(end, bytes, len);
            bytes[len - 1] ^= 1;
            read_one(end, bytes, len);
            bytes[0] = 9;
            read_one(end, bytes, len);
            write_one(end, 9, r.type, VALUES, r.n, 18);
            write_one(end, 0, r.type, VALUES, r.n, 0);
            write_group(end, 9, 1 + (habit + polled) % 3, VALUES, r.n, 18);
            write_group(end, 128, polled, VALUES, r.n, 0);
        }
    }
}

/* Types 3, 4 and 5, read and written. */
static void test_group_types(void)
{
    /* for six values, for ten, and for another count */
    static const unsigned answers[][3][3] = {
        {{0, 0, 7}, {7, 7, 0}, {7, 7, 7}},    /* numbered, whichever group was polled */
        {{0, 6, 6}, {7, 6, 6}, {7, 6, 6}},    /* printed, polled 1 or 2 */
        {{7, 6, 6}, {0, 6, 6}, {7, 6, 6}},    /* printed, polled 3 */
    };
    for (size_t e = FIRST_HOST; e < END_COUNT; e++) {
        size_t row = ENDS[e].habit == NUMBERED ? 0 : ENDS[e].polled < 3 ? 1 : 2;
        for (uint8_t type = 3; type <= 5; type++) {
            for (uint8_t n = 0; n < 16; n++) {
                uint8_t bytes[24], written[18];
                size_t len = put_reply(bytes, 127, (struct reply){type, n});
                unsigned want = answers[row][n == 6 ? 0 : n == 10 ? 1 : 2][type - 3];
                SAME(ours_read(ENDS[e], bytes, len), want ? want : packed(type, 127, 0, n, 0));
                SAME(ours_write(ENDS[e], 127, type, VALUES, n, written, sizeof written), want ? want : (uint64_t)len << 8);
                CHECK(want || memcmp(written, bytes, len) == 0);
            }
        }
    }
}

/* Every byte of a reply altered, with the sum left and made right; every cut, and a byte more. */
static void test_damaged_replies(void)
{
    for (size_t i = 0; i < REPLY_COUNT; i++) {
        uint8_t bytes[24];
        size_t len = put_reply(bytes, 0x7F, REPLIES[i]);
        for (size_t at = 0; at < len; at++) {
            for (unsigned altered = 0; altered < 256; altered++) {
                put_reply(bytes, 0x7F, REPLIES[i]);
                bytes[at] = (uint8_t)altered;
                read_both(bytes, len);
                summed(bytes, len - 1);
                read_both(bytes, len);
            }
        }
        put_reply(bytes, 0x7F, REPLIES[i]);
        bytes[len] = 0x81;
        for (size_t cut = 0; cut <= len + 1; cut++) {
            read_both(bytes, cut);
        }
    }
}

/* The replies of a group with every count of values up to 18, numbers around their bounds, and rooms around what is needed. */
static void write_group_around(struct end end, unsigned group)
{
    static const unsigned numbers[] = {0, 1, 127, 128, 255};
    for (size_t n = 0; n <= 18; n++) {
        for (size_t i = 0; i < sizeof numbers / sizeof *numbers; i++) {
            write_group(end, numbers[i], group, VALUES, n, 0);
            write_group(end, numbers[i], group, VALUES, n, n);
            for (size_t room = n + 2; room <= n + 4; room++) {
                write_group(end, numbers[i], group, VALUES, n, room);
            }
        }
    }
}

/* Each habit, polled group and group to write, also those that are none. */
static void test_group_writes(void)
{
    static const unsigned habits[] = {NUMBERED, PRINTED, 2, 255}, groups[] = {0, 1, 2, 3, 4, 255};
    enum { GROUPS = sizeof groups / sizeof *groups };
    for (size_t h = 0; h < sizeof habits / sizeof *habits; h++) {
        for (size_t p = 0; p < GROUPS; p++) {
            for (size_t g = 0; g < GROUPS; g++) {
                write_group_around((struct end){HOST, habits[h], groups[p]}, groups[g]);
            }
        }
    }
    for (size_t e = FIRST_HOST; e < END_COUNT; e++) {
        for (unsigned k = 0; k < 256; k++) {
            for (unsigned group = 1; group <= 3; group++) {
                write_group(ENDS[e], k, group, VALUES, group_length(group), 18);
                write_group(ENDS[e], 1, k, VALUES, group_length(group), group == 1 ? 0 : 18);
            }
        }
        /* counts that are 6 or 10 in their low byte, and long ones */
        for (size_t n = 256; n <= LENT_MAX; n = n < 272 ? n + 1 : n * 2) {
            write_group(ENDS[e], 1, ENDS[e].polled, VALUES, n, 64);
        }
    }
}

/* With the numbered habit the polled group changes no answer and no byte that is written. */
static void test_polled_with_numbers(void)
{
    for (unsigned second = 0; second < 256; second++) {
        struct reply r = {second & 15, (uint8_t)(second >> 4)};
        uint8_t bytes[24], first[36] = {0};
        size_t len = put_reply(bytes, 5, r);
        uint64_t read = omnistat_read_at_host(NUMBERED, 1, bytes, len);
        uint64_t written = omnistat_write_to_host(NUMBERED, 1, 5, r.type, VALUES, r.n, first, 18);
        uint64_t group = omnistat_write_group_to_host(NUMBERED, 1, 5, r.type, VALUES, r.n, first + 18, 18);
        for (uint8_t polled = 2; polled <= 3; polled++) {
            uint8_t other[36] = {0};
            SAME(omnistat_read_at_host(NUMBERED, polled, bytes, len), read);
            SAME(omnistat_write_to_host(NUMBERED, polled, 5, r.type, VALUES, r.n, other, 18), written);
            SAME(omnistat_write_group_to_host(NUMBERED, polled, 5, r.type, VALUES, r.n, other + 18, 18), group);
            CHECK(memcmp(other, first, sizeof other) == 0);
        }
    }
}

/* First and second bytes of a set at the thermostat and of data at the host, without the half-byte. */
static const uint8_t TEXT_HEADS[][2] = {{0x00, 1}, {0x01, 1}, {0x7F, 1}, {0xFA, 1}, {0x81, 2}, {0xFA, 2}, {0xFF, 2}};
enum { HEADS = sizeof TEXT_HEADS / sizeof *TEXT_HEADS };

/* A text as it is read: whole, a byte cut off, a byte more, with a wrong sum, and with 03 in place of the sum. */
static void read_around(uint8_t *bytes, size_t len)
{
    read_both(bytes, len);
    read_both(bytes, len - 1);
    read_both(bytes, len - 2);
    bytes[len] = 0x03;
    read_both(bytes, len + 1);
    bytes[len] = 0x41;
    read_both(bytes, len + 1);
    bytes[len - 1] ^= 0x10;
    read_both(bytes, len);
    read_both(bytes, len + 1);
    bytes[len - 1] = 0x03;
    read_both(bytes, len);
}

/* Every first and second byte: direction, half-byte and type. */
static void test_text_heads(void)
{
    static const uint8_t text[] = {'p', 'o', 'w', 'e', 'r', ' ', 'l', 'o', 'w'};
    for (unsigned first = 0; first < 256; first++) {
        for (unsigned second = 0; second < 256; second++) {
            uint8_t bytes[24];
            read_around(bytes, put_text(bytes, first, second, 175, text, second % 3 == 0 ? 0 : sizeof text));
        }
    }
}

/* Every half-byte and register, from two below the text registers to two above them, with texts of 0 to 62 characters. */
static void test_text_registers(void)
{
    uint8_t text[62], bytes[80];
    memset(text, 'x', sizeof text);
    for (unsigned head = 0; head < HEADS; head++) {
        for (unsigned half = 0; half < 16; half++) {
            for (unsigned start = FIRST_TEXT - 2; start <= LAST_TEXT + 2; start++) {
                for (size_t n = 0; n <= sizeof text; n++) {
                    read_around(bytes, put_text(bytes, TEXT_HEADS[head][0], half << 4 | TEXT_HEADS[head][1], start, text, n));
                }
            }
        }
    }
}

/* Every count of bytes after the start register up to 70, without 03 and with 03 at each of their places, the sum right or
   wrong. */
static void test_text_ends(void)
{
    for (unsigned head = 0; head < HEADS; head++) {
        for (size_t after = 0; after <= 70; after++) {
            for (size_t end = 0; end <= after; end++) {
                for (unsigned fill = 0x1F; fill <= 0x21; fill++) {
                    uint8_t bytes[80] = {TEXT_HEADS[head][0], (uint8_t)(fill << 4 | TEXT_HEADS[head][1]), 176};
                    memset(bytes + 3, (int)fill, after);
                    if (end < after) {
                        bytes[3 + end] = TEXT_END;
                    }
                    read_both(bytes, 3 + after);
                    if (after > 0) {
                        summed(bytes, 2 + after);
                        read_both(bytes, 3 + after);
                    }
                }
            }
        }
    }
}

/* Every byte at the first, a middle and the last place of a text, with a right and with a wrong sum. */
static void test_text_characters(void)
{
    static const size_t counts[] = {1, 2, 3, 14, 59, 60, 61};
    for (unsigned head = 0; head < HEADS; head++) {
        for (size_t i = 0; i < sizeof counts / sizeof *counts; i++) {
            const size_t places[] = {0, counts[i] / 2, counts[i] - 1};
            for (size_t k = 0; k < 3; k++) {
                for (unsigned c = 0; c < 256; c++) {
                    uint8_t text[61], bytes[70];
                    memset(text, '~', sizeof text);
                    text[places[k]] = (uint8_t)c;
                    read_around(bytes, put_text(bytes, TEXT_HEADS[head][0], TEXT_HEADS[head][1], 180, text, counts[i]));
                }
            }
        }
    }
}

/* Long inputs: a text that never ends, one that ends too late, one with much behind it. */
static void test_text_long(void)
{
    static uint8_t bytes[LENT_MAX];
    for (unsigned head = 0; head < HEADS; head++) {
        for (size_t len = 60; len <= LENT_MAX; len = len < 80 ? len + 1 : len * 2) {
            memset(bytes, ' ', sizeof bytes);
            memcpy(bytes, (const uint8_t[]){TEXT_HEADS[head][0], TEXT_HEADS[head][1], 172}, 3);
            read_both(bytes, len);
            bytes[len - 2] = TEXT_END;
            summed(bytes, len - 1);
            read_both(bytes, len);
            bytes[5] = TEXT_END;
            read_both(bytes, len);
        }
    }
}

/* Every address, half-byte and start register to a text writer; every length, with rooms around what is needed. */
static void test_text_writes(void)
{
    static uint8_t text[LENT_MAX];
    memset(text, 'n', sizeof text);
    for (unsigned side = THERMOSTAT; side <= HOST; side++) {
        for (unsigned k = 0; k < 256; k++) {
            for (size_t n = 0; n <= TEXT_MAX + 1; n += n < 59 && n > 0 ? 29 : 1) {
                for (size_t room = n + 4; room <= n + 6; room++) {
                    write_text((struct text_head){side, k, 2, 175}, text, n, room);
                    write_text((struct text_head){side, 0x7F, k, 172}, text, n, room);
                    write_text((struct text_head){side, 1, 15, k}, text, n, room);
                }
            }
        }
        for (unsigned start = FIRST_TEXT - 1; start <= LAST_TEXT + 1; start++) {
            for (unsigned half = 0; half <= 16; half++) {
                for (size_t n = 0; n <= TEXT_MAX + 1; n++) {
                    write_text((struct text_head){side, 0x7A, half, start}, text, n, 65);
                }
            }
        }
        for (size_t n = 0; n <= 70; n++) {
            for (size_t room = 0; room <= 80; room++) {
                write_text((struct text_head){side, 9, 0, 181}, text, n, room);
            }
        }
        for (size_t n = 61; n <= LENT_MAX; n = n < 1024 ? n + 1 : n * 2) {
            write_text((struct text_head){side, 9, 0, 181}, text, n, n % 2 ? LENT_MAX : 64);
        }
    }
}

/* Every byte at each place of a text to write, with room and without. */
static void test_text_written_characters(void)
{
    static const size_t counts[] = {1, 2, 3, 59, 60, 61};
    for (unsigned side = THERMOSTAT; side <= HOST; side++) {
        for (size_t i = 0; i < sizeof counts / sizeof *counts; i++) {
            for (size_t place = 0; place < counts[i]; place++) {
                for (unsigned c = 0; c < 256; c++) {
                    uint8_t text[61];
                    memset(text, ' ', sizeof text);
                    text[place] = (uint8_t)c;
                    write_text((struct text_head){side, 1, 0, 178}, text, counts[i], c % 4 ? 65 : 0);
                }
            }
        }
    }
}

/* Bytes at random, most of them with a right sum. */
static void test_random(void)
{
    for (int i = 0; i < 200000; i++) {
        uint8_t bytes[32];
        size_t n = any_byte() % 20;
        for (size_t k = 0; k < n; k++) {
            bytes[k] = any_byte();
        }
        if (n >= 2 && any_byte() % 8 != 0) {
            bytes[0] = any_byte() % 2 ? bytes[0] : 0xFA;
            bytes[1] = (uint8_t)((n - 2) << 4 | any_byte() % 7);
            n = summed(bytes, n);
        }
        read_both(bytes, n);
    }
}

/* Texts at random, many of them with something wrong. */
static void test_random_texts(void)
{
    for (int i = 0; i < 200000; i++) {
        uint8_t text[66], bytes[80];
        size_t n = any_byte() % 4 ? any_byte() % 61 : any_byte() % 66;
        for (size_t k = 0; k < n; k++) {
            text[k] = (uint8_t)(0x20 + any_byte() % 95);
        }
        if (n > 0 && any_byte() % 4 == 0) {
            text[any_byte() % n] = any_byte();
        }
        const uint8_t *head = TEXT_HEADS[any_byte() % HEADS];
        size_t len = put_text(bytes, head[0], (any_byte() & 0xF0u) | head[1], 171 + any_byte() % 12u, text, n);
        if (any_byte() % 4 == 0) {
            bytes[any_byte() % len] = any_byte();
        }
        if (any_byte() % 4 == 0) {
            len -= any_byte() % len;
        }
        read_both(bytes, len);
    }
}

/* A habit or a polled group that is none is 8 before all else. */
static void test_wrong_habits(void)
{
    static const uint8_t acknowledge[] = {0x81, 0x00, 0x81}, group[] = {0x81, 0x63, 1, 2, 3, 4, 5, 6, 0xF9};
    static const uint8_t wrong[][2] = {{2, 1}, {255, 3}, {NUMBERED, 0}, {NUMBERED, 4}, {PRINTED, 0}, {PRINTED, 4}, {PRINTED, 255}, {2, 0}};
    for (size_t i = 0; i < sizeof wrong / sizeof *wrong; i++) {
        uint8_t habit = wrong[i][0], polled = wrong[i][1];
        SAME(omnistat_read_at_host(habit, polled, NULL, 0), 8);                                 /* before 1 */
        SAME(omnistat_read_at_host(habit, polled, group + 2, 7), 8);                            /* before 2 */
        SAME(omnistat_read_at_host(habit, polled, group, 8), 8);
        SAME(omnistat_read_at_host(habit, polled, acknowledge, 3), 8);
        SAME(omnistat_write_to_host(habit, polled, 1, 15, NULL, 0, NULL, 0), 8);                /* before 6 */
        SAME(omnistat_write_to_host(habit, polled, 1, 3, group + 2, 5, NULL, 0), 8);            /* before 7 */
        SAME(omnistat_write_to_host(habit, polled, 1, 0, NULL, 0, NULL, 0), 8);                 /* before 9 */
        SAME(omnistat_write_group_to_host(habit, polled, 1, 1, NULL, 0, NULL, 0), 8);
        SAME(omnistat_write_group_to_host(habit, polled, 1, 1, group + 2, 6, NULL, 0), 8);
    }
}

/* The other refusals of a group, in their order. */
static void test_group_order(void)
{
    static const uint8_t six[] = {1, 2, 3, 4, 5, 6};
    SAME(omnistat_read_at_host(NUMBERED, 1, NULL, 0), 1);
    SAME(omnistat_read_at_host(PRINTED, 3, NULL, 0), 1);
    for (uint8_t habit = NUMBERED; habit <= PRINTED; habit++) {
        SAME(omnistat_write_group_to_host(habit, 1, 1, 0, NULL, 0, NULL, 0), 8);
        SAME(omnistat_write_group_to_host(habit, 1, 1, 4, NULL, 0, NULL, 0), 8);
        SAME(omnistat_write_group_to_host(habit, 1, 1, 1, NULL, 0, NULL, 0), 7);
        SAME(omnistat_write_group_to_host(habit, 1, 0, 1, six, 5, NULL, 0), 7);          /* 7 before 8 for the number */
        SAME(omnistat_write_group_to_host(habit, 1, 0, 1, six, 6, NULL, 0), 8);          /* 8 before 9 */
        SAME(omnistat_write_group_to_host(habit, 1, 128, 1, six, 6, NULL, 0), 8);
        SAME(omnistat_write_group_to_host(habit, 1, 1, 1, six, 6, NULL, 0), 9);
    }
    /* printed: 7 by the polled group, then 8 for a group that was not polled, before the number and the room */
    SAME(omnistat_write_group_to_host(PRINTED, 3, 1, 1, six, 6, NULL, 0), 7);
    SAME(omnistat_write_group_to_host(PRINTED, 1, 1, 3, VALUES, 10, NULL, 0), 7);
    SAME(omnistat_write_group_to_host(PRINTED, 1, 1, 2, six, 6, NULL, 0), 8);
    SAME(omnistat_write_group_to_host(PRINTED, 1, 1, 3, six, 6, NULL, 0), 8);
    SAME(omnistat_write_group_to_host(PRINTED, 3, 0, 1, VALUES, 10, NULL, 0), 8);
    SAME(omnistat_write_to_host(PRINTED, 1, 0, 4, six, 5, NULL, 0), 6);
    SAME(omnistat_write_to_host(PRINTED, 3, 0, 3, six, 6, NULL, 0), 7);
    SAME(omnistat_write_to_host(PRINTED, 3, 0, 3, VALUES, 10, NULL, 0), 8);
    SAME(omnistat_write_to_host(PRINTED, 3, 1, 3, VALUES, 10, NULL, 0), 9);
}

/* The replies of each group as bytes, with either habit. */
static void test_habit_examples(void)
{
    static const uint8_t values[] = {1, 2, 3, 4, 5, 6, 7, 8, 9, 10};
    static const struct {
        uint8_t habit, polled, group, n, bytes[13];
    } examples[] = {
        {NUMBERED, 3, 1, 6, {0x81, 0x63, 1, 2, 3, 4, 5, 6, 0xF9}},
        {NUMBERED, 1, 2, 6, {0x81, 0x64, 1, 2, 3, 4, 5, 6, 0xFA}},
        {NUMBERED, 2, 3, 10, {0x81, 0xA5, 1, 2, 3, 4, 5, 6, 7, 8, 9, 10, 0x5D}},
        {PRINTED, 1, 1, 6, {0x81, 0x63, 1, 2, 3, 4, 5, 6, 0xF9}},
        {PRINTED, 2, 2, 6, {0x81, 0x63, 1, 2, 3, 4, 5, 6, 0xF9}},
        {PRINTED, 3, 3, 10, {0x81, 0xA3, 1, 2, 3, 4, 5, 6, 7, 8, 9, 10, 0x5B}},
    };
    SAME(OMNISTAT_NUMBERED, NUMBERED);
    SAME(OMNISTAT_PRINTED, PRINTED);
    for (size_t i = 0; i < sizeof examples / sizeof *examples; i++) {
        uint8_t habit = examples[i].habit, polled = examples[i].polled, n = examples[i].n, written[13] = {0};
        SAME(omnistat_write_group_to_host(habit, polled, 1, examples[i].group, values, n, written, sizeof written), (n + 3u) << 8);
        CHECK(memcmp(written, examples[i].bytes, sizeof written) == 0);
        SAME(omnistat_read_at_host(habit, polled, written, n + 3u), packed(written[1] & 15, 1, 0, n, 0));
    }
    SAME(omnistat_read_at_host(PRINTED, 2, examples[1].bytes, 9), 6);
    SAME(omnistat_read_at_host(PRINTED, 3, examples[0].bytes, 9), 7);
    SAME(omnistat_read_at_host(PRINTED, 1, examples[5].bytes, 13), 7);
    SAME(omnistat_read_at_host(NUMBERED, 3, examples[5].bytes, 13), 7);
    SAME(omnistat_read_at_host(PRINTED, 3, examples[2].bytes, 13), 6);
}

/* Bytes, and what the two ends answer: documents 02 and 004 on texts. */
static void test_text_examples(void)
{
    static const uint8_t custom[] = {'C', 'U', 'S', 'T', 'O', 'M', ' ', 'M', 'E', 'S', 'S', 'A', 'G', 'E'};
    uint8_t bytes[80];
    /* As document 004 prints it, with the sum 34, a slip for D4. */
    size_t len = put_text(bytes, 0x01, 0x21, 0xAF, custom, sizeof custom);
    SAME(len, 19);
    SAME(bytes[18], 0xD4);
    SAME(omnistat_read_at_thermostat(bytes, len), UINT64_C(0x020EAF010100));
    SAME(omnistat_read_at_host(NUMBERED, 1, bytes, len), 2);
    bytes[18] = 0x34;
    SAME(omnistat_read_at_thermostat(bytes, len), 5);
    SAME(omnistat_read_at_thermostat(bytes, len - 1), 1);
    SAME(omnistat_read_at_thermostat(bytes, len - 2), 1);
    SAME(omnistat_read_at_thermostat(bytes, len + 1), 4);

    static const struct {
        uint8_t bytes[8];
        size_t len;
        uint64_t at_thermostat, at_host;
    } examples[] = {
        {{0x01, 0x01, 0xAF, 'H', 'I', 0x03, 0x45}, 7, UINT64_C(0x02AF010100), 2},
        {{0x00, 0x01, 0xAF, 'H', 'I', 0x03, 0x44}, 7, UINT64_C(0x02AF000100), 2},
        {{0x81, 0x02, 0xAF, 'H', 'I', 0x03, 0xC6}, 7, 2, UINT64_C(0x02AF010200)},
        {{0x81, 0xF2, 0xAF, 'H', 'I', 0x03, 0xB6}, 7, 2, UINT64_C(0x0F02AF010200)},
        {{0xFA, 0x01, 0xB5, 0x03, 0xB3}, 5, UINT64_C(0xB5FA0100), 4},        /* no data: counted at the host */
        {{0xFA, 0x02, 0xAC, 0x03, 0xAB}, 5, 4, UINT64_C(0xAC7A0200)},        /* no set: counted at the thermostat */
        {{0xAA, 0x02, 0xAC}, 3, 2, 1},                     /* a whole counted message without values before; a text now */
        {{0x01, 0x01, 0xAC}, 3, 1, 2},
        {{0x01, 0x01}, 2, 1, 2},
        {{0x80, 0x01}, 2, 2, 2},
        {{0x80, 0x01, 0xAC, 0x03}, 4, 2, 2},
        {{0x01, 0x01, 0xAC, 0x03}, 4, 1, 2},
        {{0x01, 0x21, 0xAC, 0x50, 0x1E}, 5, 1, 2},         /* a set of one register, as it is counted elsewhere */
        {{0x01, 0x21, 0xAC, 0x03, 0xD1}, 5, UINT64_C(0x0200AC010100), 2},
        {{0x01, 0x21, 0xAC, 0x03, 0xD1, 0x00}, 6, 4, 2},
        {{0x01, 0x21, 0xAC, 0x1F, 0x03, 0xF0}, 6, 8, 2},   /* a wrong character, after the sum */
        {{0x01, 0x21, 0xAC, 0x1F, 0x03, 0xF1}, 6, 5, 2},
        {{0x01, 0x21, 0xAC, 0x1F, 0x03, 0xF0, 0x00}, 7, 4, 2},
        {{0x01, 0x21, 0xAC, 0x20, 0x03, 0xF1}, 6, UINT64_C(0x0201AC010100), 2},
        {{0x01, 0x21, 0xAC, 0x7E, 0x03, 0x4F}, 6, UINT64_C(0x0201AC010100), 2},
        {{0x01, 0x21, 0xAC, 0x7F, 0x03, 0x50}, 6, 8, 2},
        {{0x01, 0x21, 0xAB, 0x03, 0xD0}, 5, UINT64_C(0x01AB010100), 2},      /* 171 and 182 hold no text */
        {{0x01, 0x21, 0xB6, 0x03, 0xDB}, 5, UINT64_C(0x01B6010100), 2},
        {{0x01, 0x31, 0xAB, 0x03, 0x03, 0xE3}, 6, 8, 2},                     /* a run from 171 meets 172 */
        {{0x01, 0x20, 0xAC, 0x01, 0xCE}, 5, UINT64_C(0x01AC010000), 2},      /* polls: count 1 from 172 to 181 */
        {{0x01, 0x20, 0xB5, 0x01, 0xD7}, 5, UINT64_C(0x01B5010000), 2},
        {{0x01, 0x20, 0xAC, 0x00, 0xCD}, 5, 8, 2},
        {{0x01, 0x20, 0xAC, 0x02, 0xCF}, 5, 8, 2},
        {{0x01, 0x20, 0xB5, 0x02, 0xD8}, 5, 8, 2},
        {{0x01, 0x20, 0xAB, 0x01, 0xCD}, 5, UINT64_C(0x01AB010000), 2},
        {{0x01, 0x20, 0xAB, 0x02, 0xCE}, 5, 8, 2},
        {{0x01, 0x20, 0xB6, 0x0E, 0xE5}, 5, UINT64_C(0x0EB6010000), 2},
    };
    for (size_t i = 0; i < sizeof examples / sizeof *examples; i++) {
        SAME(omnistat_read_at_thermostat(examples[i].bytes, examples[i].len), examples[i].at_thermostat);
        for (size_t e = FIRST_HOST; e < END_COUNT; e++) {
            SAME(ours_read(ENDS[e], examples[i].bytes, examples[i].len), examples[i].at_host);
        }
    }
}

/* Texts of 60 and 61 characters, and 60, 61 and 62 bytes without 03. */
static void test_text_bounds(void)
{
    uint8_t bytes[80], text[62];
    memset(text, 'z', sizeof text);
    size_t len = put_text(bytes, 0x01, 0x01, 172, text, 60);
    SAME(omnistat_read_at_thermostat(bytes, len), UINT64_C(0x3CAC010100));
    SAME(omnistat_read_at_thermostat(bytes, len - 1), 1);
    SAME(omnistat_read_at_thermostat(bytes, len - 2), 1);    /* 60 bytes without 03 */
    len = put_text(bytes, 0x01, 0x01, 172, text, 61);
    SAME(omnistat_read_at_thermostat(bytes, len), 8);
    SAME(omnistat_read_at_thermostat(bytes, len - 1), 8);
    SAME(omnistat_read_at_thermostat(bytes, len - 2), 8);    /* 61 */
    SAME(omnistat_read_at_thermostat(bytes, len - 3), 1);    /* 60 */
    put_text(bytes, 0x01, 0x01, 172, text, 62);
    SAME(omnistat_read_at_thermostat(bytes, 65), 8);         /* 62 */
    bytes[0] = 0x80;
    SAME(omnistat_read_at_thermostat(bytes, 65), 2);
    SAME(omnistat_read_at_thermostat(bytes, 3), 2);
    len = put_text(bytes, 0xFF, 0x02, 181, text, 60);
    SAME(omnistat_read_at_host(NUMBERED, 1, bytes, len), UINT64_C(0x3CB57F0200));
    SAME(omnistat_read_at_host(NUMBERED, 1, bytes, len + 1), 4);
    len = put_text(bytes, 0xFF, 0x02, 181, text, 61);
    SAME(omnistat_read_at_host(NUMBERED, 1, bytes, len), 8);
    SAME(omnistat_read_at_host(NUMBERED, 1, bytes, len - 3), 1);

    SAME(omnistat_write_text_to_thermostat(1, 0, 175, NULL, 0, bytes, 5), 5 << 8);
    CHECK(memcmp(bytes, (const uint8_t[]){0x01, 0x01, 0xAF, 0x03, 0xB4}, 5) == 0);
    SAME(omnistat_write_text_to_host(1, 15, 175, text, 2, bytes, 7), 7 << 8);
    CHECK(memcmp(bytes, (const uint8_t[]){0x81, 0xF2, 0xAF, 'z', 'z', 0x03, 0x19}, 7) == 0);
    SAME(omnistat_write_text_to_thermostat(1, 0, 175, NULL, 0, NULL, 0), 9);
    SAME(omnistat_write_text_to_host(1, 0, 175, NULL, 0, bytes, 4), 9);
    SAME(omnistat_write_text_to_host(0, 0, 175, NULL, 0, NULL, 0), 8);
    SAME(omnistat_write_text_to_host(128, 0, 175, NULL, 0, bytes, 5), 8);
    SAME(omnistat_write_text_to_thermostat(0x80, 0, 175, NULL, 0, NULL, 0), 8);
    SAME(omnistat_write_text_to_thermostat(1, 16, 175, NULL, 0, NULL, 0), 8);
    SAME(omnistat_write_text_to_thermostat(1, 0, 171, NULL, 0, NULL, 0), 8);
    SAME(omnistat_write_text_to_thermostat(1, 0, 182, NULL, 0, NULL, 0), 8);
    SAME(omnistat_write_text_to_thermostat(1, 0, 181, text, 61, NULL, 0), 8);

    /* The writers of a type and data bytes write no text. */
    const uint8_t set[16] = {172, 'H', 0x03};
    SAME(omnistat_write_to_thermostat(1, 1, set, 2, bytes, 18), 8);
    SAME(omnistat_write_to_thermostat(1, 1, set, 3, NULL, 0), 8);
    SAME(omnistat_write_to_thermostat(1, 1, set, 1, bytes, 18), 7);
    SAME(omnistat_write_to_thermostat(1, 1, set, 16, bytes, 18), 7);
    SAME(omnistat_write_to_host(NUMBERED, 1, 1, 2, set, 2, bytes, 18), 8);
    SAME(omnistat_write_to_host(NUMBERED, 1, 1, 2, set, 16, bytes, 18), 7);
    const uint8_t poll[] = {172, 1, 181, 1, 181, 2};
    SAME(omnistat_write_to_thermostat(1, 0, poll, 2, bytes, 5), 5 << 8);
    SAME(omnistat_write_to_thermostat(1, 0, poll + 2, 2, bytes, 5), 5 << 8);
    SAME(omnistat_write_to_thermostat(1, 0, poll + 4, 2, NULL, 0), 8);
}

/* The examples of documents 01 and 004. */
static void test_examples(void)
{
    const uint8_t poll_group[] = {0x01, 0x02, 0x03};
    SAME(omnistat_read_at_thermostat(poll_group, 3), 0x0000010200);
    SAME(omnistat_read_at_host(NUMBERED, 1, poll_group, 3), 2);

    uint8_t group[] = {0x81, 0x63, 0x7C, 0x6E, 0x03, 0x00, 0x00, 0x78, 0};
    SAME(omnistat_read_at_host(NUMBERED, 1, group, summed(group, 8)), UINT64_C(0x0600010300));
    SAME(omnistat_read_at_thermostat(group, 9), 2);

    uint8_t set_time[] = {0x00, 0x41, 0x41, 0x00, 0x1E, 0x0C, 0};
    SAME(omnistat_read_at_thermostat(set_time, summed(set_time, 6)), UINT64_C(0x0341000100));

    const uint8_t set_cool[] = {0x01, 0x21, 0x3B, 0x7C, 0xD9};
    SAME(omnistat_read_at_thermostat(set_cool, 5), UINT64_C(0x013B010100));
    uint8_t set_five[] = {0x05, 0x21, 0x3B, 0x7C, 0};
    SAME(omnistat_read_at_thermostat(set_five, summed(set_five, 4)), UINT64_C(0x013B050100));

    const uint8_t acknowledge[] = {0x85, 0x00, 0x85};
    SAME(omnistat_read_at_host(NUMBERED, 1, acknowledge, 3), 0x050000);
    const uint8_t negative[] = {0x81, 0x01, 0x82};
    SAME(omnistat_read_at_host(NUMBERED, 1, negative, 3), 0x010100);

    /* FA: universal at the thermostat, thermostat 7A's reply at the host. */
    const uint8_t universal[] = {0xFA, 0x00, 0xFA};
    SAME(omnistat_read_at_thermostat(universal, 3), 7);
    SAME(omnistat_read_at_host(NUMBERED, 1, universal, 3), 0x7A0000);
    const uint8_t to_all[] = {0xFA, 0x02, 0xFC};
    SAME(omnistat_read_at_thermostat(to_all, 3), 0xFA0200);

    const uint8_t unlisted[] = {0x01, 0x20, 0x44, 0x02, 0x67};
    SAME(omnistat_read_at_thermostat(unlisted, 5), UINT64_C(0x0244010000));

    SAME(omnistat_read_at_thermostat(NULL, 0), 1);
    SAME(omnistat_read_at_host(NUMBERED, 1, NULL, 0), 1);
    SAME(omnistat_write_to_host(NUMBERED, 1, 1, 0, NULL, 0, NULL, 0), 9);
    SAME(omnistat_write_to_thermostat(0x80, 2, NULL, 0, NULL, 0), 8);
}

int main(void)
{
    test_heads();
    test_runs();
    test_writes();
    test_random();
    test_habits();
    test_group_types();
    test_damaged_replies();
    test_group_writes();
    test_polled_with_numbers();
    test_text_heads();
    test_text_registers();
    test_text_ends();
    test_text_characters();
    test_text_long();
    test_text_writes();
    test_text_written_characters();
    test_random_texts();
    test_examples();
    test_wrong_habits();
    test_group_order();
    test_habit_examples();
    test_text_examples();
    test_text_bounds();
    return check_end();
}

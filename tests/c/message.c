/* Omni-Link messages: every type, every refusal, both edges of every range and every bit of the packed fields, against
   document 01's section "Omni-Link messages" written out in C. */
#include "check.h"
#include "frame.h"
#include "gateway.h"
#include "message.h"

static unsigned message_refusal(const uint8_t *s, size_t n, unsigned *items)
{
    unsigned r = frame_refusal(s, n);
    return r ? r : data_refusal(s[2], s + 3, (size_t)s[1] - 1, items);
}

static uint64_t plain_read(const uint8_t *s, size_t n)
{
    unsigned items;
    unsigned r = message_refusal(s, n, &items);
    return r ? r : (uint64_t)s[2] << 8 | (uint64_t)items << 16;
}

/* An item call's refusals: the reader's, then 8 for another type and for an index past the last. */
static unsigned item_refusal(const uint8_t *s, size_t n, uint8_t type, size_t i)
{
    unsigned items;
    unsigned r = message_refusal(s, n, &items);
    if (r) return r;
    if (s[2] != type) return 8;
    return i < (type == 0x0E ? 9 : type == 0x0F ? 1 : items) ? 0 : 8;
}

static uint64_t plain_zone(const uint8_t *s, size_t n, size_t i)
{
    unsigned r = item_refusal(s, n, 0x16, i);
    if (r) return r;
    uint64_t status = s[3 + 2 * i], reading = s[4 + 2 * i];
    return (status & 3) << 8 | (status >> 2 & 3) << 16 | (status >> 4 & 3) << 24 | (status >> 6 & 1) << 32 | reading << 40;
}

static uint64_t plain_event(const uint8_t *s, size_t n, size_t i)
{
    unsigned r = item_refusal(s, n, 0x23, i);
    return r ? r : (uint64_t)s[3 + 2 * i] << 16 | (uint64_t)s[4 + 2 * i] << 8;
}

static uint64_t plain_text(const uint8_t *s, size_t n, size_t i)
{
    unsigned r = item_refusal(s, n, 0x25, i);
    if (r) return r;
    unsigned two = s[4 + i / 4] >> (6 - 2 * (i % 4)) & 3;
    return (uint64_t)(two & 1) << 8 | (uint64_t)(two >> 1) << 16;
}

static uint64_t plain_command(const uint8_t *s, size_t n)
{
    unsigned r = item_refusal(s, n, 0x0F, 0);
    if (r) return r;
    uint64_t command = s[3], unit = 0, count = s[4], p2 = (uint64_t)s[5] << 8 | s[6];
    if (command <= 1 && count > 0) {
        unit = count / 100 + 1;
        count %= 100;
    }
    return command << 8 | unit << 16 | count << 24 | p2 << 32;
}

static uint64_t plain_log(const uint8_t *s, size_t n, size_t field)
{
    unsigned r = item_refusal(s, n, 0x0E, field);
    if (r) return r;
    return (uint64_t)(field == 8 ? (unsigned)s[11] << 8 | s[12] : s[3 + field]) << 8;
}

static struct lent input, given, output;
static uint8_t frame[80];

/* Reads a lent copy, which no answer may change. */
static void read_same(const uint8_t *bytes, size_t len)
{
    const uint8_t *s = lend_copy(&input, bytes, len);
    SAME(omnilink_message_read(s, len), plain_read(s, len));
    CHECK(kept_from(&input, 0));
}

static void item_same(const uint8_t *s, size_t len, size_t i)
{
    SAME(omnilink_zone(s, len, i), plain_zone(s, len, i));
    SAME(omnilink_event(s, len, i), plain_event(s, len, i));
    SAME(omnilink_text_message(s, len, i), plain_text(s, len, i));
    SAME(omnilink_log_entry(s, len, i), plain_log(s, len, i));
}

/* Every call on these bytes, at indices to past the last of any type and far beyond. */
static void all_same(const uint8_t *bytes, size_t len)
{
    static const size_t far[] = {255, 256, 65536, (size_t)1 << 32, (size_t)1 << 63, SIZE_MAX / 2, SIZE_MAX - 1, SIZE_MAX};
    read_same(bytes, len);
    const uint8_t *s = lend_copy(&input, bytes, len);
    SAME(omnilink_command(s, len), plain_command(s, len));
    for (size_t i = 0; i <= 130; i++) {
        item_same(s, len, i);
    }
    for (size_t k = 0; k < sizeof far / sizeof far[0]; k++) {
        item_same(s, len, far[k]);
    }
    CHECK(kept_from(&input, 0));
}

/* Every type byte at every length. */
static void types_and_lengths(void)
{
    unsigned long accepted = 0;
    for (unsigned type = 0; type < 256; type++) {
        for (size_t n = 0; n <= 64; n++) {
            uint8_t d[64];
            accepted_data((uint8_t)type, n, d);
            size_t size = frame_write((uint8_t)type, d, n, frame);
            if (memchr(types, (int)type, sizeof types)) {
                all_same(frame, size);
            } else {
                read_same(frame, size);
                item_same(frame, size, n);
                SAME(omnilink_command(frame, size), 6);
            }
            accepted += answer_of(omnilink_message_read(frame, size)) == 0;
        }
    }
    /* seven and four types of one length, zones 1 to 32, events 0 to 32, three lengths of text messages */
    SAME(accepted, 7 + 4 + 32 + 33 + 3);
}

/* Each data byte of each type at each of its values, the others accepted. */
static void fields(void)
{
    for (size_t t = 0; t < sizeof types; t++) {
        for (size_t n = 0; n <= 64; n++) {
            uint8_t d[64];
            unsigned items;
            accepted_data(types[t], n, d);
            if (data_refusal(types[t], d, n, &items)) {
                continue;
            }
            for (size_t i = 0; i < n; i++) {
                uint8_t kept = d[i];
                for (unsigned v = 0; v < 256; v++) {
                    d[i] = (uint8_t)v;
                    size_t size = frame_write(types[t], d, n, frame);
                    read_same(frame, size);
                    item_same(frame, size, types[t] == 0x0E ? i - i / 9 : types[t] == 0x25 ? 4 * i + v % 4 - 4 : i / 2);
                }
                d[i] = kept;
            }
        }
    }
}

static void zone_requests(void)
{
    for (unsigned first = 0; first < 256; first++) {
        for (unsigned last = 0; last < 256; last++) {
            uint8_t d[2] = {(uint8_t)first, (uint8_t)last};
            SAME(omnilink_message_read(frame, frame_write(0x15, d, 2, frame)), 1 <= first && first <= last ? 0x1500 : 8);
        }
    }
}

static void commands(void)
{
    static const unsigned p2s[] = {0, 1, 2, 4, 8, 16, 32, 64, 128, 255, 256, 512, 1024, 2048, 4096, 8192, 16384, 32768, 65535};
    for (unsigned command = 0; command < 256; command++) {
        for (unsigned p1 = 0; p1 < 256; p1++) {
            for (size_t k = 0; k < sizeof p2s / sizeof p2s[0]; k++) {
                uint8_t d[4] = {(uint8_t)command, (uint8_t)p1, (uint8_t)(p2s[k] >> 8), (uint8_t)p2s[k]};
                size_t size = frame_write(0x0F, d, 4, frame);
                SAME(omnilink_command(frame, size), plain_command(frame, size));
                SAME(omnilink_message_read(frame, size), command_listed(d) ? 0x0F00 : 8);
            }
        }
    }
    /* the edges of the durations, as the header counts them */
    static const struct { uint8_t p1; uint64_t unit, count; } edges[] = {
        {0, 0, 0}, {1, 1, 1}, {99, 1, 99}, {101, 2, 1}, {199, 2, 99}, {201, 3, 1}, {218, 3, 18},
    };
    for (size_t k = 0; k < sizeof edges / sizeof edges[0]; k++) {
        for (uint8_t on = 0; on < 2; on++) {
            uint8_t d[4] = {on, edges[k].p1, 0x12, 0x34};
            SAME(omnilink_command(frame, frame_write(0x0F, d, 4, frame)),
                 (uint64_t)on << 8 | edges[k].unit << 16 | edges[k].count << 24 | UINT64_C(0x1234) << 32);
        }
    }
    static const uint8_t outside[] = {100, 200, 219, 255};
    for (size_t k = 0; k < sizeof outside; k++) {
        uint8_t d[4] = {1, outside[k], 0, 1};
        SAME(omnilink_command(frame, frame_write(0x0F, d, 4, frame)), 8);
    }
}

/* The calendar ranges with each flag, and both edges of each range. */
static void log_entries(void)
{
    static const uint8_t flags[] = {0, 1, 2, 128, 255};
    for (size_t f = 0; f < sizeof flags; f++) {
        for (size_t i = 0; i < 10; i++) {
            for (unsigned v = 0; v < 256; v++) {
                uint8_t d[10] = {7, flags[f], 12, 31, 23, 59, 0x81, 0x42, 0x12, 0x34};
                d[i] = (uint8_t)v;
                size_t size = frame_write(0x0E, d, 10, frame);
                read_same(frame, size);
                for (size_t field = 0; field <= 9; field++) {
                    SAME(omnilink_log_entry(frame, size, field), plain_log(frame, size, field));
                }
            }
        }
    }
    uint8_t d[10] = {1, 0, 0, 99, 24, 60, 0, 0, 0xAB, 0xCD};
    size_t size = frame_write(0x0E, d, 10, frame);
    SAME(omnilink_log_entry(frame, size, 3), 99 << 8);
    SAME(omnilink_log_entry(frame, size, 8), 0xABCD00);
    SAME(omnilink_log_entry(frame, size, 9), 8);
    SAME(omnilink_message_read(frame, frame_write(0x0E, d, 9, frame)), 7);
}

/* The status of one zone in each place, by hand: every value of each field. */
static void zones(void)
{
    for (size_t n = 1; n <= 32; n++) {
        for (unsigned status = 0; status < 256; status++) {
            uint8_t d[64] = {0};
            d[2 * n - 2] = (uint8_t)status;
            d[2 * n - 1] = (uint8_t)(255 - status);
            size_t size = frame_write(0x16, d, 2 * n, frame);
            int listed = status < 128 && status % 4 != 3 && status / 4 % 4 != 3;
            uint64_t want = (uint64_t)(status % 4) << 8 | (uint64_t)(status / 4 % 4) << 16
                            | (uint64_t)(status / 16 % 4) << 24 | (uint64_t)(status / 64) << 32 | (uint64_t)(255 - status) << 40;
            SAME(omnilink_zone(frame, size, n - 1), listed ? want : 8);
            SAME(omnilink_zone(frame, size, n), 8);
        }
    }
}

/* Four messages a byte, the lowest-numbered in the two high bits. */
static void text_messages(void)
{
    uint8_t d[33] = {0, 0x1B};
    size_t size = frame_write(0x25, d, 5, frame);
    SAME(omnilink_message_read(frame, size), 0x102500);
    SAME(omnilink_text_message(frame, size, 0), 0);
    SAME(omnilink_text_message(frame, size, 1), 0x000100);
    SAME(omnilink_text_message(frame, size, 2), 0x010000);
    SAME(omnilink_text_message(frame, size, 3), 0x010100);
    SAME(omnilink_text_message(frame, size, 16), 8);
    SAME(omnilink_message_read(frame, frame_write(0x25, d, 17, frame)), 0x402500);
    SAME(omnilink_message_read(frame, frame_write(0x25, d, 33, frame)), 0x802500);
}

/* The frame reader's refusals come first, in every call. */
static void frame_refusals(void)
{
    all_same(NULL, 0);
    for (size_t t = 0; t < sizeof types; t++) {
        uint8_t d[64];
        size_t n = 0;
        unsigned items;
        do {
            accepted_data(types[t], ++n % 65, d);
        } while (data_refusal(types[t], d, n % 65, &items));
        size_t size = frame_write(types[t], d, n % 65, frame);
        for (size_t len = 0; len <= size + 1; len++) {
            all_same(frame, len);
        }
        for (size_t bit = 0; bit < size * 8; bit++) {
            frame[bit / 8] ^= (uint8_t)(1 << bit % 8);
            read_same(frame, size);
            item_same(frame, size, 0);
            SAME(omnilink_command(frame, size), plain_command(frame, size));
            frame[bit / 8] ^= (uint8_t)(1 << bit % 8);
        }
    }
    static const uint8_t unknown[5] = {0x5A, 0x01, 0x85, 0xC0, 0x33};
    all_same(unknown, 5);
    SAME(omnilink_message_read(unknown, 5), 6);
}

static void write_same(uint8_t type, const uint8_t *data, size_t n, size_t room)
{
    uint8_t want[300];
    unsigned items;
    const uint8_t *d = lend_copy(&given, data, n);
    uint8_t *out = lend(&output, room);
    uint64_t r = omnilink_message_write(type, d, n, out, room);
    unsigned refused = data_refusal(type, data, n, &items);
    CHECK(kept_from(&given, 0));
    if (refused || room < n + 5) {
        SAME(r, refused ? refused : 9);
        CHECK(kept_from(&output, 0));
        return;
    }
    SAME(r, (uint64_t)(n + 5) << 8);
    CHECK(memcmp(out, want, frame_write(type, data, n, want)) == 0 && kept_from(&output, n + 5));
    SAME(omnilink_message_read(out, n + 5), (uint64_t)type << 8 | (uint64_t)items << 16);
}

/* 6, 7, 8, then 9: every type at every length, in rooms around what is needed; refused data in a room of 0. */
static void writing(void)
{
    for (unsigned type = 0; type < 256; type++) {
        for (size_t n = 0; n <= 70; n++) {
            uint8_t d[70];
            accepted_data((uint8_t)type, n, d);
            write_same((uint8_t)type, d, n, 0);
            write_same((uint8_t)type, d, n, n + 4);
            write_same((uint8_t)type, d, n, n + 5);
            write_same((uint8_t)type, d, n, n + 30);
        }
    }
    for (size_t t = 0; t < sizeof types; t++) {
        for (size_t n = 0; n <= 34; n++) {
            for (size_t room = 0; room <= n + 6; room++) {
                uint8_t d[34];
                accepted_data(types[t], n, d);
                write_same(types[t], d, n, room);
                for (size_t i = 0; i < n; i++) {
                    uint8_t kept = d[i];
                    d[i] = 0xFF;
                    write_same(types[t], d, n, room);
                    d[i] = kept;
                }
            }
        }
    }
    uint8_t out[5] = {1, 2, 3, 4, 5};
    SAME(omnilink_message_write(0x05, NULL, 0, out, 5), 0x500);
    SAME(omnilink_message_write(0x07, NULL, 0, NULL, 0), 6);
    SAME(omnilink_message_write(0x20, NULL, 0, NULL, 0), 7);
    SAME(omnilink_message_write(0x06, NULL, 0, NULL, 0), 9);
}

/* The type is passed in a register: what stands above the byte must not matter. */
static void upper_bits(void)
{
    uint64_t (*volatile write)(uint64_t, const uint8_t *, size_t, uint8_t *, size_t) =
        (uint64_t (*)(uint64_t, const uint8_t *, size_t, uint8_t *, size_t))(void *)omnilink_message_write;
    static const uint8_t acknowledge[5] = {0x5A, 0x01, 0x05, 0xC1, 0x93};
    uint8_t out[5];
    SAME(write(UINT64_C(0xFFFFFFFFFFFFFF05), NULL, 0, out, 5), 0x500);
    CHECK(memcmp(out, acknowledge, 5) == 0);
    SAME(write(UINT64_C(0x1234567890000107), NULL, 0, out, 5), 6);
}

int main(void)
{
    types_and_lengths();
    fields();
    zone_requests();
    commands();
    log_entries();
    zones();
    text_messages();
    frame_refusals();
    writing();
    upper_bits();
    return check_end();
}

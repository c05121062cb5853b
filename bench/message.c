/* Omni-Link messages: read, written, and their items. */
#include "bench.h"
#include "frame.h"
#include "gateway.h"
#include "message.h"

static inline unsigned read_refusal(const uint8_t *s, size_t size, size_t *items)
{
    unsigned refusal = frame_refusal(s, size);
    return refusal ? refusal : message_refusal(s[2], s + 3, s[1] - 1u, items);
}

/* The refusal of item i of a message of a type, or 0. */
static inline unsigned item_refusal(const uint8_t *s, size_t size, unsigned type, size_t i)
{
    size_t items;
    unsigned refusal = read_refusal(s, size, &items);
    return refusal ? refusal : s[2] != type || i >= items ? 8 : 0;
}

PLAIN uint64_t plain_read(const uint8_t *s, size_t size)
{
    size_t items;
    unsigned refusal = read_refusal(s, size, &items);
    return refusal ? refusal : (uint64_t)s[2] << 8 | (uint64_t)items << 16;
}

PLAIN uint64_t plain_write(uint8_t type, const uint8_t *data, size_t n, uint8_t *out, size_t room)
{
    size_t items;
    unsigned refusal = message_refusal(type, data, n, &items);
    return refusal ? refusal : put_frame(type, data, n, out, room);
}

PLAIN uint64_t plain_zone(const uint8_t *s, size_t size, size_t i)
{
    unsigned refusal = item_refusal(s, size, 0x16, i);
    if (refusal) return refusal;
    unsigned b = s[i * 2 + 3];
    return (b & 3) << 8 | (b >> 2 & 3) << 16 | (b >> 4 & 3) << 24 | (uint64_t)(b >> 6 & 1) << 32 | (uint64_t)s[i * 2 + 4] << 40;
}

PLAIN uint64_t plain_event(const uint8_t *s, size_t size, size_t i)
{
    unsigned refusal = item_refusal(s, size, 0x23, i);
    return refusal ? refusal : (unsigned)s[i * 2 + 3] << 16 | s[i * 2 + 4] << 8;
}

PLAIN uint64_t plain_text(const uint8_t *s, size_t size, size_t i)
{
    unsigned refusal = item_refusal(s, size, 0x25, i);
    if (refusal) return refusal;
    unsigned b = s[i / 4 + 4] >> (6 - i % 4 * 2);
    return (b & 1) << 8 | (b >> 1 & 1) << 16;
}

PLAIN uint64_t plain_command(const uint8_t *s, size_t size)
{
    size_t items;
    unsigned refusal = read_refusal(s, size, &items);
    if (refusal) return refusal;
    if (s[2] != 0x0F) return 8;
    unsigned command = s[3], p1 = s[4], unit = 0, p2 = (unsigned)s[5] << 8 | s[6];
    if (command <= 1 && p1 != 0) {
        unit = p1 < 100 ? 1 : p1 < 200 ? 2 : 3;
        p1 -= (unit - 1) * 100;
    }
    return command << 8 | unit << 16 | p1 << 24 | (uint64_t)p2 << 32;
}

PLAIN uint64_t plain_log(const uint8_t *s, size_t size, size_t field)
{
    size_t items;
    unsigned refusal = read_refusal(s, size, &items);
    if (refusal) return refusal;
    if (s[2] != 0x0E || field > 8) return 8;
    return field == 8 ? (unsigned)s[11] << 16 | s[12] << 8 : (unsigned)s[field + 3] << 8;
}

static uint8_t kind, data[64], frame[69], out[69];
static size_t count;

SIDES(read, omnilink_message_read, plain_read, frame, count + 5)
SIDES(write, omnilink_message_write, plain_write, kind, data, count, out, sizeof out)
SIDES(zone, omnilink_zone, plain_zone, frame, count + 5, i % 32)
SIDES(event, omnilink_event, plain_event, frame, count + 5, i % 16)
SIDES(text, omnilink_text_message, plain_text, frame, count + 5, i % 64)
SIDES(command, omnilink_command, plain_command, frame, count + 5)
SIDES(log, omnilink_log_entry, plain_log, frame, count + 5, i % 9)

/* The message that the next rows work on. */
static void message(uint8_t type, size_t n, const char *bytes)
{
    kind = type;
    count = n;
    memcpy(data, bytes, n);
    omnilink_message_write(kind, data, count, frame, sizeof frame);
}

int main(void)
{
    char mixed[64];
    fill_table();
    message(0x05, 0, "");
    ROW("omnilink_message_read, acknowledge", read, 16, out);
    ROW("omnilink_message_write, acknowledge", write, 16, out);
    message(0x0F, 4, "\x01\x82\x00\x2A");
    ROW("omnilink_message_read, command", read, 16, out);
    ROW("omnilink_message_write, command", write, 16, out);
    ROW("omnilink_command", command, 16, out);
    message(0x0E, 10, "\x07\x01\x0C\x1F\x17\x3B\x80\x05\x01\x02");
    ROW("omnilink_log_entry", log, 18, out);
    for (int i = 0; i < 64; i++) {
        mixed[i] = (char)(i % 2 ? 0x80 + i : i * 8 & 0x70);
    }
    message(0x16, 64, mixed);
    ROW("omnilink_message_read, 32 zones", read, 16, out);
    ROW("omnilink_message_write, 32 zones", write, 16, out);
    ROW("omnilink_zone, of 32", zone, 32, out);
    message(0x23, 32, mixed);
    ROW("omnilink_event, of 16", event, 16, out);
    message(0x25, 17, mixed);
    ROW("omnilink_text_message, of 64", text, 64, out);
    return 0;
}

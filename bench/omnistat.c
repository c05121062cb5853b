/* Omnistat2 messages, read and written at both ends, texts, and replies with a group as either habit has them. */
#include "bench.h"
#include "gateway.h"
#include "omnistat.h"

static inline uint64_t pack(unsigned type, unsigned address, unsigned start, size_t count)
{
    return (uint64_t)type << 8 | (uint64_t)address << 16 | (uint64_t)start << 24 | (uint64_t)count << 32;
}

static inline uint64_t pack_text(unsigned address, const uint8_t *bytes, size_t count)
{
    return pack(bytes[1] & 15, address, bytes[2], count) | (uint64_t)(bytes[1] >> 4) << 40;
}

PLAIN uint64_t plain_at_thermostat(const uint8_t *bytes, size_t len)
{
    if (is_text(1, bytes, len)) {
        size_t count;
        unsigned refusal = text_refusal(is_request(bytes[0]), bytes, len, &count);
        return refusal ? refusal : pack_text(bytes[0], bytes, count);
    }
    unsigned refusal = read_refusal(bytes, len);
    if (refusal) return refusal;
    unsigned type = bytes[1] & 15;
    if (type > 1) return pack(type, bytes[0], 0, 0);
    return pack(type, bytes[0], bytes[2], type == 0 ? bytes[3] : (bytes[1] >> 4) - 1u);
}

PLAIN uint64_t plain_at_host(uint8_t habit, uint8_t polled, const uint8_t *bytes, size_t len)
{
    if (!are_named(habit, polled)) return 8;
    if (len == 0) return 1;
    if (is_text(2, bytes, len)) {
        size_t count;
        unsigned refusal = text_refusal(bytes[0] > 0x80, bytes, len, &count);
        return refusal ? refusal : pack_text(bytes[0] - 0x80u, bytes, count);
    }
    unsigned refusal = summed_refusal(bytes[0] > 0x80, bytes, len);
    if (refusal) return refusal;
    unsigned type = bytes[1] & 15, n = bytes[1] >> 4, number = bytes[0] - 0x80u;
    refusal = reply_refusal(habit, polled, type, bytes + 2, n);
    if (refusal) return refusal;
    return type == 2 ? pack(2, number, bytes[2], n - 1) : pack(type, number, 0, n);
}

PLAIN uint64_t plain_to_thermostat(uint8_t address, uint8_t type, const uint8_t *data, size_t n, uint8_t *out, size_t room)
{
    unsigned refusal = request_refusal(type, data, n);
    if (refusal) return refusal;
    if (!is_request(address)) return 8;
    if (room < n + 3) return 9;
    return enclose(out, address, type, n, copy_summed(out + 2, data, n));
}

PLAIN uint64_t plain_to_host(uint8_t habit, uint8_t polled, uint8_t number, uint8_t type, const uint8_t *data, size_t n, uint8_t *out,
                             size_t room)
{
    if (!are_named(habit, polled)) return 8;
    unsigned refusal = reply_refusal(habit, polled, type, data, n);
    if (refusal) return refusal;
    if (number < 1 || number > 127) return 8;
    if (room < n + 3) return 9;
    return enclose(out, number + 0x80u, type, n, copy_summed(out + 2, data, n));
}

/* For a count that the compiler knows; quicker there than copy_summed. */
static inline unsigned sum_and_copy(uint8_t *to, const uint8_t *from, size_t n)
{
    unsigned sum = sum_of(from, n);
    memcpy(to, from, n);
    return sum;
}

PLAIN uint64_t plain_group_to_host(uint8_t habit, uint8_t polled, uint8_t number, uint8_t group, const uint8_t *values, size_t n,
                                   uint8_t *out, size_t room)
{
    if (!are_named(habit, polled) || !is_group(group)) return 8;
    if (n != group_length(habit == PRINTED ? polled : group)) return 7;
    if (habit == PRINTED && group != polled) return 8;
    if (number < 1 || number > 127) return 8;
    if (room < n + 3) return 9;
    unsigned sum = n == 6 ? sum_and_copy(out + 2, values, 6) : sum_and_copy(out + 2, values, 10);
    return enclose(out, number + 0x80u, habit == PRINTED ? 3 : group + 2u, n, sum);
}

static inline int text_is_allowed(unsigned half, unsigned start, const uint8_t *text, size_t n)
{
    return half < 16 && is_text_register(start) && n <= TEXT_MAX && are_characters(text, n);
}

PLAIN uint64_t plain_text_to_thermostat(uint8_t address, uint8_t half, uint8_t start, const uint8_t *text, size_t n, uint8_t *out,
                                        size_t room)
{
    if (!is_request(address) || !text_is_allowed(half, start, text, n)) return 8;
    if (room < n + 5) return 9;
    return put_text(out, address, half << 4 | 1u, start, text, n);
}

PLAIN uint64_t plain_text_to_host(uint8_t number, uint8_t half, uint8_t start, const uint8_t *text, size_t n, uint8_t *out,
                                  size_t room)
{
    if (number < 1 || number > 127 || !text_is_allowed(half, start, text, n)) return 8;
    if (room < n + 5) return 9;
    return put_text(out, number + 0x80u, half << 4 | 2u, start, text, n);
}

enum { MESSAGES = 64 };

static struct message {
    uint8_t address, type, data[15], bytes[18];
    size_t count, len;
} requests[MESSAGES], replies[MESSAGES];
static struct text {
    uint8_t address, half, start, text[TEXT_MAX], set[TEXT_MAX + 5], data[TEXT_MAX + 5];
    size_t count;
} texts[MESSAGES];
static struct group {
    uint8_t number, group, values[10], printed[13];
    size_t count;
} groups[MESSAGES];
static uint8_t out[TEXT_MAX + 5];

#define READ(list) list[i % MESSAGES].bytes, list[i % MESSAGES].len
#define WRITE(list) list[i % MESSAGES].address, list[i % MESSAGES].type, list[i % MESSAGES].data, list[i % MESSAGES].count, out, sizeof out

SIDES(at_thermostat, omnistat_read_at_thermostat, plain_at_thermostat, READ(requests))
SIDES(at_host, omnistat_read_at_host, plain_at_host, NUMBERED, 1, READ(replies))
SIDES(to_thermostat, omnistat_write_to_thermostat, plain_to_thermostat, WRITE(requests))
SIDES(to_host, omnistat_write_to_host, plain_to_host, NUMBERED, 1, WRITE(replies))

#define GROUP groups[i % MESSAGES]
#define WRITE_GROUP GROUP.number, GROUP.group, GROUP.values, GROUP.count, out, sizeof out

SIDES(group_at_host, omnistat_read_at_host, plain_at_host, PRINTED, GROUP.group, GROUP.printed, GROUP.count + 3)
SIDES(group_to_host, omnistat_write_group_to_host, plain_group_to_host, NUMBERED, 1, WRITE_GROUP)
SIDES(printed_to_host, omnistat_write_group_to_host, plain_group_to_host, PRINTED, GROUP.group, WRITE_GROUP)

#define TEXT texts[i % MESSAGES]
#define READ_TEXT(bytes) TEXT.bytes, TEXT.count + 5
#define WRITE_TEXT TEXT.address, TEXT.half, TEXT.start, TEXT.text, TEXT.count, out, sizeof out

SIDES(text_at_thermostat, omnistat_read_at_thermostat, plain_at_thermostat, READ_TEXT(set))
SIDES(text_at_host, omnistat_read_at_host, plain_at_host, NUMBERED, 1, READ_TEXT(data))
SIDES(text_to_thermostat, omnistat_write_text_to_thermostat, plain_text_to_thermostat, WRITE_TEXT)
SIDES(text_to_host, omnistat_write_text_to_host, plain_text_to_host, WRITE_TEXT)

/* A mix of messages: groups, polls or acknowledges, and runs of 1 to 14 values. */
static void prepare(void)
{
    for (unsigned i = 0; i < MESSAGES; i++) {
        struct message *q = &requests[i], *r = &replies[i];
        unsigned run = i % 14 + 1, group = i / 4 % 3;
        q->address = r->address = (uint8_t)(i + 1);
        q->data[0] = r->data[0] = (uint8_t)(i * 2);
        for (unsigned k = 1; k < 15; k++) {
            q->data[k] = r->data[k] = (uint8_t)(i * 5 + k);
        }
        q->type = i % 4 == 0 ? 2 + group : i % 4 == 1 ? 0 : 1;
        q->count = i % 4 == 0 ? 0 : i % 4 == 1 ? 2 : run + 1;
        if (q->type == 0) q->data[1] = (uint8_t)run;
        r->type = i % 4 == 0 ? i / 4 % 2 : i % 4 == 1 ? 3 + group : 2;
        r->count = i % 4 == 0 ? 0 : i % 4 == 1 ? (group == 2 ? 10 : 6) : run + 1;
        q->len = omnistat_write_to_thermostat(q->address, q->type, q->data, q->count, q->bytes, sizeof q->bytes) >> 8;
        r->len = omnistat_write_to_host(NUMBERED, 1, r->address, r->type, r->data, r->count, r->bytes, sizeof r->bytes) >> 8;
    }
}

/* Replies with each group. */
static void prepare_groups(void)
{
    for (unsigned i = 0; i < MESSAGES; i++) {
        struct group *g = &groups[i];
        g->number = (uint8_t)(i + 1);
        g->group = (uint8_t)(i % 3 + 1);
        g->count = group_length(g->group);
        for (unsigned k = 0; k < sizeof g->values; k++) {
            g->values[k] = (uint8_t)(i * 5 + k * 3);
        }
        omnistat_write_group_to_host(PRINTED, g->group, g->number, g->group, g->values, g->count, g->printed, sizeof g->printed);
    }
}

/* Texts of 0 to 60 characters. */
static void prepare_texts(void)
{
    for (unsigned i = 0; i < MESSAGES; i++) {
        struct text *t = &texts[i];
        t->address = (uint8_t)(i + 1);
        t->half = i % 16;
        t->start = (uint8_t)(172 + i % 10);
        t->count = i * 23 % (TEXT_MAX + 1);
        for (unsigned k = 0; k < TEXT_MAX; k++) {
            t->text[k] = (uint8_t)(0x20 + (i * 5 + k * 7) % 95);
        }
        omnistat_write_text_to_thermostat(t->address, t->half, t->start, t->text, t->count, t->set, sizeof t->set);
        omnistat_write_text_to_host(t->address, t->half, t->start, t->text, t->count, t->data, sizeof t->data);
    }
}

int main(void)
{
    prepare();
    prepare_groups();
    prepare_texts();
    ROW("omnistat_read_at_thermostat", at_thermostat, MESSAGES, out);
    ROW("omnistat_read_at_host", at_host, MESSAGES, out);
    ROW("omnistat_write_to_thermostat", to_thermostat, MESSAGES, out);
    ROW("omnistat_write_to_host", to_host, MESSAGES, out);
    ROW("omnistat_read_at_host, groups as printed", group_at_host, MESSAGES, out);
    ROW("omnistat_write_group_to_host, numbered", group_to_host, MESSAGES, out);
    ROW("omnistat_write_group_to_host, printed", printed_to_host, MESSAGES, out);
    ROW("omnistat_read_at_thermostat, texts", text_at_thermostat, MESSAGES, out);
    ROW("omnistat_read_at_host, texts", text_at_host, MESSAGES, out);
    ROW("omnistat_write_text_to_thermostat", text_to_thermostat, MESSAGES, out);
    ROW("omnistat_write_text_to_host", text_to_host, MESSAGES, out);
    return 0;
}

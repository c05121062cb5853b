/* Cost words and meter replies. */
#include "bench.h"
#include "gateway.h"
#include "omnistat.h"

enum { WORDS = 4096, REPLY = 6, GROUP = 13 };

static uint16_t words[WORDS];
static uint8_t readings[WORDS][REPLY], damaged[WORDS][REPLY], groups[WORDS][GROUP];
static struct tally tally[1];

static const uint64_t unit[7] = {1000000, 100000, 10000, 1000, 100, 10, 1};

PLAIN uint64_t plain_cost(uint16_t word)
{
    return (word % 10000 * unit[word / 10000]) << 8;
}

PLAIN uint64_t plain_add(struct tally *t, const uint8_t *bytes, size_t len)
{
    if (len == 0) return 1;
    int right = bytes[0] > 0x80;
    if (is_text(2, bytes, len)) {
        size_t count;
        unsigned refusal = text_refusal(right, bytes, len, &count);
        return refusal ? refusal : 8;
    }
    unsigned refusal = summed_refusal(right, bytes, len);
    if (refusal) return refusal;
    refusal = reply_refusal(NUMBERED, 1, bytes[1] & 15, bytes + 2, bytes[1] >> 4);
    if (refusal) return refusal;
    if (bytes[1] != 0x32 || bytes[2] != 170) return 8;
    unsigned word = (unsigned)bytes[3] << 8 | bytes[4];
    uint64_t v = word % 10000 * unit[word / 10000];
    if (v > UINT64_MAX - t->total) return 11;
    t->total += v;
    return 0;
}

SIDES(cost, cost_millionths, plain_cost, words[i % WORDS])
SIDES(reading, meter_add, plain_add, tally, readings[i % WORDS], REPLY)
SIDES(wrong, meter_add, plain_add, tally, damaged[i % WORDS], REPLY)
SIDES(group, meter_add, plain_add, tally, groups[i % WORDS], GROUP)

int main(void)
{
    uint64_t seed = 1;
    for (size_t i = 0; i < WORDS; i++) {
        seed = seed * 6364136223846793005 + 1442695040888963407;
        words[i] = (uint16_t)(seed >> 40);
        const uint8_t data[] = {170, (uint8_t)(words[i] >> 8), (uint8_t)words[i]};
        unsigned first = 0x81 + (unsigned)(i % 127);
        enclose(readings[i], first, 2, sizeof data, copy_summed(readings[i] + 2, data, sizeof data));
        memcpy(damaged[i], readings[i], REPLY);
        damaged[i][REPLY - 1] ^= 1;
        const uint8_t values[10] = {3, 1, 4, 1, 5, data[1], data[2], 9, 2, 6};
        enclose(groups[i], first, 5, sizeof values, copy_summed(groups[i] + 2, values, sizeof values));
    }
    ROW("cost_millionths", cost, WORDS, tally);
    ROW("meter_add", reading, WORDS, tally);
    ROW("meter_add, wrong sum", wrong, WORDS, tally);
    ROW("meter_add, a group", group, WORDS, tally);
    return 0;
}

/* Cost words, meter replies and the tally, against the rules of document 01, "Cost", and document 02, K4, K5 and K9. */
#include "check.h"
#include "gateway.h"
#include "omnistat.h"

__extension__ typedef unsigned __int128 wide;

enum { REPLY_MAX = 70, COST = 170, DATA = 2 };

/* (w mod 10000) * 10^(6-p) millionths, p the ten-thousands digit. */
static uint64_t value_of(unsigned w)
{
    uint64_t v = w % 10000;
    for (unsigned p = w / 10000; p < 6; p++) {
        v *= 10;
    }
    return v;
}

static uint64_t want_cost(unsigned w)
{
    return value_of(w) << 8;
}

/* A message with its sum. */
static size_t message(uint8_t *to, unsigned first, unsigned type, const uint8_t *data, size_t n)
{
    unsigned sum = 0;
    to[0] = (uint8_t)first;
    to[1] = (uint8_t)(n * 16 + type);
    if (n) {
        memcpy(to + 2, data, n);
    }
    for (size_t i = 0; i < n + 2; i++) {
        sum += to[i];
    }
    to[n + 2] = (uint8_t)sum;
    return n + 3;
}

/* A meter reply with a word, high byte first. */
static size_t meter_reply(uint8_t *to, unsigned number, unsigned w)
{
    const uint8_t data[] = {COST, (uint8_t)(w >> 8), (uint8_t)w};
    return message(to, 0x80 + number, DATA, data, sizeof data);
}

/* The answer number, and the total afterwards: the reader's refusals, then 8, then 11. */
static uint64_t want_add(uint64_t *total, const uint8_t *bytes, size_t len)
{
    uint64_t read = model_read((struct end){HOST, NUMBERED, 1}, bytes, len);
    if (answer_of(read) != 0) {
        return read;
    }
    if (bits_of(read, 8, 8) != DATA || bits_of(read, 24, 8) != COST || bits_of(read, 32, 8) != 2) {
        return 8;
    }
    wide sum = (wide)*total + value_of(bytes[3] * 256u + bytes[4]);
    if (sum > UINT64_MAX) {
        return 11;
    }
    *total = (uint64_t)sum;
    return 0;
}

/* One call on a tally and a reply that stand between canaries; its answer. */
static uint64_t add_at(uint64_t total, const uint8_t *bytes, size_t len)
{
    static struct lent reply;
    struct {
        uint64_t before;
        struct tally t;
        uint64_t after;
    } lent = {0xC5C5C5C5C5C5C5C5, {total}, 0xC5C5C5C5C5C5C5C5};
    uint64_t want = total;
    uint64_t answer = want_add(&want, bytes, len);
    uint64_t got = meter_add(&lent.t, lend_copy(&reply, bytes, len), len);
    SAME(got, answer);
    SAME(lent.t.total, want);
    CHECK(lent.before == 0xC5C5C5C5C5C5C5C5 && lent.after == 0xC5C5C5C5C5C5C5C5);
    CHECK(kept_from(&reply, 0));
    return got;
}

static uint64_t add_word(uint64_t total, unsigned number, unsigned w)
{
    uint8_t bytes[REPLY_MAX];
    return add_at(total, bytes, meter_reply(bytes, number, w));
}

static void paper_examples(void)
{
    SAME(cost_millionths(34567), UINT64_C(4567000) << 8);
    SAME(cost_millionths(65025), UINT64_C(5025) << 8);
    SAME(cost_millionths(65026), UINT64_C(5026) << 8);
    SAME(cost_millionths(65400), UINT64_C(5400) << 8);
    SAME(cost_millionths(65535), UINT64_C(5535) << 8);
    /* 34567, high byte first */
    static const uint8_t reply[] = {0x81, 0x32, 0xAA, 0x87, 0x07, 0xEB};
    struct tally t = {0};
    SAME(meter_add(&t, reply, sizeof reply), 0);
    SAME(t.total, 4567000);
    SAME(meter_add(&t, reply, sizeof reply), 0);
    SAME(t.total, 9134000);
    /* no reply, a poll of the same registers, a lost byte, a wrong sum */
    SAME(meter_add(&t, NULL, 0), 1);
    SAME(meter_add(&t, (const uint8_t[]){0x01, 0x20, 0xAA, 0x02, 0xCD}, 5), 2);
    SAME(meter_add(&t, reply, sizeof reply - 1), 1);
    SAME(meter_add(&t, (const uint8_t[]){0x81, 0x32, 0xAA, 0x87, 0x07, 0xEC}, 6), 5);
    /* an acknowledge, 170 alone, 169 and 170, 170 to 172 (which meets a text register), a text */
    SAME(meter_add(&t, (const uint8_t[]){0x81, 0x00, 0x81}, 3), 8);
    SAME(meter_add(&t, (const uint8_t[]){0x81, 0x22, 0xAA, 0x87, 0xD4}, 5), 8);
    SAME(meter_add(&t, (const uint8_t[]){0x81, 0x32, 0xA9, 0x87, 0x07, 0xEA}, 6), 8);
    SAME(meter_add(&t, (const uint8_t[]){0x81, 0x42, 0xAA, 0x87, 0x07, 0x00, 0xFB}, 7), 8);
    SAME(meter_add(&t, (const uint8_t[]){0x81, 0x02, 0xAC, 0x48, 0x49, 0x03, 0xC3}, 7), 8);
    /* group 3, which holds 170 and 171; the same as printed, with type 3, which has six values here */
    SAME(meter_add(&t, (const uint8_t[]){0x81, 0xA5, 169, 18, 19, 20, 74, 0x87, 0x07, 165, 166, 167, 0xD2}, 13), 8);
    SAME(meter_add(&t, (const uint8_t[]){0x81, 0xA3, 169, 18, 19, 20, 74, 0x87, 0x07, 165, 166, 167, 0xD0}, 13), 7);
    SAME(t.total, 9134000);
    SAME(add_word(UINT64_MAX, 1, 0), 0);
    SAME(add_word(UINT64_MAX, 1, 60001), 11);
    SAME(add_word(UINT64_MAX, 1, 65026), 11);
    SAME(add_word(0, 127, 65400), 0);
}

/* At a full tally the reader's answers and 8 come before 11. */
static void before_the_total(void)
{
    static const uint8_t data[] = {COST, 0xEA, 0x61}, other[] = {COST - 1, 0xEA, 0x61};
    uint8_t bytes[REPLY_MAX] = {0};
    size_t len = message(bytes, 0x81, DATA, data, sizeof data);
    SAME(add_at(UINT64_MAX, bytes, len), 11);
    SAME(add_at(UINT64_MAX, bytes, len - 1), 1);
    SAME(add_at(UINT64_MAX, bytes, len + 1), 4);
    bytes[5] ^= 1;
    SAME(add_at(UINT64_MAX, bytes, len), 5);
    bytes[0] = 0x80;
    SAME(add_at(UINT64_MAX, bytes, len), 2);
    SAME(add_at(UINT64_MAX, bytes, message(bytes, 0x81, 6, data, sizeof data)), 6);
    SAME(add_at(UINT64_MAX, bytes, message(bytes, 0x81, DATA, data, 1)), 7);
    SAME(add_at(UINT64_MAX, bytes, message(bytes, 0x81, DATA, data, 2)), 8);
    SAME(add_at(UINT64_MAX, bytes, message(bytes, 0x81, DATA, other, sizeof other)), 8);
}

/* Every start register with every count: one of them is taken. */
static void every_run(void)
{
    unsigned taken = 0;
    for (unsigned start = 0; start <= 255; start++) {
        for (size_t n = 0; n <= 15; n++) {
            uint8_t data[15] = {(uint8_t)start, 0x27, 0x0F, 0x41, 0x03}, bytes[REPLY_MAX];
            size_t len = message(bytes, 0x83, DATA, data, n);
            uint64_t answer = add_at(7, bytes, len);
            taken += answer == 0;
            CHECK((answer == 0) == (start == COST && n == 3));
            add_at(UINT64_MAX, bytes, len);
        }
    }
    SAME(taken, 1);
}

/* Every type with every length, all data bytes 170: among the counted messages data of three bytes alone is taken. */
static void every_type(void)
{
    for (unsigned type = 0; type <= 15; type++) {
        for (size_t n = 0; n <= 15; n++) {
            uint8_t data[15], bytes[REPLY_MAX];
            memset(data, COST, sizeof data);
            uint64_t answer = add_at(0, bytes, message(bytes, 0xFF, type, data, n));
            CHECK((answer == 0) == (type == DATA && n == 3));
        }
    }
}

/* Replies with a group, from every thermostat, are read with the numbered habit: a group is 8, and group 3 as the printed habit has it,
   type 3 with ten values, is 7, whichever habit and polled group the host names elsewhere. */
static void every_group(void)
{
    static const struct {
        unsigned type;
        size_t n;
        uint64_t answer;
    } groups[] = {{3, 6, 8}, {4, 6, 8}, {5, 10, 8}, {3, 10, 7}, {4, 10, 7}, {5, 6, 7}};
    static const uint8_t values[] = {COST, 0x87, 0x07, 20, 74, 0x87, 0x07, 165, 166, 167};
    for (unsigned number = 1; number <= 127; number++) {
        for (size_t i = 0; i < sizeof groups / sizeof *groups; i++) {
            uint8_t bytes[REPLY_MAX];
            size_t len = message(bytes, 0x80 + number, groups[i].type, values, groups[i].n);
            for (uint8_t polled = 1; polled <= 3; polled++) {
                uint64_t printed = omnistat_read_at_host(PRINTED, polled, bytes, len);
                CHECK((printed == 6) == (groups[i].type != 3));
                SAME(add_at(0, bytes, len), groups[i].answer);
                SAME(add_at(UINT64_MAX, bytes, len), groups[i].answer);
            }
        }
    }
}

/* Every text register and its neighbours, with every half-byte and every length of text: none is taken. */
static void every_text(void)
{
    for (unsigned start = 171; start <= 182; start++) {
        for (unsigned half = 0; half <= 15; half++) {
            for (size_t n = 0; n <= 61; n++) {
                uint8_t bytes[REPLY_MAX] = {0x81, (uint8_t)(half * 16 + DATA), (uint8_t)start};
                unsigned sum = 0;
                memset(bytes + 3, '2', n);
                bytes[3 + n] = 0x03;
                for (size_t i = 0; i < n + 4; i++) {
                    sum += bytes[i];
                }
                bytes[n + 4] = (uint8_t)sum;
                CHECK(add_at(0, bytes, n + 5) != 0);
            }
        }
    }
}

/* Every first byte, every bit and byte damaged, every cut, and bytes behind. */
static void damaged(void)
{
    for (unsigned first = 0; first <= 255; first++) {
        static const uint8_t data[] = {COST, 0x87, 0x07};
        uint8_t bytes[REPLY_MAX];
        size_t len = message(bytes, first, DATA, data, sizeof data);
        SAME(add_at(0, bytes, len), first > 0x80 ? 0 : 2);
    }
    uint8_t bytes[REPLY_MAX] = {0};
    size_t len = meter_reply(bytes, 5, 34567);
    for (size_t i = 0; i < len; i++) {
        uint8_t right = bytes[i];
        for (unsigned b = 0; b <= 255; b++) {
            bytes[i] = (uint8_t)b;
            uint64_t answer = add_at(0, bytes, len);
            CHECK((answer == 0) == (b == right));
        }
        bytes[i] = right;
    }
    for (size_t n = 0; n <= 20; n++) {
        uint64_t answer = add_at(0, bytes, n);
        CHECK((answer == 0) == (n == len));
    }
}

static void every_word(void)
{
    /* the last of them are such that some words just fit and others just do not */
    static const uint64_t totals[] = {
        0, 1, UINT64_MAX, UINT64_MAX - 1, UINT64_MAX - 5025, UINT64_MAX - 4567000, UINT64_MAX - 999900000,
        UINT64_MAX - 9998999999, UINT64_MAX - 9999000000, UINT64_C(1) << 63, UINT32_MAX,
    };
    for (unsigned w = 0; w <= 0xFFFF; w++) {
        uint8_t bytes[REPLY_MAX];
        size_t len = meter_reply(bytes, 1 + w % 127, w);
        SAME(cost_millionths((uint16_t)w), want_cost(w));
        add_at(totals[w % (sizeof totals / sizeof *totals)], bytes, len);
        /* where the value just fits, and where it passes by one */
        uint64_t v = value_of(w);
        SAME(add_at(UINT64_MAX - v, bytes, len), 0);
        if (v > 0) {
            SAME(add_at(UINT64_MAX - v + 1, bytes, len), 11);
        }
    }
    for (unsigned number = 1; number <= 127; number++) {
        for (size_t i = 0; i < sizeof totals / sizeof *totals; i++) {
            for (unsigned w = number; w <= 0xFFFF; w += 997) {
                add_word(totals[i], number, w);
            }
        }
    }
}

/* A run from a total over replies of which some are damaged: the record holds the exact sum of the words answered 0, after every
   call. */
static void run_from(uint64_t start, unsigned count, uint64_t seed)
{
    struct tally t = {start};
    wide sum = start;
    for (unsigned i = 0; i < count; i++) {
        uint8_t bytes[REPLY_MAX];
        seed = seed * 6364136223846793005 + 1442695040888963407;
        unsigned w = seed >> 48;
        size_t len = meter_reply(bytes, 1 + (seed >> 40) % 127, w);
        if ((seed >> 32) % 4 == 0) {
            bytes[(seed >> 24) % 6] ^= (uint8_t)(1u << ((seed >> 20) % 8));
        }
        uint64_t want = t.total;
        uint64_t answer = meter_add(&t, bytes, len);
        SAME(answer, want_add(&want, bytes, len));
        if (answer == 0) {
            sum += value_of(w);
        }
        CHECK(t.total == sum);
    }
}

/* Upper bits of the word's register do not matter. */
static void upper_bits(void)
{
    uint64_t (*volatile cost)(uint64_t) = (uint64_t (*)(uint64_t))(void *)cost_millionths;
    for (unsigned w = 0; w <= 0xFFFF; w += 13) {
        SAME(cost(UINT64_C(0xFFFFFFFFFFFF0000) | w), want_cost(w));
    }
}

int main(void)
{
    paper_examples();
    before_the_total();
    every_run();
    every_type();
    every_group();
    every_text();
    damaged();
    every_word();
    run_from(0, 200000, 1);
    run_from(UINT64_MAX - UINT64_C(1000000000000), 20000, 2);
    upper_bits();
    return check_end();
}

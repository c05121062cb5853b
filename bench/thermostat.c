/* Steps of the model thermostat, with its registers and its texts, and setpoint pairs. */
#include "bench.h"
#include "gateway.h"
#include "omnistat.h"

/* The rules of the registers, filled before the first step. */
static uint8_t listed[256], writable[256], low[256], high[256];

static void fill_rules(void)
{
    static const uint8_t read_only[] = {64, 71, 72, 73, 162, 170, 171};
    static const uint8_t ranges[][3] = {
        {58, 0, 6},   {59, 102, 145}, {60, 102, 145}, {163, 102, 145}, {164, 102, 145}, {61, 0, 4},   {62, 0, 2},   {63, 0, 2},
        {131, 0, 2},  {136, 0, 2},    {139, 0, 2},    {132, 0, 126},   {137, 0, 1},     {161, 0, 3},  {65, 0, 59},  {66, 0, 59},
        {67, 0, 23},  {70, 0, 4},     {138, 1, 19},   {140, 0, 100},   {141, 1, 10},    {143, 2, 30}, {144, 2, 30}, {145, 2, 30},
        {168, 0, 99}};
    for (int r = 0; r < 256; r++) {
        listed[r] = r == 15 || (r >= 18 && r <= 68) || (r >= 70 && r <= 122) || (r >= 131 && r <= 145) || (r >= 158 && r <= 171);
        writable[r] = listed[r];
        high[r] = 255;
    }
    for (size_t i = 0; i < sizeof read_only; i++) {
        writable[read_only[i]] = 0;
    }
    for (size_t i = 0; i < sizeof ranges / sizeof *ranges; i++) {
        low[ranges[i][0]] = ranges[i][1];
        high[ranges[i][0]] = ranges[i][2];
    }
}

static inline int takes(unsigned r, unsigned v)
{
    if (!writable[r] || v < low[r] || v > high[r]) return 0;
    if (r == 70) return v != 3;
    if (r == 132) return v == 0 || v == 1 || v == 42 || v == 54 || v == 126;
    return 1;
}

static inline int set(uint8_t *map, unsigned start, const uint8_t *values, size_t n)
{
    for (size_t i = 0; i < n; i++) {
        if (!takes(start + (unsigned)i, values[i])) return 0;
    }
    memcpy(map + start, values, n);
    return 1;
}

static inline uint64_t report(const uint8_t *map, unsigned first, unsigned start, size_t n, uint8_t *out)
{
    for (size_t i = 0; i < n; i++) {
        if (!listed[start + i]) return enclose(out, first, 1, 0, 0);
    }
    out[2] = (uint8_t)start;
    return enclose(out, first, 2, n + 1, start + copy_summed(out + 3, map + start, n));
}

static inline uint64_t report_group(const uint8_t *map, unsigned first, unsigned group, uint8_t *out)
{
    static const uint8_t members[3][10] = {{59, 60, 61, 62, 63, 64}, {162, 135, 134, 68, 15, 169}, {169, 18, 19, 20, 74, 170, 171, 165, 166, 167}};
    static const uint8_t sizes[3] = {6, 6, 10};
    unsigned sum = 0;
    for (size_t i = 0; i < sizes[group]; i++) {
        out[i + 2] = map[members[group][i]];
        sum += out[i + 2];
    }
    return enclose(out, first, group + 3, sizes[group], sum);
}

enum { HELD = 1 + TEXT_MAX };

static inline int are_texts(const uint8_t *texts)
{
    for (size_t i = 0; i < THERMOSTAT_TEXTS; i += HELD) {
        if (texts[i] > TEXT_MAX || !are_characters(texts + i + 1, texts[i])) return 0;
    }
    return 1;
}

static inline uint8_t *held(uint8_t *texts, unsigned start) { return texts + (start - 172) * HELD; }

static inline uint64_t set_text(uint8_t own, uint8_t *texts, const uint8_t *bytes, size_t len, uint8_t *out)
{
    size_t count;
    unsigned first = bytes[0], refusal = text_refusal(is_request(first), bytes, len, &count);
    if (refusal) return refusal;
    if (first != 0 && first != own && first != 0xFA) return 0;
    uint8_t *text = held(texts, bytes[2]);
    text[0] = (uint8_t)count;
    memcpy(text + 1, bytes + 3, count);
    return first == 0 ? 0 : enclose(out, own + 0x80u, 0, 0, 0);
}

PLAIN uint64_t plain_step(uint8_t own, uint8_t *map, size_t map_len, uint8_t *texts, size_t texts_len, const uint8_t *bytes,
                          size_t len, uint8_t *out, size_t room)
{
    if (room < 65 || map_len != 256 || texts_len != THERMOSTAT_TEXTS) return 9;
    if (own < 1 || own > 127 || !are_texts(texts)) return 8;
    if (is_text(1, bytes, len)) return set_text(own, texts, bytes, len, out);
    unsigned refusal = read_refusal(bytes, len);
    if (refusal) return refusal;
    unsigned first = bytes[0], type = bytes[1] & 15, reply = own + 0x80u;
    if (first != 0 && first != own && first != 0xFA) return 0;
    if (type == 1) {
        int taken = set(map, bytes[2], bytes + 3, (bytes[1] >> 4) - 1u);
        return first == 0 ? 0 : enclose(out, reply, !taken, 0, 0);
    }
    if (first == 0) return 0;
    if (type == 0 && is_text_register(bytes[2])) {
        const uint8_t *text = held(texts, bytes[2]);
        return put_text(out, reply, 2, bytes[2], text + 1, text[0]);
    }
    return type == 0 ? report(map, reply, bytes[2], bytes[3], out) : report_group(map, reply, type - 2, out);
}

PLAIN uint64_t plain_to_bytes(struct setpoints p)
{
    float c = p.cool * 2.0f + 80.0f, h = p.heat * 2.0f + 80.0f;
    if (!(c >= 0.0f && c <= 255.0f && h >= 0.0f && h <= 255.0f)) return 8;
    unsigned a = (unsigned)c, b = (unsigned)h;
    if ((float)a * 0.5f - 40.0f != p.cool || (float)b * 0.5f - 40.0f != p.heat) return 8;
    return (uint64_t)a << 8 | (uint64_t)b << 16;
}

enum { MESSAGES = 64 };

static struct message {
    uint8_t bytes[TEXT_MAX + 5];
    size_t len;
} messages[MESSAGES];
static struct {
    uint8_t map[256], texts[THERMOSTAT_TEXTS], out[TEXT_MAX + 5];
} lent[1], start[1];    /* the map and the texts that a row starts with */
static float degrees[256];

SIDES(step, thermostat_step, plain_step, 1, lent->map, sizeof lent->map, lent->texts, sizeof lent->texts, messages[i % MESSAGES].bytes,
      messages[i % MESSAGES].len, lent->out, sizeof lent->out)
SIDES(pair, setpoints_to_bytes, plain_to_bytes, (struct setpoints){degrees[i % 256], degrees[i * 7 % 256]})

static void row(const char *name, uint8_t type, size_t n, const uint8_t data[MESSAGES][15])
{
    for (unsigned i = 0; i < MESSAGES; i++) {
        messages[i].len = omnistat_write_to_thermostat(1, type, data[i], n, messages[i].bytes, sizeof messages[i].bytes) >> 8;
    }
    ROW_FROM(name, step, MESSAGES, lent, start);
}

/* Ten texts of the given count of characters, or of 0 to 60 for a negative one. */
static void hold_texts(int count)
{
    for (size_t i = 0; i < THERMOSTAT_TEXTS; i++) {
        start->texts[i] = (uint8_t)(i % HELD != 0 ? 0x20 + i % 95 : count < 0 ? i / HELD * 20 % HELD : (size_t)count);
    }
}

/* Sets of texts of 0 to 60 characters. */
static void text_row(const char *name)
{
    uint8_t text[TEXT_MAX];
    for (unsigned i = 0; i < MESSAGES; i++) {
        memset(text, (int)(' ' + i), sizeof text);
        messages[i].len = omnistat_write_text_to_thermostat(1, 0, (uint8_t)(172 + i % 10), text, i * 23 % HELD, messages[i].bytes,
                                                            sizeof messages[i].bytes) >> 8;
    }
    ROW_FROM(name, step, MESSAGES, lent, start);
}

int main(void)
{
    uint8_t one[MESSAGES][15], refused[MESSAGES][15], fourteen[MESSAGES][15], poll[MESSAGES][15], text_poll[MESSAGES][15];
    fill_rules();
    memset(start, 0xA5, sizeof start);
    hold_texts(0);
    for (unsigned i = 0; i < MESSAGES; i++) {
        memcpy(one[i], (const uint8_t[]){(uint8_t)(59 + i % 2), (uint8_t)(102 + i % 44)}, 2);
        memcpy(refused[i], (const uint8_t[]){(uint8_t)(59 + i % 2), (uint8_t)(146 + i)}, 2);
        memcpy(poll[i], (const uint8_t[]){(uint8_t)(18 + i % 36), 14}, 2);
        memcpy(text_poll[i], (const uint8_t[]){(uint8_t)(172 + i % 10), 1}, 2);
        memset(fourteen[i], (int)i, 15);
        fourteen[i][0] = (uint8_t)(18 + i % 26);
    }
    for (int n = 0; n < 256; n++) {
        degrees[n] = temperature_celsius((uint8_t)n);
    }
    row("thermostat_step, set of 1", 1, 2, one);
    row("thermostat_step, set of 14", 1, 15, fourteen);
    row("thermostat_step, set of 1, refused", 1, 2, refused);
    row("thermostat_step, poll of 14", 0, 2, poll);
    row("thermostat_step, poll of group 3", 4, 0, poll);
    hold_texts(-1);
    text_row("thermostat_step, text set");
    row("thermostat_step, text poll", 0, 2, text_poll);
    hold_texts(TEXT_MAX);
    row("thermostat_step, set of 1, ten texts of 60", 1, 2, one);
    ROW("setpoints_to_bytes", pair, 256, lent);
    return 0;
}

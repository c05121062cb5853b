/* The model thermostat, its texts, temperatures and setpoints, against plain C written from documents 01 and 02. */
#include "check.h"
#include "gateway.h"
#include <math.h>

/* ---- the rules of the registers, from the paper's lists */

static int listed(int r)
{
    return r == 15 || (r >= 18 && r <= 68) || (r >= 70 && r <= 122) || (r >= 131 && r <= 145) || (r >= 158 && r <= 171);
}

static int read_only(int r)
{
    return r == 64 || r == 71 || r == 72 || r == 73 || r == 162 || r == 170 || r == 171;
}

static int between(int lo, int hi, int v) { return lo <= v && v <= hi; }

static int takes(int r, int v)
{
    switch (r) {
    case 58: return between(0, 6, v);
    case 59: case 60: case 163: case 164: return between(510, 910, 9 * v - 400);    /* tenths of a degree Fahrenheit */
    case 61: return between(0, 4, v);
    case 62: case 63: case 131: case 136: case 139: return between(0, 2, v);
    case 132: return v == 0 || v == 1 || v == 42 || v == 54 || v == 126;
    case 137: return between(0, 1, v);
    case 161: return between(0, 3, v);
    case 65: case 66: return between(0, 59, v);
    case 67: return between(0, 23, v);
    case 70: return v == 0 || v == 1 || v == 2 || v == 4;
    case 138: return between(1, 19, v);
    case 140: return between(0, 100, v);
    case 141: return between(1, 10, v);
    case 143: case 144: case 145: return between(2, 30, v);
    case 168: return between(0, 99, v);
    default: return 1;
    }
}

static int settable(int r, int v) { return listed(r) && !read_only(r) && takes(r, v); }

/* ---- messages */

static size_t message(uint8_t *to, int first, int type, const uint8_t *data, size_t n)
{
    unsigned sum = 0;
    to[0] = (uint8_t)first;
    to[1] = (uint8_t)(n * 16 + (unsigned)type);
    memcpy(to + 2, data, n);
    for (size_t i = 0; i < n + 2; i++) {
        sum += to[i];
    }
    to[n + 2] = (uint8_t)sum;
    return n + 3;
}

enum { MAP = 256, ROOM = 65 };
enum { FIRST_TEXT = 172, TEXTS = 10, TEXT_MAX = 60, TEXT_SIZE = 1 + TEXT_MAX, STORE = TEXTS * TEXT_SIZE, TEXT_END = 0x03 };

static int text(int r) { return r >= FIRST_TEXT && r < FIRST_TEXT + TEXTS; }

/* The message of a text: a half-byte, a type, the start register, n characters, 03, sum. */
static size_t text_message(uint8_t *to, int first, int half, int type, int start, const uint8_t *characters, size_t n)
{
    unsigned sum = 0;
    to[0] = (uint8_t)first;
    to[1] = (uint8_t)(half * 16 + type);
    to[2] = (uint8_t)start;
    memcpy(to + 3, characters, n);
    to[n + 3] = TEXT_END;
    for (size_t i = 0; i < n + 4; i++) {
        sum += to[i];
    }
    to[n + 4] = (uint8_t)sum;
    return n + 5;
}

static const int GROUPS[3][10] = {{59, 60, 61, 62, 63, 64},
                                  {162, 135, 134, 68, 15, 169},
                                  {169, 18, 19, 20, 74, 170, 171, 165, 166, 167}};
static const size_t GROUP_LENGTH[3] = {6, 6, 10};

/* What a step sends, and the map and the texts that it leaves; the message is one that the reader accepts. */
static size_t model(int own, uint8_t *map, uint8_t *texts, const uint8_t *in, uint8_t *sent)
{
    int first = in[0], type = in[1] % 16;
    size_t n = in[1] / 16;
    uint8_t data[16] = {0};
    size_t len;
    if (first != 0 && first != own && first != 0xFA) {
        return 0;
    }
    if (type <= 1 && text(in[2])) {
        uint8_t *held = texts + (in[2] - FIRST_TEXT) * TEXT_SIZE;
        if (type == 0) {
            len = text_message(sent, own + 0x80, 0, 2, in[2], held + 1, held[0]);
        } else {
            for (held[0] = 0; in[3 + held[0]] != TEXT_END; held[0]++) {
                held[1 + held[0]] = in[3 + held[0]];
            }
            len = message(sent, own + 0x80, 0, data, 0);
        }
    } else if (type == 0) {
        int all = 1;
        for (int i = 0; i < in[3]; i++) {
            all = all && listed(in[2] + i);
        }
        data[0] = in[2];
        memcpy(data + 1, map + in[2], in[3]);
        len = all ? message(sent, own + 0x80, 2, data, in[3] + 1u) : message(sent, own + 0x80, 1, data, 0);
    } else if (type == 1) {
        int all = 1;
        for (size_t i = 0; i + 1 < n; i++) {
            all = all && settable(in[2] + (int)i, in[3 + i]);
        }
        if (all) {
            memcpy(map + in[2], in + 3, n - 1);
        }
        len = message(sent, own + 0x80, all ? 0 : 1, data, 0);
    } else {
        for (size_t i = 0; i < GROUP_LENGTH[type - 2]; i++) {
            data[i] = map[GROUPS[type - 2][i]];
        }
        len = message(sent, own + 0x80, type + 1, data, GROUP_LENGTH[type - 2]);
    }
    return first == 0 ? 0 : len;
}

static struct lent map_lent, texts_lent, in_lent, out_lent;

/* What most steps find: a map, and a store of ten texts of different lengths with bytes past them that are no characters. */
static uint8_t start_map[MAP], start_texts[STORE];

/* A step with fresh lent buffers, held against the model: answer, map, store, output, and nothing else changed. */
static void step_on(int own, const uint8_t *map_before, const uint8_t *texts_before, const uint8_t *in, size_t len)
{
    uint8_t want_map[MAP], want_texts[STORE], sent[ROOM];
    uint8_t *map = lend_copy(&map_lent, map_before, MAP);
    uint8_t *texts = lend_copy(&texts_lent, texts_before, STORE);
    uint8_t *bytes = lend_copy(&in_lent, in, len);
    uint8_t *out = lend(&out_lent, ROOM);
    memcpy(want_map, map_before, MAP);
    memcpy(want_texts, texts_before, STORE);
    size_t n = model(own, want_map, want_texts, in, sent);
    SAME(thermostat_step((uint8_t)own, map, MAP, texts, STORE, bytes, len, out, ROOM), (uint64_t)n << 8);
    CHECK(memcmp(map, want_map, MAP) == 0);
    CHECK(memcmp(texts, want_texts, STORE) == 0);
    CHECK(memcmp(out, sent, n) == 0);
    CHECK(kept_from(&out_lent, n));
    CHECK(kept_from(&in_lent, 0));
    CHECK(kept_from(&map_lent, MAP));
    CHECK(kept_from(&texts_lent, STORE));
}

static void step_as_model(int own, const uint8_t *in, size_t len)
{
    step_on(own, start_map, start_texts, in, len);
}

/* A refused step on a store of this content: the number, and map, store, input and output as they were. */
static void refused_on(int own, size_t map_len, const uint8_t *store, size_t texts_len, const uint8_t *in, size_t len, size_t room,
                       unsigned number)
{
    uint8_t *map = lend(&map_lent, map_len);
    uint8_t *texts = lend_copy(&texts_lent, store, texts_len);
    uint8_t *bytes = lend_copy(&in_lent, in, len);
    uint8_t *out = lend(&out_lent, room);
    SAME(thermostat_step((uint8_t)own, map, map_len, texts, texts_len, bytes, len, out, room), number);
    CHECK(kept_from(&map_lent, 0));
    CHECK(kept_from(&texts_lent, 0));
    CHECK(kept_from(&in_lent, 0));
    CHECK(kept_from(&out_lent, 0));
}

/* A refused step on a right store. */
static void step_refused(int own, size_t map_len, const uint8_t *in, size_t len, size_t room, unsigned number)
{
    refused_on(own, map_len, start_texts, STORE, in, len, room, number);
}

static int run_allowed(int start, int count)
{
    for (int i = 0; i < count; i++) {
        if (start + i > 255 || text(start + i)) {
            return 0;
        }
    }
    return 1;
}

/* Sets of one register by a count. From a text register on, the value 03 is the end of an empty text; with any other value
   no 03 and sum are there. */
static void single_sets(void)
{
    for (int r = 0; r < 256; r++) {
        for (int v = 0; v < 256; v++) {
            uint8_t data[2] = {(uint8_t)r, (uint8_t)v}, in[8];
            size_t len = message(in, 1, 1, data, 2);
            if (text(r) && v != TEXT_END) {
                step_refused(1, MAP, in, len, ROOM, 1);
            } else {
                step_as_model(1, in, len);
            }
        }
    }
}

/* The setpoints take the bytes 102 to 145 and no other. */
static void setpoint_sets(void)
{
    static const uint8_t registers[] = {59, 60, 163, 164};
    for (size_t i = 0; i < sizeof registers; i++) {
        for (int v = 0; v < 256; v++) {
            const uint8_t data[2] = {registers[i], (uint8_t)v};
            uint8_t in[8], *map = lend_copy(&map_lent, start_map, MAP), *texts = lend_copy(&texts_lent, start_texts, STORE);
            uint8_t *out = lend(&out_lent, ROOM);
            int stored = v >= 102 && v <= 145;
            SAME(thermostat_step(1, map, MAP, texts, STORE, in, message(in, 1, 1, data, 2), out, ROOM), 3 << 8);
            CHECK(out[0] == 0x81 && out[1] == (stored ? 0 : 1));
            CHECK(stored ? map[registers[i]] == v : kept_from(&map_lent, 0));
        }
    }
}

/* A byte that the register takes, or one that it does not where there is one. */
static int value_for(int r, int good)
{
    for (int v = 0; v < 256; v++) {
        if (settable(r, v) == good) {
            return v;
        }
    }
    return 7;
}

static void sets_of_several(void)
{
    for (int count = 1; count <= 14; count++) {
        for (int start = 0; start < 256; start++) {
            for (int bad = -1; bad < count; bad++) {
                uint8_t data[15], in[20];
                if (text(start)) {
                    continue;    /* no count says how long a text is: see below */
                }
                data[0] = (uint8_t)start;
                for (int i = 0; i < count; i++) {
                    data[1 + i] = (uint8_t)value_for(start + i, i != bad);
                }
                size_t len = message(in, 1, 1, data, (size_t)count + 1);
                if (run_allowed(start, count)) {
                    step_as_model(1, in, len);
                } else {
                    step_refused(1, MAP, in, len, ROOM, 8);
                }
            }
        }
    }
}

static void polls_and_groups(void)
{
    for (int start = 0; start < 256; start++) {
        for (int count = 0; count <= 255; count += count < 16 || count >= 254 ? 1 : 7) {
            uint8_t data[2] = {(uint8_t)start, (uint8_t)count}, in[8];
            size_t len = message(in, 5, 0, data, 2);
            if (text(start) ? count == 1 : count >= 1 && count <= 14 && run_allowed(start, count)) {
                step_as_model(5, in, len);
            } else {
                step_refused(5, MAP, in, len, ROOM, 8);
            }
        }
    }
    for (int type = 2; type <= 4; type++) {
        for (int own = 1; own <= 127; own++) {
            uint8_t in[4];
            step_as_model(own, in, message(in, own, type, start_map, 0));
            step_as_model(own, in, message(in, 0xFA, type, start_map, 0));
            step_as_model(own, in, message(in, 0, type, start_map, 0));
        }
    }
}

/* Every own address with every first byte: broadcast, FA, its own, another's, and what is no address. */
static void addresses(void)
{
    static const uint8_t set[2] = {59, 124}, bad[2] = {59, 80}, poll[2] = {59, 6}, text_poll[2] = {175, 1}, shown[] = "power low";
    for (int own = 0; own < 256; own++) {
        for (int first = 0; first < 256; first++) {
            uint8_t in[24], shows[24];
            size_t len = message(in, first, 1, set, 2), shows_len = text_message(shows, first, own % 16, 1, 175, shown, 9);
            if (own < 1 || own > 127 || (first >= 0x80 && first != 0xFA)) {
                unsigned number = own < 1 || own > 127 ? 8 : 2;
                step_refused(own, MAP, in, len, ROOM, number);
                step_refused(own, MAP, shows, shows_len, ROOM, number);
                continue;
            }
            step_as_model(own, in, len);
            step_as_model(own, in, message(in, first, 1, bad, 2));
            step_as_model(own, in, message(in, first, 0, poll, 2));
            step_as_model(own, in, message(in, first, 0, text_poll, 2));
            step_as_model(own, shows, shows_len);
        }
    }
}

static void refusals(void)
{
    uint8_t in[24], data[16] = {59, 124, 112};
    size_t len = message(in, 1, 1, data, 2);
    for (size_t room = 0; room < ROOM; room++) {
        step_refused(1, MAP, in, len, room, 9);
    }
    for (size_t size = 0; size <= 512; size += (size >= 250 && size < 262) ? 1 : 25) {
        if (size != MAP) {
            step_refused(1, size, in, len, ROOM, 9);
        }
    }
    step_refused(0, MAP, in, len, ROOM, 8);
    step_refused(128, MAP, in, len, ROOM, 8);
    step_refused(0, 255, in, len, ROOM, 9);
    step_refused(0, MAP, in, len, ROOM - 1, 9);
    step_refused(0, MAP, in, 0, ROOM, 8);
    step_refused(1, MAP, in, 0, ROOM, 1);
    step_refused(1, MAP, in, 1, ROOM, 1);
    step_refused(1, MAP, in, 4, ROOM, 1);
    step_refused(1, MAP, in, 6, ROOM, 4);
    in[4]++;
    step_refused(1, MAP, in, len, ROOM, 5);
    step_refused(2, MAP, in, len, ROOM, 5);
    len = message(in, 0, 1, data, 2);
    step_refused(1, MAP, in, len, ROOM - 1, 9);
    step_refused(1, MAP, in, message(in, 1, 5, data, 0), ROOM, 6);
    step_refused(1, MAP, in, message(in, 2, 5, data, 0), ROOM, 6);
    step_refused(1, MAP, in, message(in, 1, 0, data, 1), ROOM, 7);
    step_refused(1, MAP, in, message(in, 1, 1, data, 1), ROOM, 7);
    step_refused(1, MAP, in, message(in, 1, 2, data, 1), ROOM, 7);
    data[0] = 255;
    step_refused(1, MAP, in, message(in, 1, 1, data, 3), ROOM, 8);
    SAME(thermostat_step(1, NULL, 0, NULL, 0, NULL, 0, NULL, 0), 9);
    SAME(thermostat_step(1, start_map, MAP, NULL, 0, in, len, out_lent.all, ROOM), 9);
    /* more room than is written */
    uint8_t *map = lend_copy(&map_lent, start_map, MAP), *texts = lend_copy(&texts_lent, start_texts, STORE);
    uint8_t *out = lend(&out_lent, 300);
    data[0] = 59;
    len = message(in, 1, 1, data, 2);
    SAME(thermostat_step(1, map, MAP, texts, STORE, in, len, out, 300), 3 << 8);
    CHECK(kept_from(&out_lent, 3));
    CHECK(kept_from(&texts_lent, 0));
}

/* ---- texts */

/* Every text register set to texts of every length with every half-byte, over longer and shorter ones, then polled. */
static void text_sets(void)
{
    static const int firsts[] = {7, 0, 0xFA, 8};
    for (int r = FIRST_TEXT; r < FIRST_TEXT + TEXTS; r++) {
        for (size_t n = 0; n <= TEXT_MAX; n++) {
            for (int half = 0; half < 16; half++) {
                uint8_t characters[TEXT_MAX], in[ROOM], before[STORE];
                const uint8_t poll[2] = {(uint8_t)r, 1};
                for (size_t i = 0; i < n; i++) {
                    characters[i] = (uint8_t)(0x20 + (i * 7 + n + (size_t)half) % 95);
                }
                for (size_t i = 0; i < sizeof firsts / sizeof *firsts; i++) {
                    step_as_model(7, in, text_message(in, firsts[i], half, 1, r, characters, n));
                    memcpy(before, texts_lent.all + CANARIES, STORE);
                    step_on(7, start_map, before, in, message(in, firsts[half % 4], 0, poll, 2));
                }
            }
        }
    }
}

/* 171 and 182, beside the text registers, are counted: of 14 bytes with N=11, the run from 171 on meets 172, and none from 182 on
   is listed. */
static void beside_texts(void)
{
    static const uint8_t characters[] = "power low";
    for (int half = 0; half < 16; half++) {
        uint8_t in[24];
        size_t len = text_message(in, 1, half, 1, 171, characters, 9);
        step_refused(1, MAP, in, len, ROOM, half < 11 ? 4 : half > 11 ? 1 : 8);
        len = text_message(in, 1, half, 1, 182, characters, 9);
        if (half == 11) {
            step_as_model(1, in, len);
        } else {
            step_refused(1, MAP, in, len, ROOM, half < 11 ? 4 : 1);
        }
    }
}

/* Every refusal of a text, at the step. */
static void text_refusals(void)
{
    uint8_t characters[64], in[80];
    memset(characters, 'q', sizeof characters);
    for (int r = FIRST_TEXT; r < FIRST_TEXT + TEXTS; r++) {
        for (int first = 0; first <= 2; first++) {
            size_t len = text_message(in, first, 2, 1, r, characters, 14);
            for (size_t cut = 0; cut < len; cut++) {
                step_refused(1, MAP, in, cut, ROOM, 1);
            }
            step_refused(1, MAP, in, len + 1, ROOM, 4);
            in[len - 1]++;
            step_refused(1, MAP, in, len, ROOM, 5);
            for (size_t n = 61; n <= 64; n++) {
                len = text_message(in, first, 2, 1, r, characters, n);
                step_refused(1, MAP, in, len, ROOM, 8);
                step_refused(1, MAP, in, 3 + 61, ROOM, 8);
                step_refused(1, MAP, in, 3 + 60, ROOM, 1);
            }
            for (int c = 0; c < 256; c++) {
                if ((c >= 0x20 && c <= 0x7E) || c == TEXT_END) {
                    continue;
                }
                characters[c % 60] = (uint8_t)c;
                len = text_message(in, first, 0, 1, r, characters, 60);
                step_refused(1, MAP, in, len, ROOM, 8);
                in[len - 1]++;
                step_refused(1, MAP, in, len, ROOM, 5);
                step_refused(1, MAP, in, len + 1, ROOM, 4);
                characters[c % 60] = 'q';
            }
        }
    }
}

/* A store with one wrong byte, in each of its ten texts: a count above 60, or a byte that is no character within a count. Past a
   count any byte is right, and stays. */
static void stores(void)
{
    static const uint8_t wrong[] = {0x1F, 0x7F, 0x03, 0x00, 0xFF, 0x80, 0xA0};
    uint8_t in[8], set[8], store[STORE];
    const uint8_t poll[2] = {59, 6}, setpoint[2] = {59, 124};
    size_t len = message(in, 1, 0, poll, 2), set_len = message(set, 0, 1, setpoint, 2);
    for (int k = 0; k < TEXTS; k++) {
        uint8_t *held = store + k * TEXT_SIZE;
        for (int count = 0; count < 256; count++) {
            memcpy(store, start_texts, STORE);
            memset(held + 1, '!' + k, TEXT_MAX);
            held[0] = (uint8_t)count;
            if (count > TEXT_MAX) {
                refused_on(1, MAP, store, STORE, in, len, ROOM, 8);
                refused_on(1, MAP, store, STORE, set, set_len, ROOM, 8);
                continue;
            }
            step_on(1, start_map, store, in, len);
            for (int place = 0; place < TEXT_MAX; place++) {
                held[1 + place] = wrong[(count + place) % (int)sizeof wrong];
                if (place < count) {
                    refused_on(1, MAP, store, STORE, in, len, ROOM, 8);
                } else {
                    step_on(1, start_map, store, set, set_len);
                }
                held[1 + place] = (uint8_t)(' ' + place);
            }
        }
        for (int c = 0; c < 256; c++) {
            for (int count = 0; count <= TEXT_MAX; count += 20) {
                memset(held + 1, 'k', TEXT_MAX);
                held[0] = (uint8_t)count;
                held[TEXT_MAX] = (uint8_t)c;
                if (count < TEXT_MAX || (c >= 0x20 && c <= 0x7E)) {
                    step_on(1, start_map, store, in, len);
                } else {
                    refused_on(1, MAP, store, STORE, in, len, ROOM, 8);
                }
            }
        }
    }
    memset(store, 0, STORE);
    step_on(1, start_map, store, in, len);
    memset(store, 60, STORE);    /* ten texts of 60 characters */
    step_on(1, start_map, store, in, len);
    memset(store, 61, STORE);
    refused_on(1, MAP, store, STORE, in, len, ROOM, 8);
}

/* The order of the step's checks: 9 for room, map and store, then 8 for own address and store, then the reader's. */
static void order(void)
{
    static uint8_t store[2 * STORE];
    uint8_t in[80], characters[61];
    const uint8_t setpoint[2] = {59, 124};
    memset(characters, 'o', sizeof characters);
    memcpy(store, start_texts, STORE);
    store[9 * TEXT_SIZE] = 61;
    size_t len = text_message(in, 1, 2, 1, 175, characters, 60);
    for (size_t size = 0; size <= 2 * STORE; size += size >= 600 && size < 620 ? 1 : 50) {
        if (size != STORE) {
            refused_on(1, MAP, store, size, in, len, ROOM, 9);
            refused_on(0, MAP, store, size, in, len, ROOM, 9);
            refused_on(1, MAP, store, size, in, 0, ROOM, 9);
        }
    }
    refused_on(1, MAP, start_texts, STORE - 1, in, len, ROOM, 9);
    refused_on(0, MAP, start_texts, STORE - 1, in, len, ROOM, 9);
    refused_on(1, MAP, store, STORE, in, len, ROOM - 1, 9);
    refused_on(1, MAP - 1, store, STORE, in, len, ROOM, 9);
    refused_on(1, MAP + 1, store, STORE, in, len, ROOM, 9);
    refused_on(1, MAP, store, STORE, in, len, ROOM, 8);
    refused_on(0, MAP, store, STORE, in, len, ROOM, 8);
    refused_on(0, MAP, start_texts, STORE, in, len, ROOM, 8);
    refused_on(128, MAP, start_texts, STORE, in, len, ROOM, 8);
    refused_on(1, MAP, start_texts, STORE, in, len, 18, 9);    /* enough before there were texts */
    refused_on(1, MAP, start_texts, STORE, in, len, ROOM - 1, 9);
    step_as_model(1, in, len);
    /* A wrong store before what the reader refuses, and before another address. */
    refused_on(1, MAP, store, STORE, in, 0, ROOM, 8);
    refused_on(1, MAP, store, STORE, in, 1, ROOM, 8);
    refused_on(1, MAP, store, STORE, in, len - 1, ROOM, 8);
    refused_on(1, MAP, store, STORE, in, len + 1, ROOM, 8);
    refused_on(2, MAP, store, STORE, in, len, ROOM, 8);
    refused_on(1, MAP, store, STORE, in, text_message(in, 0x80, 2, 1, 175, characters, 60), ROOM, 8);
    refused_on(1, MAP, store, STORE, in, message(in, 1, 5, characters, 0), ROOM, 8);
    refused_on(1, MAP, store, STORE, in, message(in, 1, 2, characters, 1), ROOM, 8);
    /* The set of another register, and of the wrong text itself. */
    refused_on(1, MAP, store, STORE, in, message(in, 1, 1, setpoint, 2), ROOM, 8);
    refused_on(1, MAP, store, STORE, in, text_message(in, 1, 0, 1, 181, characters, 1), ROOM, 8);
    refused_on(1, MAP, store, STORE, in, text_message(in, 0, 0, 1, 181, characters, 1), ROOM, 8);
    refused_on(1, MAP, NULL, 0, in, message(in, 1, 1, setpoint, 2), ROOM, 9);
}

/* The paper's examples. */
static void examples(void)
{
    static const uint8_t not_taken[5] = {0x01, 0x21, 0x3B, 0x50, 0xAD}, taken[5] = {0x01, 0x21, 0x3B, 0x7C, 0xD9};
    static const uint8_t to_all_not_taken[5] = {0x00, 0x21, 0x3B, 0x50, 0xAC}, to_all[5] = {0x00, 0x21, 0x3B, 0x7C, 0xD8};
    static const uint8_t unlisted[5] = {0x01, 0x20, 0x44, 0x02, 0x67};
    uint8_t *map = lend_copy(&map_lent, start_map, MAP), *texts = lend_copy(&texts_lent, start_texts, STORE);
    uint8_t *out = lend(&out_lent, ROOM);
    SAME(thermostat_step(1, map, MAP, texts, STORE, not_taken, 5, out, ROOM), 3 << 8);
    CHECK(kept_from(&map_lent, 0) && out[0] == 0x81 && out[1] == 0x01 && out[2] == 0x82);
    SAME(thermostat_step(1, map, MAP, texts, STORE, taken, 5, out, ROOM), 3 << 8);
    CHECK(map[59] == 124 && out[0] == 0x81 && out[1] == 0x00 && out[2] == 0x81);
    map = lend_copy(&map_lent, start_map, MAP);
    out = lend(&out_lent, ROOM);
    SAME(thermostat_step(1, map, MAP, texts, STORE, to_all_not_taken, 5, out, ROOM), 0);
    CHECK(kept_from(&map_lent, 0) && kept_from(&out_lent, 0));
    SAME(thermostat_step(1, map, MAP, texts, STORE, to_all, 5, out, ROOM), 0);
    CHECK(map[59] == 124 && kept_from(&out_lent, 0));
    SAME(thermostat_step(1, map, MAP, texts, STORE, unlisted, 5, out, ROOM), 3 << 8);
    CHECK(out[0] == 0x81 && out[1] == 0x01 && out[2] == 0x82);
    /* own address 122 by 7A and by FA: the reply starts with FA */
    static const uint8_t by_number[3] = {0x7A, 0x02, 0x7C}, by_all[3] = {0xFA, 0x02, 0xFC};
    SAME(thermostat_step(122, map, MAP, texts, STORE, by_number, 3, out, ROOM), 9 << 8);
    CHECK(out[0] == 0xFA);
    SAME(thermostat_step(122, map, MAP, texts, STORE, by_all, 3, out, ROOM), 9 << 8);
    CHECK(out[0] == 0xFA);
    CHECK(kept_from(&texts_lent, 0));
}

/* Document 004's text and the header's: stored, acknowledged and polled. */
static void text_examples(void)
{
    static const uint8_t hi[] = {0x01, 0x01, 0xAF, 'H', 'I', 0x03, 0x45}, hi_to_all[] = {0x00, 0x01, 0xAF, 'H', 'I', 0x03, 0x44};
    static const uint8_t poll[] = {0x01, 0x20, 0xAF, 0x01, 0xD1}, poll_by_fa[] = {0xFA, 0x20, 0xAF, 0x01, 0xCA};
    static const uint8_t poll_by_all[] = {0x00, 0x20, 0xAF, 0x01, 0xD0}, empty[] = {0x01, 0xF1, 0xAF, 0x03, 0xA4};
    static const uint8_t reply[] = {0x81, 0x02, 0xAF, 'H', 'I', 0x03, 0xC6}, no_text[] = {0x81, 0x02, 0xAF, 0x03, 0x35};
    static const uint8_t custom[] = "CUSTOM MESSAGE", zeros[STORE];
    uint8_t *map = lend_copy(&map_lent, start_map, MAP), *texts = lend_copy(&texts_lent, zeros, STORE);
    uint8_t *out = lend(&out_lent, ROOM), want[STORE] = {0}, in[24];
    SAME(thermostat_step(1, map, MAP, texts, STORE, poll, sizeof poll, out, ROOM), 5 << 8);
    CHECK(memcmp(out, no_text, sizeof no_text) == 0);
    SAME(thermostat_step(1, map, MAP, texts, STORE, hi, sizeof hi, out, ROOM), 3 << 8);
    CHECK(out[0] == 0x81 && out[1] == 0x00 && out[2] == 0x81);
    memcpy(want + 183, "\2HI", 3);
    CHECK(memcmp(texts, want, STORE) == 0);
    SAME(thermostat_step(1, map, MAP, texts, STORE, poll, sizeof poll, out, ROOM), 7 << 8);
    CHECK(memcmp(out, reply, sizeof reply) == 0);
    out = lend(&out_lent, ROOM);
    SAME(thermostat_step(1, map, MAP, texts, STORE, poll_by_fa, sizeof poll_by_fa, out, ROOM), 7 << 8);
    CHECK(memcmp(out, reply, sizeof reply) == 0);
    CHECK(kept_from(&out_lent, 7));
    out = lend(&out_lent, ROOM);
    SAME(thermostat_step(1, map, MAP, texts, STORE, poll_by_all, sizeof poll_by_all, out, ROOM), 0);
    SAME(thermostat_step(2, map, MAP, texts, STORE, poll, sizeof poll, out, ROOM), 0);
    CHECK(kept_from(&out_lent, 0));
    /* A shorter text leaves the characters of the longer one past its count. */
    size_t len = text_message(in, 1, 2, 1, 0xAF, custom, 14);
    SAME(thermostat_step(1, map, MAP, texts, STORE, in, len, out, ROOM), 3 << 8);
    memcpy(want + 183, "\16CUSTOM MESSAGE", 15);
    CHECK(memcmp(texts, want, STORE) == 0);
    out = lend(&out_lent, ROOM);
    SAME(thermostat_step(1, map, MAP, texts, STORE, hi_to_all, sizeof hi_to_all, out, ROOM), 0);
    memcpy(want + 183, "\2HISTOM MESSAGE", 15);
    CHECK(memcmp(texts, want, STORE) == 0);
    CHECK(kept_from(&out_lent, 0));
    SAME(thermostat_step(1, map, MAP, texts, STORE, empty, sizeof empty, out, ROOM), 3 << 8);
    want[183] = 0;
    CHECK(memcmp(texts, want, STORE) == 0);
    SAME(thermostat_step(1, map, MAP, texts, STORE, poll, sizeof poll, out, ROOM), 5 << 8);
    CHECK(memcmp(out, no_text, sizeof no_text) == 0);
    SAME(THERMOSTAT_TEXTS, STORE);
    CHECK(kept_from(&map_lent, 0));
}

static void random_messages(void)
{
    uint32_t seed = 1;
    uint8_t map[MAP], texts[STORE];
    memcpy(map, start_map, MAP);
    memcpy(texts, start_texts, STORE);
    for (int turn = 0; turn < 200000; turn++) {
        uint8_t data[16], in[ROOM];
        seed = seed * 1664525u + 1013904223u;
        int type = (int)(seed >> 28) % 5, start = (int)(seed >> 16) % 256, count = 1 + (int)(seed >> 8) % 14;
        int first = (int)(seed >> 4) % 3;
        first = first == 0 ? 0 : first == 1 ? 9 : 0xFA;
        size_t len;
        if (type < 2 && start % 2) {
            uint8_t characters[TEXT_MAX];
            const uint8_t poll[2] = {(uint8_t)(FIRST_TEXT + start % TEXTS), 1};
            size_t n = (seed >> 8) % (TEXT_MAX + 1);
            for (size_t i = 0; i < n; i++) {
                seed = seed * 1664525u + 1013904223u;
                characters[i] = (uint8_t)(0x20 + (seed >> 16) % 95);
            }
            len = type == 0 ? message(in, first, 0, poll, 2) : text_message(in, first, count, 1, poll[0], characters, n);
        } else if (type < 2 && !run_allowed(start, count)) {
            continue;
        } else {
            data[0] = (uint8_t)start;
            data[1] = (uint8_t)count;
            for (int i = 0; type == 1 && i < count; i++) {
                seed = seed * 1664525u + 1013904223u;
                data[1 + i] = (uint8_t)(seed >> 24 & 1 ? value_for(start + i, 1) : (int)(seed >> 16 & 0xFF));
            }
            len = message(in, first, type, data, type == 0 ? 2 : type == 1 ? (size_t)count + 1 : 0);
        }
        step_on(9, map, texts, in, len);
        memcpy(map, map_lent.all + CANARIES, MAP);
        memcpy(texts, texts_lent.all + CANARIES, STORE);
    }
}

static void temperatures(void)
{
    for (int n = 0; n < 256; n++) {
        CHECK((double)temperature_celsius((uint8_t)n) == n / 2.0 - 40.0);
        CHECK(temperature_fahrenheit_tenths((uint8_t)n) == 9 * n - 400);
        for (int k = 0; k < 256; k++) {
            struct setpoints p = setpoints_from_bytes((uint8_t)n, (uint8_t)k);
            CHECK((double)p.cool == n / 2.0 - 40.0 && (double)p.heat == k / 2.0 - 40.0);
            SAME(setpoints_to_bytes(p), (uint64_t)n << 8 | (uint64_t)k << 16);
        }
    }
    CHECK(!signbit(temperature_celsius(80)));
    SAME(setpoints_to_bytes((struct setpoints){-0.0f, 0.0f}), 80 << 8 | 80 << 16);
}

static float of_bits(uint32_t bits)
{
    float x;
    memcpy(&x, &bits, 4);
    return x;
}

static uint32_t bits_of_float(float x)
{
    uint32_t bits;
    memcpy(&bits, &x, 4);
    return bits;
}

/* What goes back, by the paper: twice the value is whole and from -80 to 175. */
static int byte_of(float x)
{
    double twice = (double)x * 2.0;
    if (!(twice >= -80.0 && twice <= 175.0) || twice != (double)(int)twice) {
        return -1;
    }
    return (int)twice + 80;
}

static void back(float x)
{
    int n = byte_of(x);
    SAME(setpoints_to_bytes((struct setpoints){x, 21.5f}), n < 0 ? 8 : (uint64_t)n << 8 | 123 << 16);
    SAME(setpoints_to_bytes((struct setpoints){21.5f, x}), n < 0 ? 8 : 123 << 8 | (uint64_t)n << 16);
}

static void backwards(void)
{
    static const float bad[] = {-40.5f, 88.0f, 22.25f, 1e30f, -1e30f, 1e-40f, -1e-45f, 87.50001f, -40.00001f};
    for (size_t i = 0; i < sizeof bad / sizeof *bad; i++) {
        CHECK(byte_of(bad[i]) == -1);
        back(bad[i]);
    }
    back(NAN);
    back(INFINITY);
    back(-INFINITY);
    for (uint32_t bits = 0; bits < 0xFFFFF000u; bits += 4093) {
        back(of_bits(bits));
    }
    /* every float beside a half degree */
    for (int n = 0; n < 256; n++) {
        float x = (float)(n / 2.0 - 40.0);
        back(of_bits(bits_of_float(x) - 1));
        back(of_bits(bits_of_float(x) + 1));
        back(x + 0.25f);
    }
}

int main(void)
{
    for (int i = 0; i < MAP; i++) {
        start_map[i] = (uint8_t)(i * 5 + 3);
    }
    for (int i = 0; i < STORE; i++) {
        int count = i / TEXT_SIZE * 20 % 61, place = i % TEXT_SIZE;    /* counts 0, 20, 40, 60, 19, 39, .. */
        start_texts[i] = (uint8_t)(place == 0 ? count : place <= count ? 0x20 + i % 95 : place % 2 ? 0x7F + i : TEXT_END);
    }
    examples();
    text_examples();
    single_sets();
    setpoint_sets();
    sets_of_several();
    polls_and_groups();
    addresses();
    refusals();
    text_sets();
    beside_texts();
    text_refusals();
    stores();
    order();
    random_messages();
    temperatures();
    backwards();
    return check_end();
}

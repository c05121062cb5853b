/* The login door, against the rules of document 02, K6, written out in C: every transition, time, shut-outs, the order of the
   refusals, runs, what an onlooker learns of a secret, and the stack. */
#define _POSIX_C_SOURCE 200809L
#include "check.h"
#include "gateway.h"
#include "message.h"
#include "stack.h"

enum { ACKNOWLEDGE = 0x05, NEGATIVE = 0x06, COMMAND = 0x0F, ZONES = 0x16, LOGIN = 0x20, LOGOUT = 0x21, EVENTS = 0x23 };
enum { PASSED_ON = 0, SILENCE = 180, SHUT_OUT = 3600, DATA_MAX = 70 };

#define COUNT(list) (sizeof(list) / sizeof *(list))

static int is_secret(const uint8_t *digits, size_t len)
{
    return len == DOOR_SECRET && digits[0] <= 9 && digits[1] <= 9 && digits[2] <= 9 && digits[3] <= 9;
}

static int is_state(const uint8_t *s, size_t len)
{
    if (len != DOOR_STATE) return 0;
    unsigned left = s[2] * 256u + s[3];
    return s[0] <= 1 && s[1] <= 2 && left <= SHUT_OUT && (s[1] == 0 || left == 0);
}

/* The answer, and in `state` what an accepted call leaves there. */
static uint64_t plain_door(const uint8_t *secret, size_t secret_len, uint8_t *state, size_t state_len, uint32_t seconds,
                           uint8_t type, const uint8_t *data, size_t len)
{
    unsigned items, answer;
    if (!is_secret(secret, secret_len) || !is_state(state, state_len)) return 8;
    unsigned refused = data_refusal(type, data, len, &items);
    if (refused) return refused;
    unsigned logged_in = state[0], count = state[1], left = state[2] * 256u + state[3];
    if (seconds >= SILENCE) {
        logged_in = 0;
    }
    left = left > seconds ? left - seconds : 0;
    if (type == LOGIN && left > 0) {
        answer = NEGATIVE;
    } else if (type == LOGIN && memcmp(data, secret, DOOR_SECRET) == 0) {
        answer = ACKNOWLEDGE;
        logged_in = 1;
        count = 0;
    } else if (type == LOGIN) {
        answer = NEGATIVE;
        count++;
        if (count == 3) {
            count = 0;
            left = SHUT_OUT;
        }
    } else if (!logged_in) {
        answer = NEGATIVE;
    } else if (type == ACKNOWLEDGE) {
        answer = ACKNOWLEDGE;
    } else if (type == LOGOUT) {
        answer = ACKNOWLEDGE;
        logged_in = 0;
    } else {
        answer = PASSED_ON;
    }
    state[0] = (uint8_t)logged_in;
    state[1] = (uint8_t)count;
    state[2] = (uint8_t)(left / 256);
    state[3] = (uint8_t)(left % 256);
    return (uint64_t)answer << 8;
}

/* A state as one number, its bytes from the highest down: 0x01020000 is logged in with two counted, 0x00000E10 is logged out
   with 3,600 seconds left. */
static void put_state(uint8_t *s, uint32_t state)
{
    for (int i = 0; i < DOOR_STATE; i++) {
        s[i] = (uint8_t)(state >> (24 - 8 * i));
    }
}

static uint32_t get_state(const uint8_t *s)
{
    return (uint32_t)s[0] << 24 | (uint32_t)s[1] << 16 | (uint32_t)s[2] << 8 | s[3];
}

static struct lent lent_secret, lent_state, lent_data;

/* One call on copies between canaries, beside the rules. The secret, the data and everything around the state stay, and on a
   refusal the state too. `state` becomes what the call left. */
static uint64_t same_call(const uint8_t *secret, size_t secret_len, uint8_t *state, size_t state_len, uint32_t seconds,
                          uint8_t type, const uint8_t *data, size_t len)
{
    uint8_t want[16] = {0};
    memcpy(want, state, state_len);
    uint64_t answer = plain_door(secret, secret_len, want, state_len, seconds, type, data, len);
    const uint8_t *s = lend_copy(&lent_secret, secret, secret_len);
    uint8_t *t = lend_copy(&lent_state, state, state_len);
    const uint8_t *d = lend_copy(&lent_data, data, len);
    uint64_t got = login_door(s, secret_len, t, state_len, seconds, type, d, len);
    SAME(got, answer);
    if (answer_of(got) == 0) {
        SAME(get_state(t), get_state(want));
    }
    CHECK(kept_from(&lent_state, answer_of(got) == 0 ? DOOR_STATE : 0));
    CHECK(kept_from(&lent_secret, 0) && kept_from(&lent_data, 0));
    memcpy(state, t, state_len);
    return got;
}

struct message {
    uint8_t type;
    uint8_t data[DATA_MAX];
    size_t len;
};

static const uint8_t SECRET[DOOR_SECRET] = {1, 2, 3, 4};

static const uint32_t FRESH = 0, IN = 0x01000000, SHUT = SHUT_OUT;

/* A call with the secret 1 2 3 4 on a state of the right size. */
static uint64_t call(uint32_t *state, uint32_t seconds, const struct message *m)
{
    uint8_t s[DOOR_STATE];
    put_state(s, *state);
    uint64_t got = same_call(SECRET, sizeof SECRET, s, sizeof s, seconds, m->type, m->data, m->len);
    *state = get_state(s);
    return got;
}

static const struct message right = {LOGIN, {1, 2, 3, 4}, 4}, wrong = {LOGIN, {1, 2, 3, 5}, 4}, acknowledge = {ACKNOWLEDGE, {0}, 0},
                            negative = {NEGATIVE, {0}, 0}, logout = {LOGOUT, {0}, 0}, command = {COMMAND, {1, 0x6E, 0, 5}, 4};
static const struct message unknown = {0x07, {0}, 0}, longer = {LOGIN, {1, 2, 3, 4, 0}, 5}, outside = {LOGIN, {1, 2, 3, 10}, 4};

/* The door of the scripts below: a call, its answer and the state afterwards. */
static uint32_t door;

#define GIVES(seconds, message, answer, after)                                                                                   \
    do {                                                                                                                         \
        SAME(call(&door, (seconds), &(message)), (uint64_t)(answer) << 8);                                                       \
        SAME(door, (after));                                                                                                     \
    } while (0)

/* A refused call: its number, and no change. */
#define REFUSES(seconds, message, number)                                                                                        \
    do {                                                                                                                         \
        uint32_t kept = door;                                                                                                    \
        SAME(call(&door, (seconds), &(message)), (number));                                                                      \
        SAME(door, kept);                                                                                                        \
    } while (0)

static void examples(void)
{
    uint8_t s[DOOR_STATE] = {0, 0, 0, 0};
    SAME(login_door((const uint8_t[]){1, 2, 3, 4}, 4, s, 4, 0, 0x20, (const uint8_t[]){1, 2, 3, 5}, 4), 0x0600);
    SAME(get_state(s), 0x00010000);
    SAME(login_door((const uint8_t[]){1, 2, 3, 4}, 4, s, 4, 0, 0x20, (const uint8_t[]){1, 2, 3, 4}, 4), 0x0500);
    SAME(get_state(s), 0x01000000);
    /* secret and data are only read: they may be the same bytes */
    SAME(login_door(SECRET, 4, s, 4, SILENCE, LOGIN, SECRET, 4), 0x0500);
    SAME(get_state(s), 0x01000000);
    SAME(DOOR_SECRET, 4);
    SAME(DOOR_STATE, 4);
}

static void sessions(void)
{
    door = FRESH;
    GIVES(0, acknowledge, 0x06, FRESH);
    GIVES(0, negative, 0x06, FRESH);
    GIVES(0, command, 0x06, FRESH);
    GIVES(0, logout, 0x06, FRESH);
    GIVES(0, right, 0x05, IN);
    GIVES(0, acknowledge, 0x05, IN);
    GIVES(0, negative, PASSED_ON, IN);
    GIVES(0, command, PASSED_ON, IN);
    GIVES(0, right, 0x05, IN);
    GIVES(0, logout, 0x05, FRESH);
    GIVES(0, logout, 0x06, FRESH);
    GIVES(0, acknowledge, 0x06, FRESH);
    /* 179 seconds after each message the session is there, 180 after the last it is not, whatever the message is */
    GIVES(0, right, 0x05, IN);
    GIVES(179, acknowledge, 0x05, IN);
    GIVES(179, command, PASSED_ON, IN);
    GIVES(1, negative, PASSED_ON, IN);
    GIVES(180, acknowledge, 0x06, FRESH);
    GIVES(0, right, 0x05, IN);
    GIVES(180, command, 0x06, FRESH);
    GIVES(0, right, 0x05, IN);
    GIVES(180, logout, 0x06, FRESH);
    GIVES(0, right, 0x05, IN);
    GIVES(180, negative, 0x06, FRESH);
    GIVES(0, right, 0x05, IN);
    GIVES(179, right, 0x05, IN);
    GIVES(180, right, 0x05, IN);
    GIVES(0xFFFFFFFF, right, 0x05, IN);
    GIVES(179, wrong, 0x06, 0x01010000);
    GIVES(180, wrong, 0x06, 0x00020000);
    GIVES(0xFFFFFFFF, right, 0x05, IN);
    GIVES(0xFFFFFFFF, command, 0x06, FRESH);
}

/* Only a right login clears the count; wrong ones while logged in count too. */
static void counts(void)
{
    door = FRESH;
    GIVES(0, wrong, 0x06, 0x00010000);
    GIVES(0, acknowledge, 0x06, 0x00010000);
    GIVES(180, command, 0x06, 0x00010000);
    GIVES(0xFFFFFFFF, logout, 0x06, 0x00010000);
    GIVES(3600, wrong, 0x06, 0x00020000);
    GIVES(3600, negative, 0x06, 0x00020000);
    GIVES(0, right, 0x05, IN);
    GIVES(0, wrong, 0x06, 0x01010000);
    GIVES(0, command, PASSED_ON, 0x01010000);
    GIVES(0, acknowledge, 0x05, 0x01010000);
    GIVES(0, wrong, 0x06, 0x01020000);
    GIVES(0, logout, 0x05, 0x00020000);
    GIVES(0, acknowledge, 0x06, 0x00020000);
    GIVES(0, right, 0x05, IN);
    GIVES(0, wrong, 0x06, 0x01010000);
    GIVES(0, wrong, 0x06, 0x01020000);
    GIVES(180, command, 0x06, 0x00020000);
    GIVES(0, wrong, 0x06, SHUT);
}

static void shut_outs(void)
{
    /* at 3,599 seconds, at 3,600, and a second later */
    door = 0x00020000;
    GIVES(0, wrong, 0x06, SHUT);
    GIVES(3599, right, 0x06, 1);
    GIVES(0, right, 0x06, 1);
    GIVES(1, right, 0x05, IN);
    door = SHUT;
    GIVES(3600, right, 0x05, IN);
    door = SHUT;
    GIVES(0xFFFFFFFF, right, 0x05, IN);
    /* afterwards the count starts at none */
    door = SHUT;
    GIVES(3600, wrong, 0x06, 0x00010000);
    GIVES(0, wrong, 0x06, 0x00020000);
    GIVES(0, wrong, 0x06, SHUT);
    /* logins meanwhile neither count nor prolong, and other messages are judged as ever */
    GIVES(100, wrong, 0x06, 3500);
    GIVES(0, wrong, 0x06, 3500);
    GIVES(0, wrong, 0x06, 3500);
    GIVES(0, wrong, 0x06, 3500);
    GIVES(500, right, 0x06, 3000);
    GIVES(1000, acknowledge, 0x06, 2000);
    GIVES(1000, logout, 0x06, 1000);
    GIVES(999, wrong, 0x06, 1);
    GIVES(1, acknowledge, 0x06, FRESH);
    GIVES(0, wrong, 0x06, 0x00010000);
    /* while logged in: the session goes on */
    door = IN;
    GIVES(0, wrong, 0x06, 0x01010000);
    GIVES(0, wrong, 0x06, 0x01020000);
    GIVES(0, wrong, 0x06, 0x01000E10);
    GIVES(10, command, PASSED_ON, 0x01000E06);
    GIVES(0, acknowledge, 0x05, 0x01000E06);
    GIVES(6, right, 0x06, 0x01000E00);
    GIVES(0, wrong, 0x06, 0x01000E00);
    GIVES(0, logout, 0x05, 0x00000E00);
    GIVES(0, right, 0x06, 0x00000E00);
    /* silence ends the session and not the shut-out */
    door = IN | SHUT;
    GIVES(179, command, PASSED_ON, IN | 3421);
    GIVES(180, command, 0x06, 3241);
    GIVES(0, right, 0x06, 3241);
    door = IN | SHUT;
    GIVES(180, right, 0x06, 3420);
    /* a session that lasts longer than its shut-out */
    door = IN | SHUT;
    for (uint32_t left = SHUT_OUT; left > 100; left -= 100) {
        GIVES(100, command, PASSED_ON, IN | (left - 100));
    }
    GIVES(99, right, 0x06, IN | 1);
    GIVES(1, wrong, 0x06, 0x01010000);
}

/* Refused calls change nothing, and their seconds are not counted. */
static void refused_between(void)
{
    door = IN;
    REFUSES(180, unknown, 6);
    REFUSES(0xFFFFFFFF, longer, 7);
    REFUSES(3600, outside, 8);
    GIVES(179, acknowledge, 0x05, IN);
    REFUSES(179, outside, 8);
    GIVES(1, acknowledge, 0x05, IN);
    /* a refused login is neither a right nor a wrong one */
    GIVES(0, wrong, 0x06, 0x01010000);
    REFUSES(0, outside, 8);
    REFUSES(0, longer, 7);
    GIVES(0, wrong, 0x06, 0x01020000);
    REFUSES(0, outside, 8);
    REFUSES(180, outside, 8);
    GIVES(0, wrong, 0x06, IN | SHUT);
    REFUSES(3600, unknown, 6);
    REFUSES(3600, outside, 8);
    GIVES(0, right, 0x06, IN | SHUT);
    REFUSES(1, longer, 7);
    GIVES(3599, right, 0x06, 1);
    REFUSES(1, outside, 8);
    GIVES(0, right, 0x06, 1);
    /* the seconds of the refused call are given again */
    GIVES(1, right, 0x05, IN);
}

/* What a message does once its seconds have passed: a right login, a wrong one and a logout are answered so and leave these states,
   05 and every other type are answered so and leave the state as it is. The rows of a shut-out are without its seconds left, which
   no message changes. */
static const struct row {
    uint8_t right;
    uint32_t after_right;
    uint8_t wrong;
    uint32_t after_wrong;
    uint8_t logout;
    uint32_t after_logout;
    uint8_t acknowledge, other;
} rows[2][4] = {
    {
        /* logged out: none, one and two counted; shut out */
        {0x05, 0x01000000, 0x06, 0x00010000, 0x06, 0x00000000, 0x06, 0x06},
        {0x05, 0x01000000, 0x06, 0x00020000, 0x06, 0x00010000, 0x06, 0x06},
        {0x05, 0x01000000, 0x06, 0x00000E10, 0x06, 0x00020000, 0x06, 0x06},
        {0x06, 0x00000000, 0x06, 0x00000000, 0x06, 0x00000000, 0x06, 0x06},
    },
    {
        /* logged in */
        {0x05, 0x01000000, 0x06, 0x01010000, 0x05, 0x00000000, 0x05, 0x00},
        {0x05, 0x01000000, 0x06, 0x01020000, 0x05, 0x00010000, 0x05, 0x00},
        {0x05, 0x01000000, 0x06, 0x01000E10, 0x05, 0x00020000, 0x05, 0x00},
        {0x06, 0x01000000, 0x06, 0x01000000, 0x05, 0x00000000, 0x05, 0x00},
    },
};

/* The state after the seconds, before the message. */
static uint32_t passed(uint32_t state, uint32_t seconds)
{
    uint32_t left = state & 0xFFFF, logged_in = state & IN;
    return (seconds < SILENCE ? logged_in : 0) | (state & 0x00FF0000) | (left < seconds ? 0 : left - seconds);
}

/* A call, judged by the table. A login is never passed on. */
static void judged(uint32_t state, uint32_t seconds, const struct message *m)
{
    uint32_t before = passed(state, seconds), left = before & 0xFFFF, after = before;
    const struct row *row = &rows[before >> 24][left > 0 ? 3 : before >> 16 & 0xFF];
    uint8_t answer = row->other;
    if (m->type == LOGIN && memcmp(m->data, SECRET, DOOR_SECRET) == 0) {
        answer = row->right;
        after = row->after_right | left;
    } else if (m->type == LOGIN) {
        answer = row->wrong;
        after = row->after_wrong | left;
    } else if (m->type == LOGOUT) {
        answer = row->logout;
        after = row->after_logout | left;
    } else if (m->type == ACKNOWLEDGE) {
        answer = row->acknowledge;
    }
    uint64_t got = call(&state, seconds, m);
    SAME(got, (uint64_t)answer << 8);
    SAME(state, after);
    CHECK(m->type != LOGIN || got == 0x0500 || got == 0x0600);
}

/* The right login, wrong ones by one digit, by two and by their order, and each type at each length that it accepts. */
static struct message messages[160];
static size_t message_count;

static void add_message(uint8_t type, const uint8_t *data, size_t len)
{
    struct message *m = &messages[message_count++];
    m->type = type;
    m->len = len;
    memcpy(m->data, data, len);
}

static void fill_messages(void)
{
    static const uint8_t logins[][4] = {
        {1, 2, 3, 4}, {4, 3, 2, 1}, {2, 1, 4, 3}, {1, 2, 4, 3}, {3, 4, 1, 2}, {0, 2, 3, 5}, {9, 9, 9, 9}, {0, 0, 0, 0},
    };
    for (size_t i = 0; i < COUNT(logins); i++) {
        add_message(LOGIN, logins[i], 4);
    }
    for (size_t at = 0; at < 4; at++) {
        for (uint8_t digit = 0; digit <= 9; digit++) {
            uint8_t near[4] = {1, 2, 3, 4};
            near[at] = digit;
            if (digit != SECRET[at]) {
                add_message(LOGIN, near, 4);
            }
        }
    }
    for (size_t i = 0; i < COUNT(types); i++) {
        for (size_t n = 0; n <= 64; n++) {
            uint8_t data[64];
            unsigned items;
            accepted_data(types[i], n, data);
            if (data_refusal(types[i], data, n, &items) == 0) {
                add_message(types[i], data, n);
            }
        }
    }
    /* seven and three types of one length and the logins, zones 1 to 32, events 0 to 32, three lengths of text messages */
    SAME(message_count, COUNT(logins) + 36 + 7 + 4 + 32 + 33 + 3);
}

static void transitions(void)
{
    static const uint32_t lefts[] = {1, 2, 60, 179, 180, 181, 1800, 3599, 3600};
    static const uint32_t times[] = {
        0, 1, 2, 60, 178, 179, 180, 181, 256, 435, 1799, 3598, 3599, 3600, 3601, 65535, 65536, 65596, 69136, 0x7FFFFFFF, 0x80000000,
        0x80000001, 0xFFFFF1F0, 0xFFFFFFFE, 0xFFFFFFFF,
    };
    for (size_t t = 0; t < COUNT(times); t++) {
        for (size_t m = 0; m < message_count; m++) {
            for (uint32_t in = FRESH; in <= IN; in += IN) {
                for (uint32_t count = 0; count <= 2; count++) {
                    judged(in | count << 16, times[t], &messages[m]);
                }
                for (size_t i = 0; i < COUNT(lefts); i++) {
                    judged(in | lefts[i], times[t], &messages[m]);
                }
            }
        }
    }
}

/* Every state without a count, with the seconds that matter to it. */
static void every_state(void)
{
    const struct message *const kinds[] = {&right, &wrong, &logout, &acknowledge, &negative, &command};
    for (uint32_t in = FRESH; in <= IN; in += IN) {
        for (uint32_t left = 0; left <= SHUT_OUT; left++) {
            const uint32_t times[] = {0, 179, 180, left == 0 ? 1 : left - 1, left};
            for (size_t k = 0; k < COUNT(kinds); k++) {
                for (size_t t = 0; t < COUNT(times); t++) {
                    judged(in | left, times[t], kinds[k]);
                }
            }
        }
    }
}

/* Every number of seconds up to 8,000, on a session and on a shut-out. */
static void every_second(void)
{
    for (uint32_t seconds = 0; seconds <= 8000; seconds++) {
        door = IN;
        GIVES(seconds, acknowledge, seconds < 180 ? 0x05 : 0x06, seconds < 180 ? IN : FRESH);
        door = SHUT;
        GIVES(seconds, right, seconds < 3600 ? 0x06 : 0x05, seconds < 3600 ? 3600 - seconds : IN);
        door = SHUT;
        GIVES(seconds, command, 0x06, seconds < 3600 ? 3600 - seconds : FRESH);
        door = 0x01020000;
        GIVES(seconds, command, seconds < 180 ? PASSED_ON : 0x06, seconds < 180 ? 0x01020000 : 0x00020000);
    }
}

/* A shut-out that passes in parts of so many seconds: by right logins alone, and with other messages and refused calls between. */
static void in_parts(uint32_t part)
{
    const struct message *const others[] = {&acknowledge, &wrong, &command, &logout, &negative, &right};
    uint32_t left = SHUT_OUT;
    door = SHUT;
    while (left > part) {
        left -= part;
        GIVES(part, right, 0x06, left);
    }
    GIVES(part, right, 0x05, IN);
    left = SHUT_OUT;
    door = SHUT;
    for (size_t i = 0; left > part; i++) {
        left -= part;
        GIVES(part, *others[i % COUNT(others)], 0x06, left);
        if (i % 16 == 0) {
            REFUSES(left, unknown, 6);
        }
    }
    GIVES(left - 1, right, 0x06, 1);
    GIVES(1, right, 0x05, IN);
}

static void parts(void)
{
    for (uint32_t part = 1; part <= 3601; part += part < 20 ? 1 : part < 170 ? 7 : part < 190 ? 1 : 19) {
        in_parts(part);
    }
    in_parts(1800);
    in_parts(3599);
    in_parts(3600);
}

/* Every login against some secrets: one is right. */
static void every_login(void)
{
    static const uint8_t secrets[][DOOR_SECRET] = {{1, 2, 3, 4}, {0, 0, 0, 0}, {9, 9, 9, 9}, {9, 0, 0, 9}};
    for (size_t k = 0; k < COUNT(secrets); k++) {
        unsigned taken = 0;
        for (unsigned n = 0; n < 10000; n++) {
            const uint8_t digits[4] = {(uint8_t)(n / 1000), (uint8_t)(n / 100 % 10), (uint8_t)(n / 10 % 10), (uint8_t)(n % 10)};
            uint8_t s[DOOR_STATE] = {0, (uint8_t)(n % 3), 0, 0};
            uint64_t got = same_call(secrets[k], DOOR_SECRET, s, sizeof s, n, LOGIN, digits, 4);
            taken += got == 0x0500;
            CHECK(got == (memcmp(digits, secrets[k], 4) == 0 ? 0x0500 : 0x0600));
        }
        SAME(taken, 1);
    }
}

/* Whether a call with this state is answered with something else than 8; its message alone is answered with `number`. */
static unsigned taken_state(uint32_t state, uint32_t seconds, const struct message *m, unsigned number)
{
    uint64_t got = call(&state, seconds, m);
    CHECK(answer_of(got) == number || got == 8);
    return got != 8;
}

/* Every first and second byte, without and with seconds left; every number of seconds left, without and with a count. */
static void wrong_states(void)
{
    unsigned taken = 0, with_left = 0, lefts = 0, with_count = 0, unread = 0;
    for (uint32_t pair = 0; pair <= 0xFFFF; pair++) {
        taken += taken_state(pair << 16, 1, &command, 0);
        with_left += taken_state(pair << 16 | 1, 3600, &unknown, 6);
        lefts += taken_state(pair, 180, &right, 0);
        with_count += taken_state(0x00010000 | pair, 0xFFFFFFFF, &acknowledge, 0);
        with_count += taken_state(0x01020000 | pair, 0xFFFFFFFF, &longer, 7);
        unread += taken_state(IN | pair, 0, &unknown, 6);
    }
    SAME(taken, 6);
    SAME(with_left, 2);
    SAME(lefts, 3601);
    SAME(with_count, 2);
    SAME(unread, 3601);
}

/* Each byte at each place of a secret. */
static void wrong_secrets(void)
{
    static const uint8_t secrets[][DOOR_SECRET] = {{1, 2, 3, 4}, {9, 9, 9, 9}, {0, 0, 0, 0}};
    const struct message *const kinds[] = {&right, &wrong, &command, &unknown, &longer, &outside};
    static const uint32_t states[] = {0x00000000, 0x01020000, 0x01000E10, 0x00030000};
    for (size_t k = 0; k < COUNT(secrets); k++) {
        for (size_t at = 0; at < DOOR_SECRET; at++) {
            for (unsigned byte = 0; byte <= 255; byte++) {
                uint8_t secret[DOOR_SECRET];
                memcpy(secret, secrets[k], sizeof secret);
                secret[at] = (uint8_t)byte;
                for (size_t i = 0; i < COUNT(kinds) * COUNT(states); i++) {
                    const struct message *m = kinds[i % COUNT(kinds)];
                    uint8_t s[DOOR_STATE];
                    put_state(s, states[i / COUNT(kinds)]);
                    uint64_t got = same_call(secret, sizeof secret, s, sizeof s, 7, m->type, m->data, m->len);
                    CHECK(byte <= 9 || (got == 8 && get_state(s) == states[i / COUNT(kinds)]));
                }
            }
        }
    }
}

/* Only four bytes are a secret, and only four a state; a null pointer with length 0 is neither. */
static void sizes(void)
{
    static uint8_t zeros[65536 + 4];
    static const size_t others[] = {255, 256, 260, 65536, 65540};
    for (size_t len = 0; len <= 8; len++) {
        for (size_t other = 0; other <= 8; other++) {
            int fit = len == DOOR_SECRET && other == DOOR_STATE;
            uint8_t s[8] = {0};
            SAME(same_call(zeros, len, s, other, 5, ACKNOWLEDGE, NULL, 0), fit ? 0x0600 : 8);
            SAME(same_call(zeros, len, s, other, 5, 0x07, NULL, 0), fit ? 6 : 8);
            SAME(same_call(zeros, len, s, other, 5, LOGIN, NULL, 0), fit ? 7 : 8);
            SAME(same_call(zeros, len, s, other, 5, LOGIN, zeros, 4), fit ? 0x0500 : 8);
            CHECK(fit || memcmp(s, zeros, sizeof s) == 0);
        }
    }
    for (size_t i = 0; i < COUNT(others); i++) {
        static const uint8_t secret[DOOR_SECRET];
        uint8_t s[DOOR_STATE] = {0};
        SAME(login_door(zeros, others[i], s, sizeof s, 5, LOGIN, secret, 4), 8);
        SAME(login_door(secret, sizeof secret, zeros, others[i], 5, LOGIN, secret, 4), 8);
        CHECK(memcmp(s, secret, sizeof s) == 0);
    }
    uint8_t s[DOOR_STATE] = {1, 0, 0, 0};
    SAME(login_door(NULL, 0, s, sizeof s, 0, ACKNOWLEDGE, NULL, 0), 8);
    SAME(login_door(SECRET, sizeof SECRET, NULL, 0, 0, ACKNOWLEDGE, NULL, 0), 8);
    SAME(login_door(NULL, 0, NULL, 0, 0, 0x07, NULL, 0), 8);
    SAME(login_door(SECRET, sizeof SECRET, s, sizeof s, 0, LOGIN, NULL, 0), 7);
    SAME(login_door(SECRET, sizeof SECRET, s, sizeof s, 0, ACKNOWLEDGE, NULL, 0), 0x0500);
    SAME(login_door(SECRET, sizeof SECRET, s, sizeof s, 0, EVENTS, NULL, 0), 0);
    SAME(get_state(s), IN);
    int kept_all = 1;
    for (size_t i = 0; i < sizeof zeros; i++) {
        kept_all &= zeros[i] == 0;
    }
    CHECK(kept_all);
}

/* Secret and state before the message, each wrong in each way with each refused message. */
static void order(void)
{
    static const struct { uint8_t bytes[5]; size_t len; } secrets[] = {
        {{1, 2, 3, 4}, 4}, {{10, 2, 3, 4}, 4}, {{1, 2, 3, 255}, 4}, {{1, 2, 3}, 3}, {{1, 2, 3, 4, 5}, 5}, {{0}, 0},
    }, states[] = {
        {{1, 0, 0, 0}, 4}, {{2, 0, 0, 0}, 4}, {{255, 0, 0, 0}, 4}, {{1, 3, 0, 0}, 4}, {{1, 0, 0x0E, 0x11}, 4},
        {{1, 0, 0xFF, 0xFF}, 4}, {{1, 1, 0, 1}, 4}, {{0, 2, 0x0E, 0x10}, 4}, {{0, 1, 1, 0}, 4}, {{1, 0, 0}, 3},
        {{1, 0, 0, 0, 0}, 5}, {{0}, 0},
    };
    const struct { const struct message *m; uint64_t answer; } asked[] = {
        {&command, 0}, {&right, 0x0500}, {&unknown, 6}, {&longer, 7}, {&outside, 8},
    };
    for (size_t i = 0; i < COUNT(secrets); i++) {
        for (size_t j = 0; j < COUNT(states); j++) {
            for (size_t k = 0; k < COUNT(asked); k++) {
                const struct message *m = asked[k].m;
                uint8_t s[5];
                memcpy(s, states[j].bytes, sizeof s);
                uint64_t got = same_call(secrets[i].bytes, secrets[i].len, s, states[j].len, 10, m->type, m->data, m->len);
                SAME(got, i == 0 && j == 0 ? asked[k].answer : 8);
                CHECK(memcmp(s, states[j].bytes, sizeof s) == 0);
            }
        }
    }
}

/* A message is refused as omnilink_message_write refuses it, logged in or not. */
static void asked_of_both(uint8_t type, const uint8_t *data, size_t n)
{
    static const uint32_t states[] = {0x00010000, 0x01000000};
    uint8_t out[DATA_MAX + 5];
    unsigned number = answer_of(omnilink_message_write(type, data, n, out, sizeof out));
    for (size_t i = 0; i < COUNT(states); i++) {
        uint8_t s[DOOR_STATE];
        put_state(s, states[i]);
        SAME(answer_of(same_call(SECRET, sizeof SECRET, s, sizeof s, number == 0 ? 0 : 3600, type, data, n)), number);
    }
}

/* Every type at every length; each data byte of each readable type at each of its values, of lists the shortest and the longest. */
static void refused_messages(void)
{
    for (unsigned type = 0; type <= 255; type++) {
        for (size_t n = 0; n <= DATA_MAX; n++) {
            uint8_t data[DATA_MAX];
            accepted_data((uint8_t)type, n, data);
            asked_of_both((uint8_t)type, data, n);
        }
    }
    for (size_t i = 0; i < message_count; i++) {
        struct message m = messages[i];
        if (((m.type == EVENTS || m.type == ZONES) && m.len > 4 && m.len < 64) || (m.type == LOGIN && i > 0)) {
            continue;
        }
        for (size_t at = 0; at < m.len; at++) {
            for (unsigned byte = 0; byte <= 255; byte++) {
                m.data[at] = (uint8_t)byte;
                asked_of_both(m.type, m.data, m.len);
            }
            m.data[at] = messages[i].data[at];
        }
    }
}

static uint64_t seed;

static unsigned draw(unsigned below)
{
    seed = seed * 6364136223846793005 + 1442695040888963407;
    return (unsigned)((seed >> 33) % below);
}

/* Seconds: mostly few, else near what ends a session or a shut-out, or as many as there can be. */
static uint32_t drawn_seconds(uint32_t state)
{
    uint32_t left = state & 0xFFFF;
    switch (draw(16)) {
    case 0: return 178 + draw(4);
    case 1: return left == 0 ? 0xFFFFFFFF : left - 1 + draw(3);
    case 2: return 3598 + draw(4);
    case 3: return draw(4000);
    case 4: return 0xFFFFFFFF - draw(3) * 0x3FFFFFFF;
    case 5: return left / 2;
    default: return draw(20);
    }
}

/* A login, right or wrong by a digit, or another message; in one of eight the type, the length or a byte is any. */
static struct message drawn_message(const uint8_t *secret)
{
    static const struct message *const others[] = {&acknowledge, &negative, &logout};
    struct message m = right;
    unsigned kind = draw(16);
    if (kind < 3) {
        m = *others[kind];
    } else if (kind < 7) {
        m = messages[draw((unsigned)message_count)];
    } else {
        memcpy(m.data, secret, DOOR_SECRET);
        if (kind >= 10) {
            m.data[draw(DOOR_SECRET)] = (uint8_t)draw(10);
        }
    }
    switch (draw(24)) {
    case 0: m.type = (uint8_t)draw(256); break;
    case 1: m.len = draw(DATA_MAX); break;
    case 2: m.data[draw(DOOR_SECRET)] = (uint8_t)draw(256); break;
    }
    return m;
}

/* A number of four digits. */
static void put_digits(uint8_t *digits, unsigned n)
{
    for (int i = 3; i >= 0; i--, n /= 10) {
        digits[i] = (uint8_t)(n % 10);
    }
}

/* Long runs on one state, now and then with another secret or another state between, which the run does not feel. */
static void runs(unsigned count, unsigned steps)
{
    for (unsigned run = 0; run < count; run++) {
        uint8_t s[DOOR_STATE] = {0}, secret[DOOR_SECRET];
        put_digits(secret, draw(10000));
        for (unsigned i = 0; i < steps; i++) {
            struct message m = drawn_message(secret);
            uint32_t seconds = drawn_seconds(get_state(s));
            if (draw(32) == 0) {
                uint8_t other[DOOR_SECRET], between[DOOR_STATE];
                memcpy(other, secret, sizeof other);
                other[draw(DOOR_SECRET)] = (uint8_t)(10 + draw(246));
                SAME(same_call(other, sizeof other, s, sizeof s, seconds, m.type, m.data, m.len), 8);
                memcpy(between, s, sizeof between);
                between[draw(DOOR_STATE)] = (uint8_t)draw(256);
                same_call(secret, sizeof secret, between, sizeof between, seconds, m.type, m.data, m.len);
            }
            same_call(secret, sizeof secret, s, sizeof s, seconds, m.type, m.data, m.len);
        }
    }
}

/* A list of messages and times, and what each is answered and leaves where no login is right. */
enum { LISTED = 40 };

static struct {
    uint32_t seconds;
    struct message m;
    uint64_t answer;
    uint32_t state;
} listed[LISTED];

/* Fills the list, and marks the four digits of each login. */
static void list_messages(uint8_t *tried)
{
    for (size_t i = 0; i < LISTED; i++) {
        const uint8_t near[DOOR_SECRET] = {(uint8_t)draw(10), (uint8_t)draw(10), 5, 5};
        struct message *m = &listed[i].m;
        *m = drawn_message(near);
        listed[i].seconds = draw(4) == 0 ? drawn_seconds(SHUT) : draw(3);
        if (m->type == LOGIN && is_secret(m->data, m->len)) {
            tried[m->data[0] * 1000 + m->data[1] * 100 + m->data[2] * 10 + m->data[3]] = 1;
        }
    }
}

/* The run of a secret that no login has. */
static void run_of_none(uint32_t state, const uint8_t *secret)
{
    uint8_t s[DOOR_STATE];
    put_state(s, state);
    for (size_t i = 0; i < LISTED; i++) {
        const struct message *m = &listed[i].m;
        listed[i].answer = same_call(secret, DOOR_SECRET, s, sizeof s, listed[i].seconds, m->type, m->data, m->len);
        listed[i].state = get_state(s);
        CHECK(m->type != LOGIN || listed[i].answer != 0x0500);
    }
}

/* The run of any secret: how many calls there are before the first that accepts a login, where all of them are as listed, or -1. */
static int alike(uint32_t state, const uint8_t *secret)
{
    uint8_t s[DOOR_STATE];
    put_state(s, state);
    for (int i = 0; i < LISTED; i++) {
        const struct message *m = &listed[i].m;
        uint64_t got = login_door(secret, DOOR_SECRET, s, sizeof s, listed[i].seconds, m->type, m->data, m->len);
        if (m->type == LOGIN && got == 0x0500) return i;
        if (got != listed[i].answer || get_state(s) != listed[i].state) return -1;
    }
    return LISTED;
}

/* Every secret over the same messages and times. Before a secret's first right login its run is that of a secret that no login has:
   so any two of them are answered alike and pass through the same states as long as neither accepts a login. */
static void secrecy(uint32_t state)
{
    uint8_t tried[10000] = {0}, secret[DOOR_SECRET];
    unsigned none = 0, accepting = 0;
    list_messages(tried);
    while (tried[none]) {
        none++;
    }
    put_digits(secret, none);
    run_of_none(state, secret);
    for (unsigned n = 0; n < 10000; n++) {
        put_digits(secret, n);
        int before = alike(state, secret);
        CHECK(before >= 0);
        CHECK(before == LISTED || (before >= 0 && memcmp(listed[before].m.data, secret, DOOR_SECRET) == 0));
        accepting += before != LISTED;
    }
    CHECK(accepting > 0);
}

static void secrets(void)
{
    static const uint32_t states[] = {
        0x00000000, 0x00010000, 0x00020000, 0x00000001, 0x00000064, 0x00000E10, 0x01000000, 0x01020000,
    };
    for (size_t i = 0; i < COUNT(states); i++) {
        secrecy(states[i]);
    }
}

/* The type and the seconds are passed in registers: what stands above them must not matter. */
static void upper_bits(void)
{
    uint64_t (*volatile door_call)(const uint8_t *, size_t, uint8_t *, size_t, uint64_t, uint64_t, const uint8_t *, size_t) =
        (uint64_t (*)(const uint8_t *, size_t, uint8_t *, size_t, uint64_t, uint64_t, const uint8_t *, size_t))(void *)login_door;
    uint8_t s[DOOR_STATE] = {0};
    SAME(door_call(SECRET, 4, s, 4, UINT64_C(0xFFFFFFFF00000000), UINT64_C(0xFFFFFFFFFFFFFF20), SECRET, 4), 0x0500);
    SAME(get_state(s), IN);
    SAME(door_call(SECRET, 4, s, 4, UINT64_C(0x12345678000000B3), UINT64_C(0x0123456789ABCD05), NULL, 0), 0x0500);
    SAME(door_call(SECRET, 4, s, 4, UINT64_C(0x8000000000000000), UINT64_C(0x2000000000000107), NULL, 0), 6);
    SAME(door_call(SECRET, 4, s, 4, UINT64_C(0x00000001000000B4), UINT64_C(0x0000000100000005), NULL, 0), 0x0600);
    SAME(get_state(s), FRESH);
    put_state(s, SHUT);
    SAME(door_call(SECRET, 4, s, 4, UINT64_C(0xFFFFFFFF00000E0F), UINT64_C(0x0000000000010020), SECRET, 4), 0x0600);
    SAME(get_state(s), 1);
}

static void *calls(void *unused)
{
    uint8_t s[DOOR_STATE] = {0}, zones[64] = {0};
    login_door(SECRET, sizeof SECRET, s, sizeof s, 0, LOGIN, SECRET, sizeof SECRET);
    login_door(SECRET, sizeof SECRET, s, sizeof s, 0, ZONES, zones, sizeof zones);
    login_door(SECRET, sizeof SECRET, s, sizeof s, 0, COMMAND, command.data, command.len);
    login_door(SECRET, sizeof SECRET, s, sizeof s, 0, LOGIN, zones, 4);
    return unused;
}

int main(void)
{
    fill_messages();
    examples();
    sessions();
    counts();
    shut_outs();
    refused_between();
    transitions();
    every_state();
    every_second();
    parts();
    every_login();
    wrong_states();
    wrong_secrets();
    sizes();
    order();
    refused_messages();
    seed = 1;
    runs(100, 1000);
    secrets();
    upper_bits();
    stack_stays_small(calls, "a login, 32 zones and a command passed on, and a wrong login");
    return check_end();
}

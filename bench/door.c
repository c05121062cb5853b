/* The login door: logins, messages with and without a session, sessions, and a refused login. A row has many doors, so that no call
   waits for the state that the one before it left, but for the row of whole sessions. */
#include "bench.h"
#include "gateway.h"
#include "message.h"

enum { ACKNOWLEDGE = 0x05, NEGATIVE = 0x06, COMMAND = 0x0F, ZONES = 0x16, LOGIN = 0x20, LOGOUT = 0x21 };
enum { SILENCE = 180, SHUT_OUT = 3600 };

PLAIN uint64_t plain_door(const uint8_t *secret, size_t secret_len, uint8_t *state, size_t state_len, uint32_t seconds,
                          uint8_t type, const uint8_t *data, size_t len)
{
    if (secret_len != DOOR_SECRET || secret[0] > 9 || secret[1] > 9 || secret[2] > 9 || secret[3] > 9) return 8;
    if (state_len != DOOR_STATE || state[0] > 1 || state[1] > 2) return 8;
    unsigned logged_in = state[0], count = state[1], left = (unsigned)state[2] << 8 | state[3];
    if (left > SHUT_OUT || (left != 0 && count != 0)) return 8;
    size_t items;
    unsigned refusal = message_refusal(type, data, len, &items), answer = NEGATIVE;
    if (refusal) return refusal;
    if (seconds >= SILENCE) {
        logged_in = 0;
    }
    left = seconds < left ? left - seconds : 0;
    if (type == LOGIN) {
        if (left == 0 && memcmp(data, secret, DOOR_SECRET) == 0) {
            logged_in = 1;
            count = 0;
            answer = ACKNOWLEDGE;
        } else if (left == 0 && ++count == 3) {
            count = 0;
            left = SHUT_OUT;
        }
    } else if (logged_in) {
        answer = type == ACKNOWLEDGE || type == LOGOUT ? ACKNOWLEDGE : 0;
        logged_in = type != LOGOUT;
    }
    state[0] = (uint8_t)logged_in;
    state[1] = (uint8_t)count;
    state[2] = (uint8_t)(left >> 8);
    state[3] = (uint8_t)left;
    return (uint64_t)answer << 8;
}

enum { DOORS = 64 };

static const uint8_t secret[DOOR_SECRET] = {1, 2, 3, 4};
static uint8_t doors[DOORS][DOOR_STATE], start[DOORS][DOOR_STATE];
static struct message {
    uint32_t seconds;
    uint8_t type, data[64];
    size_t len;
} messages[DOORS];

#define CALL(door, m)                                                                                                                              \
    secret, sizeof secret, doors[door], DOOR_STATE, messages[m].seconds, messages[m].type, messages[m].data, messages[m].len

/* A message for each door, or the same four in turn for each. */
SIDES(each, login_door, plain_door, CALL(i % DOORS, i % DOORS))
SIDES(session, login_door, plain_door, CALL(i / 4 % DOORS, i % 4))

static void message(size_t i, uint32_t seconds, uint8_t type, const uint8_t *data, size_t len)
{
    messages[i].seconds = seconds;
    messages[i].type = type;
    messages[i].len = len;
    memcpy(messages[i].data, data, len);
}

/* What a row starts with: all doors in one state, but with 0, 1 and 2 wrong logins counted in turn where no seconds are left. */
static void begin(uint8_t logged_in, unsigned left)
{
    for (size_t i = 0; i < DOORS; i++) {
        memcpy(start[i], (const uint8_t[]){logged_in, left > 0 ? 0 : i % 3, (uint8_t)(left >> 8), (uint8_t)left}, DOOR_STATE);
    }
}

int main(void)
{
    static const uint8_t zones[64];
    /* after so many seconds the session of the login before it is over */
    for (size_t i = 0; i < DOORS; i++) {
        message(i, SILENCE, LOGIN, secret, 4);
    }
    begin(0, 0);
    ROW_FROM("login_door, a right login", each, DOORS, doors, start);
    /* after so many seconds a shut-out is over: a door has one counted, then two, is shut out, and has one counted again */
    for (size_t i = 0; i < DOORS; i++) {
        message(i, SHUT_OUT, LOGIN, (const uint8_t[]){1, 2, (uint8_t)(i % 3), (uint8_t)(i % 10)}, 4);
    }
    ROW_FROM("login_door, a wrong login", each, 3 * DOORS, doors, start);
    for (size_t i = 0; i < DOORS; i++) {
        messages[i].seconds = 0;
    }
    begin(0, SHUT_OUT);
    ROW_FROM("login_door, a login while shut out", each, DOORS, doors, start);
    for (size_t i = 0; i < DOORS; i++) {
        message(i, (uint32_t)i, COMMAND, (const uint8_t[]){i % 2, (uint8_t)i, 0, (uint8_t)(i + 1)}, 4);
    }
    begin(1, 0);
    ROW_FROM("login_door, a command passed on", each, DOORS, doors, start);
    begin(0, 0);
    ROW_FROM("login_door, a command, not logged in", each, DOORS, doors, start);
    for (size_t i = 0; i < DOORS; i++) {
        message(i, (uint32_t)i, ZONES, zones, sizeof zones);
    }
    begin(1, 0);
    ROW_FROM("login_door, 32 zones passed on", each, DOORS, doors, start);
    message(0, 5, LOGIN, secret, 4);
    message(1, 1, ACKNOWLEDGE, secret, 0);
    message(2, 20, COMMAND, (const uint8_t[]){1, 0x6E, 0, 5}, 4);
    message(3, 7, LOGOUT, secret, 0);
    begin(1, 0);
    ROW_FROM("login_door, login, 05, command, logout", session, 4 * DOORS, doors, start);
    for (size_t i = 0; i < DOORS; i++) {
        message(i, 0, LOGIN, (const uint8_t[]){1, 2, 3, 10}, 4);
    }
    ROW_FROM("login_door, a login with digit 10", each, DOORS, doors, start);
    return 0;
}

/* The login door of an Omni-Link controller, to practise at. On a serial line it is the controller's end: it reads frames,
   answers 05 or 06 as frames, and prints a line for each: the seconds given with it, what came, what was answered, and the state
   of the door. The line must not hand back what is sent on it: the door would answer its own answers.

       door LINE SECRET    a serial line or pseudo-terminal, and the four digits of the right login; until the line hangs up
       door                the rehearsal

   In the rehearsal the line is a pseudo-terminal, and a technician at its other end sends one frame after the other. The clock is
   the rehearsal's own, so that an hour passes at once, and each run prints the same. */
#define _XOPEN_SOURCE 700
#include "gateway.h"
#include <errno.h>
#include <fcntl.h>
#include <inttypes.h>
#include <poll.h>
#include <stdbool.h>
#include <stdio.h>
#include <stdlib.h>
#include <string.h>
#include <termios.h>
#include <time.h>
#include <unistd.h>

enum { FRAME_MAX = 69 };                        /* the longest frame, in bytes */
enum { SECOND = 1000, SILENCE = 180 * SECOND }; /* in milliseconds; so long without a message ends a session */
enum { FOREVER = -1 };                          /* to wait for a byte */
enum { LOGGED_IN = 0, COUNTED = 1, LEFT = 2 };  /* where a state has its fields */
enum { ACKNOWLEDGE = 0x05, NEGATIVE = 0x06 };

/* A line without a byte for so many milliseconds is quiet. Document 000 gives a controller no such time: a master allows 50 ms
   for the next byte of an answer, and 1 second for its first. With a time between, a frame behind an unfinished one is still
   answered within that second. */
enum { GAP_MS = 250 };

/* Of the refusals that a frame or a message can get. */
static const char *const REASONS[] = {
    [GATEWAY_SHORT] = "too short", [GATEWAY_START] = "wrong start", [GATEWAY_LENGTH] = "wrong length byte",
    [GATEWAY_LONG] = "too long", [GATEWAY_CHECKSUM] = "wrong checksum", [GATEWAY_UNKNOWN] = "unknown type",
    [GATEWAY_TYPE_LENGTH] = "length wrong for the type", [GATEWAY_FIELD] = "field outside its list"};

static const char *const MESSAGES[] = {
    [0x05] = "acknowledge", [0x06] = "negative acknowledge", [0x0D] = "upload event log", [0x0E] = "log entry",
    [0x0F] = "command", [0x11] = "request system information", [0x13] = "request system status", [0x15] = "zone request",
    [0x16] = "zone status", [0x20] = "login", [0x21] = "logout", [0x22] = "request events", [0x23] = "events",
    [0x25] = "message status"};

static void fail(const char *what)
{
    fprintf(stderr, "door: %s: %s\n", what, strerror(errno));
    exit(1);
}

static void flush_output(void)
{
    if (fflush(stdout) != 0) {
        fail("standard output");
    }
}

/* ---- the line */

/* Opens a tty raw: 9600 baud, 8 bits, no parity, one stop bit. */
static int open_tty(const char *path)
{
    struct termios t;
    int fd = open(path, O_RDWR | O_NOCTTY | O_NONBLOCK);    /* O_NONBLOCK: do not wait for a carrier */
    if (fd < 0 || tcgetattr(fd, &t) != 0) {
        fail(path);
    }
    t.c_iflag = t.c_oflag = t.c_lflag = 0;
    t.c_cflag = CS8 | CREAD | CLOCAL;
    t.c_cc[VMIN] = 1;
    t.c_cc[VTIME] = 0;
    cfsetispeed(&t, B9600);
    cfsetospeed(&t, B9600);
    if (tcsetattr(fd, TCSAFLUSH, &t) != 0 || fcntl(fd, F_SETFL, 0) != 0) {
        fail(path);
    }
    return fd;
}

static void send_all(int fd, const uint8_t *bytes, size_t len)
{
    while (len > 0) {
        ssize_t n = write(fd, bytes, len);
        if (n < 0) {
            fail("write to a line");
        }
        bytes += n;
        len -= (size_t)n;
    }
}

/* Waits at most ms milliseconds for bytes; their count, 0 if none came. */
static size_t receive(int fd, int ms, uint8_t *to, size_t room)
{
    struct pollfd p = {.fd = fd, .events = POLLIN};
    int ready;
    while ((ready = poll(&p, 1, ms)) < 0 && errno == EINTR) {
    }
    if (ready == 0) {
        return 0;
    }
    ssize_t n = ready < 0 ? -1 : read(fd, to, room);
    if (n <= 0) {
        errno = n < 0 ? errno : EIO;    /* 0 bytes: hung up */
        fail("read from a line");
    }
    return (size_t)n;
}

/* ---- the door */

struct door {
    int fd;
    uint64_t (*clock)(void);         /* in milliseconds */
    uint8_t secret[DOOR_SECRET];
    uint8_t state[DOOR_STATE];
    uint64_t last;                   /* when a message was last accepted */
    uint64_t rest;                   /* milliseconds of a shut-out, passed by then and not yet given */
    uint8_t bytes[2 * FRAME_MAX];    /* what came and is not yet judged */
    size_t len;
    size_t offset;                   /* of bytes[0] on the line */
    size_t noise;                    /* bytes of noise that end there */
};

static uint64_t real_clock(void)
{
    struct timespec t;
    if (clock_gettime(CLOCK_MONOTONIC, &t) != 0) {
        fail("clock");
    }
    return (uint64_t)t.tv_sec * SECOND + (uint64_t)t.tv_nsec / 1000000;
}

static unsigned seconds_left(const struct door *d)
{
    return (unsigned)d->state[LEFT] << 8 | d->state[LEFT + 1];
}

/* The whole seconds to give with a message: those of the silence since the last accepted one. In a shut-out the milliseconds that
   earlier messages left over count too, else each message would make it longer; but they end no session: only a silence of 180
   seconds does, and what is then left over waits for the next message. */
static uint32_t whole_seconds(uint64_t silence, uint64_t rest)
{
    bool lasts = silence < SILENCE && silence + rest >= SILENCE;
    return (uint32_t)((lasts ? SILENCE - 1 : silence + rest) / SECOND);
}

static void print_bytes(const uint8_t *bytes, size_t len)
{
    for (size_t i = 0; i < len; i++) {
        printf(" %02X", (unsigned)bytes[i]);
    }
}

static void print_type(uint8_t type)
{
    bool known = type < sizeof MESSAGES / sizeof *MESSAGES && MESSAGES[type] != NULL;
    printf("%02X %s", (unsigned)type, known ? MESSAGES[type] : "message");
}

static void print_state(const struct door *d)
{
    printf("logged %s", d->state[LOGGED_IN] ? "in" : "out");
    if (d->state[COUNTED] > 0) {
        printf(", %u wrong login%s", (unsigned)d->state[COUNTED], d->state[COUNTED] > 1 ? "s" : "");
    }
    if (seconds_left(d) > 0) {
        printf(", logins shut out for %u s", seconds_left(d));
    }
    printf("\n");
}

/* Sends the answer of a type, and prints it. Type 0 is a message that is passed on: what a controller does with it is not
   simulated, and nothing is sent. */
static void answer_with(int fd, uint8_t type)
{
    uint8_t frame[FRAME_MAX];
    if (type == 0) {
        printf("passed on");
        return;
    }
    send_all(fd, frame, gateway_value(omnilink_message_write(type, NULL, 0, frame, sizeof frame)));
    printf("answered ");
    print_type(type);
}

/* Gives a message to the door, answers it, and prints its line. One that the door refuses gets 06, document 000's answer to a
   message that "was received correctly, but was not processed due to an error in the message format or to an inability to
   successfully perform the requested action". It leaves the state, and the seconds count on. */
static void judge(struct door *d, uint8_t type, const uint8_t *data, size_t len)
{
    bool shut_out = seconds_left(d) > 0;
    uint64_t silence = d->clock() - d->last;
    uint32_t seconds = whole_seconds(silence, d->rest);
    uint64_t answer = login_door(d->secret, sizeof d->secret, d->state, sizeof d->state, seconds, type, data, len);
    unsigned refusal = gateway_number(answer);
    printf("  after %" PRIu32 " s: ", seconds);
    print_type(type);
    print_bytes(data, len);
    if (refusal == GATEWAY_ACCEPTED) {
        d->last += silence;
        d->rest = shut_out && seconds_left(d) > 0 ? silence + d->rest - (uint64_t)seconds * SECOND : 0;
        printf("; ");
        answer_with(d->fd, gateway_byte(answer, 0));
        printf("; ");
    } else {
        printf("; refused %u, %s, ", refusal, REASONS[refusal]);
        answer_with(d->fd, NEGATIVE);
        printf("; unchanged: ");
    }
    print_state(d);
}

static void drop(struct door *d, size_t count)
{
    d->len -= count;
    d->offset += count;
    memmove(d->bytes, d->bytes + count, d->len);
}

/* Noise gets no answer, nor does a damaged frame, which is noise too: 06 is for what was received correctly. */
static void print_noise(struct door *d)
{
    if (d->noise > 0) {
        printf("  noise at %zu: %zu byte%s\n", d->offset - d->noise, d->noise, d->noise > 1 ? "s" : "");
    }
    d->noise = 0;
}

/* Takes the frame or the byte of noise at the front; false if more bytes must come first. On a quiet line none will come: a start
   without its frame is noise then, and a whole frame can stand behind it. */
static bool take(struct door *d, bool quiet)
{
    /* The reader wants the bytes of one frame: its length byte says how many. */
    size_t len = d->len < 2 || d->bytes[1] + 4u > d->len ? d->len : d->bytes[1] + 4u;
    uint64_t frame = omnilink_frame_read(d->bytes, len);
    unsigned refusal = gateway_number(frame);
    if (refusal == GATEWAY_SHORT && !quiet) {
        return false;
    }
    if (refusal == GATEWAY_ACCEPTED) {
        print_noise(d);
        judge(d, gateway_byte(frame, 0), d->bytes + 3, gateway_byte(frame, 1));
        drop(d, len);
        return true;
    }
    /* Each byte of noise is refused for its start; only what began as a frame is worth a line. */
    if (refusal != GATEWAY_START) {
        printf("  frame at %zu: refused %u, %s\n", d->offset, refusal, REASONS[refusal]);
    }
    drop(d, 1);
    d->noise++;
    return true;
}

/* Waits for bytes, and takes what is whole. What is not waits for more until the line is quiet; there is room for more, since it
   is shorter than a frame. */
static void attend(struct door *d)
{
    size_t n = receive(d->fd, d->len + d->noise > 0 ? GAP_MS : FOREVER, d->bytes + d->len, sizeof d->bytes - d->len);
    d->len += n;
    while (d->len > 0 && take(d, n == 0)) {
    }
    if (n == 0) {
        print_noise(d);
    }
    flush_output();
}

static void attend_line(const char *path, const uint8_t *secret)
{
    struct door door = {.fd = open_tty(path), .clock = real_clock, .last = real_clock()};
    memcpy(door.secret, secret, sizeof door.secret);
    printf("door on %s: ", path);
    print_state(&door);
    flush_output();
    for (;;) {
        attend(&door);
    }
}

/* ---- the rehearsal: a technician at the other end of the line */

enum { ANSWER_MS = 500 };    /* the technician's wait for an answer: it is on the line already, or none comes */

static uint64_t rehearsal_time;

static uint64_t rehearsal_clock(void)
{
    return rehearsal_time;
}

#define SENDS(bytes) bytes, sizeof bytes - 1
#define RIGHT_LOGIN "\x5A\x05\x20\x01\x02\x03\x04\x20\x9D"
#define WRONG_LOGIN "\x5A\x05\x20\x01\x02\x03\x05\xE1\x5D"
#define IS_LOGGED_IN "\x5A\x01\x05\xC1\x93"    /* an acknowledge */
#define REQUEST "\x5A\x01\x11\xC1\x9C"         /* of system information */

static const struct step {
    uint64_t ms;    /* that pass before it */
    const char *title;
    const char *bytes;
    size_t len;
} STEPS[] = {
    {0, "a request before the login", SENDS(REQUEST)},
    {2 * SECOND, "a wrong login", SENDS(WRONG_LOGIN)},
    {5 * SECOND, "the right login", SENDS(RIGHT_LOGIN)},
    {1 * SECOND, "a request is passed on", SENDS(REQUEST)},
    {1 * SECOND, "an acknowledge asks whether the session lasts", SENDS(IS_LOGGED_IN)},
    {3 * SECOND, "a login of three digits", SENDS("\x5A\x04\x20\x01\x02\x03\xEA\xA1")},
    {176 * SECOND, "179 seconds after the last accepted message", SENDS(IS_LOGGED_IN)},
    {180 * SECOND, "180 seconds after the last accepted message", SENDS(IS_LOGGED_IN)},
    {4 * SECOND, "the first of three wrong logins", SENDS(WRONG_LOGIN)},
    {4 * SECOND, "the second wrong login", SENDS(WRONG_LOGIN)},
    {4 * SECOND, "the third wrong login", SENDS(WRONG_LOGIN)},
    {SECOND / 2, "the right login half a second later", SENDS(RIGHT_LOGIN)},
    {3599 * SECOND - SECOND / 2, "the right login 3,599 seconds after the third wrong one", SENDS(RIGHT_LOGIN)},
    {1 * SECOND, "the right login 3,600 seconds after it", SENDS(RIGHT_LOGIN)},
    {2 * SECOND, "a damaged frame", SENDS("\x5A\x01\x05\xC1\x92")},
    {2 * SECOND, "noise, a frame that is cut off, and a whole one", SENDS("\x00\x13\xFF" "\x5A\x05\x20" IS_LOGGED_IN)},
    {2 * SECOND, "the logout", SENDS("\x5A\x01\x21\xC1\x88")},
    {1 * SECOND, "an acknowledge after the logout", SENDS(IS_LOGGED_IN)}};

/* Collects bytes until the reader has all it needs or none come. */
static void read_answer(int fd)
{
    uint8_t bytes[FRAME_MAX];
    uint64_t message = GATEWAY_SHORT;
    size_t len = 0;
    for (size_t n = 1; n > 0 && gateway_number(message) == GATEWAY_SHORT; len += n) {
        n = receive(fd, ANSWER_MS, bytes + len, sizeof bytes - len);
        message = omnilink_message_read(bytes, len + n);
    }
    printf("  technician reads");
    print_bytes(bytes, len);
    if (gateway_number(message) == GATEWAY_ACCEPTED) {
        printf(": ");
        print_type(gateway_byte(message, 0));
    }
    printf("%s\n", len == 0 ? " nothing" : "");
}

/* Makes a pseudo-terminal; the technician's end of it. */
static int open_technician(void)
{
    int fd = posix_openpt(O_RDWR | O_NOCTTY);
    if (fd < 0 || grantpt(fd) != 0 || unlockpt(fd) != 0 || ptsname(fd) == NULL) {
        fail("pseudo-terminal");
    }
    return fd;
}

/* Sends the bytes of a step, and lets the door judge all of them. */
static void send_step(int technician, const struct step *step, struct door *d)
{
    size_t end = d->offset + step->len;
    printf("%s\n  technician sends", step->title);
    print_bytes((const uint8_t *)step->bytes, step->len);
    printf("\n");
    rehearsal_time += step->ms;
    send_all(technician, (const uint8_t *)step->bytes, step->len);
    while (d->offset < end || d->noise > 0) {
        attend(d);
    }
}

static void rehearse(void)
{
    int technician = open_technician();
    struct door door = {.fd = open_tty(ptsname(technician)), .clock = rehearsal_clock, .secret = {1, 2, 3, 4}};
    for (size_t i = 0; i < sizeof STEPS / sizeof *STEPS; i++) {
        send_step(technician, &STEPS[i], &door);
        read_answer(technician);
    }
    close(door.fd);
    close(technician);
}

/* Whether a text is the four digits of a secret. */
static bool read_secret(const char *text, uint8_t *secret)
{
    bool digits = strlen(text) == DOOR_SECRET;
    for (size_t i = 0; digits && i < DOOR_SECRET; i++) {
        digits = text[i] >= '0' && text[i] <= '9';
        secret[i] = (uint8_t)(text[i] - '0');
    }
    return digits;
}

int main(int argc, char **argv)
{
    uint8_t secret[DOOR_SECRET];
    if (argc == 1) {
        rehearse();
    } else if (argc == 3 && read_secret(argv[2], secret)) {
        attend_line(argv[1], secret);
    } else {
        fprintf(stderr, "use: door [LINE SECRET], SECRET four digits\n");
        return 1;
    }
    flush_output();
    return 0;
}

/* A small site gateway. On one serial line it polls Omnistat2 thermostat 1 and tallies its cost readings, and at last polls the
   groups of thermostats 1 and 2, of which 1 has the numbered habit and 2 the printed one; on another it asks an Omni-Link
   controller for events and zones, and lists the bytes of that line as they come; it prints what it saw, and what was refused
   and why.

       gateway THERMOSTAT-TTY OMNILINK-TTY [CODE]   two serial lines; CODE is the security code to log in with
       gateway                                      the demonstration

   In the demonstration the lines are pseudo-terminals; a child process at each plays the devices and damages bytes by a
   fixed counter, so that each run prints the same. Only the demonstration changes setpoints, and shows a text on the
   thermostat's screen and reads it back. */
#define _XOPEN_SOURCE 700
#include "gateway.h"
#include <errno.h>
#include <fcntl.h>
#include <inttypes.h>
#include <poll.h>
#include <stdbool.h>
#include <stdio.h>
#include <stdlib.h>
#include <string.h>
#include <sys/wait.h>
#include <termios.h>
#include <unistd.h>

enum { ADDRESS = 1, SECOND_ADDRESS = 2, ROUNDS = 5, TRIES = 3, FIRST_ZONE = 1, LAST_ZONE = 3 };
enum { OMNISTAT_MAX = 65, FRAME_MAX = 69 };          /* the longest message, a text, and the longest frame, in bytes */
enum { BABBLE = 2048 };                              /* a line that never falls quiet is left after so many bytes */
enum { PIECE = 16, CAPTURE_MAX = 4096 };             /* bytes to take from a port at a time, and to list as one capture */
enum { GROUP_MAX = 10 };                             /* values of the longest group, group 3 */
enum { POLL = 0, SET = 1, POLL_GROUP = 2 };          /* Omnistat2 types at the thermostat; POLL_GROUP of group 1 */
enum { ACKNOWLEDGE = 0, NEGATIVE = 1, DATA = 2, GROUP = 3 };    /* and at the host; GROUP of group 1, and as printed of each */
enum { COOL = 59, HEAT = 60, TEMPERATURE = 64, COST = 170, ENERGY_TEXT = 175 };
enum { ZONE_REQUEST = 0x15, ZONES = 0x16, LOGIN = 0x20, EVENT_REQUEST = 0x22, EVENTS = 0x23 };

static const char *const REASONS[] = {
    "accepted", "too short", "wrong start or direction", "wrong length byte", "too long", "wrong checksum", "unknown type",
    "length wrong for the type", "field outside its list", "too little room",
    [GATEWAY_TOTAL] = "total too large"};    /* 10 is retired: no call answers it */

static const char *const MESSAGES[] = {
    [0x05] = "acknowledge", [0x06] = "negative acknowledge", [0x0D] = "upload event log", [0x0E] = "log entry",
    [0x0F] = "command", [0x11] = "request system information", [0x13] = "request system status", [0x15] = "zone request",
    [0x16] = "zone status", [0x20] = "login", [0x21] = "logout", [0x22] = "request events", [0x23] = "events",
    [0x25] = "message status"};

static void fail(const char *what)
{
    fprintf(stderr, "gateway: %s: %s\n", what, strerror(errno));
    exit(1);
}

/* Whether an answer is accepted; prints what was refused and why. */
static bool accepted(const char *what, size_t number, uint64_t answer)
{
    unsigned refusal = gateway_number(answer);
    if (refusal != GATEWAY_ACCEPTED) {
        printf("  %s %zu: refused %u, %s\n", what, number, refusal, REASONS[refusal]);
    }
    return refusal == GATEWAY_ACCEPTED;
}

/* ---- lines */

struct line {
    int fd;
    int reply_ms;    /* the longest wait for the first byte of a reply */
    int gap_ms;      /* a line without a byte for so long is quiet */
};

/* Opens a tty raw: 9600 baud, 8 bits, no parity, one stop bit. */
static int open_tty(const char *path)
{
    struct termios t;
    int fd = open(path, O_RDWR | O_NOCTTY | O_NONBLOCK);    /* O_NONBLOCK: do not wait for a carrier */
    if (fd < 0 || tcgetattr(fd, &t) != 0) {
        fail(path);
    }
    t.c_iflag = t.c_oflag = t.c_lflag = 0;
    t.c_cflag = CS8 | CREAD | CLOCAL;
    t.c_cc[VMIN] = 1;
    t.c_cc[VTIME] = 0;
    cfsetispeed(&t, B9600);
    cfsetospeed(&t, B9600);
    if (tcsetattr(fd, TCSAFLUSH, &t) != 0 || fcntl(fd, F_SETFL, 0) != 0) {
        fail(path);
    }
    return fd;
}

static void send_all(int fd, const uint8_t *bytes, size_t len)
{
    while (len > 0) {
        ssize_t n = write(fd, bytes, len);
        if (n < 0) {
            fail("write to a line");
        }
        bytes += n;
        len -= (size_t)n;
    }
}

/* Waits at most ms milliseconds for bytes; their count, 0 if none came. */
static size_t receive(int fd, int ms, uint8_t *to, size_t room)
{
    struct pollfd p = {.fd = fd, .events = POLLIN};
    int ready;
    while ((ready = poll(&p, 1, ms)) < 0 && errno == EINTR) {
    }
    if (ready == 0) {
        return 0;
    }
    ssize_t n = ready < 0 ? -1 : read(fd, to, room);
    if (n <= 0) {
        errno = n < 0 ? errno : EIO;    /* 0 bytes: hung up */
        fail("read from a line");
    }
    return (size_t)n;
}

/* ---- the thermostats */

struct thermostat {
    const struct line *line;
    uint8_t address;
    uint8_t habit;     /* in answering the poll of a group */
    uint8_t polled;    /* the group last polled; any of the three while none was */
};

struct reply {
    uint8_t bytes[OMNISTAT_MAX];
    size_t len;
};

/* Collects bytes until the reader has all it needs or the line is quiet. While a reply is too short there is room for more:
   none is longer than OMNISTAT_MAX. */
static uint64_t read_reply(const struct thermostat *t, struct reply *reply)
{
    uint64_t answer = GATEWAY_SHORT;
    size_t n = 1;
    for (reply->len = 0; n > 0 && gateway_number(answer) == GATEWAY_SHORT; reply->len += n) {
        n = receive(t->line->fd, reply->len == 0 ? t->line->reply_ms : t->line->gap_ms, reply->bytes + reply->len,
                    sizeof reply->bytes - reply->len);
        answer = omnistat_read_at_host(t->habit, t->polled, reply->bytes, reply->len + n);
    }
    return answer;
}

/* What is left of a damaged reply must not stand before the next one. */
static void await_quiet(const struct line *line)
{
    uint8_t ignored[OMNISTAT_MAX];
    for (int i = 0; i < BABBLE && receive(line->fd, line->gap_ms, ignored, sizeof ignored) > 0; i++) {
    }
}

/* Sends a message, as a writer left and answered it, until its reply is accepted, TRIES times at most. Answers as
   omnistat_read_at_host does. */
static uint64_t ask(const struct thermostat *t, const uint8_t *message, uint64_t written, struct reply *reply)
{
    uint64_t answer = written;
    for (int i = 0; i < TRIES && accepted("message to thermostat", t->address, written); i++) {
        send_all(t->line->fd, message, gateway_value(written));
        answer = read_reply(t, reply);
        if (accepted("thermostat reply, bytes", reply->len, answer) && gateway_byte(answer, 1) == t->address) {
            return answer;
        }
        if (gateway_number(answer) != GATEWAY_SHORT) {
            await_quiet(t->line);
        }
        answer = GATEWAY_SHORT;    /* a reply of another thermostat is none */
    }
    return answer;
}

static uint64_t ask_thermostat(const struct thermostat *t, uint8_t type, const uint8_t *data, size_t len, struct reply *reply)
{
    uint8_t message[OMNISTAT_MAX];
    uint64_t written = omnistat_write_to_thermostat(t->address, type, data, len, message, sizeof message);
    return ask(t, message, written, reply);
}

/* Prints what a thermostat answered to a set. */
static void print_set(const char *what, uint64_t answer)
{
    static const char *const replies[] = {[ACKNOWLEDGE] = "acknowledged", [NEGATIVE] = "negative reply"};
    if (gateway_number(answer) == GATEWAY_ACCEPTED) {
        printf("  %s: %s\n", what, gateway_byte(answer, 0) <= NEGATIVE ? replies[gateway_byte(answer, 0)] : "another reply");
    }
}

/* Whether the thermostat gave the values of count registers from start on. */
static bool poll_registers(const struct thermostat *t, uint8_t start, uint8_t count, uint8_t *values)
{
    struct reply reply;
    uint64_t answer = ask_thermostat(t, POLL, (const uint8_t[]){start, count}, 2, &reply);
    bool given = gateway_number(answer) == GATEWAY_ACCEPTED && gateway_byte(answer, 0) == DATA &&
                 gateway_byte(answer, 2) == start && gateway_byte(answer, 3) == count;
    if (given) {
        memcpy(values, reply.bytes + 3, count);
    } else {
        printf("  no values of registers %u to %u\n", (unsigned)start, start + count - 1u);
    }
    return given;
}

static void show_setpoints(const struct thermostat *t)
{
    uint8_t values[TEMPERATURE - COOL + 1];
    if (poll_registers(t, COOL, sizeof values, values)) {
        struct setpoints pair = setpoints_from_bytes(values[0], values[HEAT - COOL]);
        printf("  setpoints: cool %.1f C, heat %.1f C; temperature %.1f C\n", (double)pair.cool, (double)pair.heat,
               (double)temperature_celsius(values[TEMPERATURE - COOL]));
    }
}

static void set_setpoints(const struct thermostat *t, struct setpoints pair)
{
    struct reply reply;
    uint64_t bytes = setpoints_to_bytes(pair);
    printf("  set cool %.2f C, heat %.2f C\n", (double)pair.cool, (double)pair.heat);
    if (accepted("setpoints to thermostat", t->address, bytes)) {
        const uint8_t data[] = {COOL, gateway_byte(bytes, 0), gateway_byte(bytes, 1)};
        print_set("set", ask_thermostat(t, SET, data, sizeof data, &reply));
    }
}

/* Shows a text on the thermostat's display, and reads back what it shows. */
static void show_text(const struct thermostat *t, const char *text)
{
    uint8_t message[OMNISTAT_MAX];
    struct reply reply;
    uint64_t written = omnistat_write_text_to_thermostat(t->address, 0, ENERGY_TEXT, (const uint8_t *)text, strlen(text),
                                                         message, sizeof message);
    printf("  show \"%s\"\n", text);
    print_set("text", ask(t, message, written, &reply));
    uint64_t answer = ask_thermostat(t, POLL, (const uint8_t[]){ENERGY_TEXT, 1}, 2, &reply);
    if (gateway_number(answer) == GATEWAY_ACCEPTED && gateway_byte(answer, 0) == DATA && gateway_byte(answer, 2) == ENERGY_TEXT) {
        printf("  shown: \"%.*s\"\n", (int)gateway_byte(answer, 3), (const char *)reply.bytes + 3);
    } else {
        printf("  no text of register %u\n", (unsigned)ENERGY_TEXT);
    }
}

/* Millionths as units with six decimals; unsigned, so that no sum shows as negative. */
static void print_units(uint64_t millionths, const char *end)
{
    printf("%" PRIu64 ".%06" PRIu64 "%s", millionths / 1000000, millionths % 1000000, end);
}

/* A reading is added once, however often its poll had to be repeated. One that is taken has its word at bytes 3 and 4. */
static void add_cost(const struct thermostat *t, struct tally *tally)
{
    struct reply reply;
    uint64_t answer = ask_thermostat(t, POLL, (const uint8_t[]){COST, 2}, 2, &reply);
    if (gateway_number(answer) != GATEWAY_ACCEPTED) {
        printf("  no meter reply\n");
    } else if (accepted("meter reply, bytes", reply.len, meter_add(tally, reply.bytes, reply.len))) {
        uint16_t word = (uint16_t)(reply.bytes[3] << 8 | reply.bytes[4]);
        printf("  cost word %u: ", (unsigned)word);
        print_units(gateway_value(cost_millionths(word)), ", total ");
        print_units(tally->total, "\n");
    }
}

/* Whether the thermostat gave the values of a group. As printed every group has type 3, and the reader takes it for the one that
   was polled last: a reply that comes late to an earlier poll would be taken for this one's, so the line has to be quiet before. */
static bool poll_group(struct thermostat *t, uint8_t group, uint8_t *values)
{
    struct reply reply;
    uint8_t type = t->habit == OMNISTAT_PRINTED ? GROUP : (uint8_t)(GROUP + group - 1);
    if (t->habit == OMNISTAT_PRINTED) {
        await_quiet(t->line);
    }
    t->polled = group;
    uint64_t answer = ask_thermostat(t, (uint8_t)(POLL_GROUP + group - 1), NULL, 0, &reply);
    bool given = gateway_number(answer) == GATEWAY_ACCEPTED && gateway_byte(answer, 0) == type;
    if (given) {
        memcpy(values, reply.bytes + 2, gateway_byte(answer, 3));
    } else {
        printf("  no values of group %u\n", (unsigned)group);
    }
    return given;
}

/* The registers of each group, in its order, but for the cost word of group 3, which is shown last. */
static void show_groups(struct thermostat *t)
{
    uint8_t v[GROUP_MAX];
    printf("groups of thermostat %u\n", (unsigned)t->address);
    if (poll_group(t, 1, v)) {
        printf("  group 1: cool %.1f C, heat %.1f C, mode %u, fan %u, hold %u, temperature %.1f C\n",
               (double)temperature_celsius(v[0]), (double)temperature_celsius(v[1]), v[2], v[3], v[4],
               (double)temperature_celsius(v[5]));
    }
    if (poll_group(t, 2, v)) {
        printf("  group 2: humidity %u, dehumidify at %u, humidify at %u, outside %.1f C, filter days left %u, energy level %u\n",
               v[0], v[1], v[2], (double)temperature_celsius(v[3]), v[4], v[5]);
    }
    if (poll_group(t, 3, v)) {
        printf("  group 3: energy level %u, setbacks %u %u %u F, price %u, by level %u %u %u, cost ", v[0], v[1], v[2], v[3], v[4],
               v[7], v[8], v[9]);
        print_units(gateway_value(cost_millionths((uint16_t)(v[5] << 8 | v[6]))), "\n");
    }
}

/* ---- the Omni-Link controller */

/* The Omni-Link line, listed as one capture after the other, and its bytes that are not yet read as messages. The offsets of the
   listing count from the start of its capture, those of messages over the whole line: in the first capture both are the same. */
struct stream {
    uint8_t listing[CAPTURE_STATE];
    size_t listed;    /* how many bytes the capture has */
    uint8_t bytes[BABBLE + FRAME_MAX + PIECE];
    size_t len;
    size_t offset;    /* of bytes[0] on the line */
};

static void print_lines(const struct stream *s, const uint8_t *lines, uint64_t written)
{
    if (accepted("listing at", s->listed, written)) {
        for (size_t i = 0; i < gateway_value(written); i++) {
            printf("%s%c", i == 0 || lines[i - 1] == '\n' ? "  " : "", lines[i]);
        }
    }
}

/* Lists the bytes that have just come. They settle no line, or some; a frame may have begun many pieces ago. */
static void list_piece(struct stream *s, const uint8_t *bytes, size_t len)
{
    uint8_t lines[8 * PIECE + 544];
    uint64_t written = capture_piece(s->listing, sizeof s->listing, bytes, len, lines, sizeof lines);
    print_lines(s, lines, written);
    s->listed += len;
}

/* Prints the last lines of the capture; the next byte that comes is the first of another. Messages know nothing of captures: what
   is not yet read stays. */
static void end_listing(struct stream *s)
{
    uint8_t lines[569];
    uint64_t written = capture_finish(s->listing, sizeof s->listing, lines, sizeof lines);
    print_lines(s, lines, written);
    s->listed = 0;
}

static void print_zone(unsigned number, uint64_t zone)
{
    static const char *const conditions[] = {"secure", "not ready", "trouble"};
    static const char *const armings[] = {"disarmed", "armed", "bypassed by user", "bypassed by system"};
    printf("    zone %u: %s, %s, loop reading %u\n", number, conditions[gateway_byte(zone, 0)], armings[gateway_byte(zone, 2)],
           (unsigned)gateway_byte(zone, 4));
}

/* Zone and unit events are six bits of kind, one of state and nine of number. */
static void print_event(unsigned event)
{
    if (event >> 10 == 1 || event >> 10 == 2) {
        printf("    %s %u %s\n", event >> 10 == 1 ? "zone" : "unit", event & 0x1FF, event & 0x200 ? "on" : "off");
    } else {
        printf("    event %04X\n", event);
    }
}

static void print_message(const struct stream *s, size_t len)
{
    uint64_t message = omnilink_message_read(s->bytes, len);
    if (accepted("message at", s->offset, message)) {
        uint8_t type = gateway_byte(message, 0);
        printf("  message at %zu: %s\n", s->offset, MESSAGES[type]);
        for (unsigned i = 0; i < gateway_byte(message, 1); i++) {
            if (type == ZONES) {
                print_zone(FIRST_ZONE + i, omnilink_zone(s->bytes, len, i));
            } else if (type == EVENTS) {
                print_event(gateway_word(omnilink_event(s->bytes, len, i), 0));
            }
        }
    }
}

static void drop(struct stream *s, size_t count)
{
    s->len -= count;
    s->offset += count;
    memmove(s->bytes, s->bytes + count, s->len);
}

/* Takes the frame or the byte of noise at the front of the stream; false if more bytes must come first. On a quiet line
   none will come: a start without its frame is noise then, and a whole frame can stand behind it. The listing knows of bytes
   alone, and waits for those that the start promised. */
static bool take(struct stream *s, bool quiet, unsigned *frames)
{
    /* The reader wants the bytes of one frame: its length byte says how many. */
    size_t len = s->len < 2 || s->bytes[1] + 4u > s->len ? s->len : s->bytes[1] + 4u;
    uint64_t answer = omnilink_frame_read(s->bytes, len);
    if (gateway_number(answer) == GATEWAY_SHORT && !quiet) {
        return false;
    }
    /* Each byte of noise is refused for its start; only what began as a frame is worth a line. */
    if (gateway_number(answer) == GATEWAY_START || !accepted("frame at", s->offset, answer)) {
        drop(s, 1);
    } else {
        print_message(s, len);
        drop(s, len);
        ++*frames;
    }
    return true;
}

/* Lists what comes until the line is quiet, then reads its messages; the count of frames. There is room for more: fewer than
   FRAME_MAX bytes are left from a line that never fell quiet.
   A capture has at most CAPTURE_MAX bytes. Where the next reply might take it above them, it ends here, between two replies, and
   another starts. So on a line that falls quiet between replies the listing cuts no frame in two. On one that never does it may:
   there is then no frame in either capture, but its message is read. */
static unsigned read_frames(const struct line *line, struct stream *s)
{
    unsigned frames = 0;
    size_t n = 1;
    if (s->listed + BABBLE + PIECE > CAPTURE_MAX) {
        end_listing(s);
    }
    for (size_t total = 0; n > 0 && total < BABBLE; total += n) {
        n = receive(line->fd, total == 0 ? line->reply_ms : line->gap_ms, s->bytes + s->len, PIECE);
        list_piece(s, s->bytes + s->len, n);
        s->len += n;
    }
    while (s->len > 0 && take(s, n == 0, &frames)) {
    }
    return frames;
}

/* Sends a message until a frame comes, TRIES times at most. */
static void ask_controller(const struct line *line, struct stream *s, uint8_t type, const uint8_t *data, size_t len)
{
    uint8_t message[FRAME_MAX];
    uint64_t written = omnilink_message_write(type, data, len, message, sizeof message);
    for (int i = 0; i < TRIES && accepted("message to controller, type", type, written); i++) {
        send_all(line->fd, message, gateway_value(written));
        if (read_frames(line, s) > 0) {
            return;
        }
        printf("  no frame in reply\n");
    }
}

/* A code that is not four digits is refused by the writer. */
static void log_in(const struct line *line, struct stream *s, const char *code)
{
    uint8_t digits[5];
    size_t len = 0;
    for (; len < sizeof digits && code[len] != '\0'; len++) {
        digits[len] = (uint8_t)(code[len] - '0');
    }
    ask_controller(line, s, LOGIN, digits, len);
}

/* ---- the demonstration: the devices at the other ends of the lines, each until the gateway closes its line */

struct model {
    uint8_t own;
    uint8_t map[256], texts[THERMOSTAT_TEXTS];
};

/* A step of the model thermostat, which has the numbered habit; how many bytes it sends. */
static size_t step(struct model *m, const uint8_t *bytes, size_t len, uint8_t *reply)
{
    return gateway_value(thermostat_step(m->own, m->map, sizeof m->map, m->texts, sizeof m->texts, bytes, len, reply,
                                         OMNISTAT_MAX));
}

/* A step of one with the printed habit: the values of a group that the model gives, under type 3. */
static size_t step_as_printed(struct model *m, const uint8_t *bytes, size_t len, uint8_t *reply)
{
    uint8_t numbered[OMNISTAT_MAX];
    uint8_t type = gateway_byte(omnistat_read_at_thermostat(bytes, len), 0);
    size_t count = step(m, bytes, len, numbered);
    if (count > 0 && type >= POLL_GROUP) {
        uint8_t group = (uint8_t)(type - POLL_GROUP + 1);
        return gateway_value(omnistat_write_group_to_host(OMNISTAT_PRINTED, group, m->own, group, numbered + 2, count - 3, reply,
                                                          OMNISTAT_MAX));
    }
    memcpy(reply, numbered, count);
    return count;
}

/* Two thermostats, in an office and in a hall, with nothing on their displays: a line of the map for each group. Every third
   message finds another cost in the office. */
static void play_thermostats(int fd)
{
    static const uint16_t costs[] = {34567, 9999, 9999, 12345, 65400, 65025};
    struct model office = {.own = ADDRESS,
                           .map = {[COOL] = 130, [HEAT] = 116, [61] = 2, [TEMPERATURE] = 125,
                                   [162] = 45, [135] = 60, [134] = 30, [68] = 130, [15] = 90, [169] = 1,
                                   [18] = 3, [19] = 6, [20] = 9, [74] = 12, [165] = 15, [166] = 18, [167] = 24}};
    struct model hall = {.own = SECOND_ADDRESS,
                         .map = {[COOL] = 134, [HEAT] = 112, [61] = 3, [62] = 1, [63] = 2, [TEMPERATURE] = 121,
                                 [162] = 50, [135] = 65, [134] = 35, [68] = 131, [15] = 7, [169] = 2,
                                 [18] = 2, [19] = 4, [20] = 8, [74] = 18, [COST] = 0x30, [COST + 1] = 0x39, [165] = 16, [166] = 20,
                                 [167] = 26}};
    uint8_t bytes[OMNISTAT_MAX], reply[OMNISTAT_MAX] = {0};
    size_t len = 0;
    ssize_t n;
    for (unsigned messages = 1; (n = read(fd, bytes + len, sizeof bytes - len)) > 0;) {
        len += (size_t)n;
        if (gateway_number(omnistat_read_at_thermostat(bytes, len)) == GATEWAY_SHORT) {
            continue;
        }
        uint16_t cost = costs[messages / 3 % (sizeof costs / sizeof *costs)];
        office.map[COST] = (uint8_t)(cost >> 8);
        office.map[COST + 1] = (uint8_t)cost;
        bytes[2] ^= messages == 10 ? 0x20 : 0;    /* damaged on the way here: refused, and nothing is sent */
        size_t count = step(&office, bytes, len, reply);
        reply[2] ^= messages == 4 ? 0x20 : 0;     /* damaged on the way back */
        send_all(fd, reply, messages == 7 ? count - 1 : count);    /* a byte lost */
        send_all(fd, reply, step_as_printed(&hall, bytes, len, reply));
        messages++;
        len = 0;
    }
}

#define SENDS(bytes) {bytes, sizeof bytes - 1}

/* A controller that sends this to one question after the other, with the noise and the damage on its line. */
static void play_controller(int fd)
{
    static const struct {
        const char *bytes;
        size_t len;
    } answers[] = {
        SENDS("\x5A\x01\x05\xC1\x93"),                                           /* acknowledge */
        SENDS("\x00\x13\xFF" "\x5A\x05\x23\x06\x02\x0A\x05\xA2\x79"),            /* noise, events */
        SENDS("\x07\x5A\x10" "\x5A\x07\x16\x00\x7C\x11\x61\x20\xFF\x6A\x8F"),    /* the start of 20 bytes, but zones follow */
        SENDS("\x5A\x05\x23\x04\x42\x08\x05\xA2\xA1"),                           /* events with a bit turned over */
        SENDS("\x5A\x05\x23\x04\x02\x08\x05\xA2\xA1"),                           /* the same, whole */
        SENDS("\x5A\x00" "\x5A\x07\x16\x00\x7C\x11\x61\x20\xFF\x6A\x8F" "\x5A\x01\x85\xC0\x33"),    /* zones, unknown type */
        SENDS("\x5A\x03\x16\x80\x00\x80\x40" "\x5A\x03\x23\x02\x51\x31\x12" "\x5A\x05\x23")};       /* wrong zone, event */
    uint8_t bytes[FRAME_MAX];
    size_t len = 0;
    ssize_t n;
    for (size_t i = 0; (n = read(fd, bytes + len, sizeof bytes - len)) > 0;) {
        len += (size_t)n;
        if (gateway_number(omnilink_frame_read(bytes, len)) != GATEWAY_SHORT) {
            send_all(fd, (const uint8_t *)answers[i].bytes, answers[i].len);
            i = (i + 1) % (sizeof answers / sizeof *answers);
            len = 0;
        }
    }
}

/* Makes a pseudo-terminal with a device at its other end. */
static int start_device(void (*play)(int fd))
{
    int device = posix_openpt(O_RDWR | O_NOCTTY);
    if (device < 0 || grantpt(device) != 0 || unlockpt(device) != 0 || ptsname(device) == NULL) {
        fail("pseudo-terminal");
    }
    int fd = open_tty(ptsname(device));
    pid_t child = fork();
    if (child < 0) {
        fail("fork");
    }
    if (child == 0) {
        close(fd);    /* else the device would never see the gateway close its line */
        play(device);
        exit(0);
    }
    close(device);
    return fd;
}

/* ---- the gateway */

static void run(const struct line *thermostats, const struct line *controller, const char *code, bool demonstration)
{
    struct thermostat first = {thermostats, ADDRESS, OMNISTAT_NUMBERED, 1};
    struct thermostat second = {thermostats, SECOND_ADDRESS, OMNISTAT_PRINTED, 1};
    /* taken; heat below the range of its register; cool no half degree */
    static const struct setpoints wishes[ROUNDS] = {[1] = {22.0f, 19.5f}, [2] = {24.0f, 5.5f}, [3] = {22.25f, 19.5f}};
    static const char *const notices[ROUNDS] = {[4] = "power low"};
    static const uint8_t zones[] = {FIRST_ZONE, LAST_ZONE};
    struct tally tally = {0};
    struct stream stream = {.len = 0};
    if (code != NULL) {
        printf("login\n");
        log_in(controller, &stream, code);
    }
    for (int round = 0; round < ROUNDS; round++) {
        printf("round %d\n", round + 1);
        show_setpoints(&first);
        add_cost(&first, &tally);
        if (demonstration && wishes[round].cool > 0) {
            set_setpoints(&first, wishes[round]);
        }
        if (demonstration && notices[round] != NULL) {
            show_text(&first, notices[round]);
        }
        if (round % 2 == 0) {
            ask_controller(controller, &stream, EVENT_REQUEST, NULL, 0);
        } else {
            ask_controller(controller, &stream, ZONE_REQUEST, zones, sizeof zones);
        }
    }
    end_listing(&stream);
    show_groups(&first);
    show_groups(&second);
    printf("total ");
    print_units(tally.total, "\n");
}

int main(int argc, char **argv)
{
    /* The waits of the devices' documents, but for the last: Omni-Link asks for 50 ms, a busy host may need more. */
    struct line thermostats = {.reply_ms = 1250, .gap_ms = 500}, controller = {.reply_ms = 1000, .gap_ms = 100};
    if (argc == 1) {
        thermostats.fd = start_device(play_thermostats);
        controller.fd = start_device(play_controller);
        run(&thermostats, &controller, "1234", true);
    } else if (argc == 3 || argc == 4) {
        thermostats.fd = open_tty(argv[1]);
        controller.fd = open_tty(argv[2]);
        run(&thermostats, &controller, argv[3], false);    /* NULL without a code */
    } else {
        fprintf(stderr, "use: gateway [THERMOSTAT-TTY OMNILINK-TTY [CODE]]\n");
        return 1;
    }
    if (fflush(stdout) != 0) {
        fail("standard output");
    }
    close(controller.fd);
    close(thermostats.fd);
    while (wait(NULL) > 0) {
    }
    return 0;
}

/* Chaltervo: line software of a site gateway.

   Every call that can refuse answers a uint64_t. Its low byte is the answer number: GATEWAY_ACCEPTED, or the number of a
   refusal. A refusal is the number and nothing else, and lent memory is then exactly as before. What an accepted call returns
   is packed above the low byte, in the order that the call's comment gives, the first field lowest; the numbers behind the
   fields are their widths in bits. cost_millionths refuses nothing, and its answer is packed in the same way.
   temperature_celsius, temperature_fahrenheit_tenths and setpoints_from_bytes refuse nothing and answer their value itself.

   A buffer is passed as a pointer and a length; a null pointer with length 0 is an empty buffer. What a call writes to (out, a
   register map, a text store, a tally, a capture's or a door's state) overlaps nothing else that the same call is lent: neither
   what it reads nor what else it writes to. A writer changes the bytes that it counts as written; the bytes of out behind them
   stay as they were. */
#ifndef GATEWAY_H
#define GATEWAY_H

#include <stddef.h>
#include <stdint.h>

#ifdef __cplusplus
extern "C" {
#endif

/* The answer numbers. */
enum gateway_answer {
    GATEWAY_ACCEPTED = 0,
    GATEWAY_SHORT = 1,        /* fewer bytes or places than the frame needs; a text that may still get its 03 */
    GATEWAY_START = 2,        /* wrong start byte, start code or direction */
    GATEWAY_LENGTH = 3,       /* length byte 00 or above 41 hex, over 64 data bytes to write, or a capture above 4,096 bytes,
                                 also in pieces */
    GATEWAY_LONG = 4,         /* more bytes or places than the frame */
    GATEWAY_CHECKSUM = 5,     /* CRC, sum or complement is wrong; to frame_mend a CRC that no single flip makes right */
    GATEWAY_UNKNOWN = 6,      /* unknown type or key; of replies with the printed habit also types 4 and 5 */
    GATEWAY_TYPE_LENGTH = 7,  /* length wrong for the type, or of a group reply for its group: with the printed habit the polled
                                 one */
    GATEWAY_FIELD = 8,        /* a field outside its list; a habit other than 0 and 1, a group outside 1 to 3, or to write with the
                                 printed habit one that was not polled; a text of more than 60 characters or with a wrong one,
                                 also in a text store; a capture's state that no pieces lead to, or not of 74 bytes; to
                                 meter_add a whole reply that is no meter reply; a door's secret with a digit above 9, its
                                 state outside its ranges, or either not of 4 bytes; to frame_mend a right frame */
    GATEWAY_ROOM = 9,         /* lent output too short (for a step: under 65 bytes; for a piece: for the lines of this call), a
                                 register map not of 256 bytes, or a text store not of 610 */
    /* 10 is retired by change request K4 and not used again: it stood for a cost word above 65025; every word is a cost now */
    GATEWAY_TOTAL = 11        /* the total would pass 2^64 - 1 */
};

/* The answer number. */
static inline unsigned gateway_number(uint64_t answer)
{
    return (unsigned)(answer & 0xFF);
}

/* Everything above the answer number: a count of bytes written where it is the only field, or a cost. */
static inline uint64_t gateway_value(uint64_t answer)
{
    return answer >> 8;
}

/* The 8 bits that start i bytes above the answer number. A frame read has its type at 0 and its count of data bytes at 1; an
   Omnistat2 text read has its half-byte at 4. */
static inline uint8_t gateway_byte(uint64_t answer, unsigned i)
{
    return (uint8_t)(answer >> 8 >> 8 * i);
}

/* The 16 bits that start i bytes above the answer number. A command has its P2 at 3; a mended frame has its place at 0 and its
   count of bytes at 2. */
static inline uint16_t gateway_word(uint64_t answer, unsigned i)
{
    return (uint16_t)(answer >> 8 >> 8 * i);
}

/* Omni-Link frames: 5A, length L (01 to 41 hex), type byte, L-1 data bytes, CRC low byte, CRC high byte. */

/* Reads a whole frame of any type.
   Accepted: type (8), count of data bytes (8); the data bytes are bytes[3] and on.
   Refused, in this order: 1 empty; 2 start; 1 one byte only; 3 length byte; 1 fewer than L+4 bytes; 4 more; 5 CRC.
   5A 01 05 C1 93 is type 05 with no data bytes; with 92 at its end it is refused 5. */
uint64_t omnilink_frame_read(const uint8_t *bytes, size_t len);

/* Writes the frame of a type and len data bytes to out, which has room bytes.
   Accepted: bytes written (16), len + 5. Refused: 3 more than 64 data bytes; 9 too little room. */
uint64_t omnilink_frame_write(uint8_t type, const uint8_t *data, size_t len, uint8_t *out, size_t room);

/* Mends bytes that are a frame but for one flipped bit: finds the place of that bit and writes the frame to out, which has room
   bytes. Places are bits, counted from 0 at the length byte, the lowest bit of each byte first: place p is bit p % 8 of
   bytes[p / 8 + 1]. The length byte has the places 0 to 7; only those after it are tried, so the least is 8. The last 16 are in
   the two CRC bytes, and a flip there counts like any other.
   Accepted: place (16), bytes written (16), which are len. At most one place makes a frame, since two frames of equal length
   differ in at least four places.
   Refused, with out unchanged, in this order: 1 to 4 as omnilink_frame_read refuses the bytes; 8 a right frame; 5 no single flip
   of a place after the length byte makes a frame; 9 too little room. A room of len bytes is enough, and len is at most 69 here.
   A frame with one flipped bit after the length byte always comes back, and one with two is always refused 5. The call cannot tell
   one flipped bit from three or more that leave another frame one flip away: it then writes that other frame. A damaged start or
   length byte is not mended: it is refused, 2 for the start, and 1, 3 or 4 for a length byte that no longer fits the number of
   bytes. As everywhere, out must not overlap bytes: a frame is not mended in place.
   5A 01 05 C1 92 is mended at place 24, and 5A 01 05 C1 93 is written. */
uint64_t frame_mend(const uint8_t *bytes, size_t len, uint8_t *out, size_t room);

/* Omni-Link messages: frames of the types 05, 06, 0D, 0E, 0F, 11, 13, 15, 16, 20, 21, 22, 23 and 25 (hex).

   Every reader here takes a whole frame and refuses it as omnilink_frame_read does, then 6 an unknown type, 7 a length
   that is wrong for the type, 8 a field outside its list. A reader of an item then refuses 8 a message of another type than
   its own, and an index or field past the last. Items count from 0. */

/* Reads a message. Accepted: type (8), count of items (8): zones, events or text messages, and 0 for the other types.
   The data bytes are bytes[3] and on: the four digits of a login (type 20) are bytes[3] to bytes[6], each 0 to 9; the first
   and the last zone of a zone request (type 15) are bytes[3] and bytes[4]. */
uint64_t omnilink_message_read(const uint8_t *bytes, size_t len);

/* Writes the message of a type and len data bytes to out, which has room bytes.
   Accepted: bytes written (16), len + 5. Refused: 6 unknown type; 7 length; 8 a field; 9 too little room. */
uint64_t omnilink_message_write(uint8_t type, const uint8_t *data, size_t len, uint8_t *out, size_t room);

/* Zone i of a zone status (type 16). Accepted: condition (8: 0 secure, 1 not ready, 2 trouble), latched alarm (8: 0 secure,
   1 tripped, 2 reset), arming (8: 0 disarmed, 1 armed, 2 bypassed by user, 3 bypassed by system), unacknowledged trouble
   (8: 0 or 1), loop reading (8). */
uint64_t omnilink_zone(const uint8_t *bytes, size_t len, size_t i);

/* Event i of a list of events (type 23). Accepted: event (16). */
uint64_t omnilink_event(const uint8_t *bytes, size_t len, size_t i);

/* Text message i of a message status (type 25). Accepted: displayed (8: 0 or 1), not acknowledged (8: 0 or 1). */
uint64_t omnilink_text_message(const uint8_t *bytes, size_t len, size_t i);

/* The command of a command message (type 0F). Accepted: command (8: 0, 1, 2, 3, 9, 10, 11 or 12), unit of duration (8: 0
   none, 1 seconds, 2 minutes, 3 hours), count (8), P2 (16). The unit is 0 but for commands 0 and 1. The count is that of
   the duration for 0 and 1, the percent for 9, the value for 12, and 0 for the others.
   The data bytes 01 6E 00 05 are command 1, unit 2, count 10, P2 5: unit 5 on for ten minutes. */
uint64_t omnilink_command(const uint8_t *bytes, size_t len);

/* A field of a log entry (type 0E). Accepted: the field (16). Fields: 0 number, 1 time-valid flag, 2 month, 3 day, 4 hour,
   5 minute, 6 event type, 7 parameter 1, 8 parameter 2 as one word. */
uint64_t omnilink_log_entry(const uint8_t *bytes, size_t len, size_t field);

/* The login door: a controller's own, simulated, so that logins can be practised. Types are hex here too: a login is type 20, a
   logout 21. */

/* The bytes of a secret: four digits, each as its value, 0 to 9. */
enum { DOOR_SECRET = 4 };

/* The bytes of a door's state: logged in (1: 0 or 1); wrong logins counted (1: 0 to 2); the seconds left of a shut-out (2, high byte
   first: 0 to 3,600). There is never both a count and seconds left. A state starts as zero bytes: logged out, none counted. */
enum { DOOR_STATE = 4 };

/* Takes the message of a type and len data bytes, so many whole seconds after the last call that was accepted, and changes the state.
   secret has DOOR_SECRET bytes, state has DOOR_STATE.
   Accepted: answer (8): the type 05 or 06 of what the controller answers, or 0 where the message is passed on.
   Refused, with the state unchanged: 8 a secret with a digit above 9, a state outside its ranges, or either not of its size; then
   as omnilink_message_write refuses the message: 6 unknown type; 7 length; 8 a field.
   First the seconds pass: 180 or more log out, and they are taken off those left of a shut-out. Then the message is judged:
   - a login during a shut-out gets 06, the right one too, and does not count;
   - else a right login gets 05, logs in and makes the count 0;
   - a wrong login gets 06 and is counted, and neither logs in nor out; the third in a row makes the count 0 and leaves 3,600
     seconds of a shut-out;
   - any other message gets 06 where nobody is logged in; else 05 gets 05, a logout gets 05 and logs out, and every other type is
     passed on, 06 too. A count stays through all of them, and through any silence.
   A refused call changes nothing: the seconds count on from the last accepted one. With a fresh state any number will do. Whole
   seconds drop a fraction at each accepted call: a host that is sent a message every 900 ms would give 0 each time, and a shut-out
   would never end. So keep the fractions of a shut-out and give them once they make a second; but 180 are given only for 180 seconds
   of silence, since they end a session.
   With the secret 1 2 3 4, the fresh state 00 00 00 00 and 0 seconds, a login 1 2 3 5 is answered 06 and leaves 00 01 00 00; then
   1 2 3 4 is answered 05 and leaves 01 00 00 00. */
uint64_t login_door(const uint8_t *secret, size_t secret_len, uint8_t *state, size_t state_len, uint32_t seconds, uint8_t type,
                    const uint8_t *data, size_t len);

/* Omnistat2 messages: address byte, a byte with length N (high half) and type (low half), N data bytes, sum.

   A set (to a thermostat) or data (to the host) that starts at one of the registers 172 to 181 is a text: address byte, a byte
   with any half-byte (high half) and the type (low half), start register, 0 to 60 characters of 20 to 7E hex, 03, sum. Its
   half-byte counts nothing and is kept as it was sent. The longest message is a text of 60 characters: 65 bytes.

   The readers refuse, in this order (the one at the host first 8 for a wrong habit or polled group, see below): 1 empty; 2 a first byte
   that is not for their end; 1 one byte only, or fewer than N+3 bytes; 4 more; 5 sum; 6 unknown type; 7 N wrong for the type;
   8 a poll's count outside 1 to 14, or other than 1 where the poll starts at 172 to 181, or a run of registers that ends above
   255, or starts below 172 and meets 172 to 181.
   Of a text they refuse, in this order: 1 empty; 2 a first byte that is not for their end; 1 fewer than three bytes; where no
   03 is among the 61 bytes after the start register, 1 if fewer than 61 follow it, else 8; 1 nothing after the first 03; 4 more
   than one byte after it; 5 sum; 8 a character outside 20 to 7E.

   The writers of a type and data bytes refuse 6, 7 and 8 likewise, 8 also an address or number outside its list, then 9 too
   little room. They write no text: a set or data that starts at 172 to 181 is 8, after 7.

   A thermostat has one of two habits in replying to the poll of a group. Numbered: the replies with groups 1, 2 and 3 have the
   types 3, 4 and 5, and N is 6, 6 and 10. Printed, as source document 004 has it: type 3 is the reply with the group last polled,
   N is 6 where that is 1 or 2 and 10 where it is 3, and types 4 and 5 are unknown. The bytes then do not tell group 1 from 2: a
   late reply to the poll of one is taken for the other where that was polled since.
   So omnistat_read_at_host, omnistat_write_to_host and omnistat_write_group_to_host take the thermostat's habit, and polled, the
   number of the group last polled from it. Before all else, for empty input too, they refuse 8 a habit other than 0 and 1, and a
   polled outside 1 to 3. With the numbered habit a polled of 1 to 3 decides nothing, and with either habit it decides nothing of
   the types 0 to 2 and of texts: a host that has polled no group yet names any of the three. Habit, polled and group are bytes,
   as address, number and type are: C makes 1 of 257 before a call is reached. */

/* The habits. */
enum omnistat_habit {
    OMNISTAT_NUMBERED = 0,    /* types 3, 4 and 5 are groups 1, 2 and 3 */
    OMNISTAT_PRINTED = 1      /* type 3 is the group last polled */
};

/* Reads a message at the thermostat: type (8), first byte (8), start register (8), count of registers, values or characters
   (8), half-byte of a text (8), which is 0 for every other message.
   Types: 0 poll, 1 set, 2 to 4 poll of group 1 to 3, whose start and count are 0. The values of a set are the count
   bytes from bytes[3] on, and so are the characters of a text, which is a set with start 172 to 181. The first byte is 00 for
   all, 01 to 7F, or FA universal.
   01 21 3B 7C D9 is a set (1) with first byte 1, start 59, count 1, and the value 7C hex at bytes[3]. 01 21 AF, then the
   characters CUSTOM MESSAGE, 03 and D4, is a set with first byte 1, start 175, count 14, half-byte 2, and C at bytes[3]. */
uint64_t omnistat_read_at_thermostat(const uint8_t *bytes, size_t len);

/* Reads a message at the host: type (8), number of the thermostat (8), start register (8), count of values or characters (8),
   half-byte of a text (8), which is 0 for every other message.
   Types: 0 acknowledge, 1 negative, start and count 0; 2 data, the values from bytes[3] on, or with start 172 to 181 the
   characters of a text; 3 to 5 with the numbered habit group 1 to 3, and 3 with the printed habit the group last polled, start 0,
   the values from bytes[2] on. The type is that of the message: 3 for every group as printed. The first byte is 81 to FF, the
   number and 80: FA is a reply from thermostat 7A.
   Refused: 8 a habit other than 0 and 1, or polled outside 1 to 3; then as above, 6 and 7 by habit and polled.
   81 64 01 02 03 04 05 06 FA is type 4, number 1, start 0, count 6 with the numbered habit, group 2 whatever was polled; with the
   printed habit it is refused 6. 81 63 01 02 03 04 05 06 F9 is type 3, number 1, start 0, count 6: with the numbered habit group 1;
   with the printed habit group 1 or 2, as polled says, and where polled is 3 it is refused 7. */
uint64_t omnistat_read_at_host(uint8_t habit, uint8_t polled, const uint8_t *bytes, size_t len);

/* Writes a message to a thermostat, of a type and its data bytes: bytes written (16). The address is 00 for all, 01 to
   7F, or FA universal. */
uint64_t omnistat_write_to_thermostat(uint8_t address, uint8_t type, const uint8_t *data, size_t len, uint8_t *out, size_t room);

/* Writes a reply to the host, of a type and its data bytes: bytes written (16). The number is the thermostat's, 01 to 7F.
   Refused: 8 a habit other than 0 and 1, or polled outside 1 to 3; then as above, 6 and 7 by habit and polled.
   Number 1, type 4 and the data bytes 01 02 03 04 05 06 give 81 64 01 02 03 04 05 06 FA with the numbered habit, and are refused 6
   with the printed. Type 3 gives 81 63 01 02 03 04 05 06 F9 with either, but with the printed habit and polled 3 it is refused 7:
   it is the polled group's then, so that this call refuses no group as not polled. */
uint64_t omnistat_write_to_host(uint8_t habit, uint8_t polled, uint8_t number, uint8_t type, const uint8_t *data, size_t len,
                                uint8_t *out, size_t room);

/* Writes the reply with a group, 1 to 3, to the host, of its len values: bytes written (16), len + 3. Its type is group + 2 with
   the numbered habit, and 3 with the printed. The number is the thermostat's, 01 to 7F.
   Refused, in this order: 8 a habit other than 0 and 1, or polled or group outside 1 to 3; 7 len other than the 6, 6 or 10 of group
   with the numbered habit, and of polled with the printed; 8 with the printed habit a group that is not polled; 8 a number outside
   its list; 9 too little room.
   Number 1, group 2 and the values 01 02 03 04 05 06 give 81 64 01 02 03 04 05 06 FA with the numbered habit; with the printed
   habit 81 63 01 02 03 04 05 06 F9 where polled is 2, 8 where it is 1, and 7 where it is 3. */
uint64_t omnistat_write_group_to_host(uint8_t habit, uint8_t polled, uint8_t number, uint8_t group, const uint8_t *values,
                                      size_t len, uint8_t *out, size_t room);

/* Writes the set of a text register to a thermostat, of the len characters of a text: the 03 behind them is written too. The
   address is 00 for all, 01 to 7F, or FA universal; half, the half-byte, is 0 to 15, and thermostats ignore it.
   Accepted: bytes written (16), len + 5. Refused: 8 an address outside its list, half above 15, start outside 172 to 181, more
   than 60 characters, or a character outside 20 to 7E hex; 9 too little room.
   Address 1, half 0, start 175 and the text HI give 01 01 AF 48 49 03 45. */
uint64_t omnistat_write_text_to_thermostat(uint8_t address, uint8_t half, uint8_t start, const uint8_t *text, size_t len,
                                           uint8_t *out, size_t room);

/* Writes the data of a text register to the host, which is the same with either habit. The number is the thermostat's, 01 to 7F;
   all else is taken and refused as in omnistat_write_text_to_thermostat. Number 1, half 0, start 175 and the text HI give
   81 02 AF 48 49 03 C6. */
uint64_t omnistat_write_text_to_host(uint8_t number, uint8_t half, uint8_t start, const uint8_t *text, size_t len,
                                     uint8_t *out, size_t room);

/* The model thermostat, temperatures and setpoints */

/* The bytes of a text store: the ten texts of registers 172 to 181, each a count byte (0 to 60) and then 60 bytes, the first
   so many of them its characters. The text of register r starts with its count byte at texts[(r - 172) * 61]. A store starts
   as zero bytes: ten empty texts. */
enum { THERMOSTAT_TEXTS = 610 };

/* A step of the model thermostat with the address own: takes a message of len bytes, changes the map or the text store, and
   writes the reply to out. The map has 256 bytes, one for each register; texts has THERMOSTAT_TEXTS bytes; out has room for at
   least 65.
   Accepted: bytes written (16), 0 where nothing is sent: a broadcast, or a message for another address.
   Refused, with map, texts and out unchanged: 9 room under 65, map_len not 256, or texts_len not THERMOSTAT_TEXTS; 8 own
   outside 1 to 127, or a store with a count above 60 or a character outside 20 to 7E hex within its count; then what
   omnistat_read_at_thermostat refuses. A poll of registers that meets an unlisted one gets a negative reply; so does a set that
   meets a register that is unlisted or read only, or a byte out of its register's range, and it stores nothing. The setpoints 59,
   60, 163 and 164 take 51 to 91 degrees Fahrenheit: the bytes 102 to 145, 11 to 32.5 degrees Celsius. A poll of a read-only
   register is answered with its content.
   The set of a text register stores its count and its characters and is acknowledged; a broadcast one is stored in silence. The
   bytes of the store past a count are not looked at, and stay. A poll of a text register is answered with its text as data,
   with half-byte 0. The model has the numbered habit.
   At own 1, the message 01 21 3B 7C D9 stores 7C hex, 22 degrees Celsius, in map[59] and writes 81 00 81; 00 21 3B 7C D8 stores
   it too and writes nothing. 01 21 3B 50 AD stores nothing and writes 81 01 82, and 00 21 3B 50 AC neither stores nor writes:
   50 hex is 32 degrees Fahrenheit. 01 01 AF 48 49 03 45 stores 02 48 49 hex from texts[183] on and writes 81 00 81; the poll
   01 20 AF 01 D1 then writes 81 02 AF 48 49 03 C6. */
uint64_t thermostat_step(uint8_t own, uint8_t *map, size_t map_len, uint8_t *texts, size_t texts_len,
                         const uint8_t *bytes, size_t len, uint8_t *out, size_t room);

/* A temperature byte in degrees Celsius, exactly byte/2 - 40. */
float temperature_celsius(uint8_t byte);

/* A temperature byte in tenths of a degree Fahrenheit, 9 * byte - 400. */
int32_t temperature_fahrenheit_tenths(uint8_t byte);

/* A setpoint pair in degrees Celsius. */
struct setpoints {
    float cool;
    float heat;
};

/* The setpoint pair of two temperature bytes. */
struct setpoints setpoints_from_bytes(uint8_t cool, uint8_t heat);

/* The two bytes of a setpoint pair: cool byte (8), heat byte (8). Refused 8 unless both values are exact half degrees from
   -40 to 87.5; minus zero counts as zero. 22.5 and 20 are the bytes 125 and 120; 22.25 is refused. A pair may
   lie outside the range of registers 59 and 60. */
uint64_t setpoints_to_bytes(struct setpoints pair);

/* Cost */

/* The tally: the exact sum of the cost words of accepted meter replies, in millionths. It starts at 0. */
struct tally {
    uint64_t total;
};

/* The value of a cost word (registers 170 and 171, high byte first). No word is refused: the answer number is 0.
   Accepted: the value in millionths (56). 34567 is 4.567, so gateway_value(cost_millionths(34567)) is 4567000; of 65535 it is
   5535. */
uint64_t cost_millionths(uint16_t word);

/* Adds a meter reply to a tally: the cost word of data that starts at register 170 and has exactly two registers, from any
   thermostat. Accepted: nothing. Refused, with the tally unchanged: as omnistat_read_at_host refuses the bytes with the numbered
   habit, then 8 for any other message or run, a text too, then 11. 81 32 AA 87 07 EB, with the word 34567 in bytes[3], its high
   byte, and bytes[4], adds 4567000. */
uint64_t meter_add(struct tally *t, const uint8_t *bytes, size_t len);

/* X-10 patterns: one byte of value 0 or 1 for each half cycle. House 0 to 15 stands for A to P, units are 1 to 16. */

/* Reads a pattern of 22 places, or an Extended 1 of 62. Accepted: kind (8: 0 unit, 1 function, 2 Extended 1), house (8),
   unit or function code D8 D4 D2 D1 (8), data (8), command (8); data and command are 0 but for Extended 1.
   Refused 1, 8, 2, 5 or 6 on the first 22 places, 1, 8 or 5 on the rest of an Extended 1, then 4. */
uint64_t x10_read(const uint8_t *places, size_t len);

/* Writes the 22 places of a house and a unit. Accepted: places written (16). Refused 8, then 9. */
uint64_t x10_write_unit(uint8_t house, uint8_t unit, uint8_t *out, size_t room);

/* Writes the 22 places of a house and a function, by its code D8 D4 D2 D1. Accepted: places written (16).
   Refused 6 (1011, every extended code, and above 15), 8, then 9. */
uint64_t x10_write_function(uint8_t house, uint8_t code, uint8_t *out, size_t room);

/* Writes the 62 places of an Extended 1. Accepted: places written (16). Refused 8, then 9. */
uint64_t x10_write_extended(uint8_t house, uint8_t unit, uint8_t data, uint8_t command, uint8_t *out, size_t room);

/* The capture listing */

/* Lists a capture of at most 4,096 bytes as text: from the left, where a whole accepted frame starts it is taken, else that byte
   is noise. A line for each run of noise, `noise OFFSET COUNT`, for each frame, `frame OFFSET COUNT TYPE`, and at last
   `end OFFSET`; all numbers decimal, each line closed by one line feed. A room of 8 * len + 25 bytes is always enough, and quicker.
   Accepted: bytes written (32). Refused: 3 more than 4,096 bytes; 9 too little room.
   The capture 00 5A 01 05 C1 93 5A gives the lines noise 0 1, frame 1 5 5, noise 6 1 and end 7. */
uint64_t capture_listing(const uint8_t *bytes, size_t len, uint8_t *out, size_t room);

/* The bytes of the state of a capture that comes in pieces: how many bytes have come (2, high byte first), how long the run of
   noise without a line is (2, high byte first), the count of unread bytes (1), which are the start of what may be a frame, and
   then these bytes (69, of which at most 68 are used); the bytes behind them are zero. A state starts as zero bytes, and each
   capture has its own. */
enum { CAPTURE_STATE = 74 };

/* Takes the next len bytes of a capture, which may be none, and writes the lines that they settle. state has CAPTURE_STATE
   bytes. The lines of all pieces and of capture_finish, joined, are those of capture_listing for all bytes, however they were
   cut, provided no call was refused. Places are judged from the left, each once another byte than 5A, a length byte outside 01
   to 41 hex, or all bytes of its frame have come; a frame's line comes from the call that judges it, after the line of the noise
   before it. A room of 8 * len + 544 bytes is always enough; 0 is, where the call writes no line.
   Accepted: bytes written (32). Refused, with state and out unchanged, in this order: 8 a state that no pieces lead to, or
   state_len not CAPTURE_STATE; 3 a piece that takes the capture above 4,096 bytes; 9 too little room for the lines of this call.
   From a fresh state, the piece 00 5A 01 writes nothing, and then 05 C1 93 5A gives the lines noise 0 1 and frame 1 5 5. */
uint64_t capture_piece(uint8_t *state, size_t state_len, const uint8_t *bytes, size_t len, uint8_t *out, size_t room);

/* Ends a capture that came in pieces: judges the unread bytes as cut off, in which frames may be found, writes the last lines,
   noise at the end and the end line, and leaves a fresh state. A room of 569 bytes is always enough.
   Accepted: bytes written (32). Refused, with state and out unchanged: 8 a state that no pieces lead to, or state_len not
   CAPTURE_STATE; 9 too little room.
   After the two pieces above it gives the lines noise 6 1 and end 7. The piece 5A 41 5A 01 05 C1 93 alone writes nothing; this
   call then gives noise 0 2, frame 2 5 5 and end 7. */
uint64_t capture_finish(uint8_t *state, size_t state_len, uint8_t *out, size_t room);

#ifdef __cplusplus
}
#endif

#endif

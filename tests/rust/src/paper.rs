//! Document 01, with the requests of document 02 that have landed, in the plainest form and in document 01's order: what each
//! call has to answer and to leave in lent memory.

/// What a call gives back, or the number of its refusal.
pub type Answer<T> = Result<T, u8>;

// Answer numbers.
const SHORT: u8 = 1;
const START: u8 = 2;
const LENGTH: u8 = 3;
const LONG: u8 = 4;
const CHECKSUM: u8 = 5;
const UNKNOWN: u8 = 6;
const TYPE_LENGTH: u8 = 7;
const FIELD: u8 = 8;
const ROOM: u8 = 9;
const TOTAL: u8 = 11; // 10 is retired by document 02, K4

fn require(condition: bool, number: u8) -> Answer<()> {
    if condition {
        Ok(())
    } else {
        Err(number)
    }
}

// Answer numbers: 9, the last check of every writer.
fn fit(written: Vec<u8>, room: usize) -> Answer<Vec<u8>> {
    require(written.len() <= room, ROOM)?;
    Ok(written)
}

// Omni-Link frames: the CRC, one bit at a time, lowest first.
pub fn crc(bytes: &[u8]) -> u16 {
    let mut register = 0u16;
    for byte in bytes {
        for k in 0..8 {
            let bit = u16::from(byte >> k & 1);
            let out = register & 1 ^ bit;
            register >>= 1;
            if out == 1 {
                register ^= 0xA001; // x^15, x^2 and 1, turned round
            }
        }
    }
    register
}

// Omni-Link frames: reading. Gives the type and the data bytes.
pub fn frame_read(bytes: &[u8]) -> Answer<(u8, &[u8])> {
    require(!bytes.is_empty(), SHORT)?;
    require(bytes[0] == 0x5A, START)?;
    require(bytes.len() > 1, SHORT)?;
    require((0x01..=0x41).contains(&bytes[1]), LENGTH)?;
    let length = usize::from(bytes[1]);
    require(bytes.len() >= length + 4, SHORT)?;
    require(bytes.len() <= length + 4, LONG)?;
    let sent = u16::from(bytes[length + 2]) + 256 * u16::from(bytes[length + 3]);
    require(crc(&bytes[1..length + 2]) == sent, CHECKSUM)?;
    Ok((bytes[2], &bytes[3..length + 2]))
}

// Omni-Link frames: the bytes of a frame.
pub fn frame(kind: u8, data: &[u8]) -> Vec<u8> {
    let mut bytes = vec![0x5A, data.len() as u8 + 1, kind];
    bytes.extend(data);
    let crc = crc(&bytes[1..]);
    bytes.push((crc % 256) as u8);
    bytes.push((crc / 256) as u8);
    bytes
}

// Omni-Link frames: writing.
pub fn frame_write(kind: u8, data: &[u8], room: usize) -> Answer<Vec<u8>> {
    require(data.len() <= 64, LENGTH)?;
    fit(frame(kind, data), room)
}

// Document 02, K8: the bit at a place flipped. Places are counted from the length byte, from 0, lowest bit first.
pub fn flipped(bytes: &[u8], place: usize) -> Vec<u8> {
    let mut bytes = bytes.to_vec();
    bytes[1 + place / 8] ^= 1 << (place % 8);
    bytes
}

// Document 02, K8: mending, by each flip after the length byte. Gives the place and the frame.
pub fn frame_mend(bytes: &[u8], room: usize) -> Answer<(usize, Vec<u8>)> {
    match frame_read(bytes) {
        Ok(_) => return Err(FIELD),
        Err(CHECKSUM) => (),
        Err(number) => return Err(number),
    }
    let is_frame = |&place: &usize| frame_read(&flipped(bytes, place)).is_ok();
    let place = (8..8 * (bytes.len() - 1)).find(is_frame).ok_or(CHECKSUM)?;
    Ok((place, fit(flipped(bytes, place), room)?))
}

// Omni-Link messages: 6, 7, 8 of a type and its data bytes.
pub fn message_check(kind: u8, data: &[u8]) -> Answer<()> {
    let length = data.len() + 1;
    let pairs = length % 2 == 1 && length <= 2 * 32 + 1;
    match kind {
        0x05 | 0x06 | 0x0D | 0x11 | 0x13 | 0x21 | 0x22 => require(length == 1, TYPE_LENGTH),
        0x20 => {
            require(length == 5, TYPE_LENGTH)?;
            require(data.iter().all(|&digit| digit <= 9), FIELD)
        }
        0x15 => {
            require(length == 3, TYPE_LENGTH)?;
            require(1 <= data[0] && data[0] <= data[1], FIELD)
        }
        0x16 => {
            require(pairs && length >= 3, TYPE_LENGTH)?;
            require(data.iter().step_by(2).all(|&s| zone_status(s)), FIELD)
        }
        0x23 => require(pairs, TYPE_LENGTH),
        0x25 => {
            require(matches!(length, 0x06 | 0x12 | 0x22), TYPE_LENGTH)?;
            require(data[0] == 0, FIELD)
        }
        0x0E => {
            require(length == 0x0B, TYPE_LENGTH)?;
            require(data[0] >= 1 && (data[1] == 0 || calendar(data)), FIELD)
        }
        0x0F => {
            require(length == 5, TYPE_LENGTH)?;
            require(command(data).is_some(), FIELD)
        }
        _ => Err(UNKNOWN),
    }
}

fn zone_status(status: u8) -> bool {
    status % 4 != 3 && status / 4 % 4 != 3 && status < 128
}

fn calendar(data: &[u8]) -> bool {
    let (month, day, hour, minute) = (data[2], data[3], data[4], data[5]);
    (1..=12).contains(&month) && (1..=31).contains(&day) && hour <= 23 && minute <= 59
}

// Omni-Link messages: type 0F. Gives the unit of the duration and the count, unless a field is outside its list.
fn command(data: &[u8]) -> Option<(u8, u8)> {
    let p1 = data[1];
    let some_p2 = (data[2], data[3]) != (0, 0);
    match (data[0], p1) {
        (0 | 1, 0) if some_p2 => Some((0, 0)),
        (0 | 1, 1..=99) if some_p2 => Some((1, p1)),
        (0 | 1, 101..=199) if some_p2 => Some((2, p1 - 100)),
        (0 | 1, 201..=218) if some_p2 => Some((3, p1 - 200)),
        (2 | 3, 0) => Some((0, 0)),
        (9, 0..=100) if some_p2 => Some((0, p1)),
        (10 | 11, 0) if some_p2 => Some((0, 0)),
        (12, _) if some_p2 => Some((0, p1)),
        _ => None,
    }
}

// Omni-Link messages: reading. Gives the type and the data bytes.
pub fn message_read(bytes: &[u8]) -> Answer<(u8, &[u8])> {
    let (kind, data) = frame_read(bytes)?;
    message_check(kind, data)?;
    Ok((kind, data))
}

// Omni-Link messages: how many zones, events or text messages.
pub fn items(kind: u8, data: &[u8]) -> usize {
    match kind {
        0x16 | 0x23 => data.len() / 2,
        0x25 => 4 * (data.len() - 1),
        _ => 0,
    }
}

// Omni-Link messages: writing.
pub fn message_write(kind: u8, data: &[u8], room: usize) -> Answer<Vec<u8>> {
    message_check(kind, data)?;
    fit(frame(kind, data), room)
}

fn message_of(own: u8, bytes: &[u8]) -> Answer<&[u8]> {
    let (kind, data) = message_read(bytes)?;
    require(kind == own, FIELD)?;
    Ok(data)
}

// Omni-Link messages: type 16. Condition, latched alarm, arming, unacknowledged trouble, loop reading.
pub fn zone(bytes: &[u8], i: usize) -> Answer<[u8; 5]> {
    let data = message_of(0x16, bytes)?;
    require(i < items(0x16, data), FIELD)?;
    let status = data[2 * i];
    let (condition, alarm) = (status % 4, status / 4 % 4);
    let (arming, trouble) = (status / 16 % 4, status / 64 % 2);
    Ok([condition, alarm, arming, trouble, data[2 * i + 1]])
}

// Omni-Link messages: type 23, high byte first.
pub fn event(bytes: &[u8], i: usize) -> Answer<u16> {
    let data = message_of(0x23, bytes)?;
    require(i < items(0x23, data), FIELD)?;
    Ok(256 * u16::from(data[2 * i]) + u16::from(data[2 * i + 1]))
}

// Omni-Link messages: type 25, from the two high bits down. Displayed, not acknowledged.
pub fn text_message(bytes: &[u8], i: usize) -> Answer<[u8; 2]> {
    let data = message_of(0x25, bytes)?;
    require(i < items(0x25, data), FIELD)?;
    let two = data[1 + i / 4] / [64, 16, 4, 1][i % 4] % 4;
    Ok([two % 2, two / 2])
}

// Omni-Link messages: type 0F. Command, unit of the duration, count, P2.
pub fn command_read(bytes: &[u8]) -> Answer<([u8; 3], u16)> {
    let data = message_of(0x0F, bytes)?;
    let (unit, count) = command(data).ok_or(FIELD)?;
    let p2 = 256 * u16::from(data[2]) + u16::from(data[3]);
    Ok(([data[0], unit, count], p2))
}

// Omni-Link messages: type 0E. Fields 0 to 7 are bytes, field 8 is parameter 2.
pub fn log_entry(bytes: &[u8], field: usize) -> Answer<u16> {
    let data = message_of(0x0E, bytes)?;
    match field {
        0..=7 => Ok(u16::from(data[field])),
        8 => Ok(256 * u16::from(data[8]) + u16::from(data[9])),
        _ => Err(FIELD),
    }
}

// K6: the bytes of a secret and of a door's state.
pub const DOOR_SECRET: usize = 4;
pub const DOOR_STATE: usize = 4;

// K6: the seconds without a message that log out, and those of a shut-out.
const SILENCE: u32 = 180;
const SHUT_OUT: u32 = 3600;

// K6: whether somebody is logged in, and what stands against logins.
struct Door {
    logged_in: bool,
    logins: Logins,
}

// K6: the wrong logins in a row, at most two; or all logins are shut out for so many seconds more, at least one.
enum Logins {
    Wrong(u8),
    ShutOut(u32),
}

impl Door {
    // K6: the state that bytes stand for.
    fn new(bytes: &[u8]) -> Answer<Door> {
        require(bytes.len() == DOOR_STATE, FIELD)?;
        let logged_in = match bytes[0] {
            0 => false,
            1 => true,
            _ => return Err(FIELD),
        };
        let left = 256 * u32::from(bytes[2]) + u32::from(bytes[3]);
        let logins = match (bytes[1], left) {
            (count @ 0..=2, 0) => Logins::Wrong(count),
            (0, 1..=SHUT_OUT) => Logins::ShutOut(left),
            _ => return Err(FIELD),
        };
        Ok(Door { logged_in, logins })
    }

    fn bytes(&self) -> Vec<u8> {
        let (count, left) = match self.logins {
            Logins::Wrong(count) => (count, 0),
            Logins::ShutOut(left) => (0, left),
        };
        let (high, low) = ((left / 256) as u8, (left % 256) as u8);
        vec![u8::from(self.logged_in), count, high, low]
    }

    // K6: whole seconds since the last message. A shut-out that has passed leaves a count of none.
    fn wait(&mut self, seconds: u32) {
        if seconds >= SILENCE {
            self.logged_in = false;
        }
        if let Logins::ShutOut(left) = self.logins {
            self.logins = if seconds < left {
                Logins::ShutOut(left - seconds)
            } else {
                Logins::Wrong(0)
            };
        }
    }

    // K6: a login, right or wrong. Gives the answer.
    fn login(&mut self, right: bool) -> u8 {
        match (&self.logins, right) {
            (Logins::ShutOut(_), _) => 0x06,
            (Logins::Wrong(_), true) => {
                self.logged_in = true;
                self.logins = Logins::Wrong(0);
                0x05
            }
            (Logins::Wrong(2), false) => {
                self.logins = Logins::ShutOut(SHUT_OUT);
                0x06
            }
            (Logins::Wrong(count), false) => {
                self.logins = Logins::Wrong(count + 1);
                0x06
            }
        }
    }

    // K6: any other message. Gives the answer, 0 where the message is passed on.
    fn other(&mut self, kind: u8) -> u8 {
        match (self.logged_in, kind) {
            (false, _) => 0x06,
            (true, 0x05) => 0x05,
            (true, 0x21) => {
                self.logged_in = false;
                0x05
            }
            (true, _) => 0,
        }
    }
}

// K6: one message at the door, so many seconds after the last. Changes the state and gives the answer.
pub fn login_door(
    secret: &[u8],
    state: &mut Vec<u8>,
    seconds: u32,
    kind: u8,
    data: &[u8],
) -> Answer<u8> {
    require(secret.len() == DOOR_SECRET, FIELD)?;
    require(secret.iter().all(|&digit| digit <= 9), FIELD)?;
    let mut door = Door::new(state)?;
    message_check(kind, data)?;
    door.wait(seconds);
    let answer = match kind {
        0x20 => door.login(data == secret),
        _ => door.other(kind),
    };
    *state = door.bytes();
    Ok(answer)
}

/// An Omnistat2 message: its first byte (at the host the number of the thermostat), its type and what it carries.
#[derive(Debug, PartialEq)]
pub struct Omnistat<'a> {
    pub first: u8,
    pub kind: u8,
    pub body: Body<'a>,
}

/// What an Omnistat2 message carries: N data bytes, or a half-byte, a register and its text.
#[derive(Debug, PartialEq)]
pub enum Body<'a> {
    Data(&'a [u8]),
    Text(u8, u8, &'a [u8]),
}

// Omnistat2 messages: an end, by the first bytes that it takes, the type that sets or carries registers, and 6, 7, 8 of a
// type and its data bytes.
struct End<Check> {
    direction: fn(u8) -> bool,
    registers: u8,
    check: Check,
}

fn at_thermostat() -> End<impl Fn(u8, &[u8]) -> Answer<()>> {
    End {
        direction: to_thermostat,
        registers: 1,
        check: from_host,
    }
}

fn at_host(habit: Habit) -> End<impl Fn(u8, &[u8]) -> Answer<()>> {
    End {
        direction: to_host,
        registers: 2,
        check: move |kind, data: &[u8]| reply(habit, kind, data),
    }
}

// K9: with the printed habit type 3 carries the group last polled; with the other one that group decides nothing.
#[derive(Clone, Copy)]
enum Habit {
    Numbered,
    Printed(u8),
}

// K9: the habit and the group last polled, as the host names them. 8 before all else.
fn named([habit, polled]: [u8; 2]) -> Answer<Habit> {
    require(is_group(polled), FIELD)?;
    match habit {
        0 => Ok(Habit::Numbered),
        1 => Ok(Habit::Printed(polled)),
        _ => Err(FIELD),
    }
}

fn is_group(group: u8) -> bool {
    (1..=3).contains(&group)
}

// Omnistat2 messages: N of a reply with a group.
fn group_length(group: u8) -> usize {
    [6, 6, 10][usize::from(group) - 1]
}

// Omnistat2 messages: the order of checks. A set or data message whose third byte is a text register is a text, whatever its
// half-byte is.
fn omnistat_read(end: End<impl Fn(u8, &[u8]) -> Answer<()>>, bytes: &[u8]) -> Answer<Omnistat<'_>> {
    require(!bytes.is_empty(), SHORT)?;
    require((end.direction)(bytes[0]), START)?;
    require(bytes.len() > 1, SHORT)?;
    let (first, kind) = (bytes[0], bytes[1] % 16);
    if kind == end.registers && bytes.get(2).is_some_and(|&start| holds_text(start)) {
        let body = text_read(bytes)?;
        return Ok(Omnistat { first, kind, body });
    }
    let n = usize::from(bytes[1] / 16);
    require(bytes.len() >= n + 3, SHORT)?;
    require(bytes.len() <= n + 3, LONG)?;
    require(sum(&bytes[..n + 2]) == bytes[n + 2], CHECKSUM)?;
    let data = &bytes[2..n + 2];
    (end.check)(kind, data)?;
    let body = Body::Data(data);
    Ok(Omnistat { first, kind, body })
}

// K1: a text is characters up to 03, then the sum; its length half-byte is ignored and kept.
fn text_read(bytes: &[u8]) -> Answer<Body<'_>> {
    let after = &bytes[3..];
    let within = &after[..after.len().min(61)];
    let end = within.iter().position(|&byte| byte == TEXT_END);
    let end = end.ok_or(if after.len() < 61 { SHORT } else { FIELD })?;
    require(after.len() > end + 1, SHORT)?;
    require(after.len() == end + 2, LONG)?;
    require(sum(&bytes[..end + 4]) == after[end + 1], CHECKSUM)?;
    let text = &after[..end];
    require(characters(text), FIELD)?;
    Ok(Body::Text(bytes[1] / 16, bytes[2], text))
}

// K1: the registers that hold text, and what it is made of.
const TEXT_END: u8 = 0x03;

fn holds_text(register: u8) -> bool {
    (172..=181).contains(&register)
}

fn characters(text: &[u8]) -> bool {
    text.iter().all(|byte| (0x20..=0x7E).contains(byte))
}

pub fn sum(bytes: &[u8]) -> u8 {
    let sum: u32 = bytes.iter().map(|&byte| u32::from(byte)).sum();
    (sum % 256) as u8
}

fn to_thermostat(first: u8) -> bool {
    matches!(first, 0x00 | 0x01..=0x7F | 0xFA)
}

fn to_host(first: u8) -> bool {
    (0x81..=0xFF).contains(&first)
}

// Omnistat2 messages: a run of registers ends at or below 255 and meets no text register. One that starts there is asked of a
// writer alone: to a reader it is a text.
fn run(start: u8, count: usize) -> Answer<()> {
    let mut registers = usize::from(start)..usize::from(start) + count;
    let allowed = |r| u8::try_from(r).is_ok_and(|r| !holds_text(r));
    require(registers.all(allowed), FIELD)
}

// Omnistat2 messages: 6, 7, 8 of a message from the host.
fn from_host(kind: u8, data: &[u8]) -> Answer<()> {
    match kind {
        0 => {
            require(data.len() == 2, TYPE_LENGTH)?;
            if holds_text(data[0]) {
                return require(data[1] == 1, FIELD);
            }
            require((1..=14).contains(&data[1]), FIELD)?;
            run(data[0], usize::from(data[1]))
        }
        1 => {
            require((2..=15).contains(&data.len()), TYPE_LENGTH)?;
            run(data[0], data.len() - 1)
        }
        2..=4 => require(data.is_empty(), TYPE_LENGTH),
        _ => Err(UNKNOWN),
    }
}

// Omnistat2 messages: 6, 7, 8 of a reply; groups by K9.
fn reply(habit: Habit, kind: u8, data: &[u8]) -> Answer<()> {
    let group = match (kind, habit) {
        (0 | 1, _) => return require(data.is_empty(), TYPE_LENGTH),
        (2, _) => {
            require((2..=15).contains(&data.len()), TYPE_LENGTH)?;
            return run(data[0], data.len() - 1);
        }
        (3, Habit::Printed(polled)) => polled,
        (3..=5, Habit::Numbered) => kind - 2,
        _ => return Err(UNKNOWN),
    };
    require(data.len() == group_length(group), TYPE_LENGTH)
}

// Omnistat2 messages: reading at the thermostat.
pub fn read_at_thermostat(bytes: &[u8]) -> Answer<Omnistat<'_>> {
    omnistat_read(at_thermostat(), bytes)
}

// Omnistat2 messages: reading at the host. Gives the number of the thermostat in place of the first byte.
pub fn read_at_host(names: [u8; 2], bytes: &[u8]) -> Answer<Omnistat<'_>> {
    read_reply(named(names)?, bytes)
}

fn read_reply(habit: Habit, bytes: &[u8]) -> Answer<Omnistat<'_>> {
    let mut message = omnistat_read(at_host(habit), bytes)?;
    message.first -= 0x80;
    Ok(message)
}

// Omnistat2 messages: the bytes of a message.
pub fn omnistat(first: u8, kind: u8, data: &[u8]) -> Vec<u8> {
    let mut bytes = vec![first, data.len() as u8 * 16 + kind];
    bytes.extend(data);
    bytes.push(sum(&bytes));
    bytes
}

// K1: the bytes of a text.
pub fn omnistat_text(first: u8, kind: u8, half: u8, register: u8, text: &[u8]) -> Vec<u8> {
    let mut bytes = vec![first, half * 16 + kind, register];
    bytes.extend(text);
    bytes.push(TEXT_END);
    bytes.push(sum(&bytes));
    bytes
}

// Omnistat2 messages: writing to a thermostat. A wrong address is 8.
pub fn write_to_thermostat(address: u8, kind: u8, data: &[u8], room: usize) -> Answer<Vec<u8>> {
    from_host(kind, data)?;
    require(to_thermostat(address), FIELD)?;
    fit(omnistat(address, kind, data), room)
}

// Omnistat2 messages: writing to the host. A wrong number is 8.
pub fn write_to_host(
    [habit, polled, number, kind]: [u8; 4],
    data: &[u8],
    room: usize,
) -> Answer<Vec<u8>> {
    let habit = named([habit, polled])?;
    reply(habit, kind, data)?;
    require((0x01..=0x7F).contains(&number), FIELD)?;
    fit(omnistat(number + 0x80, kind, data), room)
}

// K9: writing the reply with a group. With the printed habit 7 for the polled group, then 8 for a group not polled.
pub fn write_group_to_host(
    [habit, polled, number, group]: [u8; 4],
    values: &[u8],
    room: usize,
) -> Answer<Vec<u8>> {
    let habit = named([habit, polled])?;
    require(is_group(group), FIELD)?;
    let kind = match habit {
        Habit::Numbered => {
            require(values.len() == group_length(group), TYPE_LENGTH)?;
            [3, 4, 5][usize::from(group) - 1]
        }
        Habit::Printed(polled) => {
            require(values.len() == group_length(polled), TYPE_LENGTH)?;
            require(group == polled, FIELD)?;
            3
        }
    };
    require((0x01..=0x7F).contains(&number), FIELD)?;
    fit(omnistat(number + 0x80, kind, values), room)
}

fn writable_text(half: u8, register: u8, text: &[u8]) -> bool {
    half <= 15 && holds_text(register) && text.len() <= 60 && characters(text)
}

// K1: writing a text to a thermostat, in a set.
pub fn write_text_to_thermostat(
    [address, half, register]: [u8; 3],
    text: &[u8],
    room: usize,
) -> Answer<Vec<u8>> {
    require(to_thermostat(address), FIELD)?;
    require(writable_text(half, register, text), FIELD)?;
    fit(omnistat_text(address, 1, half, register, text), room)
}

// K1: writing a text to the host, in data.
pub fn write_text_to_host(
    [number, half, register]: [u8; 3],
    text: &[u8],
    room: usize,
) -> Answer<Vec<u8>> {
    require((0x01..=0x7F).contains(&number), FIELD)?;
    require(writable_text(half, register, text), FIELD)?;
    fit(omnistat_text(number + 0x80, 2, half, register, text), room)
}

// K1: the text store, ten texts, each a count byte and then 60 bytes.
pub const STORE: usize = 10 * HELD;
pub const HELD: usize = 1 + 60;

fn held(register: u8) -> std::ops::Range<usize> {
    let at = usize::from(register - 172) * HELD;
    at..at + HELD
}

// K1: the text that a part of the store holds, unless it holds none.
fn stored(part: &[u8]) -> Option<&[u8]> {
    let text = part[1..].get(..usize::from(part[0]))?;
    characters(text).then_some(text)
}

// Registers: the listed ones.
fn listed(register: u8) -> bool {
    matches!(register, 15 | 18..=68 | 70..=122 | 131..=145 | 158..=171)
}

// Registers: whether a byte may be written; setpoints by K2.
fn writable(register: u8, value: u8) -> bool {
    listed(register)
        && match register {
            64 | 71 | 72 | 73 | 162 | 170 | 171 => false,
            58 => value <= 6,
            59 | 60 | 163 | 164 => (510..=910).contains(&fahrenheit_tenths(value)),
            61 => value <= 4,
            62 | 63 | 131 | 136 | 139 => value <= 2,
            132 => [0, 1, 42, 54, 126].contains(&value),
            137 => value <= 1,
            161 => value <= 3,
            65 | 66 => value <= 59,
            67 => value <= 23,
            70 => [0, 1, 2, 4].contains(&value),
            138 => (1..=19).contains(&value),
            140 => value <= 100,
            141 => (1..=10).contains(&value),
            143..=145 => (2..=30).contains(&value),
            168 => value <= 99,
            _ => true,
        }
}

// The model thermostat: the groups.
const GROUP_1: [u8; 6] = [59, 60, 61, 62, 63, 64];
const GROUP_2: [u8; 6] = [162, 135, 134, 68, 15, 169];
const GROUP_3: [u8; 10] = [169, 18, 19, 20, 74, 170, 171, 165, 166, 167];

/// What a step is lent to change: the registers and the texts.
#[derive(Clone, Debug, PartialEq)]
pub struct State {
    pub map: Vec<u8>,
    pub texts: Vec<u8>,
}

// The model thermostat: a step. Changes the state and gives what is sent.
pub fn step(own: u8, state: &mut State, bytes: &[u8], room: usize) -> Answer<Vec<u8>> {
    let State { map, texts } = state;
    require(room >= 65 && map.len() == 256 && texts.len() == STORE, ROOM)?;
    require((1..=127).contains(&own), FIELD)?;
    require(texts.chunks(HELD).all(|t| stored(t).is_some()), FIELD)?;
    let Omnistat { first, kind, body } = read_at_thermostat(bytes)?;
    if first != own && first != 0x00 && first != 0xFA {
        return Ok(Vec::new());
    }
    let from = own + 0x80;
    let sent = match (kind, body) {
        (_, Body::Text(_, register, text)) => {
            let part = &mut texts[held(register)];
            part[0] = text.len() as u8;
            part[1..=text.len()].copy_from_slice(text);
            omnistat(from, 0, &[])
        }
        (0, Body::Data(&[register, _])) if holds_text(register) => {
            let text = stored(&texts[held(register)]).unwrap_or_default();
            omnistat_text(from, 2, 0, register, text)
        }
        (_, Body::Data(data)) => {
            let (kind, data) = act(map, kind, data);
            omnistat(from, kind, &data)
        }
    };
    Ok(if first == 0x00 { Vec::new() } else { sent })
}

// The model thermostat: what a message without text does to the map; gives the type and the data bytes of the reply.
fn act(map: &mut [u8], kind: u8, data: &[u8]) -> (u8, Vec<u8>) {
    let contents = |registers: &[u8]| registers.iter().map(|&r| map[usize::from(r)]).collect();
    match kind {
        0 => {
            let registers: Vec<u8> = (data[0]..=data[0] + (data[1] - 1)).collect();
            if !registers.iter().all(|&r| listed(r)) {
                return (1, Vec::new());
            }
            let mut values: Vec<u8> = contents(&registers);
            values.insert(0, data[0]);
            (2, values)
        }
        1 => {
            let settings = || (data[0]..=255).zip(&data[1..]);
            if !settings().all(|(r, &value)| writable(r, value)) {
                return (1, Vec::new());
            }
            settings().for_each(|(r, &value)| map[usize::from(r)] = value);
            (0, Vec::new())
        }
        2 => (3, contents(&GROUP_1)),
        3 => (4, contents(&GROUP_2)),
        _ => (5, contents(&GROUP_3)),
    }
}

// Temperatures: half degrees from -40 on.
pub fn celsius(byte: u8) -> f32 {
    f32::from(i16::from(byte) - 80) / 2.0
}

pub fn fahrenheit_tenths(byte: u8) -> i32 {
    9 * i32::from(byte) - 400
}

// Temperatures: a setpoint back to its byte.
pub fn setpoint_byte(degrees: f32) -> Answer<u8> {
    let halves = f64::from(degrees) * 2.0;
    require(
        (-80.0..=175.0).contains(&halves) && halves.fract() == 0.0,
        FIELD,
    )?;
    Ok((halves + 80.0) as u8)
}

// Cost: the value of a word in millionths.
pub fn cost(word: u16) -> u64 {
    let decimals = u32::from(word / 10000);
    u64::from(word % 10000) * 10u64.pow(6 - decimals)
}

// K5: the total after a reply of whichever thermostat. Data of two registers from 170 on has the word; another message or run is 8.
// K9: always with the numbered habit.
pub fn meter(total: u64, bytes: &[u8]) -> Answer<u64> {
    let reply = read_reply(Habit::Numbered, bytes)?;
    let Body::Data(data) = reply.body else {
        return Err(FIELD);
    };
    require(reply.kind == 2 && data.len() == 3 && data[0] == 170, FIELD)?;
    let word = 256 * u16::from(data[1]) + u16::from(data[2]);
    total.checked_add(cost(word)).ok_or(TOTAL)
}

// K5: the reply of a thermostat to a poll of registers 170 and 171.
pub fn meter_reply(number: u8, word: u16) -> Vec<u8> {
    let (high, low) = ((word / 256) as u8, (word % 256) as u8);
    omnistat(number + 0x80, 2, &[170, high, low])
}

// X-10 patterns: houses A to P, and units 1 to 16.
const CODES: [u8; 16] = [
    0b0110, 0b1110, 0b0010, 0b1010, 0b0001, 0b1001, 0b0101, 0b1101, 0b0111, 0b1111, 0b0011, 0b1011,
    0b0000, 0b1000, 0b0100, 0b1100,
];
const EXTENDED_1: u8 = 0b0111;
const EXTENDED_3: u8 = 0b1010;
const UNUSED: u8 = 0b1011;
const EXTENDED_2: u8 = 0b1100;

// X-10 patterns: which of the list a code is, from 0.
fn code_index(code: u8) -> u8 {
    CODES.iter().position(|&c| c == code).unwrap_or(16) as u8
}

// X-10 patterns: the number that places spell, each bit followed by its complement.
fn spelt(places: &[u8]) -> u8 {
    places.iter().step_by(2).fold(0, |n, &bit| 2 * n + bit)
}

fn complemented(places: &[u8]) -> bool {
    places.chunks(2).all(|pair| pair[0] + pair[1] == 1)
}

fn zeros_and_ones(places: &[u8]) -> bool {
    places.iter().all(|&place| place <= 1)
}

// X-10 patterns: reading. Kind, house, unit or function code, data, command.
pub fn x10_read(places: &[u8]) -> Answer<[u8; 5]> {
    require(places.len() >= 22, SHORT)?;
    let standard = &places[..22];
    require(zeros_and_ones(standard), FIELD)?;
    require(standard[..4] == [1, 1, 1, 0], START)?;
    require(complemented(&standard[4..]), CHECKSUM)?;
    let house = code_index(spelt(&standard[4..12]));
    let key = spelt(&standard[12..20]);
    if standard[20] == 0 {
        require(places.len() == 22, LONG)?;
        return Ok([0, house, code_index(key) + 1, 0, 0]);
    }
    require(![EXTENDED_2, EXTENDED_3, UNUSED].contains(&key), UNKNOWN)?;
    if key != EXTENDED_1 {
        require(places.len() == 22, LONG)?;
        return Ok([1, house, key, 0, 0]);
    }
    require(places.len() >= 62, SHORT)?;
    let rest = &places[22..62];
    require(zeros_and_ones(rest), FIELD)?;
    require(complemented(rest), CHECKSUM)?;
    require(places.len() == 62, LONG)?;
    let unit = code_index(spelt(&rest[..8])) + 1;
    Ok([2, house, unit, spelt(&rest[8..24]), spelt(&rest[24..])])
}

fn spell(places: &mut Vec<u8>, number: u8, bits: u32) {
    for k in (0..bits).rev() {
        let bit = number >> k & 1;
        places.extend([bit, 1 - bit]);
    }
}

// X-10 patterns: the 22 places of a house, a key and D16.
pub fn x10_standard(house: u8, key: u8, d16: u8) -> Vec<u8> {
    let mut places = vec![1, 1, 1, 0];
    spell(&mut places, CODES[usize::from(house)], 4);
    spell(&mut places, key, 4);
    spell(&mut places, d16, 1);
    places
}

// X-10 patterns: writing.
pub fn x10_write_unit(house: u8, unit: u8, room: usize) -> Answer<Vec<u8>> {
    require(house <= 15 && (1..=16).contains(&unit), FIELD)?;
    fit(x10_standard(house, CODES[usize::from(unit) - 1], 0), room)
}

pub fn x10_write_function(house: u8, code: u8, room: usize) -> Answer<Vec<u8>> {
    let unknown = [EXTENDED_1, EXTENDED_2, EXTENDED_3, UNUSED];
    require(code <= 15 && !unknown.contains(&code), UNKNOWN)?;
    require(house <= 15, FIELD)?;
    fit(x10_standard(house, code, 1), room)
}

pub fn x10_write_extended(
    house: u8,
    unit: u8,
    data: u8,
    command: u8,
    room: usize,
) -> Answer<Vec<u8>> {
    require(house <= 15 && (1..=16).contains(&unit), FIELD)?;
    let mut places = x10_standard(house, EXTENDED_1, 1);
    spell(&mut places, CODES[usize::from(unit) - 1], 4);
    spell(&mut places, data, 8);
    spell(&mut places, command, 8);
    fit(places, room)
}

// The capture listing: the whole accepted frame that starts the bytes.
fn frame_at(bytes: &[u8]) -> Option<&[u8]> {
    let whole = usize::from(*bytes.get(1)?) + 4;
    let bytes = bytes.get(..whole)?;
    frame_read(bytes).is_ok().then_some(bytes)
}

// The capture listing: the text, as bytes.
pub fn listing(bytes: &[u8], room: usize) -> Answer<Vec<u8>> {
    require(bytes.len() <= 4096, LENGTH)?;
    let mut text = String::new();
    let mut noise = 0;
    let mut at = 0;
    while at <= bytes.len() {
        let found = frame_at(&bytes[at..]);
        if noise > 0 && (found.is_some() || at == bytes.len()) {
            text += &format!("noise {} {noise}\n", at - noise);
            noise = 0;
        }
        if let Some(frame) = found {
            text += &format!("frame {at} {} {}\n", frame.len(), frame[2]);
            at += frame.len();
        } else {
            noise += 1;
            at += 1;
        }
    }
    text += &format!("end {}\n", bytes.len());
    fit(text.into_bytes(), room)
}

// K3: the bytes of the state of a capture that comes in pieces.
pub const CAPTURE_STATE: usize = 74;

// K3: the rooms that are enough for a piece of `len` bytes, and for the finishing call, as the header says.
pub fn enough_for_piece(len: usize) -> usize {
    8 * len + 544
}

pub const ENOUGH_TO_FINISH: usize = 569;

// K3: how many bytes have come, how many of them are noise that has no line yet, and the unread ones.
struct Pieces {
    came: usize,
    noise: usize,
    unread: Vec<u8>,
}

// K3: what is known of the place that starts the bytes; a frame with its count of bytes.
enum Place {
    Frame(usize),
    Noise,
    Open,
}

// K3: a start byte, a length or a whole frame settles a place.
fn place(bytes: &[u8]) -> Place {
    let whole = bytes.get(1).map_or(1, |&length| usize::from(length) + 4);
    match frame_read(&bytes[..whole.min(bytes.len())]) {
        Ok(_) => Place::Frame(whole),
        Err(SHORT) => Place::Open,
        Err(_) => Place::Noise,
    }
}

impl Pieces {
    // K3: the state that bytes stand for; 8 where no pieces lead to it. Before the noise and the unread bytes stands nothing, or
    // a frame last.
    fn new(bytes: &[u8]) -> Answer<Pieces> {
        require(bytes.len() == CAPTURE_STATE, FIELD)?;
        let word = |i: usize| 256 * usize::from(bytes[i]) + usize::from(bytes[i + 1]);
        let (came, noise, count) = (word(0), word(2), usize::from(bytes[4]));
        require(count <= 69, FIELD)?;
        let (unread, behind) = bytes[5..].split_at(count);
        require(came <= 4096 && noise + count <= came, FIELD)?;
        let before = came - noise - count;
        require(before == 0 || before >= 5, FIELD)?;
        let started = match unread {
            [] | [0x5A] => true,
            [0x5A, length @ 0x01..=0x41, ..] => count < usize::from(*length) + 4,
            _ => false,
        };
        require(started, FIELD)?;
        require(behind.iter().all(|&byte| byte == 0), FIELD)?;
        let unread = unread.to_vec();
        Ok(Pieces {
            came,
            noise,
            unread,
        })
    }

    fn bytes(&self) -> Vec<u8> {
        let word = |number: usize| [(number / 256) as u8, (number % 256) as u8];
        let mut bytes = [word(self.came), word(self.noise)].concat();
        bytes.push(self.unread.len() as u8);
        bytes.extend(&self.unread);
        bytes.resize(CAPTURE_STATE, 0);
        bytes
    }

    // K3: the line of the noise that has none, if there is any; it ends before byte number `at`.
    fn noise_line(&mut self, at: usize) -> String {
        let noise = std::mem::take(&mut self.noise);
        if noise == 0 {
            String::new()
        } else {
            format!("noise {} {noise}\n", at - noise)
        }
    }

    // K3: judges the places of the unread bytes from the left, up to an open one; where the capture ends, that is cut off and so
    // noise.
    fn judge(&mut self, ends: bool) -> String {
        let mut text = String::new();
        let unread = std::mem::take(&mut self.unread);
        let mut rest = &unread[..];
        while !rest.is_empty() {
            match place(rest) {
                Place::Frame(size) => {
                    let at = self.came - rest.len();
                    text += &self.noise_line(at);
                    text += &format!("frame {at} {size} {}\n", rest[2]);
                    rest = &rest[size..];
                }
                Place::Open if !ends => break,
                _ => {
                    self.noise += 1;
                    rest = &rest[1..];
                }
            }
        }
        self.unread = rest.to_vec();
        text
    }
}

// K3: a piece. The lines; where they are refused, the state stays.
pub fn capture_piece(state: &mut Vec<u8>, bytes: &[u8], room: usize) -> Answer<Vec<u8>> {
    let mut pieces = Pieces::new(state)?;
    require(pieces.came + bytes.len() <= 4096, LENGTH)?;
    pieces.came += bytes.len();
    pieces.unread.extend(bytes);
    let text = fit(pieces.judge(false).into_bytes(), room)?;
    *state = pieces.bytes();
    Ok(text)
}

// K3: the finishing call. The last lines; the state is fresh then.
pub fn capture_finish(state: &mut Vec<u8>, room: usize) -> Answer<Vec<u8>> {
    let mut pieces = Pieces::new(state)?;
    let mut text = pieces.judge(true);
    text += &pieces.noise_line(pieces.came);
    text += &format!("end {}\n", pieces.came);
    let text = fit(text.into_bytes(), room)?;
    *state = vec![0; CAPTURE_STATE];
    Ok(text)
}

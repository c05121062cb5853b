//! Inputs aimed at every answer: whole frames, messages and patterns, and damaged ones.

use crate::compare::Compare;
use crate::paper::{self, State};
use crate::random::Random;

pub const OMNILINK_TYPES: [u8; 14] = [
    0x05, 0x06, 0x0D, 0x0E, 0x0F, 0x11, 0x13, 0x15, 0x16, 0x20, 0x21, 0x22, 0x23, 0x25,
];
/// Each habit with each polled group.
pub const NAMES: [[u8; 2]; 6] = [[0, 1], [0, 2], [0, 3], [1, 1], [1, 2], [1, 3]];
const COMMANDS: [u8; 8] = [0, 1, 2, 3, 9, 10, 11, 12];
const LISTED: [(u8, u8); 5] = [(15, 15), (18, 68), (70, 122), (131, 145), (158, 171)];

/// Data bytes that an Omni-Link message of a known type may carry.
pub fn message_data(random: &mut Random, kind: u8) -> Vec<u8> {
    match kind {
        0x20 => (0..4).map(|_| random.byte_from(0, 9)).collect(),
        0x15 => {
            let first = random.byte_from(1, 255);
            vec![first, random.byte_from(first, 255)]
        }
        0x16 => (0..random.from(1, 32))
            .flat_map(|_| {
                let status = random.byte_from(0, 2) + 4 * random.byte_from(0, 2);
                [status + 16 * random.byte_from(0, 7), random.byte()]
            })
            .collect(),
        0x23 => {
            let events = random.from(0, 32);
            random.bytes(2 * events)
        }
        0x25 => {
            let length = random.pick(&[4, 16, 32]);
            let mut data = random.bytes(length);
            data.insert(0, 0);
            data
        }
        0x0E => {
            let mut data = random.bytes(10);
            data[0] = random.byte_from(1, 255);
            if random.once_in(4) {
                data[1] = 0;
            } else {
                data[2] = random.byte_from(1, 12);
                data[3] = random.byte_from(1, 31);
                data[4] = random.byte_from(0, 23);
                data[5] = random.byte_from(0, 59);
            }
            data
        }
        0x0F => {
            let command = random.pick(&COMMANDS);
            let p1 = match command {
                0 | 1 => random.pick(&[0, 1, 50, 99, 101, 150, 199, 201, 209, 218]),
                9 => random.byte_from(0, 100),
                12 => random.byte(),
                _ => 0,
            };
            vec![command, p1, random.byte(), random.byte_from(1, 255)]
        }
        _ => Vec::new(),
    }
}

/// Changes a string in one way: a bit, a byte, the end cut off, bytes added, or a byte taken out.
pub fn damage(random: &mut Random, bytes: &mut Vec<u8>) {
    if bytes.is_empty() {
        bytes.push(random.byte());
        return;
    }
    let at = random.below(bytes.len());
    match random.below(8) {
        0..=2 => bytes[at] ^= 1 << random.below(8),
        3 | 4 => bytes[at] = random.byte(),
        5 => bytes.truncate(at),
        6 => {
            let count = random.from(1, 3);
            bytes.extend(random.bytes(count));
        }
        _ => drop(bytes.remove(at)),
    }
}

/// A frame of any type.
pub fn any_frame(random: &mut Random) -> Vec<u8> {
    let kind = random.byte();
    let count = random.below(65);
    paper::frame(kind, &random.bytes(count))
}

/// A type and its data bytes; half of them have something wrong.
fn message(random: &mut Random) -> (u8, Vec<u8>) {
    let kind = random.pick(&OMNILINK_TYPES);
    let mut data = message_data(random, kind);
    if random.once_in(3) {
        damage(random, &mut data);
    }
    if random.once_in(8) {
        return (random.byte(), data);
    }
    (kind, data)
}

/// The bytes of an Omni-Link message; many are damaged, before or after the CRC was made.
fn message_bytes(random: &mut Random) -> Vec<u8> {
    let (kind, mut data) = message(random);
    data.truncate(64);
    let mut bytes = paper::frame(kind, &data);
    if random.once_in(4) {
        damage(random, &mut bytes);
    }
    bytes
}

/// An index: mostly a small one, sometimes past every end.
fn index(random: &mut Random) -> usize {
    match random.below(16) {
        0 => usize::MAX - random.below(3),
        1 => random.next() as usize,
        2 => (1 << 32) + random.below(4),
        3 => random.from(128, 300),
        4..=6 => random.below(130),
        _ => random.below(12),
    }
}

/// Around the size that is needed: enough, tight, one short, or any.
pub fn room(random: &mut Random, needed: usize) -> usize {
    match random.below(6) {
        0 | 1 => needed,
        2 => needed.saturating_sub(1),
        3 => random.below(needed + 1),
        _ => needed + random.below(40),
    }
}

/// A register, mostly a listed one.
fn register(random: &mut Random) -> u8 {
    if random.once_in(4) {
        return random.byte();
    }
    let (low, high) = random.pick(&LISTED);
    random.byte_from(low, high)
}

/// A value: any, one for a setpoint or beside its range, one in the larger ranges, or one that most ranges hold.
fn value(random: &mut Random) -> u8 {
    match random.below(5) {
        0 => random.byte(),
        1 => random.byte_from(101, 146),
        2 => random.byte_from(0, 100),
        _ => random.byte_from(0, 3),
    }
}

fn values(random: &mut Random) -> Vec<u8> {
    let count = if random.once_in(3) { 14 } else { 4 };
    (0..random.from(1, count)).map(|_| value(random)).collect()
}

fn run_of_values(random: &mut Random) -> Vec<u8> {
    let mut data = values(random);
    data.insert(0, register(random));
    data
}

/// A type and data bytes of a message to a thermostat, mostly right.
fn to_thermostat(random: &mut Random) -> (u8, Vec<u8>) {
    let (kind, mut data) = match random.below(8) {
        0..=2 => (0, vec![register(random), random.byte_from(1, 14)]),
        3..=5 => (1, run_of_values(random)),
        6 => (random.byte_from(2, 4), Vec::new()),
        _ => (random.byte_from(0, 15), run_of_values(random)),
    };
    if random.once_in(6) {
        damage(random, &mut data);
    }
    (kind, data)
}

/// A habit and a polled group, with few exceptions.
fn names(random: &mut Random) -> [u8; 2] {
    let mut names = random.pick(&NAMES);
    if random.once_in(16) {
        let any = random.byte();
        names[random.below(2)] = random.pick(&[0, 1, 2, 3, 4, 255, any]);
    }
    names
}

/// How many values the reply of a group has, or another count.
fn group_count(random: &mut Random) -> usize {
    let any = random.below(19);
    random.pick(&[6, 6, 6, 10, 10, any])
}

/// A type and data bytes of a reply, mostly right with some habit and polled group.
fn to_host(random: &mut Random) -> (u8, Vec<u8>) {
    let (kind, mut data) = match random.below(9) {
        0 => (random.byte_from(0, 1), Vec::new()),
        1..=3 => (2, run_of_values(random)),
        4 => (random.byte_from(3, 4), random.bytes(6)),
        5 => (5, random.bytes(10)),
        6 => {
            let count = group_count(random);
            (3, random.bytes(count))
        }
        _ => (random.byte_from(0, 15), run_of_values(random)),
    };
    if random.once_in(6) {
        damage(random, &mut data);
    }
    (kind, data)
}

fn omnistat_bytes(random: &mut Random, first: u8, (kind, mut data): (u8, Vec<u8>)) -> Vec<u8> {
    data.truncate(15);
    let mut bytes = paper::omnistat(first, kind, &data);
    if random.once_in(5) {
        damage(random, &mut bytes);
    }
    bytes
}

/// A byte that is no character, or the 03 that ends a text.
fn no_character(random: &mut Random) -> u8 {
    match random.below(4) {
        0 => random.byte_from(0x00, 0x1F),
        1 => random.byte_from(0x7F, 0xFF),
        _ => random.pick(&[0x03, 0x1F, 0x7F, 0x00, 0xFF]),
    }
}

/// Characters, often as many as fit or one more; in some a byte is wrong.
fn text(random: &mut Random) -> Vec<u8> {
    let count = match random.below(4) {
        0 => random.pick(&[0, 1, 59, 60, 61, 62]),
        1 => random.below(80),
        _ => random.below(30),
    };
    let mut text: Vec<u8> = (0..count).map(|_| random.byte_from(0x20, 0x7E)).collect();
    if count > 0 && random.once_in(4) {
        text[random.below(count)] = no_character(random);
    }
    text
}

/// A register, mostly one that holds text.
fn text_register(random: &mut Random) -> u8 {
    if random.once_in(8) {
        return random.pick(&[170, 171, 182, 183, 59, 0, 255]);
    }
    random.byte_from(172, 181)
}

/// The bytes of a text, whole, cut, with more behind it, with no 03 in its place, or damaged; the sum is often made right again.
fn text_bytes(random: &mut Random, first: u8, kind: u8) -> Vec<u8> {
    let (half, register, text) = (random.byte_from(0, 15), text_register(random), text(random));
    let mut bytes = paper::omnistat_text(first, kind, half, register, &text);
    match random.below(12) {
        0 => bytes.truncate(random.below(bytes.len())),
        1 => bytes.truncate(bytes.len() - random.from(1, 2)),
        2 => {
            let count = random.from(1, 70);
            bytes.extend(random.bytes(count));
        }
        3 => {
            let end = bytes.len() - 2;
            bytes[end] = random.byte_from(0x20, 0x7E);
        }
        4 => damage(random, &mut bytes),
        _ => (),
    }
    if bytes.len() > 3 && random.once_in(4) {
        let last = bytes.len() - 1;
        bytes[last] = paper::sum(&bytes[..last]);
    }
    bytes
}

/// A message to a thermostat: registers, groups, texts and polls of texts.
fn request_bytes(random: &mut Random, first: u8) -> Vec<u8> {
    match random.below(6) {
        0 | 1 => text_bytes(random, first, 1),
        2 => {
            let count = random.pick(&[1, 1, 1, 1, 0, 2, 14, 255]);
            let poll = vec![text_register(random), count];
            omnistat_bytes(random, first, (0, poll))
        }
        _ => {
            let message = to_thermostat(random);
            omnistat_bytes(random, first, message)
        }
    }
}

/// A reply: registers, groups and texts.
fn reply_bytes(random: &mut Random, first: u8) -> Vec<u8> {
    if random.once_in(3) {
        return text_bytes(random, first, 2);
    }
    let reply = to_host(random);
    omnistat_bytes(random, first, reply)
}

/// A text store: any counts, any characters, and past them anything.
pub fn store(random: &mut Random) -> Vec<u8> {
    let mut texts = random.bytes(paper::STORE);
    for held in texts.chunks_mut(paper::HELD) {
        let any = random.below(61);
        let count = random.pick(&[0, 1, 9, 59, 60, any]);
        held[0] = count as u8;
        for character in &mut held[1..=count] {
            *character = 0x20 + *character % 0x5F;
        }
    }
    texts
}

/// Makes a byte of a store wrong: mostly a count, or one that may stand within a count.
fn damage_store(random: &mut Random, texts: &mut [u8]) {
    let at = random.below(10) * paper::HELD;
    match random.below(4) {
        0 => texts[at] = random.byte_from(61, 255),
        1 => texts[at] = 61,
        2 => texts[at + random.from(1, 60)] = no_character(random),
        _ => {
            let count = random.from(1, 60);
            texts[at] = count as u8;
            texts[at + random.pick(&[1, count, count.min(59) + 1])] = no_character(random);
        }
    }
}

pub fn state(random: &mut Random) -> State {
    State {
        map: random.bytes(256),
        texts: store(random),
    }
}

/// A first byte that a thermostat takes, with few exceptions.
fn address(random: &mut Random, own: u8) -> u8 {
    match random.below(8) {
        0 => 0x00,
        1 => 0xFA,
        2 => random.byte(),
        _ => own,
    }
}

/// A frame whose data bytes hold a whole frame; where the outer one is damaged, the inner one counts.
fn frame_in_frame(random: &mut Random) -> Vec<u8> {
    let (before, within) = (random.below(4), random.below(8));
    let mut data = random.bytes(before);
    data.extend(paper::frame(random.byte(), &random.bytes(within)));
    let mut bytes = paper::frame(random.byte(), &data);
    if random.once_in(2) {
        damage(random, &mut bytes);
    }
    bytes
}

/// A capture of frames and noise, of `size` bytes.
pub fn capture(random: &mut Random, size: usize) -> Vec<u8> {
    let mut bytes = Vec::new();
    let quiet = random.from(1, 4);
    while bytes.len() < size {
        match random.below(4 + quiet) {
            0 => bytes.extend(any_frame(random)),
            1 => bytes.extend(message_bytes(random)),
            2 => bytes.push(0x5A),
            3 => bytes.extend(frame_in_frame(random)),
            _ => {
                let count = random.from(1, 12);
                bytes.extend(random.bytes(count));
            }
        }
    }
    bytes.truncate(size);
    bytes
}

/// A degree: mostly an exact half, or next to one.
fn degrees(random: &mut Random) -> f32 {
    let half = paper::celsius(random.byte());
    match random.below(8) {
        0 => f32::from_bits(random.next() as u32),
        1 => f32::from_bits(half.to_bits() ^ 1 << random.below(32)),
        2 => (random.below(400) as f32 - 200.0) / 4.0,
        3 => random.pick(&SPECIAL),
        _ => half,
    }
}

pub const SPECIAL: [f32; 16] = [
    0.0,
    -0.0,
    f32::NAN,
    -f32::NAN,
    f32::INFINITY,
    f32::NEG_INFINITY,
    f32::MIN_POSITIVE,
    f32::from_bits(1),
    f32::from_bits(0x8000_0001),
    f32::MAX,
    f32::MIN,
    -40.0,
    -40.5,
    87.5,
    88.0,
    22.25,
];

/// An X-10 pattern, whole, damaged or of another length.
fn places(random: &mut Random) -> Vec<u8> {
    let house = random.byte_from(0, 15);
    let mut places = if random.once_in(2) {
        let unit = random.byte_from(1, 16);
        let (data, command) = (random.byte(), random.byte());
        paper::x10_write_extended(house, unit, data, command, 62).unwrap_or_default()
    } else {
        paper::x10_standard(house, random.byte_from(0, 15), random.byte_from(0, 1))
    };
    for _ in 0..random.pick(&[0, 0, 0, 1, 1, 2]) {
        let at = random.below(places.len());
        places[at] = random.pick(&[0, 1, 1 - places[at] % 2, 2, 255]);
    }
    match random.below(8) {
        0 => places.truncate(random.below(63)),
        1 => {
            let count = random.from(1, 45);
            places.extend((0..count).map(|_| random.byte_from(0, 1)));
        }
        2 => places.push(random.byte()),
        _ => (),
    }
    places
}

/// One round of random inputs to every call.
pub fn round(compare: &mut Compare, random: &mut Random, state: &mut State) {
    omnilink(compare, random);
    mending(compare, random);
    omnistat(compare, random);
    texts(compare, random);
    thermostat(compare, random, state);
    numbers(compare, random);
    meter(compare, random);
    x10(compare, random);
}

fn omnilink(compare: &mut Compare, random: &mut Random) {
    let mut bytes = any_frame(random);
    if random.once_in(2) {
        damage(random, &mut bytes);
    }
    compare.frame_read(&bytes);
    for _ in 0..3 {
        let bytes = message_bytes(random);
        compare.frame_read(&bytes);
        compare.message_calls(&bytes, index(random));
    }
    let (kind, data) = message(random);
    compare.message_write(kind, &data, room(random, data.len() + 5));
    let count = random.pick(&[0, 1, 5, 30, 63, 64, 65, 66, 200]);
    let data = random.bytes(count);
    compare.frame_write(random.byte(), &data, room(random, count + 5));
    let short = random.below(6);
    let bytes = random.bytes(short);
    compare.message_calls(&bytes, 0);
}

/// Flips bits after the length byte of a frame, now and then one twice.
pub fn flips(random: &mut Random, mut bytes: Vec<u8>, count: usize) -> Vec<u8> {
    let last = 8 * (bytes.len() - 1) - 1;
    for _ in 0..count {
        bytes = paper::flipped(&bytes, random.from(8, last));
    }
    bytes
}

/// Frames to mend, mostly short ones and mostly with one flip.
fn mending(compare: &mut Compare, random: &mut Random) {
    let most = random.pick(&[1, 8, 8, 8, 8, 8, 8, 65]);
    let count = random.below(most);
    let mut bytes = paper::frame(random.byte(), &random.bytes(count));
    if random.once_in(8) {
        damage(random, &mut bytes);
    } else {
        let count = random.pick(&[0, 1, 1, 1, 1, 2, 3, 4]);
        bytes = flips(random, bytes, count);
    }
    compare.frame_mend(&bytes, room(random, bytes.len()));
}

fn omnistat(compare: &mut Compare, random: &mut Random) {
    for _ in 0..2 {
        let own = random.byte_from(1, 127);
        let first = address(random, own);
        let bytes = request_bytes(random, first);
        compare.read_at_thermostat(&bytes);
        compare.read_at_host(names(random), &bytes);
        let first = address(random, own + 0x80);
        let bytes = reply_bytes(random, first);
        compare.read_at_host(names(random), &bytes);
        compare.read_at_host(names(random), &bytes);
        compare.read_at_thermostat(&bytes);
        let (kind, data) = to_thermostat(random);
        let first = address(random, own);
        compare.write_to_thermostat(first, kind, &data, room(random, data.len() + 3));
        let (kind, data) = to_host(random);
        let number = if random.once_in(8) {
            random.byte()
        } else {
            own
        };
        let [habit, polled] = names(random);
        let numbers = [habit, polled, number, kind];
        compare.write_to_host(numbers, &data, room(random, data.len() + 3));
        let (one, any) = (random.byte_from(1, 3), random.byte());
        let group = random.pick(&[polled, polled, one, one, one, any]);
        let count = group_count(random);
        let values = random.bytes(count);
        let numbers = [habit, polled, number, group];
        compare.write_group_to_host(numbers, &values, room(random, count + 3));
    }
}

/// Texts to both ends, written.
fn texts(compare: &mut Compare, random: &mut Random) {
    for _ in 0..2 {
        let text = text(random);
        let any = random.byte();
        let half = random.pick(&[0, 2, 15, 16, any]);
        let numbers = [random.byte_from(0, 127), half, text_register(random)];
        compare.write_text_to_thermostat(numbers, &text, room(random, text.len() + 5));
        compare.write_text_to_host(numbers, &text, room(random, text.len() + 5));
        let numbers = [
            random.byte(),
            random.byte_from(0, 15),
            text_register(random),
        ];
        compare.write_text_to_thermostat(numbers, &text, room(random, text.len() + 5));
        compare.write_text_to_host(numbers, &text, room(random, text.len() + 5));
    }
}

/// Steps on one state, which lives on; sometimes the own address, the room, a size or the store is wrong.
fn thermostat(compare: &mut Compare, random: &mut Random, state: &mut State) {
    let own = random.byte_from(1, 127);
    for _ in 0..5 {
        let first = address(random, own);
        let bytes = request_bytes(random, first);
        compare.step(own, state, &bytes, 65 + random.below(20));
    }
    let bytes = request_bytes(random, own);
    let mut other = state.clone();
    match random.below(8) {
        0 => compare.step(own, &mut other, &bytes, random.below(65)),
        1 => {
            let size = random.pick(&[0, 1, 134, 255, 257, 512]);
            other.map.resize(size, 0);
            compare.step(random.byte(), &mut other, &bytes, 65);
        }
        2 => {
            let size = random.pick(&[0, 1, 61, 256, 549, 609, 611, 671, 1220]);
            other.texts.resize(size, 0);
            compare.step(random.byte(), &mut other, &bytes, 65);
        }
        3 => compare.step(random.byte(), &mut other, &bytes, 65),
        4 => {
            state.texts = store(random);
            compare.step(own, state, &bytes, 65);
        }
        _ => {
            damage_store(random, &mut other.texts);
            compare.step(own, &mut other, &bytes, random.pick(&[65, 65, 65, 64]));
        }
    }
}

fn numbers(compare: &mut Compare, random: &mut Random) {
    compare.setpoints_to_bytes(degrees(random), degrees(random));
    compare.setpoints_to_bytes(degrees(random), degrees(random));
    compare.setpoints_from_bytes(random.byte(), random.byte());
    compare.temperature(random.byte());
    let word = random.next() as u16;
    compare.cost(word);
}

/// Replies to a poll of the meter, and any other, on one tally, which lives on.
fn meter(compare: &mut Compare, random: &mut Random) {
    let near = u64::MAX - random.next() % 10_000_000_000;
    let mut total = random.pick(&[0, near, u64::MAX]);
    for _ in 0..3 {
        let number = random.byte_from(1, 127);
        let mut bytes = paper::meter_reply(number, random.next() as u16);
        total = compare.meter_add(total, &bytes);
        damage(random, &mut bytes);
        total = compare.meter_add(total, &bytes);
        let first = address(random, number + 0x80);
        total = compare.meter_add(total, &reply_bytes(random, first));
    }
}

fn x10(compare: &mut Compare, random: &mut Random) {
    for _ in 0..3 {
        compare.x10_read(&places(random));
    }
    let mut small = || {
        if random.once_in(8) {
            random.byte()
        } else {
            random.byte_from(0, 17)
        }
    };
    let (house, unit, code) = (small() % 18, small(), small());
    compare.x10_write_unit(house, unit, room(random, 22));
    compare.x10_write_function(house, code, room(random, 22));
    let (data, command) = (random.byte(), random.byte());
    compare.x10_write_extended([house, unit, data, command], room(random, 62));
}

/// A listing of a capture: tight room, one short, the room that is always enough, and any.
pub fn listings(compare: &mut Compare, random: &mut Random, size: usize) {
    let bytes = capture(random, size);
    let needed = paper::listing(&bytes, usize::MAX).map_or(0, |text| text.len());
    let always = 8 * bytes.len() + 25;
    for room in [
        needed,
        needed.saturating_sub(1),
        always,
        room(random, needed),
    ] {
        compare.listing(&bytes, room);
    }
}

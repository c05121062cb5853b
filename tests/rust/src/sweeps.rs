//! Inputs taken in order: every byte, word, register, place, type and length.

use crate::calls;
use crate::compare::{Call, Compare};
use crate::door;
use crate::guard::{Long, Region};
use crate::inputs::{self, NAMES, OMNILINK_TYPES, SPECIAL};
use crate::paper::{self, Body, Omnistat, State};
use crate::pieces;
use crate::random::Random;

pub fn all(compare: &mut Compare, random: &mut Random) {
    examples(compare);
    temperatures(compare, random);
    costs(compare, random);
    meters(compare, random);
    frames(compare, random);
    mends(compare, random);
    messages(compare, random);
    fields(compare);
    commands(compare);
    door::all(compare, random);
    omnistat(compare, random);
    habits(compare, random);
    damaged_replies(compare, random);
    group_writer(compare, random);
    texts(compare, random);
    text_writers(compare, random);
    registers(compare, random);
    addresses(compare, random);
    text_steps(compare, random);
    stores(compare, random);
    x10_patterns(compare);
    x10_writers(compare, random);
    x10_extended(compare, random);
    captures(compare, random);
    pieces::all(compare, random);
    long_inputs(compare);
    long_rooms(compare);
}

/// Bytes, and the type and count of data bytes of the frame that they are.
type FrameExample<'a> = (&'a [u8], paper::Answer<(u8, usize)>);

/// The printed examples of the papers, and the published check value of the CRC.
fn examples(compare: &mut Compare) {
    compare.fact("check value of the CRC", paper::crc(b"123456789") == 0xBB3D);
    let frame = |bytes: &[u8]| paper::frame_read(bytes).map(|(kind, data)| (kind, data.len()));
    let frames: [FrameExample; 10] = [
        (&[0x5A, 0x01, 0x05, 0xC1, 0x93], Ok((0x05, 0))),
        (&[0x5A, 0x01, 0x06, 0x81, 0x92], Ok((0x06, 0))),
        (&[0x5A, 0x01, 0x85, 0xC0, 0x33], Ok((0x85, 0))),
        (&[0x5A, 0x00], Err(3)),
        (&[0x5A, 0x42], Err(3)),
        (&[0x5A, 0x41], Err(1)),
        (&[], Err(1)),
        (&[0x5A], Err(1)),
        (&[0x5A, 0x01, 0x05, 0xC1, 0x92], Err(5)),
        (&[0x5A, 0x01, 0x05, 0xC1, 0x93, 0x00], Err(4)),
    ];
    for (bytes, answer) in frames {
        compare.fact("a frame", frame(bytes) == answer);
        compare.frame_read(bytes);
        compare.frame_mend(bytes, 5);
        compare.message_calls(bytes, 0);
    }
    mending_examples(compare);
    let message = paper::message_read(&[0x5A, 0x01, 0x85, 0xC0, 0x33]);
    compare.fact("type 85 as a message", message == Err(6));
    let steps: [(&[u8], &[u8], u8); 5] = [
        (&[0x01, 0x21, 0x3B, 0x50, 0xAD], &[0x81, 0x01, 0x82], 7),
        (&[0x01, 0x21, 0x3B, 0x7C, 0xD9], &[0x81, 0x00, 0x81], 124),
        (&[0x00, 0x21, 0x3B, 0x50, 0xAC], &[], 7),
        (&[0x00, 0x21, 0x3B, 0x7C, 0xD8], &[], 124),
        (&[0x01, 0x20, 0x44, 0x02, 0x67], &[0x81, 0x01, 0x82], 7),
    ];
    for (bytes, reply, setting) in steps {
        let (map, texts) = (vec![7; 256], vec![0; paper::STORE]);
        let mut state = State { map, texts };
        compare.step(1, &mut state, bytes, 65);
        compare.fact("register 59", state.map[59] == setting);
        let reply = Ok(reply.to_vec());
        compare.fact("a step", paper::step(1, &mut state, bytes, 65) == reply);
    }
    let group = paper::read_at_thermostat(&[0x01, 0x02, 0x03]);
    let (first, kind, body) = (1, 2, Body::Data(&[]));
    compare.fact("group 1 poll", group == Ok(Omnistat { first, kind, body }));
    compare.read_at_thermostat(&[0x01, 0x02, 0x03]);
    compare.fact("word 34567", paper::cost(34567) == 4_567_000);
    compare.fact("word 65025", paper::cost(65025) == 5_025);
    compare.fact("word 65026", paper::cost(65026) == 5_026);
    compare.fact("word 65400", paper::cost(65400) == 5_400);
    compare.fact("word 65535", paper::cost(65535) == 5_535);
    meter_examples(compare);
    let places: Vec<u8> = "1110011010010110100101".bytes().map(|c| c - b'0').collect();
    let unit = paper::x10_write_unit(0, 1, 22);
    compare.fact("house A, unit 1", unit == Ok(places));
    let bytes = [0x00, 0x5A, 0x01, 0x05, 0xC1, 0x93, 0x5A];
    let text = b"noise 0 1\nframe 1 5 5\nnoise 6 1\nend 7\n";
    let listing = paper::listing(&bytes, text.len());
    compare.fact("the listing", listing == Ok(text.to_vec()));
    compare.listing(&bytes, text.len());
    compare.fact(
        "an empty capture",
        paper::listing(&[], 6) == Ok(b"end 0\n".to_vec()),
    );
    text_examples(compare);
    habit_examples(compare);
}

/// K8's example and its ends, and condition 3's pair: three of the four flips between them.
fn mending_examples(compare: &mut Compare) {
    let acknowledge = vec![0x5A, 0x01, 0x05, 0xC1, 0x93];
    let other = [0x5A, 0x01, 0x85, 0xC0, 0x33];
    let examples: [(&[u8], usize); 3] = [
        (&[0x5A, 0x01, 0x05, 0xC1, 0x92], 24),
        (&[0x5A, 0x01, 0x04, 0xC1, 0x93], 8),
        (&[0x5A, 0x01, 0x05, 0xC1, 0x13], 31),
    ];
    for (bytes, place) in examples {
        let right = Ok((place, acknowledge.clone()));
        compare.fact("a mended frame", paper::frame_mend(bytes, 5) == right);
        compare.frame_mend(bytes, 5);
    }
    let places = [15, 16, 29, 31];
    for left in places {
        let mut bytes = acknowledge.clone();
        for place in places.into_iter().filter(|&place| place != left) {
            bytes = paper::flipped(&bytes, place);
        }
        let right = Ok((left, other.to_vec()));
        compare.fact("three flips", paper::frame_mend(&bytes, 5) == right);
        compare.frame_mend(&bytes, 5);
    }
}

/// The full tally of document 01, and what K5 takes and does not.
fn meter_examples(compare: &mut Compare) {
    let examples: [(u64, &[u8], paper::Answer<u64>); 8] = [
        (3, &[0x81, 0x32, 0xAA, 0x87, 0x07, 0xEB], Ok(4_567_003)),
        (
            u64::MAX,
            &[0xFF, 0x32, 0xAA, 0x00, 0x00, 0xDB],
            Ok(u64::MAX),
        ),
        (u64::MAX, &[0x81, 0x32, 0xAA, 0xEA, 0x61, 0xA8], Err(11)),
        (u64::MAX, &[0x81, 0x32, 0xAA, 0xEA, 0x61, 0xA9], Err(5)),
        (u64::MAX, &[0x81, 0x22, 0xAA, 0x87, 0xD4], Err(8)),
        (0, &[0x81, 0x32, 0xA9, 0x87, 0x07, 0xEA], Err(8)),
        (0, &[0x81, 0x00, 0x81], Err(8)),
        (0, &[0x81, 0x02, 0xAC, 0x03, 0x32], Err(8)),
    ];
    for (total, bytes, after) in examples {
        compare.fact("a meter reply", paper::meter(total, bytes) == after);
        compare.meter_add(total, bytes);
    }
}

/// Document 004's text, whose printed sum 34 is a slip for D4, and the bounds that K1 names.
fn text_examples(compare: &mut Compare) {
    let mut bytes = b"\x01\x21\xAFCUSTOM MESSAGE\x03\xD4".to_vec();
    let read = |bytes: &[u8]| match paper::read_at_thermostat(bytes) {
        Ok(message) => match message.body {
            Body::Text(half, register, text) => Ok((half, register, text.to_vec())),
            Body::Data(_) => Err(0),
        },
        Err(number) => Err(number),
    };
    let custom = Ok((2, 175, b"CUSTOM MESSAGE".to_vec()));
    compare.fact("document 004's text", read(&bytes) == custom);
    compare.read_at_thermostat(&bytes);
    bytes[18] = 0x34;
    compare.fact("as it is printed", read(&bytes) == Err(5));
    compare.read_at_thermostat(&bytes);
    for (count, number) in [(60, 1), (61, 8), (62, 8)] {
        let bytes: Vec<u8> = [0x01, 0x01, 0xAC]
            .into_iter()
            .chain(vec![b'A'; count])
            .collect();
        compare.fact("a text without 03", read(&bytes) == Err(number));
        compare.read_at_thermostat(&bytes);
    }
    let whole = |count| paper::omnistat_text(0x01, 1, 0, 181, &vec![b'~'; count]);
    compare.fact(
        "60 characters",
        read(&whole(60)) == Ok((0, 181, vec![b'~'; 60])),
    );
    compare.fact("61 characters", read(&whole(61)) == Err(8));
    for names in NAMES {
        let host = paper::read_at_host(names, &[0xAA, 0x02, 0xAC]);
        compare.fact("a text of three bytes", host == Err(1));
        compare.read_at_host(names, &[0xAA, 0x02, 0xAC]);
    }
    let (map, texts) = (vec![7; 256], vec![0; paper::STORE]);
    let mut state = State { map, texts };
    let steps: [(&[u8], &[u8]); 5] = [
        (b"\x01\x01\xAFHI\x03\x45", &[0x81, 0x00, 0x81]),
        (&[0x01, 0x20, 0xAF, 0x01, 0xD1], b"\x81\x02\xAFHI\x03\xC6"),
        (b"\x00\x01\xAF?\x03\xF2", &[]),
        (&[0xFA, 0x20, 0xAF, 0x01, 0xCA], b"\x81\x02\xAF?\x03\x74"),
        (&[0x01, 0x20, 0xAC, 0x01, 0xCE], b"\x81\x02\xAC\x03\x32"),
    ];
    for (bytes, reply) in steps {
        let before = state.clone();
        compare.step(1, &mut state, bytes, 65);
        let reply = Ok(reply.to_vec());
        compare.fact(
            "a text's step",
            paper::step(1, &mut before.clone(), bytes, 65) == reply,
        );
    }
    let held = &state.texts[183..187];
    compare.fact("bytes past a count", held == [1, b'?', b'I', 0]);
    compare.fact(
        "the other texts",
        state.texts.iter().filter(|&&b| b != 0).count() == 3,
    );
}

/// Habit, polled group, number and group, the values, and the reply that is written.
type GroupExample<'a> = ([u8; 4], &'a [u8], paper::Answer<Vec<u8>>);

/// K9's two habits: what is written of a group, and how types 3, 4 and 5 are read.
fn habit_examples(compare: &mut Compare) {
    let (six, ten) = (vec![7; 6], vec![7; 10]);
    let reply = |kind, values: &[u8]| Ok(paper::omnistat(0x81, kind, values));
    let writes: [GroupExample; 12] = [
        ([0, 3, 1, 1], &six, reply(3, &six)),
        ([0, 1, 1, 2], &six, reply(4, &six)),
        ([0, 2, 1, 3], &ten, reply(5, &ten)),
        ([0, 3, 1, 3], &six, Err(7)),
        ([1, 1, 1, 1], &six, reply(3, &six)),
        ([1, 2, 1, 2], &six, reply(3, &six)),
        ([1, 3, 1, 3], &ten, reply(3, &ten)),
        ([1, 3, 1, 1], &six, Err(7)),
        ([1, 1, 1, 2], &six, Err(8)),
        ([1, 0, 1, 1], &[], Err(8)),
        ([0, 4, 1, 1], &[], Err(8)),
        ([0, 1, 1, 4], &[], Err(8)),
    ];
    for (numbers, values, right) in writes {
        let written = paper::write_group_to_host(numbers, values, 13);
        compare.fact("a reply with a group", written == right);
        compare.write_group_to_host(numbers, values, 13);
    }
    let reads: [([u8; 2], u8, &[u8], u8); 11] = [
        ([0, 3], 3, &six, 0),
        ([0, 1], 4, &six, 0),
        ([0, 1], 5, &ten, 0),
        ([0, 3], 3, &ten, 7),
        ([1, 1], 3, &six, 0),
        ([1, 2], 3, &six, 0),
        ([1, 3], 3, &ten, 0),
        ([1, 3], 3, &six, 7),
        ([1, 2], 4, &six, 6),
        ([1, 3], 5, &ten, 6),
        ([2, 1], 3, &six, 8),
    ];
    for (names, kind, values, number) in reads {
        let bytes = paper::omnistat(0x81, kind, values);
        let read = paper::read_at_host(names, &bytes).map_or_else(|number| number, |_| 0);
        compare.fact("a group read", read == number);
        compare.read_at_host(names, &bytes);
    }
}

fn temperatures(compare: &mut Compare, random: &mut Random) {
    for cool in 0..=255 {
        compare.temperature(cool);
        let degrees = paper::celsius(cool);
        for heat in 0..=255 {
            compare.setpoints_from_bytes(cool, heat);
            compare.setpoints_to_bytes(degrees, paper::celsius(heat));
        }
        for bit in 0..32 {
            let near = f32::from_bits(degrees.to_bits() ^ 1 << bit);
            compare.setpoints_to_bytes(near, degrees);
            compare.setpoints_to_bytes(degrees, near);
        }
        for special in SPECIAL {
            compare.setpoints_to_bytes(special, degrees);
            compare.setpoints_to_bytes(degrees, special);
        }
    }
    for _ in 0..200_000 {
        let any = f32::from_bits(random.next() as u32);
        let quarters = (random.below(1024) as f32 - 512.0) / 4.0;
        compare.setpoints_to_bytes(any, quarters);
        compare.setpoints_to_bytes(quarters, 20.5);
        compare.setpoints_to_bytes(-0.0, any);
    }
}

/// Every f32, as either value of a pair.
pub fn floats(compare: &mut Compare) {
    for bits in 0..=u32::MAX {
        let any = f32::from_bits(bits);
        compare.setpoints_to_bytes(any, 20.5);
        compare.setpoints_to_bytes(20.5, any);
    }
}

fn costs(compare: &mut Compare, random: &mut Random) {
    let mut sum = 0;
    for word in 0..=65535 {
        compare.cost(word);
        let reply = paper::meter_reply((1 + word % 127) as u8, word);
        sum = compare.meter_add(sum, &reply);
        let cost = paper::cost(word);
        for total in [0, u64::MAX, u64::MAX - cost, random.next()] {
            compare.meter_add(total, &reply);
        }
        compare.meter_add((u64::MAX - cost).saturating_add(1), &reply);
    }
}

/// Every first byte, every start register with every count, every type with every length, every byte damaged, every cut, and
/// texts; each at an empty tally, at a full one, and where the word 9999, which most of them carry, just fits and does not.
fn meters(compare: &mut Compare, random: &mut Random) {
    let mut at_edges = |compare: &mut Compare, bytes: &[u8]| {
        let edge = u64::MAX - 9_999_000_000;
        for total in [0, u64::MAX, edge, edge + 1, random.next()] {
            compare.meter_add(total, bytes);
        }
    };
    let values = [0x27, 0x0F, 0x87, 0x07, 1, 2, 3, 4, 5, 6, 7, 8, 9, 10];
    for first in 0..=255 {
        at_edges(compare, &paper::omnistat(first, 2, &[170, 0x27, 0x0F]));
    }
    for start in 0..=255 {
        for count in 0..=values.len() {
            let data: Vec<u8> = [start].iter().chain(&values[..count]).copied().collect();
            at_edges(compare, &paper::omnistat(0x81, 2, &data));
        }
        let text = paper::omnistat_text(0x81, 2, 3, start, b"22");
        at_edges(compare, &text);
    }
    for kind in 0..=15 {
        for length in 0..=15 {
            at_edges(compare, &paper::omnistat(0x8A, kind, &[170; 15][..length]));
        }
    }
    let mut bytes = paper::meter_reply(127, 34567);
    for at in 0..bytes.len() {
        let right = bytes[at];
        for damaged in 0..=255 {
            bytes[at] = damaged;
            at_edges(compare, &bytes);
        }
        bytes[at] = right;
        at_edges(compare, &bytes[..at]);
    }
    for behind in [0, 3, 0xEB] {
        bytes.push(behind);
        at_edges(compare, &bytes);
    }
}

/// Each length, whole, with each bit damaged, cut at each place and with a byte too many.
fn frames(compare: &mut Compare, random: &mut Random) {
    for count in 0..=64 {
        for _ in 0..8 {
            let kind = random.byte();
            let mut bytes = paper::frame(kind, &random.bytes(count));
            compare.frame_read(&bytes);
            for bit in 0..8 * bytes.len() {
                bytes[bit / 8] ^= 1 << (bit % 8);
                compare.frame_read(&bytes);
                compare.message_read(&bytes);
                bytes[bit / 8] ^= 1 << (bit % 8);
            }
            for cut in 0..bytes.len() {
                compare.frame_read(&bytes[..cut]);
                compare.message_calls(&bytes[..cut], 0);
            }
            bytes.push(random.byte());
            compare.frame_read(&bytes);
            compare.message_calls(&bytes, 0);
        }
    }
    for length in 0..=255u8 {
        for size in 0..=262 {
            let mut bytes = random.bytes(size);
            bytes.iter_mut().take(1).for_each(|byte| *byte = 0x5A);
            bytes
                .iter_mut()
                .skip(1)
                .take(1)
                .for_each(|byte| *byte = length);
            compare.frame_read(&bytes);
            compare.frame_mend(&bytes, 69);
        }
    }
    for kind in 0..=255 {
        for count in 0..=70 {
            let data = random.bytes(count);
            compare.frame_write(kind, &data, count + 5);
            compare.frame_write(kind, &data, count + 4);
            compare.frame_write(kind, &data, random.below(100));
        }
    }
}

/// Each length with each place flipped, with a start byte damaged, cut at each place and with a byte too many; each room, for none to
/// three flips; each pair of flips of short frames.
fn mends(compare: &mut Compare, random: &mut Random) {
    for count in 0..=64 {
        let frame = paper::frame(random.byte(), &random.bytes(count));
        let size = frame.len();
        for place in 0..8 * (size - 1) {
            let bytes = paper::flipped(&frame, place);
            compare.frame_mend(&bytes, size);
        }
        for room in 0..=size + 1 {
            for count in 0..=3 {
                let bytes = inputs::flips(random, frame.clone(), count);
                compare.frame_mend(&bytes, room);
            }
        }
        let mut bytes = inputs::flips(random, frame, 1);
        for cut in 0..size {
            compare.frame_mend(&bytes[..cut], random.pick(&[0, cut, 69]));
        }
        bytes.push(random.byte());
        compare.frame_mend(&bytes, random.pick(&[0, size + 1]));
        bytes.pop();
        bytes[0] = random.byte_from(0x5B, 0xFF);
        compare.frame_mend(&bytes, random.pick(&[0, size]));
    }
    for count in 0..=4 {
        let frame = paper::frame(random.byte(), &random.bytes(count));
        let places = 8..8 * (frame.len() - 1);
        for first in places.clone() {
            let once = paper::flipped(&frame, first);
            let same = paper::frame_mend(&once, 69) == Ok((first, frame.clone()));
            compare.fact("a flip is found", same);
            for second in places.clone().filter(|&second| second != first) {
                compare.frame_mend(&paper::flipped(&once, second), frame.len());
            }
        }
    }
}

/// Each type with each count of data bytes, and each known type with right data, damaged at each place.
fn messages(compare: &mut Compare, random: &mut Random) {
    for kind in 0..=255 {
        for count in 0..=70 {
            let mut data = random.bytes(count);
            if random.once_in(2) {
                data.iter_mut().for_each(|byte| *byte %= 3);
            }
            compare.message_write(kind, &data, random.pick(&[count + 5, count + 4, 80]));
            if count <= 64 {
                let bytes = paper::frame(kind, &data);
                compare.message_calls(&bytes, random.below(34));
            }
        }
    }
    let past = [
        129,
        255,
        256,
        1 << 31,
        1 << 32,
        usize::MAX / 2 + 1,
        usize::MAX,
    ];
    for kind in OMNILINK_TYPES {
        for _ in 0..60 {
            let mut data = inputs::message_data(random, kind);
            let bytes = paper::frame(kind, &data);
            for i in (0..=128).chain(past) {
                compare.message_calls(&bytes, i);
            }
            compare.message_write(kind, &data, bytes.len());
            compare.message_write(kind, &data, bytes.len() - 1);
            for at in 0..data.len() {
                let right = data[at];
                data[at] = random.byte();
                compare.message_write(kind, &data, random.pick(&[69, data.len() + 4]));
                compare.message_calls(&paper::frame(kind, &data), at);
                data[at] = right;
            }
        }
    }
}

/// A message, read and written.
fn both_ways(compare: &mut Compare, kind: u8, data: &[u8]) {
    compare.message_read(&paper::frame(kind, data));
    compare.message_write(kind, data, data.len() + 5);
}

/// Each byte in each field.
fn fields(compare: &mut Compare) {
    for first in 0..=255 {
        for last in 0..=255 {
            both_ways(compare, 0x15, &[first, last]);
        }
        for at in 0..4 {
            let mut digits = [0, 9, 5, 1];
            digits[at] = first;
            both_ways(compare, 0x20, &digits);
        }
        for at in 0..32 {
            let mut zones = [0x12; 64];
            zones[2 * at] = first;
            both_ways(compare, 0x16, &zones);
            compare.zone(&paper::frame(0x16, &zones), at);
        }
        for at in 0..10 {
            for flag in [0, 1, 2, 255] {
                let mut entry = [1, flag, 12, 31, 23, 59, first, 0, 255, first];
                entry[at] = first;
                both_ways(compare, 0x0E, &entry);
                compare.log_entry(&paper::frame(0x0E, &entry), at);
            }
        }
        for count in [5, 17, 33] {
            let mut status = vec![first; count];
            both_ways(compare, 0x25, &status);
            status[0] = 0;
            both_ways(compare, 0x25, &status);
            for i in 0..=4 * count {
                compare.text_message(&paper::frame(0x25, &status), i);
            }
        }
    }
}

/// Each command with each P1.
fn commands(compare: &mut Compare) {
    for command in 0..=255 {
        for p1 in 0..=255 {
            for (high, low) in [(0, 0), (0, 1), (1, 0), (255, 255)] {
                let data = [command, p1, high, low];
                compare.command(&paper::frame(0x0F, &data));
                compare.message_write(0x0F, &data, 9);
            }
        }
    }
}

/// Bytes read at both ends, at the host with each habit and polled group.
fn read_both(compare: &mut Compare, bytes: &[u8]) {
    compare.read_at_thermostat(bytes);
    for names in NAMES {
        compare.read_at_host(names, bytes);
    }
}

/// A type and data bytes written to the host with each habit and polled group.
fn write_to_host(compare: &mut Compare, number: u8, kind: u8, data: &[u8], room: usize) {
    for [habit, polled] in NAMES {
        compare.write_to_host([habit, polled, number, kind], data, room);
    }
}

/// Each first and second byte, and each run of registers, read at both ends and written from both.
fn omnistat(compare: &mut Compare, random: &mut Random) {
    let mut both = |bytes: &[u8]| read_both(compare, bytes);
    for first in 0..=255 {
        for second in 0..=255 {
            let mut data = random.bytes(usize::from(second / 16));
            if data.len() == 2 {
                data[1] %= 16;
            }
            let mut bytes = paper::omnistat(first, second % 16, &data);
            both(&bytes);
            both(&bytes[..bytes.len() - 1]);
            bytes.push(random.byte());
            both(&bytes);
            bytes.pop();
            let at = random.below(bytes.len());
            bytes[at] = random.byte();
            both(&bytes);
        }
    }
    for start in 0..=255 {
        for count in 0..=255 {
            both(&paper::omnistat(start | 1, 0, &[start, count]));
        }
        for count in 0..=14 {
            let mut data = vec![start; count + 1];
            both(&paper::omnistat(0x01, 1, &data));
            both(&paper::omnistat(0xFA, 2, &data));
            data[count] = 9;
            both(&paper::omnistat(0xFA, 1, &data));
        }
    }
    for start in 0..=255 {
        for count in 0..=16 {
            let data = vec![start; count];
            compare.write_to_thermostat(0x01, 1, &data, random.pick(&[count + 3, count + 2]));
            let room = random.pick(&[count + 3, count + 2]);
            write_to_host(compare, 0x01, 2, &data, room);
        }
        for count in 0..=255 {
            compare.write_to_thermostat(0xFA, 0, &[start, count], random.pick(&[5, 4]));
        }
    }
    for address in 0..=255 {
        for kind in (0..=20).chain([127, 128, 240, 255]) {
            for count in 0..=18 {
                let mut data = random.bytes(count);
                if random.once_in(2) {
                    data.iter_mut().for_each(|byte| *byte %= 16);
                }
                let room = random.pick(&[count + 3, count + 2, 30]);
                compare.write_to_thermostat(address, kind, &data, room);
                write_to_host(compare, address, kind, &data, room);
            }
        }
    }
}

/// Types and counts of data bytes: the replies that the habits tell apart, and others.
const REPLIES: [(u8, usize); 10] = [
    (3, 6),
    (3, 10),
    (4, 6),
    (5, 10),
    (3, 7),
    (4, 10),
    (5, 6),
    (0, 0),
    (2, 3),
    (6, 6),
];

/// Each number as habit with each number as polled group: on no bytes, on a reply whole, cut and with a wrong sum, and to the writers.
fn habits(compare: &mut Compare, random: &mut Random) {
    for habit in 0..=255 {
        for polled in 0..=255 {
            let names = [habit, polled];
            let (kind, count) = random.pick(&REPLIES);
            let data = random.bytes(count);
            let mut bytes = paper::omnistat(random.pick(&[0x81, 0xFA, 0x01]), kind, &data);
            compare.read_at_host(names, &[]);
            compare.read_at_host(names, &bytes);
            compare.read_at_host(names, &bytes[..random.below(bytes.len())]);
            bytes[count + 2] ^= 1;
            compare.read_at_host(names, &bytes);
            let number = random.pick(&[0, 1, 127, 128]);
            let room = random.pick(&[0, count + 2, count + 3, 20]);
            compare.write_to_host([habit, polled, number, kind], &data, room);
            let group = random.byte_from(0, 4);
            compare.write_group_to_host([habit, polled, number, group], &data, room);
        }
    }
}

/// Each byte of each reply damaged, with the sum as it was and made right, and each cut.
fn damaged_replies(compare: &mut Compare, random: &mut Random) {
    for (kind, count) in REPLIES {
        let right = paper::omnistat(0xFF, kind, &random.bytes(count));
        for at in 0..right.len() {
            read_both(compare, &right[..at]);
            for damaged in 0..=255 {
                let mut bytes = right.clone();
                bytes[at] = damaged;
                read_both(compare, &bytes);
                bytes[count + 2] = paper::sum(&bytes[..count + 2]);
                read_both(compare, &bytes);
            }
        }
    }
}

/// Each group with each count of values, each number and each room, for each habit and polled group, also for those that are none.
fn group_writer(compare: &mut Compare, random: &mut Random) {
    for habit in [0, 1, 2, 255] {
        for polled in [0, 1, 2, 3, 4, 255] {
            for group in (0..=5).chain([127, 128, 254, 255]) {
                for count in 0..=18 {
                    let values = random.bytes(count);
                    for number in [0, 1, 127, 128, 255] {
                        let numbers = [habit, polled, number, group];
                        for room in [0, count + 2, count + 3, count + 4] {
                            compare.write_group_to_host(numbers, &values, room);
                        }
                    }
                }
            }
        }
    }
    for [habit, polled] in NAMES {
        for (group, count) in [(1, 6), (2, 6), (3, 10)] {
            let values = random.bytes(count);
            for any in 0..=255 {
                compare.write_group_to_host([habit, polled, any, group], &values, count + 3);
                compare.write_group_to_host([habit, polled, 9, any], &values, count + 3);
            }
            for room in 0..=20 {
                compare.write_group_to_host([habit, polled, 9, group], &values, room);
            }
        }
        for count in [256, 262, 266, 518, 4096, 16000] {
            let values = random.bytes(count);
            compare.write_group_to_host([habit, polled, 9, polled], &values, 13);
        }
    }
}

/// Each register with each byte by a single set, and each run of registers polled.
fn registers(compare: &mut Compare, random: &mut Random) {
    let mut state = inputs::state(random);
    for register in 0..=255 {
        for setting in 0..=255 {
            for first in [0x15, 0x00, 0xFA] {
                let bytes = paper::omnistat(first, 1, &[register, setting]);
                compare.step(0x15, &mut state, &bytes, 65);
            }
            let bytes = paper::omnistat(0x15, 0, &[register, setting]);
            compare.step(0x15, &mut state, &bytes, 65);
            state.map[usize::from(register)] = setting;
            let others = [register, setting, random.byte(), setting];
            let bytes = paper::omnistat(0x15, 1, &others[..random.from(3, 4)]);
            compare.step(0x15, &mut state, &bytes, 65);
        }
    }
}

/// Each own address with each first byte.
fn addresses(compare: &mut Compare, random: &mut Random) {
    let mut state = inputs::state(random);
    for own in 0..=255 {
        for first in 0..=255 {
            let group = random.byte_from(2, 4);
            let room = random.pick(&[64, 65, 65, 65, 66]);
            let bytes = paper::omnistat(first, group, &[]);
            compare.step(own, &mut state, &bytes, room);
            let bytes = paper::omnistat(first, 1, &[59, random.byte_from(101, 146)]);
            compare.step(own, &mut state, &bytes, 65);
            let register = random.byte_from(172, 181);
            let bytes = paper::omnistat_text(first, 1, own % 16, register, b"power low");
            compare.step(own, &mut state, &bytes, room);
            let bytes = paper::omnistat(first, 0, &[register, 1]);
            compare.step(own, &mut state, &bytes, 65);
        }
    }
    let bytes = paper::omnistat(1, 1, &[59, 124]);
    for size in 0..=300 {
        let mut state = inputs::state(random);
        state.map.resize(size, 0);
        compare.step(1, &mut state, &bytes, 65);
    }
    for size in 0..=1300 {
        for own in [1, 0] {
            let mut state = inputs::state(random);
            state.texts.resize(size, 0);
            compare.step(own, &mut state, &bytes, 65);
        }
    }
    for room in 0..=70 {
        for first in [0x01, 0x00, 0x02] {
            let bytes = paper::omnistat(first, 0, &[175, 1]);
            compare.step(1, &mut state, &bytes, room);
        }
    }
}

/// Each register from two below the text registers to two above them, half-byte and length of text, set at each address and polled.
fn text_steps(compare: &mut Compare, random: &mut Random) {
    let mut state = inputs::state(random);
    for register in 170..=183 {
        for half in 0..=15 {
            for count in 0..=62 {
                let text: Vec<u8> = (0..count).map(|_| random.byte_from(0x20, 0x7E)).collect();
                for first in [0x09, 0x00, 0xFA, 0x0A] {
                    let bytes = paper::omnistat_text(first, 1, half, register, &text);
                    compare.step(0x09, &mut state, &bytes, 65);
                    let poll = paper::omnistat(random.pick(&[0x09, 0xFA, 0x00]), 0, &[register, 1]);
                    compare.step(0x09, &mut state, &poll, 65);
                }
            }
            state.texts = inputs::store(random);
        }
    }
}

/// A store with each count and each byte in each of its places.
fn stores(compare: &mut Compare, random: &mut Random) {
    let poll = paper::omnistat(0x01, 0, &[59, 1]);
    for at in 0..paper::STORE {
        let right = inputs::state(random);
        for byte in [
            0x00,
            0x03,
            0x1F,
            0x20,
            0x3C,
            0x3D,
            0x7E,
            0x7F,
            0x80,
            0xFF,
            random.byte(),
        ] {
            let mut state = right.clone();
            state.texts[at] = byte;
            compare.step(1, &mut state, &poll, 65);
        }
    }
    for held in 0..10 {
        for count in 0..=255 {
            let mut state = inputs::state(random);
            state.texts[held * paper::HELD + 1..][..60].fill(random.byte_from(0x20, 0x7E));
            state.texts[held * paper::HELD] = count;
            let register = 172 + held as u8;
            compare.step(1, &mut state, &poll, 65);
            compare.step(1, &mut state, &paper::omnistat(0x01, 0, &[register, 1]), 65);
            let bytes = paper::omnistat_text(0x01, 1, 0, register, b"\x20\x7E");
            compare.step(1, &mut state, &bytes, 65);
            compare.step(0, &mut state, &bytes, random.pick(&[64, 65]));
            compare.step(1, &mut state, &[], random.pick(&[64, 65]));
        }
    }
}

/// A text whole, cut, longer, and with a wrong sum.
fn read_around(compare: &mut Compare, bytes: &mut Vec<u8>) {
    read_both(compare, bytes);
    read_both(compare, &bytes[..bytes.len() - 1]);
    read_both(compare, &bytes[..bytes.len() - 2]);
    bytes.push(0x03);
    read_both(compare, bytes);
    bytes.pop();
    let last = bytes.len() - 1;
    bytes[last] ^= 0x40;
    read_both(compare, bytes);
}

/// Texts at both ends: each first and second byte, each register, half-byte and length, 03 at each place, each byte at each place.
fn texts(compare: &mut Compare, random: &mut Random) {
    for first in 0..=255 {
        for second in 0..=255 {
            let (kind, half) = (second % 16, second / 16);
            let text = &b"HIGH PRICE"[..random.below(11)];
            let mut bytes = paper::omnistat_text(first, kind, half, 175, text);
            read_around(compare, &mut bytes);
        }
    }
    for (first, kind) in [
        (0x01, 1),
        (0x00, 1),
        (0xFA, 1),
        (0xFA, 2),
        (0x81, 2),
        (0xFF, 2),
    ] {
        for register in 170..=183 {
            for half in 0..=15 {
                for count in 0..=63 {
                    let text: Vec<u8> = (0..count).map(|_| random.byte_from(0x20, 0x7E)).collect();
                    let mut bytes = paper::omnistat_text(first, kind, half, register, &text);
                    read_around(compare, &mut bytes);
                }
            }
        }
        for after in 0..=70 {
            for end in 0..=after {
                let mut bytes = vec![first, kind, 177];
                bytes.extend((0..after).map(|_| random.byte_from(0x1F, 0x7F)));
                if end < after {
                    bytes[3 + end] = 0x03;
                }
                read_both(compare, &bytes);
                let last = bytes.len() - 1;
                if last > 3 {
                    bytes[last] = paper::sum(&bytes[..last]);
                    read_both(compare, &bytes);
                }
            }
        }
        for place in 0..60 {
            for byte in 0..=255 {
                let mut text = vec![b' '; random.pick(&[place + 1, 60])];
                text[place] = byte;
                let mut bytes = paper::omnistat_text(first, kind, 0, 181, &text);
                read_around(compare, &mut bytes);
            }
        }
    }
}

/// Each address, half-byte and register to the text writers; each length with each room; each byte at each place.
fn text_writers(compare: &mut Compare, random: &mut Random) {
    let mut both = |numbers: [u8; 3], text: &[u8], room: usize| {
        compare.write_text_to_thermostat(numbers, text, room);
        compare.write_text_to_host(numbers, text, room);
    };
    for number in 0..=255 {
        for count in [0, 1, 9, 59, 60, 61] {
            let text: Vec<u8> = (0..count).map(|_| random.byte_from(0x20, 0x7E)).collect();
            for room in [0, count + 4, count + 5, count + 6] {
                both([number, 2, 175], &text, room);
                both([0x7F, number, 172], &text, room);
                both([0x01, 0, number], &text, room);
            }
        }
        for place in 0..60 {
            let mut text = vec![b'~'; random.pick(&[place + 1, 60])];
            text[place] = number;
            both([0x7A, 15, 181], &text, random.pick(&[65, 64, 70]));
        }
    }
    for count in 0..=70 {
        for room in 0..=80 {
            both([0x01, 0, 178], &vec![b' '; count], room);
        }
    }
    for count in [100, 255, 256, 257, 300, 316, 512, 4096, 16000] {
        both([0x01, 0, 178], &vec![b'x'; count], 65);
        both([0x01, 0, 178], &vec![b'x'; count], count + 5);
    }
}

/// All 22 places of 0 and 1.
fn x10_patterns(compare: &mut Compare) {
    let mut places = [0; 22];
    for pattern in 0..1u32 << places.len() {
        for (k, place) in places.iter_mut().enumerate() {
            *place = (pattern >> k & 1) as u8;
        }
        compare.x10_read(&places);
    }
}

/// Each house, key and D16 with each place damaged; each pair of numbers to the writers.
fn x10_writers(compare: &mut Compare, random: &mut Random) {
    for house in 0..=255 {
        for number in 0..=255 {
            for room in [22, 21, random.below(64)] {
                compare.x10_write_unit(house, number, room);
                compare.x10_write_function(house, number, room);
            }
            let bytes = [house % 17, number % 18, random.byte(), random.byte()];
            compare.x10_write_extended(bytes, random.pick(&[62, 61, 70]));
        }
    }
    for house in 0..16 {
        for number in 0..32 {
            let mut places = paper::x10_standard(house, number % 16, number / 16);
            for at in 0..22 {
                let right = places[at];
                for wrong in [1 - right, 2, 128, 255] {
                    places[at] = wrong;
                    compare.x10_read(&places);
                }
                places[at] = right;
                compare.x10_read(&places[..at]);
            }
            for more in 0..50 {
                compare.x10_read(&places);
                places.push(if more % 9 == 8 {
                    random.byte()
                } else {
                    more % 2
                });
            }
        }
    }
}

/// Each data and command byte, and each of the 62 places damaged.
fn x10_extended(compare: &mut Compare, random: &mut Random) {
    for data in 0..=255 {
        for command in 0..=255 {
            let (house, unit) = (random.byte_from(0, 15), random.byte_from(1, 16));
            compare.x10_write_extended([house, unit, data, command], 62);
            let mut places =
                paper::x10_write_extended(house, unit, data, command, 62).unwrap_or_default();
            compare.x10_read(&places);
            let at = random.below(62);
            places[at] = random.pick(&[0, 1, 2, 255]);
            compare.x10_read(&places);
        }
    }
    for house in 0..16 {
        for unit in 1..=16 {
            let (data, command) = (random.byte(), random.byte());
            let mut places =
                paper::x10_write_extended(house, unit, data, command, 62).unwrap_or_default();
            for at in 0..62 {
                let right = places[at];
                for wrong in [1 - right, 2] {
                    places[at] = wrong;
                    compare.x10_read(&places);
                }
                places[at] = right;
                compare.x10_read(&places[..at]);
            }
            places.push(random.byte());
            compare.x10_read(&places);
        }
    }
}

/// Captures of each small size, of the largest and of one more; of frames alone, of noise alone and of start bytes alone.
fn captures(compare: &mut Compare, random: &mut Random) {
    for size in 0..=600 {
        inputs::listings(compare, random, size);
    }
    for size in [4095, 4096, 4096, 4096, 4097, 4098, 8192] {
        inputs::listings(compare, random, size);
    }
    let acknowledge = paper::frame(0x05, &[]);
    for size in [4095, 4096, 4097] {
        let frames: Vec<u8> = acknowledge.iter().copied().cycle().take(size).collect();
        for bytes in [frames, vec![0x5A; size], vec![0; size]] {
            for room in [0, 6, 15, 16, 17, 30000, 8 * size + 25] {
                compare.listing(&bytes, room);
            }
        }
    }
    for room in 0..=12 {
        compare.listing(&[], room);
    }
}

/// Inputs of 2^32 bytes more than a frame: their length must not be taken modulo 2^32.
fn long_inputs(compare: &mut Compare) {
    let Some(mut long) = Long::new() else {
        println!("no address space for lengths past 2^32");
        return;
    };
    let out = Region::new(1, 0).lend(&[0; 100]);
    let b = long.lend(&paper::frame(0x05, &[]));
    compare.answer(Call::FrameRead, calls::omnilink_frame_read(b), 4);
    compare.answer(Call::FrameMend, calls::frame_mend(b, out), 4);
    compare.answer(Call::MessageRead, calls::omnilink_message_read(b), 4);
    compare.answer(Call::Listing, calls::capture_listing(b, out), 3);
    let state = Region::new(1, 0).lend(&[0; paper::CAPTURE_STATE]);
    compare.answer(Call::Piece, calls::capture_piece(state, b, out), 3);
    let b = long.lend(&[0x5A, 0x01, 0x05, 0xC1, 0x92]);
    compare.answer(Call::FrameMend, calls::frame_mend(b, out), 4);
    let b = long.lend(&paper::frame(0x16, &[0, 0]));
    compare.answer(Call::Zone, calls::omnilink_zone(b, 0), 4);
    let b = long.lend(&paper::frame(0x23, &[0, 0]));
    compare.answer(Call::Event, calls::omnilink_event(b, 0), 4);
    let b = long.lend(&paper::frame(0x25, &[0; 5]));
    compare.answer(Call::TextMessage, calls::omnilink_text_message(b, 0), 4);
    let b = long.lend(&paper::frame(0x0F, &[0, 0, 0, 1]));
    compare.answer(Call::Command, calls::omnilink_command(b), 4);
    let b = long.lend(&paper::frame(0x0E, &[1; 10]));
    compare.answer(Call::LogEntry, calls::omnilink_log_entry(b, 0), 4);
    let b = long.lend(&paper::omnistat(0x01, 2, &[]));
    compare.answer(
        Call::ReadAtThermostat,
        calls::omnistat_read_at_thermostat(b),
        4,
    );
    let map = Region::new(1, 0).lend(&[0; 256]);
    let texts = Region::new(1, 0).lend(&[0; paper::STORE]);
    let got = calls::thermostat_step(1, map, texts, b, out);
    compare.answer(Call::Step, got, 4);
    let b = long.lend(&paper::omnistat(0x81, 0, &[]));
    for names in NAMES {
        compare.answer(Call::ReadAtHost, calls::omnistat_read_at_host(names, b), 4);
    }
    let got = calls::omnistat_read_at_host([2, 1], b);
    compare.answer(Call::ReadAtHost, got, 8);
    let mut record = Region::new(1, 0);
    let tally = record.lend_aligned(&[0; 8], 8);
    let b = long.lend(&paper::meter_reply(1, 34567));
    compare.answer(Call::MeterAdd, calls::meter_add(tally, b), 4);
    compare.fact(
        "a long reply leaves the tally",
        record.holds(tally, &[0; 8], &[]),
    );
    let b = long.lend(&paper::omnistat_text(0x01, 1, 0, 175, b"low"));
    let got = calls::omnistat_read_at_thermostat(b);
    compare.answer(Call::ReadAtThermostat, got, 4);
    let got = calls::thermostat_step(1, map, texts, b, out);
    compare.answer(Call::Step, got, 4);
    let b = long.lend(&paper::omnistat_text(0x81, 2, 0, 175, b"low"));
    for names in NAMES {
        compare.answer(Call::ReadAtHost, calls::omnistat_read_at_host(names, b), 4);
    }
    let b = long.lend(&[0x01, 0x01, 175, b'l', b'o', b'w']);
    let got = calls::omnistat_read_at_thermostat(b);
    compare.answer(Call::ReadAtThermostat, got, 8);
    let b = long.lend(&[0x81, 0x02, 175, b'l', b'o', b'w']);
    for names in NAMES {
        compare.answer(Call::ReadAtHost, calls::omnistat_read_at_host(names, b), 8);
    }
    let b = long.lend(&paper::x10_standard(0, 0, 0));
    compare.answer(Call::X10Read, calls::x10_read(b), 4);
    let b = long.lend(&[]);
    compare.answer(Call::FrameWrite, calls::omnilink_frame_write(5, b, out), 3);
    compare.answer(
        Call::MessageWrite,
        calls::omnilink_message_write(5, b, out),
        7,
    );
    let got = calls::omnistat_write_to_thermostat(1, 2, b, out);
    compare.answer(Call::WriteToThermostat, got, 7);
    for [habit, polled] in NAMES {
        let got = calls::omnistat_write_to_host([habit, polled, 1, 0], b, out);
        compare.answer(Call::WriteToHost, got, 7);
    }
    let got = calls::omnistat_write_text_to_thermostat([1, 0, 175], b, out);
    compare.answer(Call::WriteTextToThermostat, got, 8);
    let got = calls::omnistat_write_text_to_host([1, 0, 175], b, out);
    compare.answer(Call::WriteTextToHost, got, 8);
    let b = long.lend(&[0; 6]);
    for [habit, polled] in NAMES {
        let got = calls::omnistat_write_group_to_host([habit, polled, 1, 1], b, out);
        compare.answer(Call::WriteGroupToHost, got, 7);
    }
    let b = long.lend(&[]);
    let (mut first, mut second) = (Region::new(1, 0), Region::new(1, 0));
    let (secret, door) = (first.lend(&[0; 4]), second.lend(&[0; 4]));
    let got = calls::login_door(secret, door, 0, 0x05, b);
    compare.answer(Call::Door, got, 7);
    let b = long.lend(&[0; 4]);
    compare.answer(Call::Door, calls::login_door(secret, door, 0, 0x20, b), 7);
    compare.answer(Call::Door, calls::login_door(b, door, 0, 0x20, secret), 8);
    compare.answer(Call::Door, calls::login_door(secret, b, 0, 0x20, secret), 8);
    let kept = second.holds(door, &[0; 4], &[]) && long.first().iter().all(|&b| b == 0);
    compare.fact("long lengths leave a door's state", kept);
    let long_map = long.lend(&[0; 256]);
    let poll = Region::new(1, 0).lend(&paper::omnistat(0x01, 2, &[]));
    let got = calls::thermostat_step(1, long_map, texts, poll, out);
    compare.answer(Call::Step, got, 9);
    let long_texts = long.lend(&[0; paper::STORE]);
    let got = calls::thermostat_step(1, map, long_texts, poll, out);
    compare.answer(Call::Step, got, 9);
    let long_state = long.lend(&[0; paper::CAPTURE_STATE]);
    let got = calls::capture_piece(long_state, poll, out);
    compare.answer(Call::Piece, got, 8);
    let got = calls::capture_finish(long_state, out);
    compare.answer(Call::Finish, got, 8);
}

/// Rooms of 2^32 bytes, which are enough.
fn long_rooms(compare: &mut Compare) {
    let Some(mut long) = Long::new() else {
        return;
    };
    let out = long.lend(&[]);
    let mut input = Region::new(1, 0);
    let none = input.lend(&[]);
    let mut written = |compare: &mut Compare, call, got, right: &[u8]| {
        compare.answer(call, got, (right.len() as u64) << 8);
        let same = long.first().starts_with(right);
        compare.fact("what is written to a room of 2^32 bytes", same);
    };
    let got = calls::omnilink_frame_write(0x99, none, out);
    written(compare, Call::FrameWrite, got, &paper::frame(0x99, &[]));
    let got = calls::omnilink_message_write(0x05, none, out);
    written(compare, Call::MessageWrite, got, &paper::frame(0x05, &[]));
    let got = calls::omnistat_write_to_thermostat(9, 3, none, out);
    let right = paper::omnistat(9, 3, &[]);
    written(compare, Call::WriteToThermostat, got, &right);
    let got = calls::omnistat_write_to_host([0, 1, 9, 1], none, out);
    let right = paper::omnistat(0x89, 1, &[]);
    written(compare, Call::WriteToHost, got, &right);
    let got = calls::x10_write_unit(3, 4, out);
    let right = paper::x10_write_unit(3, 4, 22).unwrap_or_default();
    written(compare, Call::X10WriteUnit, got, &right);
    let got = calls::x10_write_function(3, 4, out);
    let right = paper::x10_write_function(3, 4, 22).unwrap_or_default();
    written(compare, Call::X10WriteFunction, got, &right);
    let got = calls::x10_write_extended(3, 4, 5, 6, out);
    let right = paper::x10_write_extended(3, 4, 5, 6, 62).unwrap_or_default();
    written(compare, Call::X10WriteExtended, got, &right);
    let got = calls::capture_listing(none, out);
    written(compare, Call::Listing, got, b"end 0\n");
    let state = Region::new(1, 0).lend(&[0; paper::CAPTURE_STATE]);
    let frame = input.lend(&paper::frame(0x05, &[]));
    let got = calls::capture_piece(state, frame, out);
    written(compare, Call::Piece, got, b"frame 0 5 5\n");
    let got = calls::capture_finish(state, out);
    written(compare, Call::Finish, got, b"end 5\n");
    let values = input.lend(&[8; 10]);
    let got = calls::omnistat_write_group_to_host([1, 3, 9, 3], values, out);
    let right = paper::omnistat(0x89, 3, &[8; 10]);
    written(compare, Call::WriteGroupToHost, got, &right);
    let text = input.lend(b"low");
    let got = calls::omnistat_write_text_to_thermostat([9, 2, 175], text, out);
    let right = paper::omnistat_text(9, 1, 2, 175, b"low");
    written(compare, Call::WriteTextToThermostat, got, &right);
    let got = calls::omnistat_write_text_to_host([9, 2, 175], text, out);
    let right = paper::omnistat_text(0x89, 2, 2, 175, b"low");
    written(compare, Call::WriteTextToHost, got, &right);
    let map = Region::new(1, 0).lend(&[0; 256]);
    let texts = Region::new(1, 0).lend(&[32; paper::STORE]);
    let poll = input.lend(&paper::omnistat(0xFA, 2, &[]));
    let got = calls::thermostat_step(9, map, texts, poll, out);
    let right = paper::omnistat(0x89, 3, &[0; 6]);
    written(compare, Call::Step, got, &right);
    let poll = input.lend(&paper::omnistat(0xFA, 0, &[181, 1]));
    let got = calls::thermostat_step(9, map, texts, poll, out);
    let right = paper::omnistat_text(0x89, 2, 0, 181, &[32; 32]);
    written(compare, Call::Step, got, &right);
    let damaged = input.lend(&[0x5A, 0x01, 0x05, 0xC1, 0x92]);
    let got = calls::frame_mend(damaged, out);
    compare.answer(Call::FrameMend, got, 24 << 8 | 5 << 24);
    let same = long.first().starts_with(&paper::frame(0x05, &[]));
    compare.fact("what is mended to a room of 2^32 bytes", same);
}

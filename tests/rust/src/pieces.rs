//! A capture in pieces: cuttings, states, rooms and the largest capture.

use crate::compare::Compare;
use crate::inputs;
use crate::paper::{self, CAPTURE_STATE, ENOUGH_TO_FINISH};
use crate::random::Random;

const FRESH: [u8; CAPTURE_STATE] = [0; CAPTURE_STATE];
/// Room for the lines of any small piece.
const AMPLE: usize = 1024;

pub fn all(compare: &mut Compare, random: &mut Random) {
    examples(compare);
    two_pieces(compare, random);
    numbers(compare, random);
    unread_bytes(compare);
    changed_states(compare, random);
    sizes(compare, random);
    rooms(compare, random);
    largest(compare, random);
}

/// A capture at a random cutting.
pub fn random_cutting(compare: &mut Compare, random: &mut Random, size: usize) {
    let bytes = capture(random, size);
    let most = random.pick(&[1, 2, 5, 16, 16, 80, 600]);
    cut(compare, random, &bytes, most);
    let state = damaged_state(random);
    let piece = random_piece(random);
    judged(compare, &state, &piece, inputs::room(random, 20));
}

/// A capture: frames, noise and damage; starts close together; or frames behind a start that promises more.
fn capture(random: &mut Random, size: usize) -> Vec<u8> {
    let length = random.pick(&[0x01, 0x02, 0x41, 0x41, 0x42]);
    let mut bytes = Vec::new();
    match random.below(6) {
        0 => bytes = [0x5A, length].repeat(size),
        1 => {
            let near = [0x5A, 0x5A, 0x00, 0x01, 0x02, 0x05, 0x41, 0x42];
            bytes.extend((0..size).map(|_| random.pick(&near)));
        }
        2 => {
            while bytes.len() < size {
                bytes.extend([0x5A, random.byte_from(0x01, 0x41)]);
                for _ in 0..random.below(14) {
                    bytes.extend(paper::frame(random.byte(), &[0x5A][..random.below(2)]));
                }
            }
        }
        _ => bytes = inputs::capture(random, size),
    }
    bytes.truncate(size);
    bytes
}

fn random_piece(random: &mut Random) -> Vec<u8> {
    let size = random.pick(&[0, 1, 4, 16, 70]);
    capture(random, size)
}

/// The state that pieces lead to.
fn after(bytes: &[u8]) -> Vec<u8> {
    let mut state = FRESH.to_vec();
    let taken = paper::capture_piece(&mut state, bytes, usize::MAX);
    assert!(taken.is_ok());
    state
}

/// A piece with a random room; where that is too little, once more with enough.
fn piece(compare: &mut Compare, random: &mut Random, state: &mut Vec<u8>, bytes: &[u8]) -> Vec<u8> {
    let needed = paper::capture_piece(&mut state.clone(), bytes, usize::MAX).map_or(0, |t| t.len());
    compare.fact(
        "the room that is always enough for a piece",
        needed <= paper::enough_for_piece(bytes.len()),
    );
    let room = inputs::room(random, needed);
    if room < needed {
        compare.piece(state, bytes, room);
    }
    compare.piece(state, bytes, room.max(needed))
}

/// The finishing call, likewise.
fn finish(compare: &mut Compare, random: &mut Random, state: &mut Vec<u8>) -> Vec<u8> {
    let needed = paper::capture_finish(&mut state.clone(), usize::MAX).map_or(0, |t| t.len());
    compare.fact(
        "the room that is always enough to finish",
        needed <= ENOUGH_TO_FINISH,
    );
    let room = inputs::room(random, needed);
    if room < needed {
        compare.finish(state, room);
    }
    compare.finish(state, room.max(needed))
}

/// The pieces and the finishing call: what was written, joined, is the listing of the whole, and the state is fresh.
fn list<'a>(
    compare: &mut Compare,
    random: &mut Random,
    bytes: &[u8],
    pieces: impl Iterator<Item = &'a [u8]>,
) {
    let mut state = FRESH.to_vec();
    let mut text = Vec::new();
    for bytes in pieces {
        text.extend(piece(compare, random, &mut state, bytes));
    }
    text.extend(finish(compare, random, &mut state));
    compare.fact("a fresh state after the finishing call", state == FRESH);
    compare.listing(bytes, text.len());
    compare.fact(
        "what the pieces wrote, joined",
        paper::listing(bytes, text.len()) == Ok(text),
    );
}

/// A capture in random pieces of 0 to `most` bytes.
fn cut(compare: &mut Compare, random: &mut Random, bytes: &[u8], most: usize) {
    let mut rest = bytes;
    let mut pieces = Vec::new();
    while !rest.is_empty() {
        let (first, later) = rest.split_at(random.below(most + 1).min(rest.len()));
        pieces.push(first);
        rest = later;
    }
    list(compare, random, bytes, pieces.into_iter());
}

/// One state to both calls; neither changes it here.
fn judged(compare: &mut Compare, state: &[u8], bytes: &[u8], room: usize) {
    compare.piece(&mut state.to_vec(), bytes, room);
    compare.finish(&mut state.to_vec(), room);
}

/// A state of its numbers and unread bytes, with 74 bytes where the unread ones are at most 69.
fn state_of(came: usize, noise: usize, count: usize, unread: &[u8]) -> Vec<u8> {
    let mut state = Vec::new();
    for number in [came, noise] {
        state.extend([(number / 256) as u8, (number % 256) as u8]);
    }
    state.push(count as u8);
    state.extend(unread);
    state.resize(CAPTURE_STATE, 0);
    state
}

/// The examples of documents 01 and 02's readings.
fn examples(compare: &mut Compare) {
    let mut lines = |pieces: &[&[u8]]| {
        let mut state = FRESH.to_vec();
        let mut texts = Vec::new();
        for bytes in pieces {
            texts.push(compare.piece(&mut state, bytes, AMPLE));
        }
        texts.push(compare.finish(&mut state, AMPLE));
        texts
    };
    let nested: &[u8] = &[0x5A, 0x41, 0x5A, 0x01, 0x05, 0xC1, 0x93];
    let whole: &[u8] = b"noise 0 2\nframe 2 5 5\nend 7\n";
    let texts = lines(&[nested]);
    let cut = lines(&[&[0x00, 0x5A, 0x01], &[], &[0x05, 0xC1, 0x93, 0x5A]]);
    let none = lines(&[]);
    compare.fact("a frame in what is cut off", texts == [b"", whole]);
    let right: [&[u8]; 4] = [b"", b"", b"noise 0 1\nframe 1 5 5\n", b"noise 6 1\nend 7\n"];
    compare.fact("the listing in pieces", cut == right);
    compare.fact("no pieces", none == [b"end 0\n"]);
}

/// Captures of each small size in two pieces, cut at each byte, and byte by byte.
fn two_pieces(compare: &mut Compare, random: &mut Random) {
    for size in 0..=160 {
        let bytes = capture(random, size);
        list(compare, random, &bytes, bytes.chunks(1));
        for at in 0..=size {
            let (first, second) = bytes.split_at(at);
            list(compare, random, &bytes, [first, second].into_iter());
        }
    }
    for most in [1, 16, 16, 100, 1000, 4096] {
        let bytes = capture(random, 4096);
        cut(compare, random, &bytes, most);
    }
}

/// Each small pair of numbers, and those around the largest capture, with each kind of unread bytes.
fn numbers(compare: &mut Compare, random: &mut Random) {
    let longest: Vec<u8> = [0x5A, 0x41].into_iter().cycle().take(68).collect();
    let unread: [&[u8]; 6] = [
        &[],
        &[0x5A],
        &[0x5A, 0x01],
        &[0x5A, 0x01, 0x05, 0xC1],
        &[0x5A, 0x41, 0x5A],
        &longest,
    ];
    for unread in unread {
        for came in (0..=90).chain(4085..=4100).chain([32767, 65535]) {
            for noise in (0..=90).chain(4015..=4100).chain([32767, 65530, 65535]) {
                let state = state_of(came, noise, unread.len(), unread);
                let bytes = random.pick::<&[u8]>(&[&[], &[0x93], &[0, 0, 0, 0, 0]]);
                judged(compare, &state, bytes, AMPLE);
            }
        }
    }
}

/// Each length byte with each count of unread bytes, each count byte, and each first byte.
fn unread_bytes(compare: &mut Compare) {
    for length in 0..=255 {
        let mut unread = vec![0x5A, length];
        unread.resize(69, 0x5A);
        for count in 0..=69 {
            let state = state_of(100 + count, 7, count, &unread[..count]);
            judged(compare, &state, &[0x5A], AMPLE);
        }
        let state = state_of(300, 7, usize::from(length), &[0x5A, 0x41]);
        judged(compare, &state, &[], AMPLE);
        let state = state_of(100, 7, 1, &[length]);
        judged(compare, &state, &[], AMPLE);
    }
    for length in [0x40, 0x41] {
        let whole = paper::frame(0x16, &vec![0; length - 1]);
        let state = state_of(whole.len(), 0, whole.len(), &whole);
        judged(compare, &state, &[], AMPLE);
    }
}

/// States that pieces lead to: of each count of unread bytes, and of random captures.
fn reached(random: &mut Random) -> Vec<Vec<u8>> {
    let mut states = vec![FRESH.to_vec()];
    let longest = paper::frame(0x16, &[0x5A; 64]);
    for count in [1, 2, 4, 5, 67, 68] {
        states.push(after(&longest[..count]));
        states.push(after(&[&longest[..], &[0, 0], &longest[..count]].concat()));
    }
    for size in [5, 6, 70, 300, 1000, 4095, 4096, 4096] {
        states.push(after(&capture(random, size)));
    }
    states
}

/// Each byte of states that pieces lead to, changed.
fn changed_states(compare: &mut Compare, random: &mut Random) {
    for state in reached(random) {
        judged(compare, &state, &[0x5A], AMPLE);
        for at in 0..CAPTURE_STATE {
            let right = state[at];
            let any = random.byte();
            let all: Vec<u8> = (0..=255).collect();
            let some = [0, 1, right ^ 0x80, right.wrapping_add(1), 0x5A, 0x41, any];
            for &byte in if at < 8 { &all[..] } else { &some[..] } {
                let mut state = state.clone();
                state[at] = byte;
                let bytes = random_piece(random);
                judged(compare, &state, &bytes, random.pick(&[AMPLE, AMPLE, 0]));
            }
        }
    }
    for _ in 0..50_000 {
        let state = damaged_state(random);
        let bytes = random_piece(random);
        judged(compare, &state, &bytes, inputs::room(random, 30));
        if paper::capture_piece(&mut state.clone(), &[], 0).is_ok() {
            let pieces = leading_to(&state);
            compare.fact("pieces lead to a state taken", after(&pieces) == state);
            compare.piece(&mut FRESH.to_vec(), &pieces, AMPLE);
        }
    }
}

/// Bytes that lead to a state which is taken: noise and a frame, or nothing; noise; the unread bytes.
fn leading_to(state: &[u8]) -> Vec<u8> {
    let word = |i: usize| 256 * usize::from(state[i]) + usize::from(state[i + 1]);
    let (came, noise, count) = (word(0), word(2), usize::from(state[4]));
    let before = came - noise - count;
    let mut bytes = Vec::new();
    if before > 0 {
        bytes.resize(before - 5, 0);
        bytes.extend(paper::frame(0x05, &[]));
    }
    bytes.resize(before + noise, 0);
    bytes.extend(&state[5..5 + count]);
    bytes
}

/// A state of random numbers and unread bytes that may fit each other, now and then with another byte changed, or of any bytes.
fn damaged_state(random: &mut Random) -> Vec<u8> {
    if random.once_in(16) {
        return random.bytes(CAPTURE_STATE);
    }
    let any = random.below(70);
    let count = random.pick(&[0, 0, 1, 2, 5, any]);
    let mut unread = random.bytes(count);
    for (at, byte) in [0x5A, random.byte_from(0x01, 0x41)].into_iter().enumerate() {
        if at < count {
            unread[at] = byte;
        }
    }
    let noise = random.pick(&[0, 1, 5, 300, 4000]);
    let before = random.pick(&[0, 0, 4, 5, 9, 100]);
    let mut state = state_of(before + noise + count, noise, count, &unread);
    if random.once_in(4) {
        state[random.below(CAPTURE_STATE)] = random.byte();
    }
    state
}

/// States of each small size, and of some larger ones.
fn sizes(compare: &mut Compare, random: &mut Random) {
    for state in reached(random).into_iter().take(8) {
        for size in (0..=80).chain([147, 148, 149, 222, 256, 330]) {
            let mut state = state.clone();
            state.resize(size, 0);
            let bytes = random_piece(random);
            for room in [0, 5, AMPLE] {
                judged(compare, &state, &bytes, room);
            }
        }
    }
}

/// Each room up to what is needed, and some more.
fn rooms(compare: &mut Compare, random: &mut Random) {
    for size in (0..60).chain([100, 200, 400]) {
        let state = after(&capture(random, size));
        let bytes = capture(random, 70);
        let piece = paper::capture_piece(&mut state.clone(), &bytes, usize::MAX);
        for room in 0..=piece.map_or(0, |text| text.len() + 3) {
            compare.piece(&mut state.clone(), &bytes, room);
        }
        let text = paper::capture_finish(&mut state.clone(), usize::MAX);
        for room in 0..=text.map_or(0, |text| text.len() + 3) {
            compare.finish(&mut state.clone(), room);
        }
    }
}

/// Up to 4,096 bytes, and one more; the order of the refusals there.
fn largest(compare: &mut Compare, random: &mut Random) {
    for came in [0, 1, 4000, 4090, 4095, 4096] {
        for _ in 0..4 {
            let state = after(&capture(random, came));
            let mut wrong = state.clone();
            wrong[4] = 70;
            for size in [0, 1, 4095 - came.min(4095), 4096 - came, 4097 - came, 5000] {
                let bytes = capture(random, size);
                for room in [0, 1, paper::enough_for_piece(size)] {
                    judged(compare, &state, &bytes, room);
                    judged(compare, &wrong, &bytes, room);
                }
            }
        }
    }
    let frames = paper::frame(0x05, &[]).repeat(820);
    let starts = [0x5A, 0x41].repeat(2048);
    for bytes in [&frames[..4096], &starts, &[0x5A; 4096], &[0; 4096]] {
        for size in [1, 16, 4096] {
            list(compare, random, bytes, bytes.chunks(size));
        }
    }
}

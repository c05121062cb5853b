//! The login door: states, secrets, sizes, messages and times in order, shut-outs in parts, and long runs.

use crate::compare::Compare;
use crate::inputs::{self, OMNILINK_TYPES};
use crate::paper::{self, DOOR_SECRET, DOOR_STATE};
use crate::random::Random;

const SECRET: [u8; DOOR_SECRET] = [1, 2, 3, 4];
const LOGIN: u8 = 0x20;
const LOGOUT: u8 = 0x21;
/// Right and wrong logins, and one message of each other kind.
const MESSAGES: [(u8, &[u8]); 6] = [
    (LOGIN, &SECRET),
    (LOGIN, &[1, 2, 3, 5]),
    (0x05, &[]),
    (0x06, &[]),
    (LOGOUT, &[]),
    (0x0F, &[1, 0x6E, 0, 5]),
];

pub fn all(compare: &mut Compare, random: &mut Random) {
    examples(compare);
    every_state(compare, random);
    wrong_states(compare, random);
    every_login(compare, random);
    wrong_secrets(compare, random);
    sizes(compare, random);
    messages(compare, random);
    times(compare, random);
    for _ in 0..200 {
        in_parts(compare, random);
        two_secrets(compare, random);
    }
    let mut met = [0; TRANSITIONS];
    for _ in 0..300 {
        run(compare, random, &mut met);
    }
    compare.fact("every transition in the runs", !met.contains(&0));
}

/// One more run, on a state of its own.
pub fn random_run(compare: &mut Compare, random: &mut Random) {
    run(compare, random, &mut [0; TRANSITIONS]);
}

fn state_of(logged_in: u8, count: u8, left: u16) -> Vec<u8> {
    vec![logged_in, count, (left / 256) as u8, (left % 256) as u8]
}

fn left_of(state: &[u8]) -> u32 {
    256 * u32::from(state[2]) + u32::from(state[3])
}

/// A message whose answer and state afterwards are known.
type Example<'a> = (u32, u8, &'a [u8], u8, [u8; DOOR_STATE]);

/// K6, sentence by sentence: each list is a run from the fresh state with the secret 1 2 3 4.
fn examples(compare: &mut Compare) {
    let (right, wrong): (&[u8], &[u8]) = (&SECRET, &[1, 2, 3, 5]);
    let runs: [&[Example]; 4] = [
        &[
            (0, LOGIN, wrong, 0x06, [0, 1, 0, 0]),
            (0, LOGIN, right, 0x05, [1, 0, 0, 0]),
            (0, 0x05, &[], 0x05, [1, 0, 0, 0]),
            (0, 0x06, &[], 0, [1, 0, 0, 0]),
            (179, 0x0D, &[], 0, [1, 0, 0, 0]),
            (0, LOGOUT, &[], 0x05, [0, 0, 0, 0]),
            (0, LOGOUT, &[], 0x06, [0, 0, 0, 0]),
        ],
        &[
            (0, LOGIN, wrong, 0x06, [0, 1, 0, 0]),
            (3600, LOGIN, wrong, 0x06, [0, 2, 0, 0]),
            (0, 0x05, &[], 0x06, [0, 2, 0, 0]),
            (9, LOGIN, wrong, 0x06, [0, 0, 0x0E, 0x10]),
            (3599, LOGIN, right, 0x06, [0, 0, 0, 1]),
            (0, LOGIN, wrong, 0x06, [0, 0, 0, 1]),
            (1, LOGIN, wrong, 0x06, [0, 1, 0, 0]),
            (0, LOGIN, right, 0x05, [1, 0, 0, 0]),
        ],
        &[
            (0, LOGIN, right, 0x05, [1, 0, 0, 0]),
            (0, LOGIN, wrong, 0x06, [1, 1, 0, 0]),
            (0, LOGIN, wrong, 0x06, [1, 2, 0, 0]),
            (0, LOGIN, wrong, 0x06, [1, 0, 0x0E, 0x10]),
            (16, 0x23, &[1, 2], 0, [1, 0, 0x0E, 0]),
            (0, LOGIN, right, 0x06, [1, 0, 0x0E, 0]),
            (0, LOGOUT, &[], 0x05, [0, 0, 0x0E, 0]),
            (0x0E00, LOGIN, right, 0x05, [1, 0, 0, 0]),
        ],
        &[
            (u32::MAX, LOGIN, right, 0x05, [1, 0, 0, 0]),
            (179, LOGIN, wrong, 0x06, [1, 1, 0, 0]),
            (180, 0x05, &[], 0x06, [0, 1, 0, 0]),
            (180, LOGIN, right, 0x05, [1, 0, 0, 0]),
            (180, LOGIN, right, 0x05, [1, 0, 0, 0]),
            (180, LOGIN, wrong, 0x06, [0, 1, 0, 0]),
        ],
    ];
    for run in runs {
        let mut state = state_of(0, 0, 0);
        for &(seconds, kind, data, answer, after) in run {
            let given = paper::login_door(&SECRET, &mut state.clone(), seconds, kind, data);
            compare.fact("a door's answer", given == Ok(answer));
            compare.door(&SECRET, &mut state, seconds, kind, data);
            compare.fact("a door's state", state == after);
        }
    }
}

/// Each state that is taken, with each kind of message and the seconds that matter to it.
fn every_state(compare: &mut Compare, random: &mut Random) {
    let mut with_all = |logged_in, count, left: u16| {
        let end = u32::from(left);
        for seconds in [0, 180, end.saturating_sub(1), end] {
            for (kind, data) in MESSAGES {
                let mut state = state_of(logged_in, count, left);
                compare.door(&SECRET, &mut state, seconds, kind, data);
            }
        }
        let (kind, data) = message(random, &SECRET);
        let mut state = state_of(logged_in, count, left);
        compare.door(&SECRET, &mut state, random.next() as u32, kind, &data);
    };
    for logged_in in 0..=1 {
        for left in 0..=3600 {
            with_all(logged_in, 0, left);
        }
        with_all(logged_in, 1, 0);
        with_all(logged_in, 2, 0);
    }
}

/// Each pair of first bytes, and each number of seconds left, taken or not.
fn wrong_states(compare: &mut Compare, random: &mut Random) {
    let mut any = |state: Vec<u8>| {
        let (kind, data) = message(random, &SECRET);
        let seconds = seconds(random, &state);
        compare.door(&SECRET, &mut state.clone(), seconds, kind, &data);
    };
    for logged_in in 0..=255 {
        for count in 0..=255 {
            for left in [0, 1] {
                any(state_of(logged_in, count, left));
            }
        }
    }
    for left in 0..=65535 {
        for count in 0..=2 {
            any(state_of((left % 2) as u8, count, left));
        }
    }
}

/// Each login against some secrets.
fn every_login(compare: &mut Compare, random: &mut Random) {
    for secret in [digits(random), digits(random), vec![0; 4], vec![9; 4]] {
        for number in 0..10_000 {
            let login = [1000, 100, 10, 1].map(|unit| (number / unit % 10) as u8);
            let mut state = state_of(random.byte_from(0, 1), random.byte_from(0, 2), 0);
            compare.door(&secret, &mut state, 0, LOGIN, &login);
            let taken = state == state_of(1, 0, 0);
            compare.fact("one login is right", taken == (login[..] == secret));
        }
    }
}

/// Each byte at each place of a secret, with each kind of message and some that are refused.
fn wrong_secrets(compare: &mut Compare, random: &mut Random) {
    for at in 0..DOOR_SECRET {
        for byte in 0..=255 {
            for (kind, data) in MESSAGES {
                let mut secret = digits(random);
                secret[at] = byte;
                compare.door(&secret, &mut state(random), 1, kind, data);
                if kind == LOGIN {
                    compare.door(&secret, &mut state(random), 1, kind, &secret);
                }
                let (kind, data) = message(random, &secret);
                let mut other = state(random);
                damage(random, &mut other);
                compare.door(&secret, &mut other, 1, kind, &data);
            }
        }
    }
}

/// Secrets and states of each small size, and of some larger ones.
fn sizes(compare: &mut Compare, random: &mut Random) {
    let sizes: Vec<usize> = (0..=9).chain([12, 255, 256, 260, 516, 1028]).collect();
    for &secret_size in &sizes {
        for &state_size in &sizes {
            for (kind, data) in MESSAGES.into_iter().chain([(0x07, &[][..])]) {
                let (mut secret, mut state) = (SECRET.to_vec(), state(random));
                secret.resize(secret_size, random.byte_from(0, 9));
                state.resize(state_size, 0);
                compare.door(&secret, &mut state, 3, kind, data);
            }
        }
    }
}

/// Each type with each count of data bytes; each known type with right data, and each byte at each place; at both kinds of door.
fn messages(compare: &mut Compare, random: &mut Random) {
    let mut at_both = |kind, data: &[u8], secret: &[u8]| {
        for logged_in in 0..=1 {
            compare.door(secret, &mut state_of(logged_in, 1, 0), 0, kind, data);
        }
    };
    for kind in 0..=255 {
        for count in 0..=70 {
            let mut data = random.bytes(count);
            if random.once_in(2) {
                data.iter_mut().for_each(|byte| *byte %= 3);
            }
            at_both(kind, &data, &SECRET);
        }
    }
    for kind in OMNILINK_TYPES {
        for _ in 0..2 {
            let mut data = inputs::message_data(random, kind);
            let secret = digits(random);
            at_both(kind, &data, &secret);
            for at in 0..data.len() {
                let right = data[at];
                for byte in 0..=255 {
                    data[at] = byte;
                    at_both(kind, &data, &secret);
                }
                data[at] = right;
            }
        }
    }
}

/// Each number of seconds up to more than an hour, those around each power of two, and any.
fn times(compare: &mut Compare, random: &mut Random) {
    let mut with_all = |seconds: u32| {
        for (kind, data) in MESSAGES {
            for (count, left) in [(2, 0), (0, 180), (0, 3600)] {
                let mut state = state_of(random.byte_from(0, 1), count, left);
                compare.door(&SECRET, &mut state, seconds, kind, data);
            }
        }
    };
    for seconds in 0..=4000 {
        with_all(seconds);
    }
    for power in 0..32 {
        for near in [0, 1, 179, 180, 3599, 3600] {
            with_all((1u32 << power).wrapping_sub(near));
            with_all((1u32 << power).wrapping_add(near));
        }
    }
    with_all(u32::MAX);
}

/// A shut-out that passes in parts, refused calls between; at 3,599 seconds a right login gets 06, and at 3,600 it gets 05.
fn in_parts(compare: &mut Compare, random: &mut Random) {
    let secret = digits(random);
    let most = random.pick(&[30, 200, 1000, 3600]);
    let mut state = state_of(random.byte_from(0, 1), 0, 3600);
    let mut left = 3600;
    loop {
        let part = random.below(most).max(1) as u32;
        if part >= left {
            break;
        }
        let (kind, data) = message(random, &secret);
        if paper::message_check(kind, &data).is_ok() {
            left -= part;
        }
        compare.door(&secret, &mut state, part, kind, &data);
        compare.fact("seconds left in parts", left_of(&state) == left);
    }
    compare.door(&secret, &mut state, left - 1, LOGIN, &secret);
    compare.fact("a right login a second early", left_of(&state) == 1);
    compare.door(&secret, &mut state, 1, LOGIN, &secret);
    compare.fact("a right login in time", state == state_of(1, 0, 0));
}

/// Two secrets over the same messages and times from one logged-out state: as long as neither accepts a login, answers and states
/// are the same.
fn two_secrets(compare: &mut Compare, random: &mut Random) {
    let (one, other, neither) = (digits(random), digits(random), digits(random));
    let mut state = state(random);
    state[0] = 0;
    for _ in 0..random.from(1, 40) {
        let seconds = seconds(random, &state);
        let near = random.pick(&[&one, &other, &neither, &neither, &neither, &neither]);
        let (kind, data) = message(random, near);
        let (mut left, mut right) = (state.clone(), state.clone());
        compare.door(&one, &mut left, seconds, kind, &data);
        compare.door(&other, &mut right, seconds, kind, &data);
        let answers = [&one, &other]
            .map(|secret| paper::login_door(secret, &mut state.clone(), seconds, kind, &data));
        if kind == LOGIN && answers.contains(&Ok(0x05)) {
            return;
        }
        compare.fact(
            "two secrets alike",
            answers[0] == answers[1] && left == right,
        );
        state = left;
    }
}

/// How many kinds of accepted calls `transition` tells apart.
const TRANSITIONS: usize = 2 * 5 * 6 * 2;

/// Which kind of accepted call this is: logged in or not; none, one or two counted, a shut-out that goes on or ends; right and
/// wrong logins, 05, 06, 21 and the others; before or after 180 seconds.
fn transition(state: &[u8], secret: &[u8], seconds: u32, kind: u8, data: &[u8]) -> Option<usize> {
    paper::login_door(secret, &mut state.to_vec(), seconds, kind, data).ok()?;
    let logins = match left_of(state) {
        0 => usize::from(state[1]),
        left => 3 + usize::from(seconds >= left),
    };
    let message = match kind {
        LOGIN => usize::from(data != secret),
        0x05 => 2,
        0x06 => 3,
        LOGOUT => 4,
        _ => 5,
    };
    let which = (usize::from(state[0]) * 5 + logins) * 6 + message;
    Some(2 * which + usize::from(seconds >= 180))
}

/// A run of several hundred messages on one lent state, with wrong secrets and wrong states between.
fn run(compare: &mut Compare, random: &mut Random, met: &mut [u64; TRANSITIONS]) {
    let secret = digits(random);
    let mut state = state(random);
    let mut lent = compare.lend_state(&state);
    for _ in 0..random.from(200, 300) {
        let (kind, data) = message(random, &secret);
        let seconds = seconds(random, &state);
        let mut relend = false;
        match random.below(24) {
            0 => {
                let mut other = secret.clone();
                damage(random, &mut other);
                relend = !compare.door_on(lent, &other, &mut state, seconds, kind, &data);
            }
            1 => {
                let mut other = state.clone();
                damage(random, &mut other);
                compare.door(&secret, &mut other, seconds, kind, &data);
                relend = true;
            }
            2 => {
                state = self::state(random);
                relend = true;
            }
            _ => {
                if let Some(which) = transition(&state, &secret, seconds, kind, &data) {
                    met[which] += 1;
                }
                relend |= !compare.door_on(lent, &secret, &mut state, seconds, kind, &data);
            }
        }
        if relend {
            lent = compare.lend_state(&state);
        }
    }
}

fn digits(random: &mut Random) -> Vec<u8> {
    inputs::message_data(random, LOGIN)
}

/// A state that is taken.
fn state(random: &mut Random) -> Vec<u8> {
    let logged_in = random.byte_from(0, 1);
    if random.once_in(2) {
        return state_of(logged_in, random.byte_from(0, 2), 0);
    }
    let any = random.from(1, 3600) as u16;
    let left = random.pick(&[1, 2, 100, 179, 180, 181, 3599, 3600, any]);
    state_of(logged_in, 0, left)
}

/// Makes a secret or a state wrong, with few exceptions.
fn damage(random: &mut Random, bytes: &mut Vec<u8>) {
    match random.below(4) {
        0 => bytes[random.below(4)] = random.byte_from(10, 255),
        1 => {
            *bytes = vec![
                1,
                random.byte_from(0, 3),
                0x0E,
                random.byte_from(0x0F, 0x11),
            ]
        }
        _ => inputs::damage(random, bytes),
    }
}

/// Seconds: mostly few; else around 180, around the end of a shut-out, or any.
fn seconds(random: &mut Random, state: &[u8]) -> u32 {
    let left = left_of(state);
    match random.below(16) {
        0 | 1 => random.from(178, 181) as u32,
        2 | 3 => (left + 1).saturating_sub(random.below(3) as u32),
        4 => random.from(3598, 3601) as u32,
        5 => left / 2,
        6 => random.below(4000) as u32,
        7 => random.pick(&[u32::MAX, u32::MAX - 3600, 1 << 31, 1 << 16, (1 << 16) + 180]),
        8 => random.next() as u32,
        _ => random.below(20) as u32,
    }
}

/// A type and data bytes: logins right, wrong by one digit or any, the messages that a door answers itself, and others; some are
/// refused.
fn message(random: &mut Random, secret: &[u8]) -> (u8, Vec<u8>) {
    let (kind, mut data) = match random.below(16) {
        0..=2 => (LOGIN, secret.to_vec()),
        3..=7 => {
            let mut near = secret.to_vec();
            near[random.below(4)] = random.byte_from(0, 9);
            (LOGIN, near)
        }
        8 => (LOGIN, digits(random)),
        9 => (0x05, Vec::new()),
        10 => (0x06, Vec::new()),
        11 => (LOGOUT, Vec::new()),
        _ => {
            let kind = random.pick(&OMNILINK_TYPES);
            (kind, inputs::message_data(random, kind))
        }
    };
    match random.below(16) {
        0 => inputs::damage(random, &mut data),
        1 => return (random.byte(), data),
        _ => (),
    }
    (kind, data)
}

//! One comparison for each call: the papers' answer and memory beside the library's.

use crate::calls::{self, Setpoints};
use crate::guard::{self, Lent, Region};
use crate::paper::{self, Answer, Body, State};
use crate::random::Random;

#[derive(Clone, Copy)]
pub enum Call {
    FrameRead,
    FrameWrite,
    FrameMend,
    MessageRead,
    MessageWrite,
    Zone,
    Event,
    TextMessage,
    Command,
    LogEntry,
    Door,
    ReadAtThermostat,
    ReadAtHost,
    WriteToThermostat,
    WriteToHost,
    WriteGroupToHost,
    WriteTextToThermostat,
    WriteTextToHost,
    Step,
    Celsius,
    FahrenheitTenths,
    SetpointsFromBytes,
    SetpointsToBytes,
    Cost,
    MeterAdd,
    X10Read,
    X10WriteUnit,
    X10WriteFunction,
    X10WriteExtended,
    Listing,
    Piece,
    Finish,
}

const MESSAGE_READER: &[u8] = &[1, 2, 3, 4, 5, 6, 7, 8];
const OMNISTAT_READER: &[u8] = &[1, 2, 4, 5, 6, 7, 8];

/// The calls in the order of `Call`, each with the refusals that documents 01 and 02 name for it.
pub const CALLS: [(&str, &[u8]); 32] = [
    ("omnilink_frame_read", &[1, 2, 3, 4, 5]),
    ("omnilink_frame_write", &[3, 9]),
    ("frame_mend", &[1, 2, 3, 4, 5, 8, 9]),
    ("omnilink_message_read", MESSAGE_READER),
    ("omnilink_message_write", &[6, 7, 8, 9]),
    ("omnilink_zone", MESSAGE_READER),
    ("omnilink_event", MESSAGE_READER),
    ("omnilink_text_message", MESSAGE_READER),
    ("omnilink_command", MESSAGE_READER),
    ("omnilink_log_entry", MESSAGE_READER),
    ("login_door", &[6, 7, 8]),
    ("omnistat_read_at_thermostat", OMNISTAT_READER),
    ("omnistat_read_at_host", OMNISTAT_READER),
    ("omnistat_write_to_thermostat", &[6, 7, 8, 9]),
    ("omnistat_write_to_host", &[6, 7, 8, 9]),
    ("omnistat_write_group_to_host", &[7, 8, 9]),
    ("omnistat_write_text_to_thermostat", &[8, 9]),
    ("omnistat_write_text_to_host", &[8, 9]),
    ("thermostat_step", &[1, 2, 4, 5, 6, 7, 8, 9]),
    ("temperature_celsius", &[]),
    ("temperature_fahrenheit_tenths", &[]),
    ("setpoints_from_bytes", &[]),
    ("setpoints_to_bytes", &[8]),
    ("cost_millionths", &[]),
    ("meter_add", &[1, 2, 4, 5, 6, 7, 8, 11]),
    ("x10_read", &[1, 2, 4, 5, 6, 8]),
    ("x10_write_unit", &[8, 9]),
    ("x10_write_function", &[6, 8, 9]),
    ("x10_write_extended", &[8, 9]),
    ("capture_listing", &[3, 9]),
    ("capture_piece", &[3, 8, 9]),
    ("capture_finish", &[8, 9]),
];

/// How many disagreements are printed.
const SHOWN: u64 = 20;
/// More than any room that is lent.
const PRIOR: usize = 96 * 1024;

pub struct Compare {
    input: Region,
    output: Region,
    map: Region,
    texts: Region,
    /// For the state of a capture or of a door.
    state: Region,
    secret: Region,
    random: Random,
    /// Where the content of a lent output before the call is taken from.
    prior: Vec<u8>,
    /// For each call, how often each answer number was the right one.
    pub counts: [[u64; 12]; CALLS.len()],
    pub passed: u64,
    pub failed: u64,
}

/// An answer as a number: the fields above the low byte, the first lowest.
fn packed<const N: usize>(answer: Answer<[u8; N]>) -> u64 {
    let above = |n, &field: &u8| (n << 8) + u64::from(field);
    valued(answer.map(|fields| fields.iter().rev().fold(0, above)))
}

fn valued(answer: Answer<u64>) -> u64 {
    match answer {
        Ok(value) => value << 8,
        Err(number) => u64::from(number),
    }
}

fn hex(bytes: &[u8]) -> String {
    bytes.iter().map(|byte| format!("{byte:02X}")).collect()
}

impl Compare {
    pub fn new(seed: u64) -> Compare {
        let mut random = Random::new(seed);
        Compare {
            input: Region::new(4, random.next()),
            output: Region::new(PRIOR / 4096 + 1, random.next()),
            map: Region::new(1, random.next()),
            texts: Region::new(1, random.next()),
            state: Region::new(1, random.next()),
            secret: Region::new(1, random.next()),
            prior: random.bytes(PRIOR),
            random,
            counts: [[0; 12]; CALLS.len()],
            passed: 0,
            failed: 0,
        }
    }

    /// Goes on with another seed, as a run that starts with it.
    pub fn reseed(&mut self, seed: u64) {
        self.random = Random::new(seed);
        self.input.reseed(self.random.next());
        self.output.reseed(self.random.next());
        self.map.reseed(self.random.next());
        self.texts.reseed(self.random.next());
        self.state.reseed(self.random.next());
        self.secret.reseed(self.random.next());
        calls::reseed(self.random.next());
        self.prior = self.random.bytes(PRIOR);
    }

    fn judge(&mut self, call: Call, right: u64, agrees: bool, tell: impl FnOnce() -> String) {
        self.counts[call as usize][(right & 0xFF) as usize] += 1;
        if agrees {
            self.passed += 1;
            return;
        }
        self.failed += 1;
        if self.failed <= SHOWN {
            println!("{}: {}", CALLS[call as usize].0, tell());
        }
    }

    /// A fact about the papers' own examples.
    pub fn fact(&mut self, what: &str, holds: bool) {
        if holds {
            self.passed += 1;
        } else {
            self.failed += 1;
            println!("the papers: {what}");
        }
    }

    /// An answer alone.
    pub fn answer(&mut self, call: Call, got: u64, right: u64) {
        self.judge(call, right, got == right, || {
            format!("length past 2^32, expected {right:#X}, got {got:#X}")
        });
    }

    /// A call that only reads a buffer.
    fn reads(&mut self, call: Call, bytes: &[u8], right: u64, run: impl FnOnce(Lent) -> u64) {
        self.reads_item(call, bytes, 0, right, run);
    }

    /// A call that reads the item `i` of a buffer, or reads it with what the host names.
    fn reads_item(
        &mut self,
        call: Call,
        bytes: &[u8],
        i: impl std::fmt::Debug,
        right: u64,
        run: impl FnOnce(Lent) -> u64,
    ) {
        let lent = self.input.lend(bytes);
        guard::announce(CALLS[call as usize].0, lent, self.passed, self.failed);
        let got = run(lent);
        let kept = self.input.holds(lent, bytes, &[]);
        self.judge(call, right, got == right && kept, || {
            let note = if kept { "" } else { ", input changed" };
            format!(
                "input {}, item {i:?}, expected {right:#X}, got {got:#X}{note}",
                hex(bytes)
            )
        });
    }

    /// A call that reads a buffer, writes to another one of `room` bytes and answers how many it wrote.
    fn writes(
        &mut self,
        call: Call,
        arguments: (&[u8], &[u8]),
        room: usize,
        right: Answer<Vec<u8>>,
        run: impl FnOnce(Lent, Lent) -> u64,
    ) {
        let right = right.map(|written| (written.len() as u64, written));
        self.writes_and_answers(call, arguments, room, right, run);
    }

    /// The same, where `right` has the number that is answered, and then what is written.
    fn writes_and_answers(
        &mut self,
        call: Call,
        (numbers, bytes): (&[u8], &[u8]),
        room: usize,
        right: Answer<(u64, Vec<u8>)>,
        run: impl FnOnce(Lent, Lent) -> u64,
    ) {
        let from = self.random.below(PRIOR - room + 1);
        let prior = &self.prior[from..from + room];
        let lent = self.input.lend(bytes);
        let out = self.output.lend(prior);
        guard::announce(CALLS[call as usize].0, lent, self.passed, self.failed);
        let got = run(lent, out);
        let written = right.as_ref().map_or(&[][..], |(_, written)| written);
        let right = valued(right.as_ref().map(|&(value, _)| value).map_err(|&n| n));
        let same = self.output.holds(out, written, &prior[written.len()..])
            && self.input.holds(lent, bytes, &[]);
        let agrees = got == right && same;
        let told = if agrees {
            String::new()
        } else {
            let after = self.output.content(out);
            let (numbers, input) = (hex(numbers), hex(bytes));
            let (prior, written, after) = (hex(prior), hex(written), hex(&after));
            format!(
                "numbers {numbers}, input {input}, output before {prior}, expected {right:#X} {written}, got {got:#X}, output {after}"
            )
        };
        self.judge(call, right, agrees, || told);
    }

    pub fn frame_read(&mut self, bytes: &[u8]) {
        let right = paper::frame_read(bytes).map(|(kind, data)| [kind, data.len() as u8]);
        let right = packed(right);
        self.reads(Call::FrameRead, bytes, right, calls::omnilink_frame_read);
    }

    pub fn frame_write(&mut self, kind: u8, data: &[u8], room: usize) {
        let right = paper::frame_write(kind, data, room);
        self.writes(Call::FrameWrite, (&[kind], data), room, right, |d, out| {
            calls::omnilink_frame_write(kind, d, out)
        });
    }

    pub fn frame_mend(&mut self, bytes: &[u8], room: usize) {
        let right = paper::frame_mend(bytes, room)
            .map(|(place, frame)| ((place + 65536 * frame.len()) as u64, frame));
        self.writes_and_answers(
            Call::FrameMend,
            (&[], bytes),
            room,
            right,
            calls::frame_mend,
        );
    }

    pub fn message_read(&mut self, bytes: &[u8]) {
        let right = paper::message_read(bytes)
            .map(|(kind, data)| u64::from(kind) + 256 * paper::items(kind, data) as u64);
        self.reads(
            Call::MessageRead,
            bytes,
            valued(right),
            calls::omnilink_message_read,
        );
    }

    pub fn message_write(&mut self, kind: u8, data: &[u8], room: usize) {
        let right = paper::message_write(kind, data, room);
        self.writes(
            Call::MessageWrite,
            (&[kind], data),
            room,
            right,
            |d, out| calls::omnilink_message_write(kind, d, out),
        );
    }

    pub fn zone(&mut self, bytes: &[u8], i: usize) {
        let right = paper::zone(bytes, i);
        let right = packed(right);
        self.reads_item(Call::Zone, bytes, i, right, |b| calls::omnilink_zone(b, i));
    }

    pub fn event(&mut self, bytes: &[u8], i: usize) {
        let right = valued(paper::event(bytes, i).map(u64::from));
        self.reads_item(Call::Event, bytes, i, right, |b| {
            calls::omnilink_event(b, i)
        });
    }

    pub fn text_message(&mut self, bytes: &[u8], i: usize) {
        let right = paper::text_message(bytes, i);
        let right = packed(right);
        self.reads_item(Call::TextMessage, bytes, i, right, |b| {
            calls::omnilink_text_message(b, i)
        });
    }

    pub fn command(&mut self, bytes: &[u8]) {
        let right = paper::command_read(bytes).map(|([command, unit, count], p2)| {
            [command, unit, count, (p2 % 256) as u8, (p2 / 256) as u8]
        });
        let right = packed(right);
        self.reads(Call::Command, bytes, right, calls::omnilink_command);
    }

    pub fn log_entry(&mut self, bytes: &[u8], field: usize) {
        let right = valued(paper::log_entry(bytes, field).map(u64::from));
        self.reads_item(Call::LogEntry, bytes, field, right, |b| {
            calls::omnilink_log_entry(b, field)
        });
    }

    /// All calls that read an Omni-Link message.
    pub fn message_calls(&mut self, bytes: &[u8], i: usize) {
        self.message_read(bytes);
        self.zone(bytes, i);
        self.event(bytes, i);
        self.text_message(bytes, i);
        self.command(bytes);
        self.log_entry(bytes, i);
    }

    /// Lends the state of a door, for a run on it.
    pub fn lend_state(&mut self, state: &[u8]) -> Lent {
        self.state.lend(state)
    }

    /// A message at a door whose state is lent; `state` is changed as the documents say. Tells whether both agree.
    pub fn door_on(
        &mut self,
        lent: Lent,
        secret: &[u8],
        state: &mut Vec<u8>,
        seconds: u32,
        kind: u8,
        data: &[u8],
    ) -> bool {
        let before = state.clone();
        let lent_secret = self.secret.lend(secret);
        let lent_data = self.input.lend(data);
        let name = CALLS[Call::Door as usize].0;
        guard::announce(name, lent_data, self.passed, self.failed);
        let got = calls::login_door(lent_secret, lent, seconds, kind, lent_data);
        let right = paper::login_door(secret, state, seconds, kind, data);
        let right = valued(right.map(u64::from));
        let same = self.state.holds(lent, state, &[])
            && self.secret.holds(lent_secret, secret, &[])
            && self.input.holds(lent_data, data, &[]);
        let agrees = got == right && same;
        let told = if agrees {
            String::new()
        } else {
            let (secret, data) = (hex(secret), hex(data));
            let (before, state) = (hex(&before), hex(state));
            let after = hex(&self.state.content(lent));
            format!(
                "secret {secret}, state {before}, seconds {seconds}, type {kind:02X}, data {data}, \
                 expected {right:#X} and {state}, got {got:#X} and {after}, memory right {same}"
            )
        };
        self.judge(Call::Door, right, agrees, || told);
        agrees
    }

    /// One message at a door.
    pub fn door(
        &mut self,
        secret: &[u8],
        state: &mut Vec<u8>,
        seconds: u32,
        kind: u8,
        data: &[u8],
    ) {
        let lent = self.lend_state(state);
        self.door_on(lent, secret, state, seconds, kind, data);
    }

    pub fn read_at_thermostat(&mut self, bytes: &[u8]) {
        let right = paper::read_at_thermostat(bytes).map(|read| {
            let [start, count, half] = match (read.kind, read.body) {
                (0, Body::Data(data)) => [data[0], data[1], 0],
                (1, Body::Data(data)) => [data[0], data.len() as u8 - 1, 0],
                (_, Body::Data(_)) => [0; 3],
                (_, Body::Text(half, register, text)) => [register, text.len() as u8, half],
            };
            [read.kind, read.first, start, count, half]
        });
        let right = packed(right);
        self.reads(
            Call::ReadAtThermostat,
            bytes,
            right,
            calls::omnistat_read_at_thermostat,
        );
    }

    /// With a habit and a polled group.
    pub fn read_at_host(&mut self, names: [u8; 2], bytes: &[u8]) {
        let right = paper::read_at_host(names, bytes).map(|read| {
            let [start, count, half] = match (read.kind, read.body) {
                (2, Body::Data(data)) => [data[0], data.len() as u8 - 1, 0],
                (_, Body::Data(data)) => [0, data.len() as u8, 0],
                (_, Body::Text(half, register, text)) => [register, text.len() as u8, half],
            };
            [read.kind, read.first, start, count, half]
        });
        let right = packed(right);
        self.reads_item(Call::ReadAtHost, bytes, names, right, |b| {
            calls::omnistat_read_at_host(names, b)
        });
    }

    pub fn write_to_thermostat(&mut self, address: u8, kind: u8, data: &[u8], room: usize) {
        let right = paper::write_to_thermostat(address, kind, data, room);
        let arguments = (&[address, kind][..], data);
        self.writes(Call::WriteToThermostat, arguments, room, right, |d, out| {
            calls::omnistat_write_to_thermostat(address, kind, d, out)
        });
    }

    /// Habit, polled group, number and type.
    pub fn write_to_host(&mut self, numbers: [u8; 4], data: &[u8], room: usize) {
        let right = paper::write_to_host(numbers, data, room);
        let arguments = (&numbers[..], data);
        self.writes(Call::WriteToHost, arguments, room, right, |d, out| {
            calls::omnistat_write_to_host(numbers, d, out)
        });
    }

    /// Habit, polled group, number and group.
    pub fn write_group_to_host(&mut self, numbers: [u8; 4], values: &[u8], room: usize) {
        let right = paper::write_group_to_host(numbers, values, room);
        let arguments = (&numbers[..], values);
        self.writes(Call::WriteGroupToHost, arguments, room, right, |v, out| {
            calls::omnistat_write_group_to_host(numbers, v, out)
        });
    }

    pub fn write_text_to_thermostat(&mut self, numbers: [u8; 3], text: &[u8], room: usize) {
        let right = paper::write_text_to_thermostat(numbers, text, room);
        let arguments = (&numbers[..], text);
        self.writes(
            Call::WriteTextToThermostat,
            arguments,
            room,
            right,
            |t, out| calls::omnistat_write_text_to_thermostat(numbers, t, out),
        );
    }

    pub fn write_text_to_host(&mut self, numbers: [u8; 3], text: &[u8], room: usize) {
        let right = paper::write_text_to_host(numbers, text, room);
        let arguments = (&numbers[..], text);
        self.writes(Call::WriteTextToHost, arguments, room, right, |t, out| {
            calls::omnistat_write_text_to_host(numbers, t, out)
        });
    }

    /// A step; `state` is changed as the documents say.
    pub fn step(&mut self, own: u8, state: &mut State, bytes: &[u8], room: usize) {
        let from = self.random.below(PRIOR - room + 1);
        let prior = &self.prior[from..from + room];
        let lent = self.input.lend(bytes);
        let out = self.output.lend(prior);
        let lent_map = self.map.lend(&state.map);
        let lent_texts = self.texts.lend(&state.texts);
        guard::announce(CALLS[Call::Step as usize].0, lent, self.passed, self.failed);
        let right = paper::step(own, state, bytes, room);
        let got = calls::thermostat_step(own, lent_map, lent_texts, lent, out);
        let written = right.as_deref().unwrap_or(&[]);
        let right = valued(right.as_ref().map(|w| w.len() as u64).map_err(|&n| n));
        let same = self.output.holds(out, written, &prior[written.len()..])
            && self.map.holds(lent_map, &state.map, &[])
            && self.texts.holds(lent_texts, &state.texts, &[])
            && self.input.holds(lent, bytes, &[]);
        let agrees = got == right && same;
        let told = if agrees {
            String::new()
        } else {
            let (input, prior, written) = (hex(bytes), hex(prior), hex(written));
            let (map, texts) = (hex(&state.map), hex(&state.texts));
            let output = hex(&self.output.content(out));
            let got_map = hex(&self.map.content(lent_map));
            let got_texts = hex(&self.texts.content(lent_texts));
            format!(
                "own {own}, input {input}, output before {prior}, expected {right:#X} {written}, map {map}, texts {texts}, \
                 got {got:#X}, output {output}, map {got_map}, texts {got_texts}"
            )
        };
        self.judge(Call::Step, right, agrees, || told);
    }

    pub fn temperature(&mut self, byte: u8) {
        let (right, got) = (paper::celsius(byte), calls::temperature_celsius(byte));
        let same = got.to_bits() == right.to_bits();
        self.judge(Call::Celsius, 0, same, || {
            format!("byte {byte}, expected {right}, got {got}")
        });
        let right = paper::fahrenheit_tenths(byte);
        let got = calls::temperature_fahrenheit_tenths(byte);
        self.judge(Call::FahrenheitTenths, 0, got == right, || {
            format!("byte {byte}, expected {right}, got {got}")
        });
    }

    pub fn setpoints_from_bytes(&mut self, cool: u8, heat: u8) {
        let right = (paper::celsius(cool), paper::celsius(heat));
        let got = calls::setpoints_from_bytes(cool, heat);
        let same =
            (got.cool.to_bits(), got.heat.to_bits()) == (right.0.to_bits(), right.1.to_bits());
        self.judge(Call::SetpointsFromBytes, 0, same, || {
            format!("bytes {cool} {heat}, expected {right:?}, got {got:?}")
        });
    }

    pub fn setpoints_to_bytes(&mut self, cool: f32, heat: f32) {
        let right = paper::setpoint_byte(cool)
            .and_then(|cool| paper::setpoint_byte(heat).map(|heat| [cool, heat]));
        let right = packed(right);
        let got = calls::setpoints_to_bytes(Setpoints { cool, heat });
        self.judge(Call::SetpointsToBytes, right, got == right, || {
            let bits = (cool.to_bits(), heat.to_bits());
            format!("{cool} {heat}, bits {bits:X?}, expected {right:#X}, got {got:#X}")
        });
    }

    pub fn cost(&mut self, word: u16) {
        let right = valued(Ok(paper::cost(word)));
        let got = calls::cost_millionths(word);
        self.judge(Call::Cost, right, got == right, || {
            format!("word {word}, expected {right:#X}, got {got:#X}")
        });
    }

    /// Adds a reply; gives the total that the papers ask for.
    pub fn meter_add(&mut self, total: u64, bytes: &[u8]) -> u64 {
        let reply = self.input.lend(bytes);
        let tally = self.map.lend_aligned(&total.to_ne_bytes(), 8);
        guard::announce(
            CALLS[Call::MeterAdd as usize].0,
            reply,
            self.passed,
            self.failed,
        );
        let got = calls::meter_add(tally, reply);
        let right = paper::meter(total, bytes);
        let after = right.unwrap_or(total);
        let right = valued(right.map(|_| 0));
        let kept =
            self.map.holds(tally, &after.to_ne_bytes(), &[]) && self.input.holds(reply, bytes, &[]);
        self.judge(Call::MeterAdd, right, got == right && kept, || {
            let reply = hex(bytes);
            format!("total {total}, reply {reply}, expected {right} and {after}, got {got}, memory right {kept}")
        });
        after
    }

    pub fn x10_read(&mut self, places: &[u8]) {
        let right = paper::x10_read(places);
        let right = packed(right);
        self.reads(Call::X10Read, places, right, calls::x10_read);
    }

    pub fn x10_write_unit(&mut self, house: u8, unit: u8, room: usize) {
        let right = paper::x10_write_unit(house, unit, room);
        let arguments = (&[house, unit][..], &[][..]);
        self.writes(Call::X10WriteUnit, arguments, room, right, |_, out| {
            calls::x10_write_unit(house, unit, out)
        });
    }

    pub fn x10_write_function(&mut self, house: u8, code: u8, room: usize) {
        let right = paper::x10_write_function(house, code, room);
        let arguments = (&[house, code][..], &[][..]);
        self.writes(Call::X10WriteFunction, arguments, room, right, |_, out| {
            calls::x10_write_function(house, code, out)
        });
    }

    pub fn x10_write_extended(&mut self, [house, unit, data, command]: [u8; 4], room: usize) {
        let right = paper::x10_write_extended(house, unit, data, command, room);
        let arguments = (&[house, unit, data, command][..], &[][..]);
        self.writes(Call::X10WriteExtended, arguments, room, right, |_, out| {
            calls::x10_write_extended(house, unit, data, command, out)
        });
    }

    pub fn listing(&mut self, bytes: &[u8], room: usize) {
        let right = paper::listing(bytes, room);
        self.writes(
            Call::Listing,
            (&[], bytes),
            room,
            right,
            calls::capture_listing,
        );
    }

    /// A piece; `state` is changed as the documents say. Gives what the library wrote, or nothing where it refused.
    pub fn piece(&mut self, state: &mut Vec<u8>, bytes: &[u8], room: usize) -> Vec<u8> {
        let before = state.clone();
        let right = paper::capture_piece(state, bytes, room);
        self.lists(
            Call::Piece,
            (&before, state),
            bytes,
            room,
            right,
            calls::capture_piece,
        )
    }

    /// The finishing call, likewise.
    pub fn finish(&mut self, state: &mut Vec<u8>, room: usize) -> Vec<u8> {
        let before = state.clone();
        let right = paper::capture_finish(state, room);
        self.lists(
            Call::Finish,
            (&before, state),
            &[],
            room,
            right,
            |state, _, out| calls::capture_finish(state, out),
        )
    }

    /// A call of a capture in pieces: the state before it and after it, the piece, the room, and the lines.
    fn lists(
        &mut self,
        call: Call,
        (before, after): (&[u8], &[u8]),
        bytes: &[u8],
        room: usize,
        right: Answer<Vec<u8>>,
        run: impl FnOnce(Lent, Lent, Lent) -> u64,
    ) -> Vec<u8> {
        let from = self.random.below(PRIOR - room + 1);
        let prior = &self.prior[from..from + room];
        let lent = self.input.lend(bytes);
        let out = self.output.lend(prior);
        let state = self.state.lend(before);
        guard::announce(CALLS[call as usize].0, lent, self.passed, self.failed);
        let got = run(state, lent, out);
        let written = right.as_deref().unwrap_or(&[]);
        let right = valued(right.as_ref().map(|w| w.len() as u64).map_err(|&n| n));
        let same = self.output.holds(out, written, &prior[written.len()..])
            && self.state.holds(state, after, &[])
            && self.input.holds(lent, bytes, &[]);
        let agrees = got == right && same;
        let mut output = self.output.content(out);
        let told = if agrees {
            String::new()
        } else {
            let (before, after, input) = (hex(before), hex(after), hex(bytes));
            let (prior, written) = (hex(prior), hex(written));
            let (state, output) = (hex(&self.state.content(state)), hex(&output));
            format!(
                "state {before}, piece {input}, output before {prior}, expected {right:#X} {written}, state {after}, \
                 got {got:#X}, output {output}, state {state}"
            )
        };
        self.judge(call, right, agrees, || told);
        let count = if got & 0xFF == 0 { got >> 8 } else { 0 };
        output.truncate(usize::try_from(count).unwrap_or(0));
        output
    }
}

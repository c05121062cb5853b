//! The calls of include/gateway.h.

use crate::guard::Lent;
use std::sync::atomic::{AtomicU64, Ordering::Relaxed};

/// A setpoint pair in degrees Celsius.
#[repr(C)]
#[derive(Clone, Copy, Debug)]
pub struct Setpoints {
    pub cool: f32,
    pub heat: f32,
}

/// The tally, in millionths.
#[repr(C)]
pub struct Tally {
    pub total: u64,
}

/// The calls, with every narrow number in a whole register.
mod gateway {
    use super::{Setpoints, Tally};

    extern "C" {
        pub fn omnilink_frame_read(bytes: *const u8, len: usize) -> u64;
        pub fn omnilink_frame_write(
            kind: u64,
            data: *const u8,
            len: usize,
            out: *mut u8,
            room: usize,
        ) -> u64;
        pub fn frame_mend(bytes: *const u8, len: usize, out: *mut u8, room: usize) -> u64;
        pub fn omnilink_message_read(bytes: *const u8, len: usize) -> u64;
        pub fn omnilink_message_write(
            kind: u64,
            data: *const u8,
            len: usize,
            out: *mut u8,
            room: usize,
        ) -> u64;
        pub fn omnilink_zone(bytes: *const u8, len: usize, i: usize) -> u64;
        pub fn omnilink_event(bytes: *const u8, len: usize, i: usize) -> u64;
        pub fn omnilink_text_message(bytes: *const u8, len: usize, i: usize) -> u64;
        pub fn omnilink_command(bytes: *const u8, len: usize) -> u64;
        pub fn omnilink_log_entry(bytes: *const u8, len: usize, field: usize) -> u64;
        pub fn login_door(
            secret: *const u8,
            secret_len: usize,
            state: *mut u8,
            state_len: usize,
            seconds: u64,
            kind: u64,
            data: *const u8,
            len: usize,
        ) -> u64;
        pub fn omnistat_read_at_thermostat(bytes: *const u8, len: usize) -> u64;
        pub fn omnistat_read_at_host(habit: u64, polled: u64, bytes: *const u8, len: usize) -> u64;
        pub fn omnistat_write_to_thermostat(
            address: u64,
            kind: u64,
            data: *const u8,
            len: usize,
            out: *mut u8,
            room: usize,
        ) -> u64;
        pub fn omnistat_write_to_host(
            habit: u64,
            polled: u64,
            number: u64,
            kind: u64,
            data: *const u8,
            len: usize,
            out: *mut u8,
            room: usize,
        ) -> u64;
        pub fn omnistat_write_group_to_host(
            habit: u64,
            polled: u64,
            number: u64,
            group: u64,
            values: *const u8,
            len: usize,
            out: *mut u8,
            room: usize,
        ) -> u64;
        pub fn omnistat_write_text_to_thermostat(
            address: u64,
            half: u64,
            start: u64,
            text: *const u8,
            len: usize,
            out: *mut u8,
            room: usize,
        ) -> u64;
        pub fn omnistat_write_text_to_host(
            number: u64,
            half: u64,
            start: u64,
            text: *const u8,
            len: usize,
            out: *mut u8,
            room: usize,
        ) -> u64;
        pub fn thermostat_step(
            own: u64,
            map: *mut u8,
            map_len: usize,
            texts: *mut u8,
            texts_len: usize,
            bytes: *const u8,
            len: usize,
            out: *mut u8,
            room: usize,
        ) -> u64;
        pub fn temperature_celsius(byte: u64) -> f32;
        pub fn temperature_fahrenheit_tenths(byte: u64) -> i32;
        pub fn setpoints_from_bytes(cool: u64, heat: u64) -> Setpoints;
        pub fn setpoints_to_bytes(pair: Setpoints) -> u64;
        pub fn cost_millionths(word: u64) -> u64;
        pub fn meter_add(tally: *mut Tally, bytes: *const u8, len: usize) -> u64;
        pub fn x10_read(places: *const u8, len: usize) -> u64;
        pub fn x10_write_unit(house: u64, unit: u64, out: *mut u8, room: usize) -> u64;
        pub fn x10_write_function(house: u64, code: u64, out: *mut u8, room: usize) -> u64;
        pub fn x10_write_extended(
            house: u64,
            unit: u64,
            data: u64,
            command: u64,
            out: *mut u8,
            room: usize,
        ) -> u64;
        pub fn capture_listing(bytes: *const u8, len: usize, out: *mut u8, room: usize) -> u64;
        pub fn capture_piece(
            state: *mut u8,
            state_len: usize,
            bytes: *const u8,
            len: usize,
            out: *mut u8,
            room: usize,
        ) -> u64;
        pub fn capture_finish(state: *mut u8, state_len: usize, out: *mut u8, room: usize) -> u64;
    }
}

static LAST: AtomicU64 = AtomicU64::new(0);

/// Fixes what `above` gives from here on.
pub fn reseed(seed: u64) {
    LAST.store(seed, Relaxed);
}

/// What stands above the bits of a narrow number in its register: often something else than zeros, which must not matter.
fn above() -> u64 {
    let next = LAST.load(Relaxed).wrapping_add(0x9E37_79B9_7F4A_7C15);
    LAST.store(next, Relaxed);
    if next & 3 == 0 {
        0
    } else {
        next
    }
}

fn byte(number: u8) -> u64 {
    above() << 8 | u64::from(number)
}

fn word(number: u16) -> u64 {
    above() << 16 | u64::from(number)
}

fn double_word(number: u32) -> u64 {
    above() << 32 | u64::from(number)
}

// SAFETY, for all below: a `Lent` names open memory of its length or is empty, and no two of one call overlap.

pub fn omnilink_frame_read(b: Lent) -> u64 {
    unsafe { gateway::omnilink_frame_read(b.pointer, b.len) }
}

pub fn omnilink_frame_write(kind: u8, data: Lent, out: Lent) -> u64 {
    unsafe {
        gateway::omnilink_frame_write(byte(kind), data.pointer, data.len, out.pointer, out.len)
    }
}

pub fn frame_mend(b: Lent, out: Lent) -> u64 {
    unsafe { gateway::frame_mend(b.pointer, b.len, out.pointer, out.len) }
}

pub fn omnilink_message_read(b: Lent) -> u64 {
    unsafe { gateway::omnilink_message_read(b.pointer, b.len) }
}

pub fn omnilink_message_write(kind: u8, data: Lent, out: Lent) -> u64 {
    unsafe {
        gateway::omnilink_message_write(byte(kind), data.pointer, data.len, out.pointer, out.len)
    }
}

pub fn omnilink_zone(b: Lent, i: usize) -> u64 {
    unsafe { gateway::omnilink_zone(b.pointer, b.len, i) }
}

pub fn omnilink_event(b: Lent, i: usize) -> u64 {
    unsafe { gateway::omnilink_event(b.pointer, b.len, i) }
}

pub fn omnilink_text_message(b: Lent, i: usize) -> u64 {
    unsafe { gateway::omnilink_text_message(b.pointer, b.len, i) }
}

pub fn omnilink_command(b: Lent) -> u64 {
    unsafe { gateway::omnilink_command(b.pointer, b.len) }
}

pub fn omnilink_log_entry(b: Lent, field: usize) -> u64 {
    unsafe { gateway::omnilink_log_entry(b.pointer, b.len, field) }
}

pub fn login_door(secret: Lent, state: Lent, seconds: u32, kind: u8, data: Lent) -> u64 {
    unsafe {
        gateway::login_door(
            secret.pointer,
            secret.len,
            state.pointer,
            state.len,
            double_word(seconds),
            byte(kind),
            data.pointer,
            data.len,
        )
    }
}

pub fn omnistat_read_at_thermostat(b: Lent) -> u64 {
    unsafe { gateway::omnistat_read_at_thermostat(b.pointer, b.len) }
}

pub fn omnistat_read_at_host([habit, polled]: [u8; 2], b: Lent) -> u64 {
    unsafe { gateway::omnistat_read_at_host(byte(habit), byte(polled), b.pointer, b.len) }
}

pub fn omnistat_write_to_thermostat(address: u8, kind: u8, data: Lent, out: Lent) -> u64 {
    let (bytes, len) = (data.pointer, data.len);
    unsafe {
        gateway::omnistat_write_to_thermostat(
            byte(address),
            byte(kind),
            bytes,
            len,
            out.pointer,
            out.len,
        )
    }
}

pub fn omnistat_write_to_host(
    [habit, polled, number, kind]: [u8; 4],
    data: Lent,
    out: Lent,
) -> u64 {
    unsafe {
        gateway::omnistat_write_to_host(
            byte(habit),
            byte(polled),
            byte(number),
            byte(kind),
            data.pointer,
            data.len,
            out.pointer,
            out.len,
        )
    }
}

pub fn omnistat_write_group_to_host(
    [habit, polled, number, group]: [u8; 4],
    values: Lent,
    out: Lent,
) -> u64 {
    unsafe {
        gateway::omnistat_write_group_to_host(
            byte(habit),
            byte(polled),
            byte(number),
            byte(group),
            values.pointer,
            values.len,
            out.pointer,
            out.len,
        )
    }
}

pub fn omnistat_write_text_to_thermostat(
    [address, half, start]: [u8; 3],
    text: Lent,
    out: Lent,
) -> u64 {
    unsafe {
        gateway::omnistat_write_text_to_thermostat(
            byte(address),
            byte(half),
            byte(start),
            text.pointer,
            text.len,
            out.pointer,
            out.len,
        )
    }
}

pub fn omnistat_write_text_to_host([number, half, start]: [u8; 3], text: Lent, out: Lent) -> u64 {
    unsafe {
        gateway::omnistat_write_text_to_host(
            byte(number),
            byte(half),
            byte(start),
            text.pointer,
            text.len,
            out.pointer,
            out.len,
        )
    }
}

pub fn thermostat_step(own: u8, map: Lent, texts: Lent, b: Lent, out: Lent) -> u64 {
    unsafe {
        gateway::thermostat_step(
            byte(own),
            map.pointer,
            map.len,
            texts.pointer,
            texts.len,
            b.pointer,
            b.len,
            out.pointer,
            out.len,
        )
    }
}

pub fn temperature_celsius(n: u8) -> f32 {
    unsafe { gateway::temperature_celsius(byte(n)) }
}

pub fn temperature_fahrenheit_tenths(n: u8) -> i32 {
    unsafe { gateway::temperature_fahrenheit_tenths(byte(n)) }
}

pub fn setpoints_from_bytes(cool: u8, heat: u8) -> Setpoints {
    unsafe { gateway::setpoints_from_bytes(byte(cool), byte(heat)) }
}

pub fn setpoints_to_bytes(pair: Setpoints) -> u64 {
    unsafe { gateway::setpoints_to_bytes(pair) }
}

pub fn cost_millionths(w: u16) -> u64 {
    unsafe { gateway::cost_millionths(word(w)) }
}

/// What is lent is the 8 bytes of a tally, aligned.
pub fn meter_add(tally: Lent, b: Lent) -> u64 {
    unsafe { gateway::meter_add(tally.pointer.cast::<Tally>(), b.pointer, b.len) }
}

pub fn x10_read(places: Lent) -> u64 {
    unsafe { gateway::x10_read(places.pointer, places.len) }
}

pub fn x10_write_unit(house: u8, unit: u8, out: Lent) -> u64 {
    unsafe { gateway::x10_write_unit(byte(house), byte(unit), out.pointer, out.len) }
}

pub fn x10_write_function(house: u8, code: u8, out: Lent) -> u64 {
    unsafe { gateway::x10_write_function(byte(house), byte(code), out.pointer, out.len) }
}

pub fn x10_write_extended(house: u8, unit: u8, data: u8, command: u8, out: Lent) -> u64 {
    unsafe {
        gateway::x10_write_extended(
            byte(house),
            byte(unit),
            byte(data),
            byte(command),
            out.pointer,
            out.len,
        )
    }
}

pub fn capture_listing(b: Lent, out: Lent) -> u64 {
    unsafe { gateway::capture_listing(b.pointer, b.len, out.pointer, out.len) }
}

pub fn capture_piece(state: Lent, b: Lent, out: Lent) -> u64 {
    unsafe {
        gateway::capture_piece(
            state.pointer,
            state.len,
            b.pointer,
            b.len,
            out.pointer,
            out.len,
        )
    }
}

pub fn capture_finish(state: Lent, out: Lent) -> u64 {
    unsafe { gateway::capture_finish(state.pointer, state.len, out.pointer, out.len) }
}

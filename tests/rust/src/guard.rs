//! Memory to lend: regions between two guard pages, and a report where a call touches one.

use crate::random::Random;
use std::ffi::{c_int, c_void};
use std::sync::atomic::{AtomicPtr, AtomicU64, AtomicUsize, Ordering::Relaxed};

extern "C" {
    fn mmap(
        at: *mut c_void,
        len: usize,
        access: c_int,
        flags: c_int,
        file: c_int,
        offset: i64,
    ) -> *mut c_void;
    fn mprotect(at: *mut c_void, len: usize, access: c_int) -> c_int;
    fn signal(number: c_int, handler: usize) -> usize;
    fn write(file: c_int, bytes: *const u8, len: usize) -> isize;
    fn _exit(status: c_int) -> !;
}

const NO_ACCESS: c_int = 0;
const READ_AND_WRITE: c_int = 3;
const PRIVATE_ANONYMOUS: c_int = 0x22;
const NO_RESERVE: c_int = 0x4000;
const SIGNAL_BUS: c_int = 7;
const SIGNAL_SEGMENT: c_int = 11;
const PAGE: usize = 4096;

/// Bytes beside a lent buffer that are compared too.
const MARGIN: usize = 24;
const MARGIN_BYTE: u8 = 0xA7;

/// A buffer as a call gets it.
#[derive(Clone, Copy)]
pub struct Lent {
    pub pointer: *mut u8,
    pub len: usize,
}

/// Memory with a guard page before it and one after it.
pub struct Region {
    start: *mut u8,
    size: usize,
    random: Random,
}

impl Region {
    pub fn new(pages: usize, seed: u64) -> Region {
        let size = pages * PAGE;
        // SAFETY: a fresh mapping, whose first and last page are then closed.
        unsafe {
            let whole = mmap(
                std::ptr::null_mut(),
                size + 2 * PAGE,
                READ_AND_WRITE,
                PRIVATE_ANONYMOUS,
                -1,
                0,
            );
            assert!(whole as isize != -1, "no memory");
            let start = whole.cast::<u8>().add(PAGE);
            assert!(mprotect(whole, PAGE, NO_ACCESS) == 0);
            assert!(mprotect(start.add(size).cast(), PAGE, NO_ACCESS) == 0);
            let random = Random::new(seed);
            Region {
                start,
                size,
                random,
            }
        }
    }

    /// Fixes where buffers are placed from here on.
    pub fn reseed(&mut self, seed: u64) {
        self.random = Random::new(seed);
    }

    /// Lends a copy of `content`: it ends at the upper guard page, or starts at the lower one, or lies between them at any
    /// alignment; an empty one may be a null pointer.
    pub fn lend(&mut self, content: &[u8]) -> Lent {
        self.lend_aligned(content, 1)
    }

    /// The same, at a multiple of `align` where the length of `content` is one.
    pub fn lend_aligned(&mut self, content: &[u8], align: usize) -> Lent {
        let len = content.len();
        let spare = self.size - len;
        let draw = self.random.next();
        if len == 0 && draw & 4 == 0 {
            return Lent {
                pointer: std::ptr::null_mut(),
                len,
            };
        }
        let offset = match draw & 3 {
            0 | 1 => spare,
            2 => 0,
            _ => (MARGIN + (draw >> 8) as usize % 64).min(spare) / align * align,
        };
        let (low, high) = self.margins(offset, len);
        let memory = self.memory();
        memory[low..offset].fill(MARGIN_BYTE);
        memory[offset..offset + len].copy_from_slice(content);
        memory[offset + len..high].fill(MARGIN_BYTE);
        Lent {
            pointer: memory[offset..].as_mut_ptr(),
            len,
        }
    }

    /// Whether the lent buffer holds `first` and then `rest`, and the bytes beside it are as they were.
    pub fn holds(&mut self, lent: Lent, first: &[u8], rest: &[u8]) -> bool {
        if lent.pointer.is_null() {
            return first.is_empty() && rest.is_empty();
        }
        let offset = lent.pointer as usize - self.start as usize;
        let (low, high) = self.margins(offset, lent.len);
        let end = offset + lent.len;
        let middle = offset + first.len();
        let memory = self.memory();
        middle <= end
            && memory[offset..middle] == *first
            && memory[middle..end] == *rest
            && memory[low..offset].iter().all(|&b| b == MARGIN_BYTE)
            && memory[end..high].iter().all(|&b| b == MARGIN_BYTE)
    }

    pub fn content(&mut self, lent: Lent) -> Vec<u8> {
        if lent.pointer.is_null() {
            return Vec::new();
        }
        let offset = lent.pointer as usize - self.start as usize;
        self.memory()[offset..offset + lent.len].to_vec()
    }

    fn margins(&self, offset: usize, len: usize) -> (usize, usize) {
        (
            offset.saturating_sub(MARGIN),
            (offset + len + MARGIN).min(self.size),
        )
    }

    fn memory(&mut self) -> &mut [u8] {
        // SAFETY: the region's open pages, which nothing else refers to while no call runs.
        unsafe { std::slice::from_raw_parts_mut(self.start, self.size) }
    }
}

/// Address space past 4 GiB, of which only what is touched becomes memory.
pub struct Long {
    start: *mut u8,
}

impl Long {
    /// More than 32 bits count.
    pub const PAST: usize = 1 << 32;

    pub fn new() -> Option<Long> {
        let (access, flags) = (READ_AND_WRITE, PRIVATE_ANONYMOUS | NO_RESERVE);
        // SAFETY: a fresh mapping.
        let start = unsafe {
            mmap(
                std::ptr::null_mut(),
                Long::PAST + PAGE,
                access,
                flags,
                -1,
                0,
            )
        };
        (start as isize != -1).then_some(Long {
            start: start.cast(),
        })
    }

    /// Lends 2^32 bytes more than `first`, which stands at their start.
    pub fn lend(&mut self, first: &[u8]) -> Lent {
        self.first().fill(0);
        self.first()[..first.len()].copy_from_slice(first);
        Lent {
            pointer: self.start,
            len: Long::PAST + first.len(),
        }
    }

    /// The first bytes.
    pub fn first(&mut self) -> &mut [u8] {
        // SAFETY: open memory that nothing else refers to while no call runs.
        unsafe { std::slice::from_raw_parts_mut(self.start, 1024) }
    }
}

static NAME: AtomicPtr<u8> = AtomicPtr::new(std::ptr::null_mut());
static NAME_LEN: AtomicUsize = AtomicUsize::new(0);
static INPUT: AtomicPtr<u8> = AtomicPtr::new(std::ptr::null_mut());
static INPUT_LEN: AtomicUsize = AtomicUsize::new(0);
static PASSED: AtomicU64 = AtomicU64::new(0);
static FAILED: AtomicU64 = AtomicU64::new(0);

/// Notes which call comes next, for the report of a fault.
pub fn announce(name: &'static str, input: Lent, passed: u64, failed: u64) {
    NAME.store(name.as_ptr().cast_mut(), Relaxed);
    NAME_LEN.store(name.len(), Relaxed);
    INPUT.store(input.pointer, Relaxed);
    INPUT_LEN.store(input.len, Relaxed);
    PASSED.store(passed, Relaxed);
    FAILED.store(failed, Relaxed);
}

/// From here on a touch of a guard page is reported as a failed comparison, and ends the run.
pub fn report_faults() {
    let handler = fault as extern "C" fn(c_int) as usize;
    // SAFETY: the handler only reads the notes above, writes and leaves.
    unsafe {
        signal(SIGNAL_SEGMENT, handler);
        signal(SIGNAL_BUS, handler);
    }
}

extern "C" fn fault(_: c_int) {
    say(b"\nmemory outside the lent buffers touched by ");
    let (name, len) = (NAME.load(Relaxed), NAME_LEN.load(Relaxed));
    // SAFETY: the notes are a static name and the open bytes of a lent input.
    unsafe {
        write(1, name, len);
        say(b", input ");
        let input = INPUT.load(Relaxed);
        for i in 0..INPUT_LEN.load(Relaxed) {
            let byte = usize::from(*input.add(i));
            let digits = b"0123456789ABCDEF";
            say(&[digits[byte / 16], digits[byte % 16]]);
        }
    }
    say(b"\n");
    say_number(PASSED.load(Relaxed));
    say(b" passed, ");
    say_number(FAILED.load(Relaxed) + 1);
    say(b" failed\n");
    // SAFETY: leaves without running anything else.
    unsafe { _exit(1) }
}

fn say(text: &[u8]) {
    // SAFETY: writes the bytes of a slice.
    unsafe {
        write(1, text.as_ptr(), text.len());
    }
}

fn say_number(mut number: u64) {
    let mut digits = [0; 20];
    let mut at = digits.len();
    loop {
        at -= 1;
        digits[at] = b'0' + (number % 10) as u8;
        number /= 10;
        if number == 0 {
            break;
        }
    }
    say(&digits[at..]);
}

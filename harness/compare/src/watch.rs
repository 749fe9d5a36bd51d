//! Names the call that read or wrote outside its slices, or that did not end (Linux).

use std::sync::atomic::{AtomicU64, AtomicUsize, Ordering::Relaxed};

mod system {
    #[repr(C)]
    pub struct Action {
        pub handler: usize,
        pub mask: [u64; 16],
        pub flags: i32,
        pub restorer: usize,
    }

    extern "C" {
        pub fn mmap(
            at: *mut u8,
            size: usize,
            prot: i32,
            flags: i32,
            file: i32,
            from: i64,
        ) -> *mut u8;
        pub fn mprotect(at: *mut u8, size: usize, prot: i32) -> i32;
        pub fn sigaction(signal: i32, new: *const Action, old: *mut Action) -> i32;
        pub fn alarm(seconds: u32) -> u32;
        pub fn write(file: i32, bytes: *const u8, size: usize) -> isize;
        pub fn _exit(code: i32) -> !;
    }
}

const READ_WRITE: i32 = 3;
const NONE: i32 = 0;
const PRIVATE_ANONYMOUS: i32 = 0x22;
const ON_ALTERNATE_STACK: i32 = 0x0800_0000;
/// Illegal instruction, abort, bus error, arithmetic, segment violation.
const FAULTS: [i32; 5] = [4, 6, 7, 8, 11];
const ALARM: i32 = 14;

const SLOTS: usize = 9;
const SLOT_NAMES: [&str; SLOTS] = [
    "wiring",
    "readings",
    "term_index",
    "term_coefficient",
    "list 0",
    "list 1",
    "list 2",
    "list 3",
    "list 4",
];

static CASE: AtomicU64 = AtomicU64::new(0);
static NAME: AtomicUsize = AtomicUsize::new(0);
static NAME_LENGTH: AtomicUsize = AtomicUsize::new(0);
static INDEX: AtomicUsize = AtomicUsize::new(0);
static BITS: AtomicU64 = AtomicU64::new(0);
#[allow(clippy::declare_interior_mutable_const)]
const ZERO: AtomicUsize = AtomicUsize::new(0);
static STARTS: [AtomicUsize; SLOTS] = [ZERO; SLOTS];
static LENGTHS: [AtomicUsize; SLOTS] = [ZERO; SLOTS];

/// Memory of `size` bytes with a stretch behind it that may not be touched.
pub fn guarded(size: usize, guard: usize) -> *mut u8 {
    unsafe {
        let none = std::ptr::null_mut();
        let start = system::mmap(none, size + guard, READ_WRITE, PRIVATE_ANONYMOUS, -1, 0);
        assert!(start as isize != -1, "memory for an input slice");
        assert!(system::mprotect(start.add(size), guard, NONE) == 0, "a guard behind it");
        start
    }
}

pub fn note_case(case: u64) {
    CASE.store(case, Relaxed);
}

pub fn note_call(
    name: &'static str,
    index: usize,
    bits: u64,
    slots: impl Iterator<Item = (usize, usize)>,
) {
    NAME.store(name.as_ptr() as usize, Relaxed);
    NAME_LENGTH.store(name.len(), Relaxed);
    INDEX.store(index, Relaxed);
    BITS.store(bits, Relaxed);
    let none = std::iter::repeat((0, 0));
    for (place, (start, length)) in slots.chain(none).take(SLOTS).enumerate() {
        STARTS[place].store(start, Relaxed);
        LENGTHS[place].store(length, Relaxed);
    }
}

/// Reports a fault in a call, and a run that is not over after this many seconds.
pub fn start(seconds: u32) {
    let action = system::Action {
        handler: report as extern "C" fn(i32) as usize,
        mask: [0; 16],
        flags: ON_ALTERNATE_STACK,
        restorer: 0,
    };
    for &signal in FAULTS.iter().chain(&[ALARM]) {
        unsafe { system::sigaction(signal, &action, std::ptr::null_mut()) };
    }
    unsafe { system::alarm(seconds) };
}

/// Writes without taking memory, as a signal handler must.
fn say(bytes: &[u8]) {
    unsafe { system::write(1, bytes.as_ptr(), bytes.len()) };
}

fn say_number(mut number: u64) {
    let mut digits = [0u8; 20];
    let mut first = digits.len();
    loop {
        first -= 1;
        digits[first] = b'0' + (number % 10) as u8;
        number /= 10;
        if number == 0 {
            break;
        }
    }
    say(&digits[first..]);
}

fn say_hex(byte: u8) {
    let digit = |half: u8| b"0123456789abcdef"[usize::from(half)];
    say(&[digit(byte >> 4), digit(byte & 15)]);
}

extern "C" fn report(signal: i32) {
    if signal == ALARM {
        say(b"\nmismatch: a call did not end: ");
    } else {
        say(b"\nmismatch: signal ");
        say_number(signal as u64);
        say(b" in ");
    }
    let (name, length) = (NAME.load(Relaxed), NAME_LENGTH.load(Relaxed));
    if name != 0 {
        say(unsafe { std::slice::from_raw_parts(name as *const u8, length) });
    }
    say(b", case ");
    say_number(CASE.load(Relaxed));
    say(b", index ");
    say_number(INDEX.load(Relaxed) as u64);
    say(b", raw reading's bits ");
    for byte in BITS.load(Relaxed).to_be_bytes() {
        say_hex(byte);
    }
    say(b"\n");
    for place in 0..SLOTS {
        say(SLOT_NAMES[place].as_bytes());
        say(b": ");
        let (start, length) = (STARTS[place].load(Relaxed), LENGTHS[place].load(Relaxed));
        for byte in 0..length {
            say_hex(unsafe { *((start + byte) as *const u8) });
        }
        say(b"\n");
    }
    unsafe { system::_exit(1) };
}

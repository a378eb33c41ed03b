//! Memory to lend to the library.
//!
//! What is lent stands flush against a page that nobody may touch, before or behind it, and the rest
//! of its own pages holds canaries. So a read or a write past one end ends the program with a line
//! that names the case, and a write past the other end is found afterwards.

use std::sync::atomic::{AtomicU64, Ordering};

const CANARY: u8 = 0xC9;
/// How far around the lent part the canaries are looked at.
const LOOKED_AT: usize = 2_048;
static UNTOUCHED: [u8; LOOKED_AT] = [CANARY; LOOKED_AT];

/// The end of the pages against which the lent part stands.
#[derive(Clone, Copy, PartialEq, Eq, Debug)]
pub enum Side {
    Start,
    End,
}

/// A room of pages for one argument.
pub struct Lent {
    room: &'static mut [u8],
    from: usize,
    to: usize,
}

impl Lent {
    /// A room for at most so many bytes.
    pub fn new(most: usize) -> Lent {
        let room = pages::guarded(most.max(1));
        room.fill(CANARY);
        Lent { room, from: 0, to: 0 }
    }

    /// Puts the content where it is to be lent; answers its address.
    pub fn lend(&mut self, content: &[u8], side: Side) -> *mut u8 {
        self.room[self.from..self.to].fill(CANARY);
        self.from = match side {
            Side::Start => 0,
            Side::End => {
                self.room.len().checked_sub(content.len()).expect("the room is large enough")
            }
        };
        self.to = self.from + content.len();
        self.room[self.from..self.to].copy_from_slice(content);
        self.room[self.from..].as_mut_ptr()
    }

    /// What the lent part holds now.
    pub fn content(&self) -> &[u8] {
        &self.room[self.from..self.to]
    }

    /// Whether the lent part still holds this content, with nothing written around it.
    pub fn keeps(&self, content: &[u8]) -> bool {
        self.content() == content && self.is_intact_around()
    }

    /// Whether nothing was written around the lent part.
    pub fn is_intact_around(&self) -> bool {
        let before = &self.room[self.from.saturating_sub(LOOKED_AT)..self.from];
        let behind = &self.room[self.to..(self.to + LOOKED_AT).min(self.room.len())];
        before == &UNTOUCHED[..before.len()] && behind == &UNTOUCHED[..behind.len()]
    }
}

static SEED: AtomicU64 = AtomicU64::new(0);
static CASE: AtomicU64 = AtomicU64::new(0);

/// Notes which case is being tried, for the line of a program that ends in the middle of it.
pub fn note_case(seed: u64, case: u64) {
    SEED.store(seed, Ordering::Relaxed);
    CASE.store(case, Ordering::Relaxed);
    pages::restart_watch();
}

/// From now on a forbidden access, or a call that does not come back, names its case.
pub fn catch_faults() {
    pages::catch_faults();
}

#[cfg(target_os = "linux")]
mod pages {
    use super::{CASE, SEED};
    use std::ffi::{c_int, c_uint, c_void};
    use std::sync::atomic::Ordering;

    const PAGE: usize = 4_096;
    const NO_ACCESS: c_int = 0;
    const READ_AND_WRITE: c_int = 1 | 2;
    const PRIVATE_AND_ANONYMOUS: c_int = 0x02 | 0x20;
    const FAULTS: [c_int; 4] = [4, 7, 8, 11]; // SIGILL, SIGBUS, SIGFPE, SIGSEGV
    const ALARM: c_int = 14;
    /// Far more than any case takes.
    const WATCH_SECONDS: c_uint = 60;

    extern "C" {
        fn mmap(
            at: *mut c_void,
            length: usize,
            access: c_int,
            kind: c_int,
            file: c_int,
            offset: i64,
        ) -> *mut c_void;
        fn mprotect(at: *mut c_void, length: usize, access: c_int) -> c_int;
        fn signal(number: c_int, handler: extern "C" fn(c_int)) -> usize;
        fn write(file: c_int, bytes: *const c_void, count: usize) -> isize;
        fn alarm(seconds: c_uint) -> c_uint;
        fn _exit(status: c_int) -> !;
    }

    /// Pages for at least `most` bytes, between two that may not be touched. Never given back.
    pub fn guarded(most: usize) -> &'static mut [u8] {
        let inner = most.div_ceil(PAGE) * PAGE;
        // SAFETY: new memory, whose inner pages are made ours alone.
        unsafe {
            let nothing = std::ptr::null_mut();
            let start = mmap(nothing, inner + 2 * PAGE, NO_ACCESS, PRIVATE_AND_ANONYMOUS, -1, 0);
            assert!(start as isize != -1, "no memory");
            let start = start.cast::<u8>().add(PAGE);
            assert!(mprotect(start.cast(), inner, READ_AND_WRITE) == 0, "no memory");
            std::slice::from_raw_parts_mut(start, inner)
        }
    }

    pub fn catch_faults() {
        for number in FAULTS {
            // SAFETY: the handler only loads atomics, writes and exits.
            unsafe { signal(number, tell_and_exit) };
        }
        // SAFETY: as above.
        unsafe { signal(ALARM, tell_and_exit) };
    }

    pub fn restart_watch() {
        // SAFETY: sets a timer.
        unsafe { alarm(WATCH_SECONDS) };
    }

    extern "C" fn tell_and_exit(number: c_int) {
        let why: &[u8] = match number {
            ALARM => b"a call did not come back",
            _ => b"a call touched memory that was not lent, or otherwise faulted",
        };
        tell(b"\ndifference: ");
        tell(why);
        tell(b"\n  again: differential --seed ");
        tell_number(SEED.load(Ordering::Relaxed));
        tell(b" --case ");
        tell_number(CASE.load(Ordering::Relaxed));
        tell(b"\n");
        // SAFETY: ends the program.
        unsafe { _exit(1) }
    }

    fn tell(bytes: &[u8]) {
        // SAFETY: the bytes are there for their length.
        unsafe { write(1, bytes.as_ptr().cast(), bytes.len()) };
    }

    /// By hand: nothing that allocates may run in a signal handler.
    fn tell_number(mut number: u64) {
        let mut digits = [0; 20];
        let mut first = digits.len();
        loop {
            first -= 1;
            digits[first] = b'0' + (number % 10) as u8;
            number /= 10;
            if number == 0 {
                break;
            }
        }
        tell(&digits[first..]);
    }
}

/// Elsewhere there are only the canaries.
#[cfg(not(target_os = "linux"))]
mod pages {
    pub fn guarded(most: usize) -> &'static mut [u8] {
        // In words, so that cells stand at an address that 8 divides.
        let words = vec![0u64; most.div_ceil(8) + 512].leak();
        // SAFETY: bytes of memory that is never given back and that nothing else names.
        unsafe { std::slice::from_raw_parts_mut(words.as_mut_ptr().cast(), words.len() * 8) }
    }

    pub fn catch_faults() {}

    pub fn restart_watch() {}
}

//! An older library of the same five C functions, if `build.rs` was given one.

use mistdrover::raw::Answer;

/// The functions of the older library.
#[derive(Clone, Copy)]
pub struct Older(Functions);

/// What a call returns: the refusal number and the answer, which an older library may give otherwise
/// than the present one; so nothing is made of them here.
pub type Returned = (u32, Answer);

#[derive(Clone, Copy)]
struct Functions {
    read: Read,
    check: Check,
    find: Find,
    level: Level,
    run: Run,
}

type Read = unsafe extern "C" fn(*const u8, usize, *mut Answer) -> u32;
type Check = unsafe extern "C" fn(*const u8, usize, *const u8, usize, *mut Answer) -> u32;
type Find = unsafe extern "C" fn(*const u8, usize, *mut u8, usize, *mut Answer) -> u32;
type Level = unsafe extern "C" fn(
    *const u8,
    usize,
    *const u8,
    usize,
    u64,
    *const u8,
    usize,
    *const u8,
    usize,
    *mut Answer,
) -> u32;
type Run = unsafe extern "C" fn(
    *const u8,
    usize,
    u64,
    *const u32,
    usize,
    u64,
    *mut u32,
    usize,
    *mut Answer,
) -> u32;

/// Whether there is an older library is settled when the benchmark is built.
#[cfg(not(older))]
pub fn linked() -> Option<Older> {
    None
}

/// Whether there is an older library is settled when the benchmark is built.
#[cfg(older)]
pub fn linked() -> Option<Older> {
    Some(Older(Functions {
        read: renamed::older_md_read,
        check: renamed::older_md_check,
        find: renamed::older_md_find,
        level: renamed::older_md_level,
        run: renamed::older_md_run,
    }))
}

#[cfg(older)]
mod renamed {
    use super::Answer;

    extern "C" {
        pub fn older_md_read(book: *const u8, book_len: usize, answer: *mut Answer) -> u32;

        pub fn older_md_check(
            book: *const u8,
            book_len: usize,
            summary: *const u8,
            summary_len: usize,
            answer: *mut Answer,
        ) -> u32;

        pub fn older_md_find(
            book: *const u8,
            book_len: usize,
            buffer: *mut u8,
            buffer_len: usize,
            answer: *mut Answer,
        ) -> u32;

        pub fn older_md_level(
            book: *const u8,
            book_len: usize,
            table: *const u8,
            table_len: usize,
            procedure: u64,
            levels: *const u8,
            levels_len: usize,
            summary: *const u8,
            summary_len: usize,
            answer: *mut Answer,
        ) -> u32;

        pub fn older_md_run(
            book: *const u8,
            book_len: usize,
            procedure: u64,
            inputs: *const u32,
            inputs_len: usize,
            budget: u64,
            work: *mut u32,
            work_len: usize,
            answer: *mut Answer,
        ) -> u32;
    }
}

// SAFETY, of every call below: a slice's pointer is not null and aligned, stands for its length, and
// what is written is borrowed mutably, so it overlaps nothing else.
impl Older {
    /// `md_read`.
    pub fn read(self, book: &[u8]) -> Returned {
        answered(|answer| unsafe { (self.0.read)(book.as_ptr(), book.len(), answer) })
    }

    /// `md_check`.
    pub fn check(self, book: &[u8], summary: &[u8]) -> Returned {
        answered(|answer| unsafe {
            (self.0.check)(book.as_ptr(), book.len(), summary.as_ptr(), summary.len(), answer)
        })
    }

    /// `md_find`.
    pub fn find(self, book: &[u8], buffer: &mut [u8]) -> Returned {
        answered(|answer| unsafe {
            (self.0.find)(book.as_ptr(), book.len(), buffer.as_mut_ptr(), buffer.len(), answer)
        })
    }

    /// `md_level`.
    pub fn level(
        self,
        book: &[u8],
        table: &[u8],
        procedure: u64,
        levels: &[u8],
        summary: &[u8],
    ) -> Returned {
        answered(|answer| unsafe {
            (self.0.level)(
                book.as_ptr(),
                book.len(),
                table.as_ptr(),
                table.len(),
                procedure,
                levels.as_ptr(),
                levels.len(),
                summary.as_ptr(),
                summary.len(),
                answer,
            )
        })
    }

    /// `md_run`.
    pub fn run(
        self,
        book: &[u8],
        procedure: u64,
        inputs: &[u32],
        budget: u64,
        work: &mut [u32],
    ) -> Returned {
        answered(|answer| unsafe {
            (self.0.run)(
                book.as_ptr(),
                book.len(),
                procedure,
                inputs.as_ptr(),
                inputs.len(),
                budget,
                work.as_mut_ptr(),
                work.len(),
                answer,
            )
        })
    }
}

/// The answer begins as zeros, as in the wrapper of the present library, so that both pay for that.
fn answered(function: impl FnOnce(&mut Answer) -> u32) -> Returned {
    let mut answer = [0; 8];
    let refusal = function(&mut answer);
    (refusal, answer)
}

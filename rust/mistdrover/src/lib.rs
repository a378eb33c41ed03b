//! Mistdrover from Rust: safe functions over the proved library.
//!
//! A *book* holds the procedures of a recipe. [`find`] tells on which parameters each procedure's
//! answer may rest, as a *summary*; [`check`] tells whether a summary keeps the flow rules;
//! [`level`] turns one into a level of a table; [`run`] runs a procedure; [`read`] says whether a
//! book is readable and how long its summaries are.
//!
//! Any bytes may be given to any function. A refused call changes nothing that was lent.
//!
//! ```
//! // One procedure of one parameter that returns it.
//! let book = [0x01, 0x07, 0x00, 0x03, 0x00, 0x01, 0x00, 0x04, 0x11, 0x00];
//! let summary = mistdrover::find_summary(&book)?;
//! assert_eq!(summary, [0b1]); // its answer may rest on parameter 0
//!
//! let mut work = mistdrover::work_space();
//! let run = mistdrover::run(&book, 0, &[9], 1_000, &mut work)?;
//! assert_eq!((run.value, run.steps), (9, 2));
//! # Ok::<(), mistdrover::Refusal>(())
//! ```

pub mod raw;
mod refusal;

pub use refusal::Refusal;

use raw::Answer;

/// The fewest cells of a work space, and the number of cells a run clears.
pub const WORK_CELLS: usize = 1_024;
/// The greatest budget.
pub const MOST_STEPS: u64 = 1_000_000;
/// No summary is longer: 32 results, and 64 rows of 16 sets.
pub const MOST_SUMMARY_BYTES: usize = 32 + 64 * 16;

/// A thread whose stack has so many bytes has room for any [`run`], whatever the book: forms nested
/// to depth 24 in each of 64 calls that are open at once use 284 KiB of it. Not proved;
/// `tests/stack.rs` tries it on every kind of nesting.
pub const STACK_OF_A_RUN: usize = 416 * 1_024;

/// How a run ended.
#[derive(Clone, Copy, Debug, PartialEq, Eq, Hash)]
pub enum Ending {
    Finished,
    OutOfSteps,
    TooDeep,
}

impl Ending {
    fn numbered(number: u64) -> Ending {
        match number {
            1 => Ending::Finished,
            2 => Ending::OutOfSteps,
            3 => Ending::TooDeep,
            other => panic!("the library answered the unknown ending {other}"),
        }
    }
}

/// What a run that was not refused answers.
#[derive(Clone, Copy, Debug, PartialEq, Eq, Hash)]
pub struct Run {
    pub ending: Ending,
    /// 0 unless finished.
    pub value: u32,
    /// The steps spent.
    pub steps: u64,
}

/// What the finder answers.
#[derive(Clone, Copy, Debug, PartialEq, Eq, Hash)]
pub struct Found {
    /// The bytes written.
    pub size: usize,
    /// The rounds made, the last of which added nothing.
    pub rounds: u64,
}

/// A work space of the fewest cells, for [`run`].
pub fn work_space() -> Vec<u32> {
    vec![0; WORK_CELLS]
}

/// Reads a book; answers the size of its summaries.
///
/// Refusals: 1 to 4.
pub fn read(book: &[u8]) -> Result<usize, Refusal> {
    let answer = call(|answer| {
        // SAFETY: the pointers stand for the slices' lengths, and nothing overlaps the answer.
        unsafe { raw::md_read(pointer(book, &0), book.len(), answer) }
    })?;
    Ok(answer[0] as usize)
}

/// Runs procedure `procedure` of the book on `inputs`, spending at most `budget` steps.
///
/// `work` needs at least [`WORK_CELLS`] cells; after a run that is not refused the first
/// [`WORK_CELLS`] are 0 and the others unchanged. The thread's stack needs [`STACK_OF_A_RUN`] bytes.
///
/// Refusals: 1 to 4, 6, 7, 10, 11.
pub fn run(
    book: &[u8],
    procedure: u64,
    inputs: &[u32],
    budget: u64,
    work: &mut [u32],
) -> Result<Run, Refusal> {
    let work_len = work.len();
    let mut spare = 0;
    let work = pointer_mut(work, &mut spare);
    let answer = call(|answer| {
        // SAFETY: as in `read`; `work` is borrowed mutably, so it overlaps no other argument.
        unsafe {
            raw::md_run(
                pointer(book, &0),
                book.len(),
                procedure,
                pointer(inputs, &0),
                inputs.len(),
                budget,
                work,
                work_len,
                answer,
            )
        }
    })?;
    Ok(Run { ending: Ending::numbered(answer[0]), value: answer[1] as u32, steps: answer[2] })
}

/// Checks a summary: `Ok` exactly when it satisfies the flow rules.
///
/// Refusals: 1 to 4, 8, 9.
pub fn check(book: &[u8], summary: &[u8]) -> Result<(), Refusal> {
    call(|answer| {
        // SAFETY: as in `read`.
        unsafe {
            raw::md_check(
                pointer(book, &0),
                book.len(),
                pointer(summary, &0),
                summary.len(),
                answer,
            )
        }
    })?;
    Ok(())
}

/// Finds the least summary that satisfies the flow rules, and writes it into the first
/// [`Found::size`] bytes of `buffer`; the others are unchanged.
///
/// Refusals: 1 to 4, 8.
pub fn find(book: &[u8], buffer: &mut [u8]) -> Result<Found, Refusal> {
    let buffer_len = buffer.len();
    let mut spare = 0;
    let buffer = pointer_mut(buffer, &mut spare);
    let answer = call(|answer| {
        // SAFETY: as in `run`, with `buffer` for `work`.
        unsafe { raw::md_find(pointer(book, &0), book.len(), buffer, buffer_len, answer) }
    })?;
    Ok(Found { size: answer[0] as usize, rounds: answer[1] })
}

/// [`find`] into a vector of exactly the summary's size.
///
/// Refusals: 1 to 4.
pub fn find_summary(book: &[u8]) -> Result<Vec<u8>, Refusal> {
    let mut summary = vec![0; MOST_SUMMARY_BYTES];
    let found = find(book, &mut summary)?;
    summary.truncate(found.size);
    Ok(summary)
}

/// Reports the level of procedure `procedure`: the table's bottom joined with the levels of the
/// parameters in its result set. `levels` holds one level per parameter.
///
/// With any accepted summary, two finished runs whose inputs are equal wherever the level is at or
/// below the reported level give equal values.
///
/// Refusals: 1 to 9.
pub fn level(
    book: &[u8],
    table: &[u8],
    procedure: u64,
    levels: &[u8],
    summary: &[u8],
) -> Result<u8, Refusal> {
    let answer = call(|answer| {
        // SAFETY: as in `read`.
        unsafe {
            raw::md_level(
                pointer(book, &0),
                book.len(),
                pointer(table, &0),
                table.len(),
                procedure,
                pointer(levels, &0),
                levels.len(),
                pointer(summary, &0),
                summary.len(),
                answer,
            )
        }
    })?;
    Ok(answer[0] as u8)
}

fn call(function: impl FnOnce(&mut Answer) -> u32) -> Result<Answer, Refusal> {
    let mut answer = [0; 8];
    match Refusal::numbered(function(&mut answer)) {
        None => Ok(answer),
        Some(refusal) => Err(refusal),
    }
}

/// A pointer to the slice's first element. That of an empty slice need not point to anything, so
/// the spare element stands in for it.
fn pointer<T>(slice: &[T], spare: &T) -> *const T {
    if slice.is_empty() {
        spare
    } else {
        slice.as_ptr()
    }
}

fn pointer_mut<T>(slice: &mut [T], spare: &mut T) -> *mut T {
    if slice.is_empty() {
        spare
    } else {
        slice.as_mut_ptr()
    }
}

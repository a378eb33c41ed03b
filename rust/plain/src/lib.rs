//! Document 01 ("The rules and what will be built") in plain safe Rust.
//!
//! This is the second opinion against which the proved library is compared. It is written from the
//! document and from the readings fixed in docs/DECISIONS.md, never from the proved code. A book is
//! read once into a tree; running and walking then go over the tree.
//!
//! The five entries make their tests in the order of the refusal numbers, so the lowest number that
//! applies is the one returned, and nothing lent is written before the last test.

#![forbid(unsafe_code)]

mod book;
mod flow;
mod levels;
mod refusal;
mod runner;

pub use flow::Found;
pub use refusal::Refusal;
pub use runner::{Ending, Run};

use book::{Book, Procedure};
use levels::LevelTable;

/// The fewest cells of a work space, and the number of cells a run clears.
pub const WORK_CELLS: usize = 1_024;
/// The greatest budget.
pub const MOST_STEPS: u64 = 1_000_000;

/// The reader: the size of the book's summary.
pub fn read(book: &[u8]) -> Result<usize, Refusal> {
    Ok(Book::read(book)?.summary_size())
}

/// The runner. After a run that is not refused the first 1,024 cells of `work` are 0.
pub fn run(
    book: &[u8],
    procedure: u64,
    inputs: &[u32],
    budget: u64,
    work: &mut [u32],
) -> Result<Run, Refusal> {
    let book = Book::read(book)?;
    let (number, started) = procedure_of(&book, procedure)?;
    if inputs.len() != started.parameters {
        return Err(Refusal::Inputs);
    }
    if work.len() < WORK_CELLS {
        return Err(Refusal::WorkSpace);
    }
    if budget > MOST_STEPS {
        return Err(Refusal::Budget);
    }
    Ok(runner::run(&book, number, inputs, budget as u32, &mut work[..WORK_CELLS]))
}

/// The checker: whether the summary satisfies the flow rules.
pub fn check(book: &[u8], summary: &[u8]) -> Result<(), Refusal> {
    let book = Book::read(book)?;
    accepted(&book, summary)
}

/// The finder: writes the least summary into the first `size` bytes of `buffer`.
pub fn find(book: &[u8], buffer: &mut [u8]) -> Result<Found, Refusal> {
    let book = Book::read(book)?;
    let size = book.summary_size();
    if buffer.len() < size {
        return Err(Refusal::SummaryLength);
    }
    let summary = &mut buffer[..size];
    summary.fill(0);
    let rounds = flow::rounds_from(&book, summary);
    Ok(Found { size, rounds })
}

/// The level reporter.
pub fn level(
    book: &[u8],
    table: &[u8],
    procedure: u64,
    levels: &[u8],
    summary: &[u8],
) -> Result<u8, Refusal> {
    let book = Book::read(book)?;
    let table = LevelTable::read(table).ok_or(Refusal::LevelTable)?;
    let (number, asked) = procedure_of(&book, procedure)?;
    if levels.len() != asked.parameters || levels.iter().any(|&level| !table.holds(level)) {
        return Err(Refusal::Inputs);
    }
    accepted(&book, summary)?;
    Ok(table.reported(summary[number], levels))
}

/// Not an entry of the document: enlarges `summary` by rounds until a round adds nothing. Begun with
/// any sets that name only parameters there are, it ends with an accepted summary, seldom the least.
/// The tests use it to have accepted summaries that the finder would not give.
pub fn enlarge(book: &[u8], summary: &mut [u8]) -> Result<u64, Refusal> {
    let book = Book::read(book)?;
    if summary.len() != book.summary_size() {
        return Err(Refusal::SummaryLength);
    }
    Ok(flow::rounds_from(&book, summary))
}

/// Not an entry of the document: the largest summary that names only parameters there are. It is
/// always accepted.
pub fn widest(book: &[u8]) -> Result<Vec<u8>, Refusal> {
    Ok(flow::widest(&Book::read(book)?))
}

/// Not an entry of the document: whether level `a` is at or below level `b` in a valid table.
pub fn at_or_below(table: &[u8], a: u8, b: u8) -> Option<bool> {
    let table = LevelTable::read(table)?;
    (table.holds(a) && table.holds(b)).then(|| table.join(a, b) == b)
}

fn procedure_of(book: &Book, number: u64) -> Result<(usize, &Procedure), Refusal> {
    // The number may be anything that 64 bits hold, so it is compared before it is narrowed.
    let number = usize::try_from(number).map_err(|_| Refusal::NoProcedure)?;
    let procedure = book.procedures.get(number).ok_or(Refusal::NoProcedure)?;
    Ok((number, procedure))
}

fn accepted(book: &Book, summary: &[u8]) -> Result<(), Refusal> {
    if summary.len() != book.summary_size() {
        return Err(Refusal::SummaryLength);
    }
    if !flow::satisfies(book, summary) {
        return Err(Refusal::Rules);
    }
    Ok(())
}

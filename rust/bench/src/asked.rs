//! The entries, asked of all implementations on the same book.

use crate::measure::{Compare, Costs};
use crate::older::{self, Older};
use cases::edges::DIAMOND;
use std::hint::black_box;

/// An entry as it is asked, to be timed or otherwise compared.
pub type Entry<By> = fn(&Asked, By) -> Costs;

/// A book with all that its entries are asked with.
pub struct Asked {
    pub book: Vec<u8>,
    /// The least summary.
    pub summary: Vec<u8>,
    /// What the older library calls so: its rules may be others.
    older_summary: Vec<u8>,
    levels: Vec<u8>,
    inputs: Vec<u32>,
}

impl Asked {
    /// A book of which every entry is asked.
    pub fn new(book: Vec<u8>) -> Asked {
        let parameters = usize::from(book[5]);
        let mut summary = vec![0; plain::read(&book).expect("readable")];
        plain::find(&book, &mut summary).expect("readable");
        let older_summary = older::linked().map(|older| found(older, &book)).unwrap_or_default();
        let levels = (0..parameters).map(|input| (input % 4) as u8).collect();
        Asked { book, summary, older_summary, levels, inputs: vec![3; parameters] }
    }

    /// A book that is only run.
    pub fn to_run(book: Vec<u8>, inputs: Vec<u32>) -> Asked {
        Asked { book, summary: vec![], older_summary: vec![], levels: vec![], inputs }
    }

    /// Reads the book: what every other entry does first.
    pub fn read<By: Compare>(&self, by: By) -> Costs {
        by.compare(
            || of_ours(black_box(mistdrover::read(black_box(&self.book)))),
            older::linked().map(|older| move || black_box(older.read(black_box(&self.book))).0),
            || of_plain(black_box(plain::read(black_box(&self.book)))),
        )
    }

    /// Checks the least summary, so that the check goes to its end.
    pub fn check<By: Compare>(&self, by: By) -> Costs {
        by.compare(
            || of_ours(black_box(mistdrover::check(black_box(&self.book), &self.summary))),
            older::linked().map(|older| {
                move || black_box(older.check(black_box(&self.book), &self.older_summary)).0
            }),
            || of_plain(black_box(plain::check(black_box(&self.book), &self.summary))),
        )
    }

    /// Finds into buffers of the summary's size, which hold it already: a finder starts anew anyway.
    pub fn find<By: Compare>(&self, by: By) -> Costs {
        let mut buffer = self.summary.clone();
        let mut older_buffer = self.older_summary.clone();
        let mut plain_buffer = self.summary.clone();
        by.compare(
            || of_ours(black_box(mistdrover::find(black_box(&self.book), &mut buffer))),
            older::linked().map(|older| {
                move || black_box(older.find(black_box(&self.book), &mut older_buffer)).0
            }),
            || of_plain(black_box(plain::find(black_box(&self.book), &mut plain_buffer))),
        )
    }

    /// Reports on procedure 0, which checks the least summary first.
    pub fn level<By: Compare>(&self, by: By) -> Costs {
        let Asked { book, summary, older_summary, levels, .. } = self;
        by.compare(
            || {
                let level = mistdrover::level(black_box(book), &DIAMOND, 0, levels, summary);
                of_ours(black_box(level))
            },
            older::linked().map(|older| {
                move || {
                    black_box(older.level(black_box(book), &DIAMOND, 0, levels, older_summary)).0
                }
            }),
            || of_plain(black_box(plain::level(black_box(book), &DIAMOND, 0, levels, summary))),
        )
    }

    /// Runs procedure 0, each implementation in a work space of its own.
    pub fn run<By: Compare>(&self, by: By, budget: u64) -> Costs {
        let Asked { book, inputs, .. } = self;
        let mut work = mistdrover::work_space();
        let mut older_work = mistdrover::work_space();
        let mut plain_work = mistdrover::work_space();
        by.compare(
            || {
                let run = mistdrover::run(black_box(book), 0, inputs, budget, &mut work);
                of_ours(black_box(run))
            },
            older::linked().map(|older| {
                move || black_box(older.run(black_box(book), 0, inputs, budget, &mut older_work)).0
            }),
            || {
                let run = plain::run(black_box(book), 0, inputs, budget, &mut plain_work);
                of_plain(black_box(run))
            },
        )
    }

    /// The steps that a run spends.
    pub fn steps(&self, budget: u64) -> u64 {
        let mut work = mistdrover::work_space();
        let run = plain::run(&self.book, 0, &self.inputs, budget, &mut work);
        run.expect("not refused").steps.into()
    }

    /// The rounds that the finder makes.
    pub fn rounds(&self) -> u64 {
        plain::find(&self.book, &mut self.summary.clone()).expect("readable").rounds
    }
}

/// The older library's own summary, so that its checker has one to accept.
fn found(older: Older, book: &[u8]) -> Vec<u8> {
    let mut summary = vec![0; mistdrover::MOST_SUMMARY_BYTES];
    let (_, answer) = older.find(book, &mut summary);
    summary.truncate(answer[0] as usize);
    summary
}

/// The number under which a result is compared with that of the older library.
fn of_ours<T>(result: Result<T, mistdrover::Refusal>) -> u32 {
    result.err().map_or(0, mistdrover::Refusal::number)
}

/// As `of_ours`, so that all calls answer alike.
fn of_plain<T>(result: Result<T, plain::Refusal>) -> u32 {
    result.err().map_or(0, plain::Refusal::number)
}

//! The plain implementation behind the form of the C interface.

use crate::{Answer, Entries};
use plain::Refusal;

pub struct PlainEntries;

impl Entries for PlainEntries {
    fn read(&mut self, book: &[u8]) -> Answer {
        answer(plain::read(book).map(|size| [size as u64]))
    }

    fn run(
        &mut self,
        book: &[u8],
        procedure: u64,
        inputs: &[u32],
        budget: u64,
        work: &mut [u32],
    ) -> Answer {
        let run = plain::run(book, procedure, inputs, budget, work);
        answer(run.map(|run| [run.ending as u64, run.value.into(), run.steps.into()]))
    }

    fn check(&mut self, book: &[u8], summary: &[u8]) -> Answer {
        answer(plain::check(book, summary).map(|()| []))
    }

    fn find(&mut self, book: &[u8], buffer: &mut [u8]) -> Answer {
        answer(plain::find(book, buffer).map(|found| [found.size as u64, found.rounds]))
    }

    fn level(
        &mut self,
        book: &[u8],
        table: &[u8],
        procedure: u64,
        levels: &[u8],
        summary: &[u8],
    ) -> Answer {
        let level = plain::level(book, table, procedure, levels, summary);
        answer(level.map(|level| [level.into()]))
    }
}

fn answer<const N: usize>(result: Result<[u64; N], Refusal>) -> Answer {
    match result {
        Ok(fields) => Answer::given(&fields),
        Err(refusal) => Answer::refused(refusal.number()),
    }
}

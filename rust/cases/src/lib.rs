//! What every implementation of document 01 is tried on.
//!
//! `worked` and `edges` hold cases with the answers that the document gives; they are written over
//! [`Entries`], so that the plain implementation, the proved library and any other are held to the
//! same lines. `books`, `damage` and `tables` make random material from a seed, `deepest` the runs
//! that need the most stack.

#![forbid(unsafe_code)]

pub mod assemble;
pub mod books;
pub mod damage;
pub mod deepest;
pub mod edges;
pub mod plain_entries;
pub mod random;
pub mod tables;
pub mod worked;

pub use plain_entries::PlainEntries;

/// An answer as the C interface gives it: the refusal number, 0 for none, and the fields.
#[derive(Clone, Copy, Debug, PartialEq, Eq)]
pub struct Answer {
    pub refusal: u32,
    pub fields: [u64; 8],
}

impl Answer {
    /// A refusal: every other field is 0.
    pub fn refused(refusal: u32) -> Answer {
        Answer { refusal, fields: [0; 8] }
    }

    /// An answer that is not refused, its fields from index 0.
    pub fn given(fields: &[u64]) -> Answer {
        let mut answer = Answer::refused(0);
        answer.fields[..fields.len()].copy_from_slice(fields);
        answer
    }
}

/// The five entries of document 01.
pub trait Entries {
    fn read(&mut self, book: &[u8]) -> Answer;

    fn run(
        &mut self,
        book: &[u8],
        procedure: u64,
        inputs: &[u32],
        budget: u64,
        work: &mut [u32],
    ) -> Answer;

    fn check(&mut self, book: &[u8], summary: &[u8]) -> Answer;

    fn find(&mut self, book: &[u8], buffer: &mut [u8]) -> Answer;

    fn level(
        &mut self,
        book: &[u8],
        table: &[u8],
        procedure: u64,
        levels: &[u8],
        summary: &[u8],
    ) -> Answer;
}

/// The numbers of the endings.
pub const FINISHED: u64 = 1;
pub const OUT_OF_STEPS: u64 = 2;
pub const TOO_DEEP: u64 = 3;

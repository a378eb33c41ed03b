//! The proved library, called through its C interface on guarded memory.

use crate::lent::{Lent, Side};
use cases::{Answer, Entries};
use mistdrover::raw;

/// The largest of any argument.
const MOST_BYTES: usize = 300_000;
/// What the answer holds before a call: the library must fill every element.
const JUNK: u64 = 0x5A5A_0F0F_1234_8001;

pub struct Library {
    book: Lent,
    table: Lent,
    /// Inputs or their levels.
    inputs: Lent,
    summary: Lent,
    /// Work space or buffer.
    written: Lent,
    answer: Lent,
    calls: usize,
    /// What the last call did that it must not do.
    trespass: Option<&'static str>,
}

impl Library {
    pub fn new() -> Library {
        Library {
            book: Lent::new(MOST_BYTES),
            table: Lent::new(MOST_BYTES),
            inputs: Lent::new(MOST_BYTES),
            summary: Lent::new(MOST_BYTES),
            written: Lent::new(MOST_BYTES),
            answer: Lent::new(64),
            calls: 0,
            trespass: None,
        }
    }

    /// Starts a case anew: which side lent memory is flush with depends only on the case.
    pub fn begin_case(&mut self, case: u64) {
        self.calls = case as usize;
        self.trespass = None;
    }

    /// What the last call did that it must not do.
    pub fn trespass(&self) -> Option<&'static str> {
        self.trespass
    }

    fn next_side(&mut self) -> Side {
        self.calls += 1;
        match self.calls % 2 {
            0 => Side::End,
            _ => Side::Start,
        }
    }

    fn lend_answer(&mut self, side: Side) -> *mut raw::Answer {
        let junk: Vec<u8> = [JUNK; 8].iter().flat_map(|field| field.to_ne_bytes()).collect();
        self.answer.lend(&junk, side).cast()
    }

    /// The answer; `kept` says whether every argument that is only read is as it was.
    fn finish(&mut self, refusal: u32, kept: bool) -> Answer {
        self.trespass = if !self.written.is_intact_around() || !self.answer.is_intact_around() {
            Some("something was written beyond lent memory")
        } else if !kept {
            Some("an argument that is only read was changed")
        } else {
            None
        };
        let mut fields = [0; 8];
        for (field, bytes) in fields.iter_mut().zip(self.answer.content().chunks_exact(8)) {
            *field = u64::from_ne_bytes(bytes.try_into().expect("eight bytes"));
        }
        Answer { refusal, fields }
    }
}

// SAFETY of the calls: every address comes from `Lent::lend` with the content's length; each room is
// another allocation, so nothing overlaps; cells and fields fill whole words from a page's end or
// start, so they are aligned.
impl Entries for Library {
    fn read(&mut self, book: &[u8]) -> Answer {
        let side = self.next_side();
        let book_at = self.book.lend(book, side);
        let answer_at = self.lend_answer(side);
        let refusal = unsafe { raw::md_read(book_at, book.len(), answer_at) };
        let kept = self.book.keeps(book);
        self.finish(refusal, kept)
    }

    fn run(
        &mut self,
        book: &[u8],
        procedure: u64,
        inputs: &[u32],
        budget: u64,
        work: &mut [u32],
    ) -> Answer {
        let side = self.next_side();
        let input_bytes = cells_to_bytes(inputs);
        let book_at = self.book.lend(book, side);
        let inputs_at = self.inputs.lend(&input_bytes, side);
        let work_at = self.written.lend(&cells_to_bytes(work), side);
        let answer_at = self.lend_answer(side);
        let refusal = unsafe {
            raw::md_run(
                book_at,
                book.len(),
                procedure,
                inputs_at.cast(),
                inputs.len(),
                budget,
                work_at.cast(),
                work.len(),
                answer_at,
            )
        };
        bytes_to_cells(self.written.content(), work);
        let kept = self.book.keeps(book) && self.inputs.keeps(&input_bytes);
        self.finish(refusal, kept)
    }

    fn check(&mut self, book: &[u8], summary: &[u8]) -> Answer {
        let side = self.next_side();
        let book_at = self.book.lend(book, side);
        let summary_at = self.summary.lend(summary, side);
        let answer_at = self.lend_answer(side);
        let refusal =
            unsafe { raw::md_check(book_at, book.len(), summary_at, summary.len(), answer_at) };
        let kept = self.book.keeps(book) && self.summary.keeps(summary);
        self.finish(refusal, kept)
    }

    fn find(&mut self, book: &[u8], buffer: &mut [u8]) -> Answer {
        let side = self.next_side();
        let book_at = self.book.lend(book, side);
        let buffer_at = self.written.lend(buffer, side);
        let answer_at = self.lend_answer(side);
        let refusal =
            unsafe { raw::md_find(book_at, book.len(), buffer_at, buffer.len(), answer_at) };
        buffer.copy_from_slice(self.written.content());
        let kept = self.book.keeps(book);
        self.finish(refusal, kept)
    }

    fn level(
        &mut self,
        book: &[u8],
        table: &[u8],
        procedure: u64,
        levels: &[u8],
        summary: &[u8],
    ) -> Answer {
        let side = self.next_side();
        let book_at = self.book.lend(book, side);
        let table_at = self.table.lend(table, side);
        let levels_at = self.inputs.lend(levels, side);
        let summary_at = self.summary.lend(summary, side);
        let answer_at = self.lend_answer(side);
        let refusal = unsafe {
            raw::md_level(
                book_at,
                book.len(),
                table_at,
                table.len(),
                procedure,
                levels_at,
                levels.len(),
                summary_at,
                summary.len(),
                answer_at,
            )
        };
        let kept = self.book.keeps(book)
            && self.table.keeps(table)
            && self.inputs.keeps(levels)
            && self.summary.keeps(summary);
        self.finish(refusal, kept)
    }
}

fn cells_to_bytes(cells: &[u32]) -> Vec<u8> {
    cells.iter().flat_map(|cell| cell.to_ne_bytes()).collect()
}

fn bytes_to_cells(bytes: &[u8], cells: &mut [u32]) {
    for (cell, bytes) in cells.iter_mut().zip(bytes.chunks_exact(4)) {
        *cell = u32::from_ne_bytes(bytes.try_into().expect("four bytes"));
    }
}

//! The C interface as `include/mistdrover.h` declares it.
//!
//! Every pointer must be non-null and, for its length, readable (or writable where it is `*mut`),
//! and lent memory that is written must not overlap any other argument. Each function returns the
//! refusal number, 0 for none, and always fills all eight elements of the answer.

/// The answer's fields from index 0, in the document's order; every other element is 0.
pub type Answer = [u64; 8];

extern "C" {
    /// Answer: size.
    pub fn md_read(book: *const u8, book_len: usize, answer: *mut Answer) -> u32;

    /// Answer: ending, value, steps.
    pub fn md_run(
        book: *const u8,
        book_len: usize,
        procedure: u64,
        inputs: *const u32,
        inputs_len: usize,
        budget: u64,
        work: *mut u32,
        work_len: usize,
        answer: *mut Answer,
    ) -> u32;

    /// Answer: no field.
    pub fn md_check(
        book: *const u8,
        book_len: usize,
        summary: *const u8,
        summary_len: usize,
        answer: *mut Answer,
    ) -> u32;

    /// Answer: size, rounds.
    pub fn md_find(
        book: *const u8,
        book_len: usize,
        buffer: *mut u8,
        buffer_len: usize,
        answer: *mut Answer,
    ) -> u32;

    /// Answer: level.
    pub fn md_level(
        book: *const u8,
        book_len: usize,
        table: *const u8,
        table_len: usize,
        procedure: u64,
        levels: *const u8,
        levels_len: usize,
        summary: *const u8,
        summary_len: usize,
        answer: *mut Answer,
    ) -> u32;
}

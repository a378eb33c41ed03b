//! The C interface of `include/mistdrover.h` over the plain implementation.

use cases::{Answer, Entries, PlainEntries};
use std::slice::{from_raw_parts, from_raw_parts_mut};

/// # Safety
/// As `include/mistdrover.h` says: every pointer is valid for its length, nothing overlaps.
#[no_mangle]
pub unsafe extern "C" fn md_read(book: *const u8, book_len: usize, answer: *mut [u64; 8]) -> u32 {
    let book = from_raw_parts(book, book_len);
    fill(&mut *answer, PlainEntries.read(book))
}

/// # Safety
/// As for `md_read`.
#[no_mangle]
pub unsafe extern "C" fn md_run(
    book: *const u8,
    book_len: usize,
    procedure: u64,
    inputs: *const u32,
    inputs_len: usize,
    budget: u64,
    work: *mut u32,
    work_len: usize,
    answer: *mut [u64; 8],
) -> u32 {
    let book = from_raw_parts(book, book_len);
    let inputs = from_raw_parts(inputs, inputs_len);
    let work = from_raw_parts_mut(work, work_len);
    fill(&mut *answer, PlainEntries.run(book, procedure, inputs, budget, work))
}

/// # Safety
/// As for `md_read`.
#[no_mangle]
pub unsafe extern "C" fn md_check(
    book: *const u8,
    book_len: usize,
    summary: *const u8,
    summary_len: usize,
    answer: *mut [u64; 8],
) -> u32 {
    let book = from_raw_parts(book, book_len);
    let summary = from_raw_parts(summary, summary_len);
    fill(&mut *answer, PlainEntries.check(book, summary))
}

/// # Safety
/// As for `md_read`.
#[no_mangle]
pub unsafe extern "C" fn md_find(
    book: *const u8,
    book_len: usize,
    buffer: *mut u8,
    buffer_len: usize,
    answer: *mut [u64; 8],
) -> u32 {
    let book = from_raw_parts(book, book_len);
    let buffer = from_raw_parts_mut(buffer, buffer_len);
    fill(&mut *answer, PlainEntries.find(book, buffer))
}

/// # Safety
/// As for `md_read`.
#[no_mangle]
pub unsafe extern "C" fn md_level(
    book: *const u8,
    book_len: usize,
    table: *const u8,
    table_len: usize,
    procedure: u64,
    levels: *const u8,
    levels_len: usize,
    summary: *const u8,
    summary_len: usize,
    answer: *mut [u64; 8],
) -> u32 {
    let book = from_raw_parts(book, book_len);
    let table = from_raw_parts(table, table_len);
    let levels = from_raw_parts(levels, levels_len);
    let summary = from_raw_parts(summary, summary_len);
    fill(&mut *answer, PlainEntries.level(book, table, procedure, levels, summary))
}

fn fill(answer: &mut [u64; 8], given: Answer) -> u32 {
    *answer = given.fields;
    given.refusal
}

//! The worked books of document 01, cases A to M, with the document's own bytes and answers.

use crate::assemble::*;
use crate::{Answer, Entries, FINISHED, OUT_OF_STEPS, TOO_DEEP};

/// Bytes written as the document writes them.
pub fn hex(text: &str) -> Vec<u8> {
    text.split_whitespace()
        .map(|byte| u8::from_str_radix(byte, 16).expect("two hexadecimal digits"))
        .collect()
}

pub fn book_a() -> Vec<u8> {
    hex("01 07 00 03 00 01 00 04 11 00")
}

pub fn book_b() -> Vec<u8> {
    single(1, 0, hex("04 13 00 11 00"))
}

pub fn book_c() -> Vec<u8> {
    single(1, 1, hex("02 11 00 01 01 10 01 00 00 00 00 00 04 11 01"))
}

/// Parameters c, b, h, local a; while c: a:=b; b:=h; c:=c-1; return a.
pub fn book_d() -> Vec<u8> {
    let (c, b, h, a) = (0, 1, 2, 3);
    let inside = all(&[set(a, variable(b)), set(b, variable(h)), count_down(c)]);
    single(3, 1, all(&[while_do(variable(c), inside), give(variable(a))]))
}

pub fn book_e() -> Vec<u8> {
    single(1, 0, hex("04 12 01 11 00 11 00"))
}

pub fn book_f() -> Vec<u8> {
    single(1, 0, hex("01 00 10 00 00 00 00 04 11 00"))
}

/// A return over so many nested operations.
pub fn book_g(operations: usize) -> Vec<u8> {
    let nested = (0..operations).fold(variable(0), |inner, _| operation(SUM, inner, variable(0)));
    single(1, 0, give(nested))
}

pub fn book_m() -> Vec<u8> {
    hex("02 0D 00 23 00 02 00 30 00 19 00 01 00 \
         03 11 00 01 01 12 00 11 00 10 01 00 00 00 01 00 12 01 11 01 10 04 00 00 00 00 \
         04 12 00 13 01 11 00 11 01 \
         05 11 00 04 12 02 11 00 13 01 12 01 11 00 10 01 00 00 00 04 10 00 00 00 00")
}

pub fn expect_read(entries: &mut dyn Entries, book: &[u8], size: u64) {
    assert_eq!(entries.read(book), Answer::given(&[size]), "read {book:02X?}");
}

/// Every entry that takes only what can be right for any book refuses it so.
pub fn expect_refused(entries: &mut dyn Entries, book: &[u8], refusal: u32) {
    let refused = Answer::refused(refusal);
    assert_eq!(entries.read(book), refused, "read {book:02X?}");
    assert_eq!(entries.check(book, &[0]), refused, "check {book:02X?}");
    let mut buffer = [0xA5; 2_000];
    assert_eq!(entries.find(book, &mut buffer), refused, "find {book:02X?}");
    assert_eq!(buffer, [0xA5; 2_000], "a refused find writes nothing");
    assert_eq!(entries.level(book, &[], 99, &[], &[]), refused, "level {book:02X?}");
    let mut work = [7; 1_100];
    let run = entries.run(book, u64::MAX, &[], u64::MAX, &mut work);
    assert_eq!(run, refused, "run {book:02X?}");
    assert_eq!(work, [7; 1_100], "a refused run writes nothing");
}

/// Finds, and has the found summary checked, and every smaller one refused.
pub fn expect_found(entries: &mut dyn Entries, book: &[u8], summary: &[u8], rounds: u64) {
    let size = summary.len();
    let mut buffer = vec![0xA5; size + 3];
    let answer = entries.find(book, &mut buffer);
    assert_eq!(answer, Answer::given(&[size as u64, rounds]), "find {book:02X?}");
    assert_eq!(&buffer[..size], summary, "find {book:02X?}");
    assert_eq!(&buffer[size..], [0xA5; 3], "the finder writes nothing beyond the size");
    expect_checked(entries, book, summary, 0);
    for place in 0..size {
        for bit in (0..8).filter(|bit| summary[place] & (1 << bit) != 0) {
            let mut smaller = summary.to_vec();
            smaller[place] ^= 1 << bit;
            expect_checked(entries, book, &smaller, 9);
        }
    }
}

pub fn expect_checked(entries: &mut dyn Entries, book: &[u8], summary: &[u8], refusal: u32) {
    let answer = entries.check(book, summary);
    assert_eq!(answer, Answer::refused(refusal), "check {book:02X?} with {summary:02X?}");
}

/// Runs on a work space that is longer than need be and holds other numbers.
pub fn expect_run(
    entries: &mut dyn Entries,
    book: &[u8],
    procedure: u64,
    inputs: &[u32],
    budget: u64,
    (ending, value, steps): (u64, u64, u64),
) {
    let mut work = [7; 1_030];
    let answer = entries.run(book, procedure, inputs, budget, &mut work);
    let expected = Answer::given(&[ending, value, steps]);
    assert_eq!(answer, expected, "run {book:02X?}, procedure {procedure} on {inputs:?}");
    assert_eq!(work[..1_024], [0; 1_024], "a run clears the first 1,024 cells");
    assert_eq!(work[1_024..], [7; 6], "a run leaves the other cells");
}

pub fn case_a(entries: &mut dyn Entries) {
    let book = book_a();
    expect_read(entries, &book, 1);
    expect_found(entries, &book, &[0x01], 2);
    expect_run(entries, &book, 0, &[9], 1_000_000, (FINISHED, 9, 2));
    expect_run(entries, &book, 0, &[9], 2, (FINISHED, 9, 2));
    expect_run(entries, &book, 0, &[9], 1, (OUT_OF_STEPS, 0, 1));
}

pub fn case_b(entries: &mut dyn Entries) {
    let book = book_b();
    expect_found(entries, &book, &[0x00], 1);
    expect_checked(entries, &book, &[0x01], 0);
    expect_run(entries, &book, 0, &[3], 192, (TOO_DEEP, 0, 192));
    expect_run(entries, &book, 0, &[3], 1_000_000, (TOO_DEEP, 0, 192));
    expect_run(entries, &book, 0, &[3], 191, (OUT_OF_STEPS, 0, 191));
}

pub fn case_c(entries: &mut dyn Entries) {
    let book = book_c();
    expect_found(entries, &book, &[0x01], 2);
    expect_run(entries, &book, 0, &[0], 1_000, (FINISHED, 0, 4));
    expect_run(entries, &book, 0, &[5], 1_000, (FINISHED, 1, 6));
}

pub fn case_d(entries: &mut dyn Entries) {
    let book = book_d();
    expect_read(entries, &book, 5);
    expect_found(entries, &book, &[0x07, 0x01, 0x07, 0x04, 0x07], 5);
    expect_checked(entries, &book, &[0x03, 0x01, 0x03, 0x04, 0x03], 9);
    expect_run(entries, &book, 0, &[2, 5, 9], 1_000, (FINISHED, 9, 24));
    expect_run(entries, &book, 0, &[1, 5, 9], 1_000, (FINISHED, 5, 14));
    expect_run(entries, &book, 0, &[0, 5, 9], 1_000, (FINISHED, 0, 4));
}

pub fn case_e(entries: &mut dyn Entries) {
    let book = book_e();
    expect_found(entries, &book, &[0x01], 2);
    expect_run(entries, &book, 0, &[12], 1_000, (FINISHED, 0, 4));
}

pub fn case_f(entries: &mut dyn Entries) {
    let book = book_f();
    expect_found(entries, &book, &[0x00], 1);
    expect_run(entries, &book, 0, &[12], 1_000, (FINISHED, 0, 4));
}

pub fn case_g(entries: &mut dyn Entries) {
    expect_read(entries, &book_g(22), 1);
    expect_refused(entries, &book_g(23), 3);
    expect_refused(entries, &single(0, 0, vec![]), 3);
    expect_run(entries, &book_a(), 0, &[9], 0, (OUT_OF_STEPS, 0, 0));
}

pub fn case_h(entries: &mut dyn Entries) {
    let book = book_a();
    let valid = entries.level(&book, &hex("01 00"), 0, &[0], &[1]);
    assert_eq!(valid, Answer::given(&[0]));
    let not_idempotent = entries.level(&book, &hex("02 00 01 01 00"), 0, &[0], &[1]);
    assert_eq!(not_idempotent, Answer::refused(5));
}

pub fn case_m(entries: &mut dyn Entries) {
    let book = book_m();
    expect_read(entries, &book, 4);
    expect_found(entries, &book, &[0x03, 0x01, 0x01, 0x03], 3);
    expect_run(entries, &book, 1, &[3], 1_000, (FINISHED, 0, 31));
    // Beyond the document: the budget that just suffices and one less.
    expect_run(entries, &book, 1, &[3], 31, (FINISHED, 0, 31));
    expect_run(entries, &book, 1, &[3], 30, (OUT_OF_STEPS, 0, 30));
}

/// Hands the names of all worked cases to a macro, so that each can be a test of its own.
#[macro_export]
macro_rules! worked_cases {
    ($macro:ident) => {
        $macro! { case_a case_b case_c case_d case_e case_f case_g case_h case_m }
    };
}

macro_rules! name_all {
    ($($name:ident)*) => {
        /// Every worked case by its name.
        pub const ALL: &[(&str, fn(&mut dyn Entries))] = &[$((stringify!($name), $name)),*];
    };
}
worked_cases!(name_all);

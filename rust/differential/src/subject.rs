//! The book of a case: grown, at a limit, damaged, or no book at all.

use cases::books::{deep, ring, shifting, with_loops, Plan, MOST_BYTES, MOST_DEPTH, MOST_LOOPS};
use cases::damage::damage;
use cases::random::Random;

pub struct Subject {
    pub book: Vec<u8>,
    /// What its maker knows of it without any reader.
    pub known: Known,
}

#[derive(Clone, Copy, Debug, PartialEq, Eq)]
pub enum Known {
    Nothing,
    Refused(u32),
    /// Readable, with a summary of this size.
    Size(usize),
    Readable,
}

impl Subject {
    pub fn random(random: &mut Random) -> Subject {
        match random.below(100) {
            0..=59 => grown(random),
            60..=88 => damaged(random),
            89..=91 => at_depth(random),
            92..=94 => of_loops(random),
            95..=96 => junk(random),
            97 => of_rounds(random),
            _ => at_length(random),
        }
    }
}

fn grown(random: &mut Random) -> Subject {
    let grown = Plan::random(random).grow(random);
    let known = Known::Size(grown.summary_size());
    Subject { book: grown.bytes, known }
}

fn damaged(random: &mut Random) -> Subject {
    let grown = Plan::random(random).grow(random);
    Subject { book: damage(random, &grown), known: Known::Nothing }
}

fn at_depth(random: &mut Random) -> Subject {
    let depth = random.of(&[
        3,
        10,
        MOST_DEPTH - 1,
        MOST_DEPTH,
        MOST_DEPTH,
        MOST_DEPTH + 1,
        MOST_DEPTH + 1,
        26,
        40,
    ]);
    let known = if depth <= MOST_DEPTH { Known::Readable } else { Known::Refused(3) };
    Subject { book: deep(random, depth), known }
}

fn of_loops(random: &mut Random) -> Subject {
    let loops = random.of(&[
        1,
        10,
        MOST_LOOPS - 1,
        MOST_LOOPS,
        MOST_LOOPS,
        MOST_LOOPS + 1,
        MOST_LOOPS + 2,
        200,
    ]);
    let known = if loops <= MOST_LOOPS { Known::Readable } else { Known::Refused(4) };
    let mut book = with_loops(random, loops);
    if random.chance(1, 8) {
        // Too many loops and a broken last body: the body comes first.
        let last = book.len() - 1;
        book[last] = 255;
        return Subject { book, known: Known::Refused(3) };
    }
    Subject { book, known }
}

fn of_rounds(random: &mut Random) -> Subject {
    if random.chance(1, 4) {
        // Each round changes what one procedure reads: its own rows, or a result of another.
        let procedures = random.between(1, 4);
        return Subject { book: ring(procedures), known: Known::Size(33 * procedures) };
    }
    let loops = if random.chance(1, 20) { MOST_LOOPS } else { random.between(1, 6) };
    let (parameters, locals) = (random.between(1, 8), random.between(0, 8));
    let known = Known::Size(1 + loops * (parameters + locals));
    Subject { book: shifting(loops, parameters as u8, locals as u8), known }
}

fn junk(random: &mut Random) -> Subject {
    let length = match random.below(20) {
        0 => random.between(1, MOST_BYTES),
        _ => random.between(1, 80),
    };
    let mut book = random.bytes(length);
    if random.chance(1, 2) {
        // Right contents of one procedure over bytes of which many are codes.
        let body = (0..random.between(1, 40))
            .map(|_| random.of(&[0, 1, 2, 3, 4, 5, 16, 17, 18, 19]))
            .collect();
        book = cases::assemble::single(random.below(9) as u8, random.below(9) as u8, body);
    }
    Subject { book, known: Known::Nothing }
}

/// No bytes, or more than a book may have.
fn at_length(random: &mut Random) -> Subject {
    let known = Known::Refused(1);
    match random.below(4) {
        0 | 1 => Subject { book: vec![], known },
        2 => {
            let length =
                random.of(&[MOST_BYTES + 1, MOST_BYTES + 2, 40_000, 65_535, 65_536, 70_000]);
            let byte = random.of(&[0, 1, 255]);
            Subject { book: vec![byte; length], known }
        }
        _ => {
            // A book that breaks no other rule.
            let bytes = random.of(&[MOST_BYTES, MOST_BYTES + 1, MOST_BYTES + 1, MOST_BYTES + 8]);
            let body = cases::edges::body_of(bytes - 7);
            let known = if bytes > MOST_BYTES { known } else { Known::Size(1) };
            Subject { book: cases::assemble::single(1, 0, body), known }
        }
    }
}

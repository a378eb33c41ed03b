//! What the makers of random material say of it is so.

use cases::books::{
    deep, lone_ring, lone_ring_rounds, ring, ring_rounds, with_loops, Plan, MOST_BYTES, MOST_DEPTH,
    MOST_LOOPS,
};
use cases::damage::damage;
use cases::deepest::{all_deepest, books_of_depth, kinds};
use cases::random::Random;
use cases::{tables, Answer, Entries, PlainEntries, FINISHED};

#[test]
fn random_numbers_depend_on_the_seed_alone() {
    // Fixed here: whoever changes them changes what a seed on record means.
    let mut random = Random::for_case(1, 0);
    assert_eq!([(); 3].map(|()| random.number()), NUMBERS);
    assert_ne!(Random::for_case(1, 1).number(), NUMBERS[0]);
    assert_ne!(Random::for_case(2, 0).number(), NUMBERS[0]);
}
const NUMBERS: [u64; 3] = [6954377618861975509, 16838045124790788659, 432047684551321273];

#[test]
fn grown_books_are_readable() {
    for case in 0..3_000 {
        let random = &mut Random::for_case(11, case);
        let grown = Plan::random(random).grow(random);
        let size = grown.summary_size() as u64;
        assert_eq!(PlainEntries.read(&grown.bytes), Answer::given(&[size]), "case {case}");
        for mark in &grown.marks {
            assert!(mark.place < grown.bytes.len());
        }
    }
}

#[test]
fn largest_books_are_the_largest() {
    for case in 0..40 {
        let random = &mut Random::for_case(12, case);
        let plan = Plan {
            procedures: random.between(1, 32),
            body_bytes: random.between(0, MOST_BYTES),
            loops: MOST_LOOPS,
            largest: true,
            no_recursion: false,
            nesting: 50,
        };
        let grown = plan.grow(random);
        assert_eq!(grown.bytes.len(), MOST_BYTES);
        assert_eq!(PlainEntries.read(&grown.bytes).refusal, 0);
    }
}

#[test]
fn deep_books_have_their_depth() {
    for case in 0..2_000 {
        let random = &mut Random::for_case(13, case);
        let depth = random.between(3, 30);
        let refusal = if depth <= MOST_DEPTH { 0 } else { 3 };
        assert_eq!(PlainEntries.read(&deep(random, depth)).refusal, refusal, "depth {depth}");
    }
}

#[test]
fn books_with_loops_have_so_many() {
    for loops in 0..140 {
        let random = &mut Random::for_case(14, loops as u64);
        let refusal = if loops <= MOST_LOOPS { 0 } else { 4 };
        assert_eq!(PlainEntries.read(&with_loops(random, loops)).refusal, refusal, "{loops} loops");
    }
}

#[test]
fn rings_take_their_rounds() {
    for procedures in [1, 2, 5] {
        let mut buffer = vec![0; 33 * procedures];
        let found = Answer::given(&[buffer.len() as u64, ring_rounds(procedures)]);
        assert_eq!(PlainEntries.find(&ring(procedures), &mut buffer), found);
    }
    // Rounds never exceed 8 times the size plus 1, and no size is over 1,056.
    assert_eq!(ring_rounds(32), 8 * 1_056 + 1);
    assert_eq!(PlainEntries.read(&ring(32)), Answer::given(&[1_056]));
}

#[test]
fn a_lone_ring_takes_its_rounds() {
    let book = lone_ring(12_000);
    assert!((11_900..=12_000).contains(&book.len()), "{} bytes", book.len());
    let mut buffer = vec![0; 1 + 64 * 16];
    let found = Answer::given(&[buffer.len() as u64, lone_ring_rounds()]);
    assert_eq!(PlainEntries.find(&book, &mut buffer), found);
}

#[test]
fn deepest_books_have_the_greatest_depth() {
    for (book, deeper) in books_of_depth(MOST_DEPTH).iter().zip(books_of_depth(MOST_DEPTH + 1)) {
        assert_eq!(PlainEntries.read(book).refusal, 0);
        assert_eq!(PlainEntries.read(&deeper).refusal, 3);
    }
}

/// A run that finishes on the input 63 and is too deep on 64 was at call depth 64.
#[test]
fn deepest_runs_reach_call_depth_64() {
    let mut work = [0; 1_024];
    let mut finished = 0;
    for run in all_deepest() {
        let answer = PlainEntries.run(&run.book, 0, &run.inputs, 1_000_000, &mut work);
        assert_eq!((answer.refusal, answer.fields[0]), (0, run.ending), "{}", run.kind);
        finished += usize::from(run.ending == FINISHED);
    }
    assert_eq!(finished, kinds().count(), "each kind has one that finishes");
}

#[test]
fn damage_takes_any_book() {
    let mut still_readable = 0;
    for case in 0..5_000 {
        let random = &mut Random::for_case(15, case);
        let grown = Plan::random(random).grow(random);
        let damaged = damage(random, &grown);
        still_readable += usize::from(PlainEntries.read(&damaged).refusal == 0);
    }
    assert!((100..2_000).contains(&still_readable), "{still_readable} of 5,000 are readable");
}

#[test]
fn valid_tables_are_valid() {
    let book = cases::worked::book_a();
    let mut bottoms = [0; 16];
    let mut still_valid = 0;
    for case in 0..4_000 {
        let random = &mut Random::for_case(16, case);
        let table = tables::valid(random);
        // An accepted summary that names nothing reports bottom; book F's result is empty.
        let answer = PlainEntries.level(&cases::worked::book_f(), &table, 0, &[0], &[0]);
        assert_eq!(answer.refusal, 0, "{table:?}");
        bottoms[answer.fields[0] as usize] += 1;
        let damaged = tables::damaged(random);
        still_valid += usize::from(PlainEntries.level(&book, &damaged, 0, &[0], &[1]).refusal == 0);
    }
    assert!(bottoms.iter().all(|&count| count > 0), "any level may be bottom: {bottoms:?}");
    assert!((100..2_000).contains(&still_valid), "{still_valid} of 4,000 damaged are valid");
}

//! One case: a book, and calls of all five entries on it.

use crate::subject::{Known, Subject};
use crate::trial::{show_book, show_bytes, Question, Trial};
use cases::random::Random;
use cases::{tables, Answer, FINISHED};

const WORK_CELLS: usize = 1_024;
const MOST_STEPS: u64 = 1_000_000;

/// Enough for most runs that finish at all.
const USUAL_BUDGET: u64 = 3_000;

pub fn try_case(trial: &mut Trial) {
    let random = &mut Random::for_case(trial.seed, trial.case);
    let subject = Subject::random(random);
    let book = &subject.book;
    let differences_before = trial.counts.differences;
    let answer = trial.read(book);
    compare_with_known(trial, &subject, answer);
    if trial.counts.differences > differences_before {
        // What follows builds on the reader's answer.
        return;
    }
    if answer.refusal == 0 {
        trial.counts.readable += 1;
        trial.counts.largest_book = trial.counts.largest_book.max(book.len());
        try_readable(trial, random, book, answer.fields[0] as usize);
    } else {
        try_refused(trial, random, book);
    }
}

/// The maker of the book knows what the reader must say.
fn compare_with_known(trial: &mut Trial, subject: &Subject, answer: Answer) {
    let right = match subject.known {
        Known::Nothing => true,
        Known::Refused(number) => answer == Answer::refused(number),
        Known::Size(size) => answer == Answer::given(&[size as u64]),
        Known::Readable => answer.refusal == 0,
    };
    trial.demand(right, "the reader's answer is not what the book was made for", &|| {
        show_book(&subject.book);
        println!("  made for {:?}, answered {answer:?}", subject.known);
    });
}

/// Whatever else is given, the book's refusal comes first.
fn try_refused(trial: &mut Trial, random: &mut Random, book: &[u8]) {
    let summary = some_bytes(random, 20);
    trial.check(book, &summary);
    let buffer = some_bytes(random, 40);
    trial.find(book, &buffer);
    let table = some_table(random);
    let levels = some_bytes(random, 4);
    let procedure = some_number(random, 2);
    trial.level(book, &table, procedure, &levels, &summary);
    let count = random.below(4);
    let inputs = some_inputs(random, count);
    let work = some_work(random);
    let budget = random.of(&[0, 100, MOST_STEPS, MOST_STEPS + 1]);
    trial.run(Question { book, procedure, inputs: &inputs, budget }, &work);
}

fn try_readable(trial: &mut Trial, random: &mut Random, book: &[u8], size: usize) {
    let shape = Shape { book, size };
    let found = try_find(trial, random, shape);
    let accepted = try_check(trial, random, shape, &found);
    try_run(trial, random, shape);
    try_level(trial, random, shape, &found, &accepted);
}

/// A readable book and what its contents say.
#[derive(Clone, Copy)]
struct Shape<'a> {
    book: &'a [u8],
    size: usize,
}

impl Shape<'_> {
    fn procedures(self) -> usize {
        usize::from(self.book[0])
    }

    fn parameters(self, procedure: usize) -> usize {
        usize::from(self.book[1 + 6 * procedure + 4])
    }
}

/// Finds into buffers of several lengths; answers the least summary.
fn try_find(trial: &mut Trial, random: &mut Random, shape: Shape) -> Vec<u8> {
    let Shape { book, size } = shape;
    let longer = size + random.of(&[0, 0, 1, 7, 100]);
    let buffer = random.bytes(longer);
    let (answer, mut found) = trial.find(book, &buffer);
    found.truncate(size);
    let rounds = answer.fields[1];
    trial.demand(rounds <= 8 * size as u64 + 1, "more rounds than the document allows", &|| {
        show_book(book);
    });
    if random.chance(1, 4) {
        let shorter = random.of(&[size - 1, 0, random_part(size)]);
        let buffer = random.bytes(shorter);
        trial.find(book, &buffer);
    }
    found
}

fn random_part(size: usize) -> usize {
    size / 2
}

/// Checks summaries of all kinds; answers an accepted one, often larger than the found one.
fn try_check(trial: &mut Trial, random: &mut Random, shape: Shape, found: &[u8]) -> Vec<u8> {
    let Shape { book, size } = shape;
    let of_found = trial.check(book, found);
    trial.demand(of_found.refusal == 0, "the found summary is not accepted", &|| show_book(book));

    // Any accepted summary holds the least one.
    let other = some_summary(random, shape, found);
    let answer = trial.check(book, &other);
    let holds_least = other.iter().zip(found).all(|(other, least)| least & !other == 0);
    let right = answer.refusal != 0 || holds_least;
    trial.demand(right, "an accepted summary does not hold the found one", &|| {
        show_book(book);
        show_bytes("accepted", &other);
        show_bytes("found", found);
    });
    if random.chance(1, 5) {
        let length = random.of(&[0, size - 1, size + 1, 2 * size, size + 256]);
        let mut wrong = found.to_vec();
        wrong.resize(length, 0);
        trial.check(book, &wrong);
    }
    if random.chance(1, 2) {
        return found.to_vec();
    }
    let enlarged = match random.below(8) {
        0 => widest(shape),
        _ => enlarged(random, shape, found),
    };
    let answer = trial.check(book, &enlarged);
    trial.demand(answer.refusal == 0, "a summary closed under rounds is not accepted", &|| {
        show_book(book);
        show_bytes("summary", &enlarged);
    });
    enlarged
}

/// The found summary and a few parameters more, closed under the rules.
fn enlarged(random: &mut Random, shape: Shape, found: &[u8]) -> Vec<u8> {
    let mut summary = found.to_vec();
    let widest = widest(shape);
    for _ in 0..random.between(1, 3) {
        let place = random.below(shape.size);
        summary[place] |= random.byte() & widest[place];
    }
    plain::enlarge(shape.book, &mut summary).expect("the book is readable");
    summary
}

fn widest(shape: Shape) -> Vec<u8> {
    plain::widest(shape.book).expect("the book is readable")
}

fn some_summary(random: &mut Random, shape: Shape, found: &[u8]) -> Vec<u8> {
    let mut summary = found.to_vec();
    let place = random.below(shape.size);
    match random.below(8) {
        // One parameter less, one more, any other set, a parameter that there is not.
        0 => summary[place] &= summary[place].wrapping_sub(1),
        1 => summary[place] ^= 1 << random.below(8),
        2 => summary[place] = random.byte(),
        3 => summary[place] |= 0x80,
        4 => summary = widest(shape),
        5 => {
            summary = widest(shape);
            summary[place] ^= 1 << random.below(8);
        }
        6 => summary = random.bytes(shape.size),
        _ => summary = vec![random.of(&[0, 1, 0xFF]); shape.size],
    }
    summary
}

fn try_run(trial: &mut Trial, random: &mut Random, shape: Shape) {
    let book = shape.book;
    let procedure = random.below(shape.procedures());
    let inputs = some_inputs(random, shape.parameters(procedure));
    let question =
        Question { book, procedure: procedure as u64, inputs: &inputs, budget: USUAL_BUDGET };
    let work = some_junk(random, WORK_CELLS);
    let answer = trial.run(question, &work);

    // The budget that just suffices, one step less, and others.
    let steps = answer.fields[2].min(MOST_STEPS);
    let budget = match random.below(64) {
        0..=15 => steps,
        16..=31 => steps.saturating_sub(1),
        32..=47 => random.below(steps as usize + 2) as u64,
        48..=51 => 0,
        52..=59 => random.below(30) as u64,
        60 => MOST_STEPS,
        61 => random.below(MOST_STEPS as usize + 1) as u64 / 20,
        _ => random.of(&[MOST_STEPS + 1, 1 << 32, (1 << 32) + 5, u64::MAX]),
    };
    let work = some_work(random);
    trial.run(Question { budget, ..question }, &work);

    if random.chance(1, 6) {
        let procedure = some_number(random, shape.procedures());
        let wrong = random.of(&[0, 1, inputs.len() + 1, inputs.len().saturating_sub(1), 9, 40]);
        let inputs = some_inputs(random, wrong);
        let budget = random.of(&[20, MOST_STEPS + 1]);
        trial.run(Question { book, procedure, inputs: &inputs, budget }, &work);
    }
}

fn try_level(trial: &mut Trial, random: &mut Random, shape: Shape, found: &[u8], accepted: &[u8]) {
    let book = shape.book;
    let procedure = random.below(shape.procedures());
    let table = tables::valid(random);
    let count = usize::from(table[0]);
    let levels: Vec<u8> =
        (0..shape.parameters(procedure)).map(|_| random.below(count) as u8).collect();
    let answer = trial.level(book, &table, procedure as u64, &levels, accepted);
    trial.demand(answer.refusal == 0, "the level of an accepted summary is refused", &|| {
        show_book(book);
        show_bytes("table", &table);
        show_bytes("summary", accepted);
    });
    if answer.refusal == 0 {
        let level = answer.fields[0] as u8;
        let kept: Vec<bool> = levels
            .iter()
            .map(|&of_input| plain::at_or_below(&table, of_input, level) == Some(true))
            .collect();
        demand_equal_values(trial, random, shape, procedure, &kept, "demand 3, by the level");
        let by_set: Vec<bool> =
            (0..levels.len()).map(|input| found[procedure] & (1 << input) != 0).collect();
        demand_equal_values(trial, random, shape, procedure, &by_set, "demand 3, by the set");
    }
    if random.chance(1, 3) {
        let table = some_table(random);
        let procedure = match random.below(3) {
            0 => some_number(random, shape.procedures()),
            _ => procedure as u64,
        };
        let mut levels = levels;
        match random.below(6) {
            0 => levels.push(0),
            1 => drop(levels.pop()),
            2 => {
                levels.iter_mut().for_each(|level| *level = random.of(&[count as u8, 255, *level]))
            }
            _ => {}
        }
        let mut summary = some_summary(random, shape, found);
        if random.chance(1, 4) {
            summary.resize(random.of(&[0, shape.size - 1, shape.size + 1]), 0);
        }
        trial.level(book, &table, procedure, &levels, &summary);
    }
}

/// Two finished runs whose inputs are equal wherever `kept` says so give equal values.
fn demand_equal_values(
    trial: &mut Trial,
    random: &mut Random,
    shape: Shape,
    procedure: usize,
    kept: &[bool],
    what: &str,
) {
    if kept.iter().all(|&kept| kept) {
        return;
    }
    let first = some_inputs(random, kept.len());
    let second: Vec<u32> = (first.iter().zip(kept))
        .map(|(&input, &kept)| if kept { input } else { random.value() })
        .collect();
    let work = some_junk(random, WORK_CELLS);
    let question = |inputs| Question {
        book: shape.book,
        procedure: procedure as u64,
        inputs,
        budget: USUAL_BUDGET,
    };
    let one = trial.run(question(&first), &work);
    let other = trial.run(question(&second), &work);
    let finished = |answer: Answer| answer.refusal == 0 && answer.fields[0] == FINISHED;
    if finished(one) && finished(other) {
        trial.counts.pairs += 1;
        trial.demand(one.fields[1] == other.fields[1], what, &|| {
            show_book(shape.book);
            println!("  procedure {procedure}, inputs {first:?} and {second:?}");
            println!("  values {} and {}", one.fields[1], other.fields[1]);
        });
    }
}

fn some_inputs(random: &mut Random, count: usize) -> Vec<u32> {
    (0..count).map(|_| random.value()).collect()
}

fn some_bytes(random: &mut Random, most: usize) -> Vec<u8> {
    let count = random.between(0, most);
    random.bytes(count)
}

fn some_table(random: &mut Random) -> Vec<u8> {
    if random.chance(1, 2) {
        tables::valid(random)
    } else {
        tables::damaged(random)
    }
}

/// A number near those below `count`, or far off.
fn some_number(random: &mut Random, count: usize) -> u64 {
    let near = random.below(count + 2) as u64;
    random.of(&[near, near, near, count as u64, 255, 256 + near, (1 << 32) + near, u64::MAX])
}

/// A work space too short, just long enough or longer, filled with anything.
fn some_work(random: &mut Random) -> Vec<u32> {
    let cells = match random.below(16) {
        0 => random.of(&[0, 1, 16, WORK_CELLS - 1]),
        1..=9 => WORK_CELLS,
        10..=13 => WORK_CELLS + random.between(1, 20),
        _ => random.between(WORK_CELLS, 3 * WORK_CELLS),
    };
    some_junk(random, cells)
}

fn some_junk(random: &mut Random, cells: usize) -> Vec<u32> {
    // Two cells from each number: this is most of what the harness itself spends.
    let mut junk = Vec::with_capacity(cells + 1);
    while junk.len() < cells {
        let number = random.number();
        junk.extend([number as u32, (number >> 32) as u32]);
    }
    junk.truncate(cells);
    junk
}

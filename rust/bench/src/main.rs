//! Times the proved library beside the plain implementation, on the same inputs in one run; and
//! beside an older library, if `bench/run --beside` linked one.
//!
//! `cargo run --release --bin bench`; with `-- --quick` only to see that everything runs, with
//! `-- --only WORD` only the headings and lines that have the word.

mod asked;
mod measure;
mod older;
mod sheet;
#[cfg(target_os = "linux")]
mod stack;
mod subjects;

use asked::{Asked, Entry};
use cases::worked::book_m;
use measure::Effort;
use sheet::Sheet;
use std::process::ExitCode;
use subjects::{Long, Untaken};

const BUDGET: u64 = 1_000_000;

fn main() -> ExitCode {
    let Some((effort, only)) = asked_for(std::env::args().skip(1)) else {
        eprintln!("bench [--quick] [--only WORD]");
        return ExitCode::from(2);
    };
    if cfg!(debug_assertions) {
        eprintln!("not a release build: run it with `cargo run --release --bin bench`");
        return ExitCode::from(2);
    }
    print_preface(effort);
    let mut sheet = Sheet::new(effort, only, older::linked().is_some());
    time_entries(&mut sheet);
    time_growth_with_bytes(&mut sheet);
    time_growth_with_steps(&mut sheet);
    time_steps(&mut sheet);
    time_untaken_branches(&mut sheet);
    #[cfg(target_os = "linux")]
    stack::measure(&mut sheet);
    if sheet.lines() == 0 {
        eprintln!("no heading and no line has that word");
        return ExitCode::FAILURE;
    }
    ExitCode::SUCCESS
}

/// What the command's words ask for; nothing if there is another word among them.
fn asked_for(mut words: impl Iterator<Item = String>) -> Option<(Effort, Option<String>)> {
    let (mut effort, mut only) = (Effort::USUAL, None);
    while let Some(word) = words.next() {
        match word.as_str() {
            "--quick" => effort = Effort::QUICK,
            "--only" => only = Some(words.next()?),
            _ => return None,
        }
    }
    Some((effort, only))
}

/// Says what the columns mean, so that a printed sheet can be read alone.
fn print_preface(effort: Effort) {
    let Effort { batches, batch, line, fewest } = effort;
    println!("Ours: the proved library through its safe wrapper.");
    println!("Plain: the independent Rust implementation.");
    if older::linked().is_some() {
        println!("Older: the library given with --beside.");
        println!("{}: above 1 ours is quicker than the plain one.", sheet::PLAIN_RATIO);
        println!("{}: above 1 ours is quicker than the older one.", sheet::OLDER_RATIO);
    } else {
        println!("Ratio: plain / ours; above 1 ours is the quicker.");
    }
    println!("Each time is that of one call, measured as {}:", measure::CLOCK);
    println!("the median of {batches} batches of at least {batch:?}, taking turns;");
    println!("fewer, but at least {fewest}, where all together would take longer than {line:?}.");
    println!("Every call starts from the book's bytes.");
    println!("Buffers and work spaces are used again without clearing.");
}

// ---- The entries ----

/// All entries on books of each sort, since what a book holds decides which entry is slow.
fn time_entries(sheet: &mut Sheet) {
    for (name, book) in [
        ("Small: the document's book M", book_m()),
        ("Middle: 8 procedures", subjects::grown(2_048, 8)),
        ("Largest: 32 procedures, 64 loops", subjects::largest()),
        ("Plain: assignments alone", subjects::assignments()),
        ("Many rounds: 64 loops in a row", subjects::many_rounds()),
        ("Most rounds: a ring of 32 procedures, 64 loops", subjects::most_rounds()),
        ("Slowest search: a ring of one procedure, 64 loops", subjects::slowest_search()),
    ] {
        let asked = Asked::new(book);
        // Short runs: with long ones every book would show the same, the cost of a step.
        let steps = asked.steps(100);
        let heading = format!(
            "{name}; {} bytes, summary of {} bytes, {} rounds",
            asked.book.len(),
            asked.summary.len(),
            asked.rounds()
        );
        sheet.heading(&heading, sheet::time);
        sheet.line("reader", |effort| asked.read(effort));
        sheet.line("checker", |effort| asked.check(effort));
        sheet.line("finder", |effort| asked.find(effort));
        sheet.line("reporter, table of 4 levels", |effort| asked.level(effort));
        sheet.line(&format!("runner, {steps} steps"), |effort| asked.run(effort, 100));
    }
}

/// Shows whether an entry slows down more than the book grows.
fn time_growth_with_bytes(sheet: &mut Sheet) {
    sheet.heading(
        "Growth with book bytes; grown books of 8 procedures, one loop per 128 bytes up to 64",
        sheet::time,
    );
    for bytes in [256, 1_024, 4_096, 16_384, 32_768] {
        let asked = Asked::new(subjects::grown(bytes, 8));
        let length = asked.book.len() as f64;
        let finder = format!("finder, {length} bytes, {} rounds", asked.rounds());
        let entries: [(String, Entry<Effort>); 4] = [
            (format!("reader, {length} bytes"), Asked::read),
            (format!("checker, {length} bytes"), Asked::check),
            (finder, Asked::find),
            (format!("reporter, {length} bytes"), Asked::level),
        ];
        for (label, entry) in entries {
            sheet.line_and(
                &label,
                |effort| entry(&asked, effort),
                |costs| format!("   ours {:.2} ns a byte", costs.ours / length),
            );
        }
    }
}

// ---- The runner ----

/// Tells the cost of a step from that of beginning a run.
fn time_growth_with_steps(sheet: &mut Sheet) {
    sheet.heading(
        "Growth with steps; the tight loop `while v0: v0 := v0 - 1`, out of steps",
        sheet::time,
    );
    let asked = Asked::to_run(subjects::tight_loop(), vec![u32::MAX]);
    for budget in [0, 100, 1_000, 10_000, 100_000, 1_000_000] {
        sheet.line(&format!("runner, {budget} steps"), |effort| asked.run(effort, budget));
    }
}

/// What a step costs in runs long enough to hide their beginning.
fn time_steps(sheet: &mut Sheet) {
    sheet.heading("Nanoseconds a step, over runs of 1,000,000 steps", sheet::fine);
    for (name, book, inputs) in [
        ("tight loop", subjects::tight_loop(), vec![u32::MAX]),
        ("loop over all eight operations", subjects::arithmetic_loop(), vec![u32::MAX]),
        ("body of 7,000 bytes of assignments", subjects::long_turn(7_000), vec![u32::MAX]),
        ("recursion to call depth 64 and back", subjects::deep_recursion(), vec![]),
        ("tight loop at call depth 64", subjects::loop_below_deep_calls(), vec![63; 8]),
        ("Fibonacci's recursion", subjects::fibonacci(), vec![60]),
    ] {
        time_step(sheet, name, book, inputs);
    }
    sheet.heading(
        "Nanoseconds a step where bytes stand in the way, over runs of 1,000,000 steps",
        sheet::fine,
    );
    let untaken = |place| subjects::untaken_branch(place, 10_000);
    for (name, book, inputs) in [
        ("untaken branch of 10,000 bytes in a loop", untaken(Untaken::First), vec![u32::MAX]),
        ("second branch of 10,000 bytes, untaken", untaken(Untaken::Second), vec![u32::MAX]),
        ("loop of 10,000 bytes, not entered", untaken(Untaken::InnerLoop), vec![u32::MAX]),
        ("closing sequence of 10,000 bytes, untaken", subjects::untaken_closing(10_000), vec![]),
        ("left operand of 9,362 bytes in operations", subjects::long_operand(Long::Left), vec![]),
        ("right operand of 9,362 bytes in operations", subjects::long_operand(Long::Right), vec![]),
    ] {
        time_step(sheet, name, book, inputs);
    }
}

/// The whole budget is spent, so that runs of all books have as many steps.
fn time_step(sheet: &mut Sheet, name: &str, book: Vec<u8>, inputs: Vec<u32>) {
    let asked = Asked::to_run(book, inputs);
    sheet.line(name, |effort| {
        let steps = asked.steps(BUDGET);
        assert_eq!(steps, BUDGET, "{name} is meant to use the whole budget");
        asked.run(effort, BUDGET).per(steps as f64)
    });
}

/// Shows whether a branch that is not taken costs by its length.
fn time_untaken_branches(sheet: &mut Sheet) {
    sheet.heading(
        "A long branch inside a loop that is never taken; nanoseconds a turn of the loop",
        sheet::coarse,
    );
    for (name, place) in [
        ("first branch of an if", Untaken::First),
        ("second branch of an if", Untaken::Second),
        ("body of a loop not entered", Untaken::InnerLoop),
    ] {
        for bytes in [0, 70, 700, 7_000, 32_200] {
            let asked = Asked::to_run(subjects::untaken_branch(place, bytes), vec![u32::MAX]);
            // Fewer turns: what one costs may grow with the branch.
            let budget = if bytes > 700 { 80_000 } else { 800_000 };
            let turns = (budget / subjects::UNTAKEN_STEPS_A_TURN) as f64;
            sheet.line(&format!("{name}, {bytes} bytes"), |effort| {
                asked.run(effort, budget).without(asked.run(effort, 0)).per(turns)
            });
        }
    }
}

//! Compares the proved library with the plain implementation of document 01 on seeded random cases:
//! every field of every answer, and all lent memory. See `--help`.

mod case;
mod counts;
mod lent;
mod library;
mod subject;
mod trial;

use counts::Counts;
use library::Library;
use std::process::ExitCode;
use trial::Trial;

const HELP: &str = "\
differential [--seed S] [--cases N] [--case K] [--random-only]

Tries the library on the worked and edge cases, then on N random cases (default 100000) of seed S
(default 1), and compares it with the plain implementation. A case is a book, valid or damaged, with
calls of all five entries. Any difference is printed with what is needed to make it again.

  --seed S    the seed, 0 to 2^64 - 1: the same seed always gives the same cases
  --cases N   how many cases
  --case K    only case K of the seed
  --random-only   without the worked and edge cases

Exit status: 0 no difference; 1 a difference, or with 10000 cases or more a refusal that no case met;
2 wrong arguments.";

/// From so many cases on every refusal must have been seen.
const ENOUGH_CASES: u64 = 10_000;
/// A broken library differs in most cases: a few are enough to read.
const MOST_DIFFERENCES: u64 = 5;

struct Options {
    seed: u64,
    cases: u64,
    only: Option<u64>,
    random_only: bool,
}

fn main() -> ExitCode {
    let options = match read_arguments(std::env::args().skip(1)) {
        Ok(Some(options)) => options,
        Ok(None) => {
            println!("{HELP}");
            return ExitCode::SUCCESS;
        }
        Err(message) => {
            eprintln!("{message}\n\n{HELP}");
            return ExitCode::from(2);
        }
    };
    lent::catch_faults();
    let mut library = Library::new();
    let mut counts = Counts::default();
    match options.only {
        Some(case) => try_one(&mut library, &mut counts, options.seed, case),
        None => {
            if !options.random_only {
                try_known(&mut library);
            }
            try_random(&mut library, &mut counts, &options);
        }
    }
    counts.print();
    verdict(&counts, &options)
}

fn read_arguments(mut words: impl Iterator<Item = String>) -> Result<Option<Options>, String> {
    let mut options = Options { seed: 1, cases: 100_000, only: None, random_only: false };
    while let Some(word) = words.next() {
        if word == "--help" || word == "-h" {
            return Ok(None);
        }
        if word == "--random-only" {
            options.random_only = true;
            continue;
        }
        if !["--seed", "--cases", "--case"].contains(&word.as_str()) {
            return Err(format!("unknown argument: {word}"));
        }
        let number = words.next().ok_or(format!("{word} needs a number"))?;
        let number = number.parse().map_err(|_| format!("{word} needs a number, not {number}"))?;
        match word.as_str() {
            "--seed" => options.seed = number,
            "--cases" => options.cases = number,
            _ => options.only = Some(number),
        }
    }
    Ok(Some(options))
}

/// The worked books and the edge cases; the first that fails ends the program with its name.
fn try_known(library: &mut Library) {
    for (name, try_it) in cases::worked::ALL.iter().chain(cases::edges::ALL) {
        let tried = std::panic::catch_unwind(std::panic::AssertUnwindSafe(|| try_it(library)));
        if tried.is_err() || library.trespass().is_some() {
            println!("difference: the known case {name} failed");
            std::process::exit(1);
        }
    }
    println!(
        "{} worked and {} edge cases passed",
        cases::worked::ALL.len(),
        cases::edges::ALL.len()
    );
}

fn try_random(library: &mut Library, counts: &mut Counts, options: &Options) {
    for case in 0..options.cases {
        try_one(library, counts, options.seed, case);
        if counts.differences >= MOST_DIFFERENCES {
            println!("\nstopped after {} differences", counts.differences);
            break;
        }
    }
}

fn try_one(library: &mut Library, counts: &mut Counts, seed: u64, case: u64) {
    lent::note_case(seed, case);
    library.begin_case(case);
    counts.cases += 1;
    case::try_case(&mut Trial { library, counts, seed, case });
}

fn verdict(counts: &Counts, options: &Options) -> ExitCode {
    if counts.differences > 0 {
        println!("failed: the library and the plain implementation differ");
        return ExitCode::from(1);
    }
    let unseen = counts.unseen();
    if options.only.is_none() && counts.cases >= ENOUGH_CASES && !unseen.is_empty() {
        println!("failed: never seen: {}", unseen.join(", "));
        return ExitCode::from(1);
    }
    println!("passed: seed {}, no difference", options.seed);
    ExitCode::SUCCESS
}

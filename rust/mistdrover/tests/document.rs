//! The safe wrapper, and the library below it, on every worked book and edge case.

use cases::{Answer, Entries};
use mistdrover::{Ending, Refusal};

struct Wrapper;

impl Entries for Wrapper {
    fn read(&mut self, book: &[u8]) -> Answer {
        answer(mistdrover::read(book).map(|size| [size as u64]))
    }

    fn run(
        &mut self,
        book: &[u8],
        procedure: u64,
        inputs: &[u32],
        budget: u64,
        work: &mut [u32],
    ) -> Answer {
        let run = mistdrover::run(book, procedure, inputs, budget, work);
        answer(run.map(|run| [number(run.ending), run.value.into(), run.steps]))
    }

    fn check(&mut self, book: &[u8], summary: &[u8]) -> Answer {
        answer(mistdrover::check(book, summary).map(|()| []))
    }

    fn find(&mut self, book: &[u8], buffer: &mut [u8]) -> Answer {
        answer(mistdrover::find(book, buffer).map(|found| [found.size as u64, found.rounds]))
    }

    fn level(
        &mut self,
        book: &[u8],
        table: &[u8],
        procedure: u64,
        levels: &[u8],
        summary: &[u8],
    ) -> Answer {
        let level = mistdrover::level(book, table, procedure, levels, summary);
        answer(level.map(|level| [level.into()]))
    }
}

fn answer<const N: usize>(result: Result<[u64; N], Refusal>) -> Answer {
    match result {
        Ok(fields) => Answer::given(&fields),
        Err(refusal) => Answer::refused(refusal.number()),
    }
}

fn number(ending: Ending) -> u64 {
    match ending {
        Ending::Finished => cases::FINISHED,
        Ending::OutOfSteps => cases::OUT_OF_STEPS,
        Ending::TooDeep => cases::TOO_DEEP,
    }
}

macro_rules! tests {
    ($($name:ident)*) => {
        $(#[test]
        fn $name() {
            tried::$name(&mut super::Wrapper);
        })*
    };
}

mod worked {
    use cases::worked as tried;
    cases::worked_cases!(tests);
}

mod edges {
    use cases::edges as tried;
    cases::edge_cases!(tests);
}

#[test]
fn refusals_have_a_number_and_a_sentence() {
    assert_eq!(Refusal::numbered(0), None);
    let sentences: std::collections::HashSet<_> =
        (1..=12).map(|number| Refusal::numbered(number).unwrap().sentence()).collect();
    assert_eq!(sentences.len(), 12, "each has its own");
    let refusal = mistdrover::read(&[]).unwrap_err();
    assert_eq!(refusal.number(), 1);
    assert!(refusal.to_string().starts_with("refused 1: The book is empty"));
}

#[test]
fn found_summary_has_its_size() {
    let book = cases::worked::book_m();
    assert_eq!(mistdrover::find_summary(&book).unwrap(), [3, 1, 1, 3]);
    assert_eq!(mistdrover::find_summary(&[0]).unwrap_err().number(), 2);
}

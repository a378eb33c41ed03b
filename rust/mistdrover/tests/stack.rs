//! Every kind of run that goes as deep as it can has room on a stack of [`STACK_OF_A_RUN`] bytes.
//!
//! A run that has no room ends the whole program; the last words name the thread, which has the name
//! of the kind. How much each kind uses: `cargo run --release --bin bench -- --only Stack`.

use cases::deepest::{all_deepest, Deepest};
use cases::{Answer, Entries, PlainEntries};
use mistdrover::{Ending, MOST_STEPS, STACK_OF_A_RUN, WORK_CELLS};
use std::thread::Builder;

/// Enough for an implementation that promises nothing about its stack.
const PLENTY: usize = 64 << 20;

#[test]
fn deepest_runs_have_room() {
    for run in &all_deepest() {
        let expected = on_stack(PLENTY, run.kind, || plain_answer(run));
        assert_eq!(expected.fields[0], run.ending, "{}", run.kind);
        let answer = on_stack(STACK_OF_A_RUN, run.kind, || our_answer(run));
        assert_eq!(answer, expected, "{}", run.kind);
    }
}

/// What a call answers on a thread of its own whose stack has so many bytes.
fn on_stack<T: Send>(bytes: usize, kind: &str, call: impl FnOnce() -> T + Send) -> T {
    std::thread::scope(|scope| {
        let builder = Builder::new().name(kind.to_string()).stack_size(bytes);
        let thread = builder.spawn_scoped(scope, call).expect("a thread can be started");
        thread.join().expect("the call comes back")
    })
}

/// What the run should answer, by the independent implementation.
fn plain_answer(run: &Deepest) -> Answer {
    let mut work = [0; WORK_CELLS];
    PlainEntries.run(&run.book, 0, &run.inputs, MOST_STEPS, &mut work)
}

/// What the proved library answers.
fn our_answer(run: &Deepest) -> Answer {
    // Not on the stack, of which all is the library's.
    let mut work = mistdrover::work_space();
    let run = mistdrover::run(&run.book, 0, &run.inputs, MOST_STEPS, &mut work).expect("read");
    let ending = match run.ending {
        Ending::Finished => cases::FINISHED,
        Ending::OutOfSteps => cases::OUT_OF_STEPS,
        Ending::TooDeep => cases::TOO_DEEP,
    };
    Answer::given(&[ending, run.value.into(), run.steps])
}

//! The books that are timed.

use cases::assemble::*;
use cases::books::{
    lone_ring, ring, shifting, Plan, Shape, MOST_BYTES, MOST_DEPTH, MOST_LOOPS, MOST_PROCEDURES,
};
use cases::edges::body_of;
use cases::random::Random;

/// A grown book of about so many bytes: the same on every machine.
pub fn grown(bytes: usize, procedures: usize) -> Vec<u8> {
    let plan = Plan {
        procedures,
        body_bytes: bytes,
        loops: MOST_LOOPS.min(bytes / 128),
        largest: bytes == MOST_BYTES,
        no_recursion: true,
        nesting: 50,
    };
    let shapes = vec![Shape { parameters: 4, locals: 4 }; procedures];
    let grown = plan.grow_shapes(&mut Random::new(7), shapes);
    if plan.largest {
        assert_eq!((grown.bytes.len(), grown.loops.len()), (MOST_BYTES, MOST_LOOPS));
    }
    grown.bytes
}

/// 32,768 bytes, 32 procedures, 64 loops.
pub fn largest() -> Vec<u8> {
    grown(MOST_BYTES, MOST_PROCEDURES)
}

/// 32,768 bytes of assignments of variables, constants and sums, and a return.
pub fn assignments() -> Vec<u8> {
    let (parameters, locals) = (4, 4);
    let number = |place: usize| (place % usize::from(parameters + locals)) as u8;
    let some = |place: usize| {
        all(&[
            set(number(place + 1), variable(number(place))),
            set(number(place + 2), constant(place as u32)),
            set(number(place + 3), operation(SUM, variable(number(place)), variable(0))),
        ])
    };
    let body_bytes = MOST_BYTES - single(parameters, locals, vec![]).len();
    // The rest, of 24 bytes or more, is one that a return and any assignments can fill.
    let times = (body_bytes - 24) / some(0).len();
    let many: Vec<u8> = (0..times).flat_map(some).collect();
    let rest = body_of(body_bytes - many.len());
    let book = single(parameters, locals, all(&[many, rest]));
    assert_eq!(book.len(), MOST_BYTES);
    book
}

/// 64 loops in a row over 16 variables: a round for each variable of each loop.
pub fn many_rounds() -> Vec<u8> {
    shifting(MOST_LOOPS, 8, 8)
}

/// As many rounds as a book can take.
pub fn most_rounds() -> Vec<u8> {
    ring(MOST_PROCEDURES)
}

/// As many rounds as one procedure can take, each a walk of all its bytes.
pub fn slowest_search() -> Vec<u8> {
    lone_ring(MOST_BYTES)
}

/// while v0: v0 := v0 - 1. Six steps a turn.
pub fn tight_loop() -> Vec<u8> {
    single(1, 0, all(&[while_do(variable(0), count_down(0)), give(variable(0))]))
}
pub const TIGHT_LOOP_STEPS_A_TURN: u64 = 6;

/// A loop over all eight operations.
pub fn arithmetic_loop() -> Vec<u8> {
    let sum = (0..8).fold(variable(1), |inner, number| {
        operation(number, inner, operation(SUM, variable(0), constant(u32::from(number) + 3)))
    });
    let turn = all(&[set(1, sum), count_down(0)]);
    single(1, 1, all(&[while_do(variable(0), turn), give(variable(1))]))
}

/// Procedure 0 calls procedure 1 for ever; that calls itself down to call depth 64 and comes back.
pub fn deep_recursion() -> Vec<u8> {
    let caller = all(&[while_do(constant(1), set(0, call(1, &[constant(62)]))), give(variable(0))]);
    let less = operation(DIFFERENCE, variable(0), constant(1));
    let sum = operation(SUM, call(1, &[less]), variable(0));
    let down = pick(variable(0), give(sum), give(constant(1)));
    book(&[(0, 1, caller), (1, 0, down)])
}

/// The tight loop, run at call depth 64 under frames of 16 variables.
pub fn loop_below_deep_calls() -> Vec<u8> {
    let less = operation(DIFFERENCE, variable(0), constant(1));
    let mut arguments = vec![less];
    arguments.extend((1..8).map(variable));
    let spin = all(&[
        while_do(constant(1), set(1, operation(SUM, variable(1), constant(1)))),
        give(variable(1)),
    ]);
    single(8, 8, pick(variable(0), give(call(0, &arguments)), spin))
}

/// The number that Fibonacci's recursion gives: calls that return at every depth.
pub fn fibonacci() -> Vec<u8> {
    let again = |less| call(0, &[operation(DIFFERENCE, variable(0), constant(less))]);
    let condition = operation(LESS, variable(0), constant(2));
    single(1, 0, pick(condition, give(variable(0)), give(operation(SUM, again(1), again(2)))))
}

/// So many bytes of assignments: none, or a number that 7 and 4 make.
fn filling(bytes: usize) -> Vec<u8> {
    // 4 times this is the same as `bytes` modulo 7.
    let fours = 2 * bytes % 7;
    let sevens = (bytes - 4 * fours) / 7;
    all(&[vec![set(0, constant(9)); sevens].concat(), vec![set(0, variable(0)); fours].concat()])
}

/// Where the long branch stands that is never taken.
#[derive(Clone, Copy)]
pub enum Untaken {
    First,
    Second,
    InnerLoop,
}

/// while v0: something with a branch of so many bytes that is not taken; v0 := v0 - 1.
pub fn untaken_branch(place: Untaken, bytes: usize) -> Vec<u8> {
    let long = filling(bytes);
    let idle = match place {
        Untaken::First => if_else(constant(0), long, vec![]),
        Untaken::Second => if_else(constant(1), vec![], long),
        Untaken::InnerLoop => while_do(constant(0), long),
    };
    let turn = all(&[idle, count_down(0)]);
    single(1, 0, all(&[while_do(variable(0), turn), give(variable(0))]))
}
/// The tight loop's, and an if or a loop's test with its constant.
pub const UNTAKEN_STEPS_A_TURN: u64 = TIGHT_LOOP_STEPS_A_TURN + 2;

/// while v0: a body of so many bytes of assignments, all carried out.
pub fn long_turn(bytes: usize) -> Vec<u8> {
    let long = vec![set(1, constant(9)); bytes / 7].concat();
    single(1, 1, all(&[while_do(variable(0), all(&[long, count_down(0)])), give(variable(0))]))
}

/// Procedure 0 calls procedure 1 for ever; that calls itself down to call depth 64, each time past a
/// closing sequence of so many bytes that it does not take.
pub fn untaken_closing(bytes: usize) -> Vec<u8> {
    let caller = all(&[while_do(constant(1), set(0, call(1, &[constant(62)]))), give(variable(0))]);
    let answer = give(constant(1));
    let long = all(&[filling(bytes - answer.len()), answer.clone()]);
    let again = give(call(1, &[operation(DIFFERENCE, variable(0), constant(1))]));
    let down = pick(constant(0), long, pick(variable(0), again, answer));
    book(&[(0, 1, caller), (1, 0, down)])
}

/// Which operand of an operation is the long one.
#[derive(Clone, Copy)]
pub enum Long {
    Left,
    Right,
}

/// while 1: v0 := operations as deep as they go over an operand of 9,362 bytes, calls of eight
/// arguments in arguments. Who looks for the place after an operand byte by byte does so at every
/// operation anew.
pub fn long_operand(long: Long) -> Vec<u8> {
    let widths = 4;
    let operand = (0..widths).fold(variable(0), |inner, _| call(1, &vec![inner; 8]));
    assert_eq!(operand.len(), LONG_OPERAND_BYTES);
    // The loop stands at depth 1, the set at 2, the leaves of the operand below all calls.
    let operations = MOST_DEPTH - 2 - widths - 1;
    let value = (0..operations).fold(operand, |inner, _| match long {
        Long::Left => operation(SUM, inner, constant(1)),
        Long::Right => operation(SUM, constant(1), inner),
    });
    let spin = all(&[while_do(constant(1), set(0, value)), give(variable(0))]);
    book(&[(0, 1, spin), (8, 0, give(variable(7)))])
}
const LONG_OPERAND_BYTES: usize = 9_362;

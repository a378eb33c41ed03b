//! Edge cases beyond the document's worked books, each with the answer that the rules give.

use crate::assemble::*;
use crate::worked::*;
use crate::{Answer, Entries, FINISHED, OUT_OF_STEPS, TOO_DEEP};

const PLENTY: u64 = 1_000_000;

/// A valid body of exactly so many bytes, 3 or at least 10, for a procedure with a variable.
pub fn body_of(bytes: usize) -> Vec<u8> {
    let closing = give(variable(0));
    let mut missing = bytes - closing.len();
    let mut body = Vec::new();
    // Sets of 4 bytes, and of 7 until 4 divides what is missing.
    while missing > 0 {
        let filler = match missing % 4 {
            0 => set(0, variable(0)),
            _ => set(0, constant(1)),
        };
        missing -= filler.len();
        body.extend(filler);
    }
    body.extend(closing);
    body
}

// ---- The reader ----

pub fn book_lengths(entries: &mut dyn Entries) {
    expect_refused(entries, &[], 1);
    let largest = single(1, 0, body_of(32_768 - 7));
    assert_eq!(largest.len(), 32_768);
    expect_read(entries, &largest, 1);
    let too_long = single(1, 0, body_of(32_769 - 7));
    expect_refused(entries, &too_long, 1);
    expect_refused(entries, &vec![0; 32_769], 1);
    expect_refused(entries, &vec![0; 70_000], 1);
    expect_refused(entries, &vec![0; 32_768], 2);
}

pub fn contents_cut_short(entries: &mut dyn Entries) {
    let book = book_m();
    for length in 1..13 {
        expect_refused(entries, &book[..length], 2);
    }
    // The contents alone, with bodies that are not there.
    for length in 13..book.len() {
        expect_refused(entries, &book[..length], 2);
    }
    expect_refused(entries, &[book, vec![0]].concat(), 2);
}

pub fn procedure_counts(entries: &mut dyn Entries) {
    let body = give(constant(1));
    let many = |count: usize| book(&vec![(0, 0, body.clone()); count]);
    expect_read(entries, &many(1), 1);
    expect_read(entries, &many(32), 32);
    expect_refused(entries, &many(33), 2);
    expect_refused(entries, &many(255), 2);
    expect_refused(entries, &[0], 2);
    expect_refused(entries, &[0, 7, 0, 3, 0, 1, 0, 4, 0x11, 0], 2);
}

pub fn variable_counts(entries: &mut dyn Entries) {
    let with = |parameters, locals| single(parameters, locals, give(constant(1)));
    expect_read(entries, &with(8, 8), 1);
    expect_refused(entries, &with(9, 0), 2);
    expect_refused(entries, &with(0, 9), 2);
    expect_refused(entries, &with(255, 0), 2);
    expect_refused(entries, &with(8, 255), 2);
}

pub fn offsets_and_lengths(entries: &mut dyn Entries) {
    let book = book_m();
    // The low and high bytes of both offsets and both lengths.
    for place in [1, 2, 3, 4, 7, 8, 9, 10] {
        for change in [1, 2, 0x80, 0xFF] {
            let mut changed = book.clone();
            changed[place] = changed[place].wrapping_add(change);
            expect_refused(entries, &changed, 2);
        }
    }
}

pub fn offsets_do_not_wrap(entries: &mut dyn Entries) {
    let mut wrapped = book(&[(1, 0, vec![]), (1, 0, vec![0; 4]), (1, 0, give(variable(0)))]);
    let (start, end) = (19u32, wrapped.len() as u32);
    // 19 + 65,525 = 65,544, which is 8 modulo 2^16; 8 + (end - 8) is the end.
    wrapped[3..5].copy_from_slice(&(65_525u16).to_le_bytes());
    wrapped[7..9].copy_from_slice(&((start + 65_525) as u16).to_le_bytes());
    wrapped[9..11].copy_from_slice(&((end - 8) as u16).to_le_bytes());
    wrapped[13..15].copy_from_slice(&(end as u16).to_le_bytes());
    wrapped[15..17].copy_from_slice(&0u16.to_le_bytes());
    expect_refused(entries, &wrapped, 2);
}

pub fn contents_before_bodies(entries: &mut dyn Entries) {
    // A broken body and a ninth local: the contents come first.
    expect_refused(entries, &single(0, 9, vec![0xFF]), 2);
    expect_refused(entries, &single(0, 8, vec![0xFF]), 3);
}

pub fn bodies_cut_short(entries: &mut dyn Entries) {
    for (parameters, locals, body) in [
        (2, 0, book_m()[13..48].to_vec()),
        (1, 1, book_c()[7..].to_vec()),
        (3, 1, book_d()[7..].to_vec()),
    ] {
        let whole = |body: Vec<u8>| book(&[(parameters, locals, body), (1, 0, give(variable(0)))]);
        assert_eq!(entries.read(&whole(body.clone())).refusal, 0);
        for length in 0..body.len() {
            expect_refused(entries, &whole(body[..length].to_vec()), 3);
        }
    }
}

pub fn bytes_left_over(entries: &mut dyn Entries) {
    for extra in [0x00, 0x01, 0x04, 0xFF] {
        let body = [give(variable(0)), vec![extra]].concat();
        expect_refused(entries, &single(1, 0, body), 3);
    }
    let twice = [give(variable(0)), give(variable(0))].concat();
    expect_refused(entries, &single(1, 0, twice), 3);
}

pub fn command_codes(entries: &mut dyn Entries) {
    let rest = [variable(0), give(variable(0)), give(variable(0))].concat();
    for code in 0..=255 {
        let known = matches!(code, 1..=5);
        let in_body = single(1, 0, [vec![code], rest.clone()].concat());
        if !known {
            expect_refused(entries, &in_body, 3);
        }
        // A closing command, or one that is unknown, inside an S.
        let inside = [vec![code], variable(0)].concat();
        let in_sequence = single(1, 0, [while_do(variable(0), inside), give(variable(0))].concat());
        if code > 3 {
            expect_refused(entries, &in_sequence, 3);
        }
    }
}

pub fn expression_codes(entries: &mut dyn Entries) {
    for code in (0..=255).filter(|code| !matches!(code, 0x10..=0x13)) {
        let body = [vec![0x04, code], vec![0; 4]].concat();
        expect_refused(entries, &single(1, 0, body), 3);
        let operand = operation(SUM, vec![code, 0], variable(0));
        expect_refused(entries, &single(1, 0, give(operand)), 3);
    }
}

pub fn end_in_a_closing_sequence(entries: &mut dyn Entries) {
    expect_refused(entries, &single(1, 0, [vec![0], give(variable(0))].concat()), 3);
    let branch = [vec![0], give(variable(0))].concat();
    expect_refused(entries, &single(1, 0, pick(variable(0), branch, give(variable(0)))), 3);
}

pub fn numbers_out_of_range(entries: &mut dyn Entries) {
    // Three variables: two parameters, then a local.
    let with = |body| book(&[(2, 1, body), (1, 0, give(variable(0)))]);
    expect_read(entries, &with(give(variable(2))), 2);
    for number in [3, 16, 255] {
        expect_refused(entries, &with(give(variable(number))), 3);
        let body = all(&[set(number, constant(0)), give(constant(0))]);
        expect_refused(entries, &with(body), 3);
    }
    expect_refused(entries, &single(0, 0, give(variable(0))), 3);
    for number in [8, 9, 255] {
        let value = operation(number, variable(0), variable(0));
        expect_refused(entries, &with(give(value)), 3);
    }
    expect_read(entries, &with(give(call(1, &[variable(0)]))), 2);
    for number in [2, 32, 255] {
        expect_refused(entries, &with(give(call(number, &[variable(0)]))), 3);
    }
    // One argument too few, and one too many.
    expect_refused(entries, &with(give(call(0, &[variable(0)]))), 3);
    expect_refused(entries, &with(give(call(1, &[variable(0), variable(0)]))), 3);
}

pub fn empty_sequences(entries: &mut dyn Entries) {
    let body = all(&[
        if_else(variable(0), vec![], vec![]),
        while_do(constant(0), vec![]),
        give(variable(0)),
    ]);
    let book = single(1, 0, body);
    expect_read(entries, &book, 2);
    expect_run(entries, &book, 0, &[4], PLENTY, (FINISHED, 4, 6));
}

/// `levels` forms inside one another, the innermost holding a leaf.
fn nested(levels: usize, leaf: Vec<u8>, form: impl Fn(Vec<u8>) -> Vec<u8>) -> Vec<u8> {
    (0..levels).fold(leaf, |inner, _| form(inner))
}

/// A command of depth 1 holds forms of depths 2 to 23, and the leaf stands at depth 24.
pub fn depth_of_expressions(entries: &mut dyn Entries) {
    let left = |inner| operation(SUM, inner, constant(1));
    let right = |inner| operation(SUM, constant(1), inner);
    let argument = |inner| call(1, &[constant(0), inner]);
    let last = (2, 0, give(variable(0)));
    let with = |value| book(&[(1, 0, give(value)), last.clone()]);
    for leaf in [variable(0), constant(5), call(2, &[])] {
        let with = |value| book(&[(1, 0, give(value)), last.clone(), (0, 0, give(constant(1)))]);
        expect_read(entries, &with(nested(22, leaf.clone(), left)), 3);
        expect_refused(entries, &with(nested(23, leaf.clone(), left)), 3);
    }
    expect_read(entries, &with(nested(22, variable(0), right)), 2);
    expect_refused(entries, &with(nested(23, variable(0), right)), 3);
    expect_read(entries, &with(nested(22, variable(0), argument)), 2);
    expect_refused(entries, &with(nested(23, variable(0), argument)), 3);
}

pub fn depth_of_commands(entries: &mut dyn Entries) {
    let in_loop = |inner| while_do(constant(0), inner);
    let in_first = |inner| if_else(constant(0), inner, vec![]);
    let in_second = |inner| if_else(constant(0), vec![], inner);
    let with = |commands: Vec<u8>| single(1, 0, all(&[commands, give(variable(0))]));
    let leaf = || set(0, constant(0));
    // The set stands at depth 23, its constant at 24.
    expect_read(entries, &with(nested(22, leaf(), in_loop)), 23);
    expect_refused(entries, &with(nested(23, leaf(), in_loop)), 3);
    expect_read(entries, &with(nested(22, leaf(), in_first)), 1);
    expect_refused(entries, &with(nested(23, leaf(), in_first)), 3);
    expect_read(entries, &with(nested(22, leaf(), in_second)), 1);
    expect_refused(entries, &with(nested(23, leaf(), in_second)), 3);
    // Loops of depth 1 to 23: the innermost holds nothing, and its condition stands at 24.
    expect_read(entries, &with(nested(23, vec![], in_loop)), 24);
    expect_refused(entries, &with(nested(24, vec![], in_loop)), 3);
}

pub fn depth_of_closing_sequences(entries: &mut dyn Entries) {
    let in_first = |inner| pick(variable(0), inner, give(variable(0)));
    let in_second = |inner| pick(variable(0), give(variable(0)), inner);
    expect_read(entries, &single(1, 0, nested(22, give(variable(0)), in_first)), 1);
    expect_refused(entries, &single(1, 0, nested(23, give(variable(0)), in_first)), 3);
    expect_read(entries, &single(1, 0, nested(22, give(variable(0)), in_second)), 1);
    expect_refused(entries, &single(1, 0, nested(23, give(variable(0)), in_second)), 3);
}

pub fn many_loops(entries: &mut dyn Entries) {
    let loops =
        |count: usize| nested(count, vec![], |inner| all(&[while_do(constant(0), vec![]), inner]));
    let with = |first: usize, second: usize| {
        book(&[
            (2, 1, all(&[loops(first), give(variable(0))])),
            (0, 0, all(&[loops(second), give(constant(0))])),
        ])
    };
    expect_read(entries, &with(64, 0), 2 + 64 * 3);
    expect_read(entries, &with(0, 64), 2);
    expect_read(entries, &with(1, 63), 2 + 3);
    expect_refused(entries, &with(65, 0), 4);
    expect_refused(entries, &with(0, 65), 4);
    expect_refused(entries, &with(32, 33), 4);
    expect_refused(entries, &with(600, 600), 4);
    // A broken body after 65 loops comes first.
    let broken = book(&[(0, 0, all(&[loops(65), give(constant(0))])), (0, 0, vec![])]);
    expect_refused(entries, &broken, 3);
}

/// The largest summary: 32 results and 64 rows of 16.
pub fn largest_summary(entries: &mut dyn Entries) {
    let body =
        all(&[while_do(variable(0), vec![]), while_do(variable(0), vec![]), give(variable(0))]);
    let largest = book(&vec![(8, 8, body); 32]);
    expect_read(entries, &largest, 1_056);
    let mut buffer = [0; 1_056];
    assert_eq!(entries.find(&largest, &mut buffer).fields[0], 1_056);
    assert_eq!(entries.find(&largest, &mut buffer[..1_055]), Answer::refused(8));
}

// ---- The runner ----

pub fn operations(entries: &mut dyn Entries) {
    let max = u32::MAX;
    let half = 1 << 31;
    let table: &[(u8, u32, u32, u32)] = &[
        (SUM, 2, 3, 5),
        (SUM, max, 1, 0),
        (SUM, max, max, max - 1),
        (DIFFERENCE, 3, 5, max - 1),
        (DIFFERENCE, 5, 3, 2),
        (DIFFERENCE, 0, 1, max),
        (PRODUCT, 6, 7, 42),
        (PRODUCT, 1 << 16, 1 << 16, 0),
        (PRODUCT, max, max, 1),
        (PRODUCT, 0x1234_5678, 0x9ABC_DEF0, 0x242D_2080),
        (QUOTIENT, 7, 2, 3),
        (QUOTIENT, 7, 0, 0),
        (QUOTIENT, 0, 0, 0),
        (QUOTIENT, max, 1, max),
        (QUOTIENT, 1, max, 0),
        (QUOTIENT, max, half, 1),
        (EQUAL, 4, 4, 1),
        (EQUAL, 4, 5, 0),
        (LESS, 4, 5, 1),
        (LESS, 5, 5, 0),
        (LESS, 5, 4, 0),
        (LESS, 1, max, 1),
        (LESS, max, 1, 0),
        (LESS, half - 1, half, 1),
        (SMALLER, 4, max, 4),
        (SMALLER, max, 4, 4),
        (SMALLER, half, half - 1, half - 1),
        (LARGER, 4, max, max),
        (LARGER, max, 4, max),
        (LARGER, 3, 3, 3),
    ];
    for &(number, left, right, value) in table {
        let value = u64::from(value);
        let of_inputs = single(2, 0, give(operation(number, variable(0), variable(1))));
        expect_run(entries, &of_inputs, 0, &[left, right], 4, (FINISHED, value, 4));
        let of_constants = single(0, 0, give(operation(number, constant(left), constant(right))));
        expect_run(entries, &of_constants, 0, &[], 4, (FINISHED, value, 4));
    }
}

pub fn every_budget(entries: &mut dyn Entries) {
    // Case D on (2, 5, 9) takes 24 steps: any budget below that is spent wholly.
    for budget in 0..24 {
        expect_run(entries, &book_d(), 0, &[2, 5, 9], budget, (OUT_OF_STEPS, 0, budget));
    }
    for budget in [24, 25, 999_999, 1_000_000] {
        expect_run(entries, &book_d(), 0, &[2, 5, 9], budget, (FINISHED, 9, 24));
    }
    let endless = single(1, 0, all(&[while_do(constant(1), vec![]), give(variable(0))]));
    for budget in [0, 1, 2, 999_999, 1_000_000] {
        expect_run(entries, &endless, 0, &[1], budget, (OUT_OF_STEPS, 0, budget));
    }
}

pub fn steps_of_each_form(entries: &mut dyn Entries) {
    let run = |entries: &mut dyn Entries, body: Vec<u8>, value, steps| {
        let book = book(&[(1, 1, body), (2, 0, give(variable(1)))]);
        expect_run(entries, &book, 0, &[3], PLENTY, (FINISHED, value, steps));
    };
    run(entries, give(constant(8)), 8, 2);
    run(entries, all(&[set(1, constant(8)), give(variable(1))]), 8, 4);
    run(entries, give(call(1, &[constant(8), variable(0)])), 3, 6);
    run(entries, pick(constant(0), give(constant(8)), give(constant(9))), 9, 4);
    run(entries, pick(constant(1), give(constant(8)), give(constant(9))), 8, 4);
    let first = set(1, constant(1));
    let second = all(&[set(1, constant(2)), set(1, constant(2))]);
    let after = give(variable(1));
    run(entries, all(&[if_else(constant(7), first.clone(), second.clone()), after.clone()]), 1, 6);
    run(entries, all(&[if_else(constant(0), first, second), after.clone()]), 2, 8);
    // Four tests of the condition at 2 steps, three turns at 4, then 2.
    run(
        entries,
        all(&[while_do(variable(0), count_down(0)), give(variable(0))]),
        0,
        4 * 2 + 3 * 4 + 2,
    );
}

pub fn locals_start_as_zero(entries: &mut dyn Entries) {
    // Procedure 1 answers its local and then fills it: its second call must not see the number.
    let fills = all(&[set(0, operation(SUM, variable(0), constant(5))), give(variable(0))]);
    let twice = give(operation(SUM, call(1, &[]), call(1, &[])));
    let book = book(&[(0, 0, twice), (0, 1, fills)]);
    expect_run(entries, &book, 0, &[], PLENTY, (FINISHED, 10, 16));
}

pub fn callee_leaves_its_caller_alone(entries: &mut dyn Entries) {
    let changes = all(&[set(0, constant(100)), set(1, constant(200)), give(variable(1))]);
    let caller =
        all(&[set(1, call(1, &[variable(0)])), give(operation(SUM, variable(0), variable(1)))]);
    let book = book(&[(1, 1, caller), (1, 1, changes)]);
    expect_run(entries, &book, 0, &[7], PLENTY, (FINISHED, 207, 13));
}

pub fn arguments_from_left_to_right(entries: &mut dyn Entries) {
    let minus = give(operation(DIFFERENCE, variable(0), variable(1)));
    let nested =
        call(1, &[call(1, &[constant(50), constant(8)]), call(1, &[constant(9), constant(7)])]);
    let book = book(&[(0, 0, give(nested)), (2, 0, minus)]);
    expect_run(entries, &book, 0, &[], PLENTY, (FINISHED, 40, 20));
}

/// Procedure 0 calls itself so often as its input says, then returns 1.
fn recursion() -> Vec<u8> {
    let less = operation(DIFFERENCE, variable(0), constant(1));
    single(1, 0, pick(variable(0), give(call(0, &[less])), give(constant(1))))
}

pub fn call_depth(entries: &mut dyn Entries) {
    // Each turn: pick 1, condition 1, return 1, call 1, argument 3. The last: 4.
    expect_run(entries, &recursion(), 0, &[63], PLENTY, (FINISHED, 1, 63 * 7 + 4));
    expect_run(entries, &recursion(), 0, &[64], PLENTY, (TOO_DEEP, 0, 64 * 7));
    expect_run(entries, &recursion(), 0, &[64], 64 * 7, (TOO_DEEP, 0, 64 * 7));
    expect_run(entries, &recursion(), 0, &[64], 64 * 7 - 1, (OUT_OF_STEPS, 0, 64 * 7 - 1));
    expect_run(entries, &recursion(), 0, &[u32::MAX], PLENTY, (TOO_DEEP, 0, 64 * 7));
}

pub fn depth_counts_open_calls_only(entries: &mut dyn Entries) {
    // A hundred calls one after another, none inside another.
    let turn = all(&[set(1, call(1, &[variable(1)])), count_down(0)]);
    let caller = all(&[while_do(variable(0), turn), give(variable(1))]);
    let successor = give(operation(SUM, variable(0), constant(1)));
    let book = book(&[(1, 1, caller), (1, 0, successor)]);
    expect_run(entries, &book, 0, &[100], PLENTY, (FINISHED, 100, 100 * (2 + 7 + 4) + 4));
}

pub fn too_deep_in_an_argument(entries: &mut dyn Entries) {
    // f(x) = f(f(x)): the inner call is entered first and goes down alone.
    let book = single(1, 0, give(call(0, &[call(0, &[variable(0)])])));
    expect_run(entries, &book, 0, &[1], PLENTY, (TOO_DEEP, 0, 64 * 4));
}

pub fn sixteen_variables_to_depth_64(entries: &mut dyn Entries) {
    // All 1,024 cells are in use: every variable of every depth holds a number that is asked later.
    let mut body = Vec::new();
    for local in 8..16 {
        body.extend(set(local, operation(SUM, variable(local - 8), constant(local.into()))));
    }
    let mut arguments = vec![operation(DIFFERENCE, variable(0), constant(1))];
    arguments.extend(
        (1..8).map(|parameter| operation(SUM, variable(parameter), variable(parameter + 8))),
    );
    let total =
        (8..16).fold(call(0, &arguments), |sum, local| operation(SUM, sum, variable(local)));
    body.extend(pick(variable(0), give(total), give(constant(0))));
    let book = single(8, 8, body);
    let mut work = [9; 1_024];
    let inputs = [63, 1, 2, 3, 4, 5, 6, 7];
    let answer = entries.run(&book, 0, &inputs, PLENTY, &mut work);
    assert_eq!(answer.fields[..2], [FINISHED, sixteen_by_hand(inputs)]);
    assert_eq!(work, [0; 1_024]);
}

fn sixteen_by_hand(variables: [u32; 8]) -> u64 {
    if variables[0] == 0 {
        return 0;
    }
    let local = |place: usize| variables[place].wrapping_add(place as u32 + 8);
    let mut arguments = [variables[0] - 1; 8];
    for place in 1..8 {
        arguments[place] = variables[place].wrapping_add(local(place));
    }
    let sum =
        (0..8).fold(sixteen_by_hand(arguments) as u32, |sum, place| sum.wrapping_add(local(place)));
    sum.into()
}

pub fn refusals_of_the_runner(entries: &mut dyn Entries) {
    let book = book_m();
    let mut run = |procedure, inputs: &[u32], budget, cells: usize| {
        let mut work = vec![7; cells];
        let refusal = entries.run(&book, procedure, inputs, budget, &mut work);
        if refusal.refusal != 0 {
            assert_eq!(work, vec![7; cells], "a refused run writes nothing");
            assert_eq!(refusal, Answer::refused(refusal.refusal));
        }
        refusal.refusal
    };
    for procedure in [2, 32, 256, 1 << 32, (1 << 32) + 1, u64::MAX] {
        assert_eq!(run(procedure, &[1], PLENTY, 1_024), 6);
    }
    for inputs in [&[][..], &[1][..], &[1, 1, 1][..], &[0; 100][..]] {
        assert_eq!(run(0, inputs, PLENTY, 1_024), 7);
    }
    for cells in [0, 1, 16, 1_023] {
        assert_eq!(run(0, &[1, 1], PLENTY, cells), 10);
    }
    for budget in [1_000_001, 1 << 32, u64::MAX] {
        assert_eq!(run(0, &[1, 1], budget, 1_024), 11);
    }
    // The lowest number that applies.
    assert_eq!(run(2, &[1, 1, 1], u64::MAX, 0), 6);
    assert_eq!(run(0, &[1, 1, 1], u64::MAX, 0), 7);
    assert_eq!(run(0, &[1, 1], u64::MAX, 0), 10);
    assert_eq!(run(0, &[1, 1], u64::MAX, 1_024), 11);
    assert_eq!(run(0, &[1, 1], PLENTY, 1_024), 0);
    assert_eq!(run(0, &[1, 1], 0, 5_000), 0);
}

// ---- The flow rules ----

pub fn guard_returns_to_its_former_value(entries: &mut dyn Entries) {
    // if v0: nothing. Then v2 := v1, and v2 does not rest on v0.
    let after_if =
        all(&[if_else(variable(0), vec![], vec![]), set(2, variable(1)), give(variable(2))]);
    expect_found(entries, &single(2, 1, after_if), &[0b10], 2);
    let after_loop = all(&[while_do(variable(0), vec![]), set(2, variable(1)), give(variable(2))]);
    expect_found(entries, &single(2, 1, after_loop), &[0b10, 0b01, 0b10, 0], 3);
}

pub fn both_branches_start_from_the_same_sets(entries: &mut dyn Entries) {
    // if v2: v3 := v0, else v3 := v1. The second branch must not see the first one's set.
    let body =
        all(&[if_else(constant(1), set(3, variable(0)), set(2, variable(3))), give(variable(2))]);
    expect_found(entries, &single(3, 1, body), &[0b100], 2);
    let body =
        all(&[if_else(constant(1), set(3, variable(0)), set(3, variable(1))), give(variable(3))]);
    expect_found(entries, &single(3, 1, body), &[0b011], 2);
}

pub fn guards_add_up(entries: &mut dyn Entries) {
    let inner = if_else(variable(1), set(3, constant(1)), vec![]);
    let body = all(&[if_else(variable(0), inner, vec![]), give(variable(3))]);
    expect_found(entries, &single(3, 1, body), &[0b011], 2);
    // The guard of a pick covers every return below it.
    let body = pick(
        variable(0),
        pick(variable(1), give(constant(1)), give(constant(2))),
        give(constant(3)),
    );
    expect_found(entries, &single(3, 0, body), &[0b011], 2);
    // An assignment under the guard of a pick, too.
    let branch = all(&[set(1, constant(1)), give(variable(1))]);
    expect_found(entries, &single(2, 0, pick(variable(0), branch.clone(), branch)), &[0b01], 2);
}

pub fn assignment_under_a_guard_replaces(entries: &mut dyn Entries) {
    // if v0: v1 := 3, else v1 := 4. v1's own set is gone, the guard's is there.
    let body =
        all(&[if_else(variable(0), set(1, constant(3)), set(1, constant(4))), give(variable(1))]);
    expect_found(entries, &single(2, 0, body), &[0b01], 2);
}

pub fn call_takes_only_what_the_result_names(entries: &mut dyn Entries) {
    // Procedure 1 returns its second parameter.
    let caller = give(call(1, &[variable(0), variable(1), variable(2)]));
    let second = give(variable(1));
    let book = book(&[(3, 0, caller), (3, 0, second)]);
    expect_found(entries, &book, &[0b010, 0b010], 3);
    expect_checked(entries, &book, &[0b111, 0b010], 0);
    // With a larger result of the callee the caller's must be larger, too.
    expect_checked(entries, &book, &[0b010, 0b110], 9);
    expect_checked(entries, &book, &[0b110, 0b110], 0);
}

pub fn calls_in_a_chain_take_a_round_each(entries: &mut dyn Entries) {
    let mut procedures = vec![];
    for next in 1..32 {
        procedures.push((1, 0, give(call(next, &[variable(0)]))));
    }
    procedures.push((1, 0, give(variable(0))));
    expect_found(entries, &book(&procedures), &[1; 32], 33);
    // The other way round it is no quicker: a round uses only the summary before it.
    let mut procedures = vec![(1, 0, give(variable(0)))];
    for last in 0..31 {
        procedures.push((1, 0, give(call(last, &[variable(0)]))));
    }
    expect_found(entries, &book(&procedures), &[1; 32], 33);
}

pub fn rows_of_nested_loops(entries: &mut dyn Entries) {
    // while v0: while v1: v2 := v0. The outer loop's row comes first.
    let inner = while_do(variable(1), set(2, variable(0)));
    let body = all(&[while_do(variable(0), inner), give(variable(2))]);
    let book = single(2, 1, body);
    expect_read(entries, &book, 7);
    // The inner row waits for the outer one, the outer for the inner, the result for the outer:
    // rows arrive, v2 gains v0 and v1, then outer, inner and result follow, and nothing more.
    let mut buffer = [0; 7];
    let answer = entries.find(&book, &mut buffer);
    assert_eq!(answer.refusal, 0);
    assert_eq!(buffer, [0b11, 0b01, 0b10, 0b11, 0b01, 0b10, 0b11]);
}

pub fn rows_follow_the_book(entries: &mut dyn Entries) {
    // Procedure 0 has one variable, procedure 1 two: rows of 1, 1 and 2 bytes.
    let two = all(&[
        while_do(variable(0), vec![]),
        while_do(constant(0), set(0, constant(1))),
        give(constant(0)),
    ]);
    let one = all(&[while_do(variable(1), vec![]), give(constant(0))]);
    let book = book(&[(1, 0, two), (2, 0, one)]);
    expect_found(entries, &book, &[0, 0, 1, 1, 1, 2], 3);
}

pub fn loop_in_each_branch(entries: &mut dyn Entries) {
    let counted = |from: u8| while_do(variable(0), all(&[set(2, variable(from)), count_down(0)]));
    let body = all(&[
        if_else(variable(1), counted(0), vec![]),
        pick(
            constant(1),
            all(&[counted(1), give(variable(2))]),
            all(&[counted(2), give(constant(7))]),
        ),
    ]);
    expect_read(entries, &single(2, 1, body), 1 + 3 * 3);
}

pub fn sets_that_name_no_parameter(entries: &mut dyn Entries) {
    // One parameter: bit 0 alone may be set, in results and rows.
    let body = all(&[while_do(variable(0), count_down(0)), give(variable(1))]);
    let book = single(1, 1, body);
    expect_found(entries, &book, &[0, 1, 0], 2);
    expect_checked(entries, &book, &[1, 1, 1], 0);
    for (place, bit) in [(0, 1), (1, 1), (2, 1), (0, 7), (1, 7), (2, 7)] {
        let mut summary = [1, 1, 1];
        summary[place] |= 1 << bit;
        expect_checked(entries, &book, &summary, 9);
    }
    let without = single(0, 0, give(constant(1)));
    expect_found(entries, &without, &[0], 1);
    expect_checked(entries, &without, &[1], 9);
    let eight = single(8, 0, give(constant(1)));
    expect_found(entries, &eight, &[0], 1);
    expect_checked(entries, &eight, &[0xFF], 0);
}

pub fn eighth_parameter(entries: &mut dyn Entries) {
    expect_found(entries, &single(8, 0, give(variable(7))), &[0x80], 2);
    let arguments: Vec<_> = (0..8).rev().map(variable).collect();
    let book = book(&[(8, 0, give(call(1, &arguments))), (8, 0, give(variable(0)))]);
    expect_found(entries, &book, &[0x80, 0x01], 3);
}

pub fn summary_lengths(entries: &mut dyn Entries) {
    let book = book_d();
    let mut buffer = [0xA5; 9];
    for length in 0..5 {
        assert_eq!(entries.find(&book, &mut buffer[..length]), Answer::refused(8));
        assert_eq!(buffer, [0xA5; 9], "a refused find writes nothing");
        expect_checked(entries, &book, &vec![7; length], 8);
    }
    for length in 6..9 {
        assert_eq!(entries.find(&book, &mut buffer[..length]).refusal, 0);
        expect_checked(entries, &book, &vec![7; length], 8);
    }
    expect_checked(entries, &book, &[], 8);
    expect_checked(entries, &book, &vec![0; 70_000], 8);
}

pub fn dead_code_counts(entries: &mut dyn Entries) {
    // The rules do not ask whether a branch can be taken.
    let body = pick(constant(1), give(constant(0)), give(variable(0)));
    expect_found(entries, &single(1, 0, body), &[1], 2);
}

// ---- Levels ----

/// Object at the bottom, card and bench beside each other, top over both.
pub const DIAMOND: [u8; 17] = [4, 0, 1, 2, 3, 1, 1, 3, 3, 2, 3, 2, 3, 3, 3, 3, 3];

fn level_of(entries: &mut dyn Entries, table: &[u8], levels: &[u8]) -> Answer {
    let result = (0..levels.len())
        .fold(constant(0), |sum, parameter| operation(SUM, sum, variable(parameter as u8)));
    let book = single(levels.len() as u8, 0, give(result));
    let summary = [((1u16 << levels.len()) - 1) as u8];
    entries.level(&book, table, 0, levels, &summary)
}

pub fn joined_levels(entries: &mut dyn Entries) {
    for (levels, joined) in [
        (&[][..], 0),
        (&[0][..], 0),
        (&[1][..], 1),
        (&[1, 2][..], 3),
        (&[2, 0, 2][..], 2),
        (&[0, 0, 3, 0][..], 3),
        (&[0, 0, 0, 0, 0, 0, 0, 2][..], 2),
    ] {
        assert_eq!(level_of(entries, &DIAMOND, levels), Answer::given(&[joined]));
    }
}

pub fn bottom_anywhere(entries: &mut dyn Entries) {
    // Three levels in a chain 2, 0, 1: bottom is 2.
    let table = [3, 0, 1, 0, 1, 1, 1, 0, 1, 2];
    assert_eq!(level_of(entries, &table, &[]), Answer::given(&[2]));
    assert_eq!(level_of(entries, &table, &[2, 2]), Answer::given(&[2]));
    assert_eq!(level_of(entries, &table, &[2, 0]), Answer::given(&[0]));
    assert_eq!(level_of(entries, &table, &[0, 1]), Answer::given(&[1]));
}

pub fn only_levels_in_the_result_set(entries: &mut dyn Entries) {
    let book = single(3, 0, give(variable(1)));
    let level = |entries: &mut dyn Entries, summary: u8| {
        entries.level(&book, &DIAMOND, 0, &[1, 2, 0], &[summary])
    };
    assert_eq!(level(entries, 0b010), Answer::given(&[2]));
    assert_eq!(level(entries, 0b110), Answer::given(&[2]));
    assert_eq!(level(entries, 0b011), Answer::given(&[3]));
    assert_eq!(level(entries, 0b001), Answer::refused(9));
    assert_eq!(level(entries, 0b1010), Answer::refused(9));
}

/// A chain of n levels, the join being the larger.
pub fn chain(count: u8) -> Vec<u8> {
    let mut table = vec![count];
    for a in 0..count {
        table.extend((0..count).map(|b| a.max(b)));
    }
    table
}

pub fn level_tables(entries: &mut dyn Entries) {
    let valid = |entries: &mut dyn Entries, table: &[u8]| match level_of(entries, table, &[]) {
        Answer { refusal: 0, .. } => true,
        refused => {
            assert_eq!(refused, Answer::refused(5));
            false
        }
    };
    for count in 1..=16 {
        assert!(valid(entries, &chain(count)));
        let mut longer = chain(count);
        longer.push(0);
        assert!(!valid(entries, &longer));
        assert!(!valid(entries, &chain(count)[..usize::from(count) * usize::from(count)]));
    }
    assert!(!valid(entries, &[]));
    assert!(!valid(entries, &[0]));
    assert!(!valid(entries, &[1]));
    assert!(!valid(entries, &chain(17)));
    assert!(!valid(entries, &chain(255)));
    assert!(valid(entries, &DIAMOND));
    // An entry that is not below n.
    assert!(!valid(entries, &[1, 1]));
    assert!(!valid(entries, &[2, 0, 1, 1, 2]));
    // Not idempotent, not commutative, without a bottom.
    assert!(!valid(entries, &[2, 0, 1, 1, 0]));
    assert!(!valid(entries, &[2, 0, 0, 1, 1]));
    assert!(!valid(entries, &[3, 0, 2, 2, 2, 1, 2, 2, 2, 2]));
    // Idempotent and commutative, with the bottom 0, but (1 join 2) join 3 is not 1 join (2 join 3).
    let mut not_associative = DIAMOND;
    (not_associative[1 + 4 + 2], not_associative[1 + 8 + 1]) = (2, 2);
    (not_associative[1 + 4 + 3], not_associative[1 + 12 + 1]) = (1, 1);
    assert!(!valid(entries, &not_associative));
}

pub fn every_changed_entry_of_the_diamond(entries: &mut dyn Entries) {
    for place in 1..17 {
        for entry in (0..=255).filter(|&entry| entry != DIAMOND[place]) {
            let mut table = DIAMOND;
            table[place] = entry;
            assert_eq!(level_of(entries, &table, &[]), Answer::refused(5), "{table:?}");
        }
    }
}

pub fn refusals_of_the_reporter(entries: &mut dyn Entries) {
    let book = book_m();
    let summary = [3, 1, 1, 3];
    let mut level = |table: &[u8], procedure, levels: &[u8], summary: &[u8]| {
        let answer = entries.level(&book, table, procedure, levels, summary);
        if answer.refusal != 0 {
            assert_eq!(answer, Answer::refused(answer.refusal));
        }
        answer.refusal
    };
    assert_eq!(level(&DIAMOND, 0, &[1, 2], &summary), 0);
    for procedure in [2, 32, 256, 1 << 32, u64::MAX] {
        assert_eq!(level(&DIAMOND, procedure, &[1, 2], &summary), 6);
    }
    for levels in [&[][..], &[1][..], &[1, 2, 3][..], &[1, 4][..], &[255, 1][..]] {
        assert_eq!(level(&DIAMOND, 0, levels, &summary), 7);
    }
    for summary in [&[][..], &[3, 1, 1][..], &[3, 1, 1, 3, 0][..]] {
        assert_eq!(level(&DIAMOND, 0, &[1, 2], summary), 8);
    }
    assert_eq!(level(&DIAMOND, 0, &[1, 2], &[1, 1, 1, 3]), 9);
    // The lowest number that applies.
    assert_eq!(level(&[0], 9, &[9], &[]), 5);
    assert_eq!(level(&DIAMOND, 9, &[9], &[]), 6);
    assert_eq!(level(&DIAMOND, 0, &[9], &[]), 7);
    assert_eq!(level(&DIAMOND, 0, &[1, 9], &[]), 7);
    assert_eq!(level(&DIAMOND, 0, &[1, 2], &[]), 8);
}

/// Hands the names of all edge cases to a macro, so that each can be a test of its own.
#[macro_export]
macro_rules! edge_cases {
    ($macro:ident) => {
        $macro! {
            book_lengths
            contents_cut_short
            procedure_counts
            variable_counts
            offsets_and_lengths
            offsets_do_not_wrap
            contents_before_bodies
            bodies_cut_short
            bytes_left_over
            command_codes
            expression_codes
            end_in_a_closing_sequence
            numbers_out_of_range
            empty_sequences
            depth_of_expressions
            depth_of_commands
            depth_of_closing_sequences
            many_loops
            largest_summary
            operations
            every_budget
            steps_of_each_form
            locals_start_as_zero
            callee_leaves_its_caller_alone
            arguments_from_left_to_right
            call_depth
            depth_counts_open_calls_only
            too_deep_in_an_argument
            sixteen_variables_to_depth_64
            refusals_of_the_runner
            guard_returns_to_its_former_value
            both_branches_start_from_the_same_sets
            guards_add_up
            assignment_under_a_guard_replaces
            call_takes_only_what_the_result_names
            calls_in_a_chain_take_a_round_each
            rows_of_nested_loops
            rows_follow_the_book
            loop_in_each_branch
            sets_that_name_no_parameter
            eighth_parameter
            summary_lengths
            dead_code_counts
            joined_levels
            bottom_anywhere
            only_levels_in_the_result_set
            level_tables
            every_changed_entry_of_the_diamond
            refusals_of_the_reporter
        }
    };
}

macro_rules! name_all {
    ($($name:ident)*) => {
        /// Every edge case by its name.
        pub const ALL: &[(&str, fn(&mut dyn Entries))] = &[$((stringify!($name), $name)),*];
    };
}
edge_cases!(name_all);

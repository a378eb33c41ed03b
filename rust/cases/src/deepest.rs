//! Books that go as deep as the rules allow in both ways at once: at call depth 64, with forms nested
//! to depth 24 in every one of the calls. They show how much native stack a run needs.
//!
//! In every book the innermost expression of procedure 0 calls procedure 0 again, so all that stands
//! around it is at work in each of the calls when the last one is entered.

use crate::assemble::*;
use crate::books::MOST_DEPTH;
use crate::{FINISHED, TOO_DEEP};

/// A run that goes as deep as it can.
pub struct Deepest {
    pub kind: &'static str,
    pub book: Vec<u8>,
    /// For procedure 0.
    pub inputs: Vec<u32>,
    pub ending: u64,
}

/// All kinds of nesting, three runs of each.
pub fn all_deepest() -> Vec<Deepest> {
    KINDS.iter().flat_map(|kind| runs(kind, MOST_DEPTH)).collect()
}

/// The names of the kinds.
pub fn kinds() -> impl Iterator<Item = &'static str> {
    KINDS.iter().map(|kind| kind.name)
}

/// The books of all kinds, nested to the given depth, which may be one that no book may have.
pub fn books_of_depth(depth: usize) -> Vec<Vec<u8>> {
    KINDS.iter().flat_map(|kind| [counting(kind, depth), endless(kind, depth)]).collect()
}

/// One that finishes at call depth 64, and two that would go on from there.
fn runs(kind: &Kind, depth: usize) -> [Deepest; 3] {
    let counted = |count, ending| Deepest {
        kind: kind.name,
        book: counting(kind, depth),
        inputs: vec![count, 1, 2, 3, 4, 5, 6, 7],
        ending,
    };
    let for_ever =
        Deepest { kind: kind.name, book: endless(kind, depth), inputs: vec![], ending: TOO_DEEP };
    [counted(63, FINISHED), counted(64, TOO_DEEP), for_ever]
}

// ---- The kinds ----

/// What is nested in what, from outside: closing ifs, then ifs and loops, then what holds the
/// expression, then operations and calls. The levels are shared among those that a kind has, whose
/// forms take turns.
struct Kind {
    name: &'static str,
    closings: &'static [Branch],
    commands: &'static [Command],
    holder: Holder,
    expressions: &'static [Expression],
}

#[derive(Clone, Copy)]
enum Branch {
    First,
    Second,
}

#[derive(Clone, Copy)]
enum Command {
    If(Branch),
    Loop,
}

/// The command that holds the expression.
#[derive(Clone, Copy, PartialEq, Eq)]
enum Holder {
    Return,
    Assignment,
    IfCondition,
    LoopCondition,
    PickCondition,
}

#[derive(Clone, Copy)]
enum Expression {
    LeftOperand,
    RightOperand,
    FirstArgument,
    LastArgument,
}

use Branch::*;
use Command::*;
use Expression::*;
use Holder::*;

/// Expressions alone, held by a return.
const fn nested(name: &'static str, expressions: &'static [Expression]) -> Kind {
    Kind { name, closings: &[], commands: &[], holder: Return, expressions }
}

/// Ifs and loops alone, around an assignment.
const fn around(name: &'static str, commands: &'static [Command]) -> Kind {
    Kind { name, closings: &[], commands, holder: Assignment, expressions: &[] }
}

/// Closing ifs alone, around a return.
const fn closing(name: &'static str, closings: &'static [Branch]) -> Kind {
    Kind { name, closings, commands: &[], holder: Return, expressions: &[] }
}

/// Operations held by some command.
const fn held(name: &'static str, holder: Holder) -> Kind {
    Kind { name, closings: &[], commands: &[], holder, expressions: &[LeftOperand, RightOperand] }
}

const KINDS: &[Kind] = &[
    nested("operations, left operand", &[LeftOperand]),
    nested("operations, right operand", &[RightOperand]),
    nested("operations, operands in turn", &[LeftOperand, RightOperand]),
    nested("calls of 8 arguments, first argument", &[FirstArgument]),
    nested("calls of 8 arguments, last argument", &[LastArgument]),
    nested("operations and calls", &[LeftOperand, FirstArgument, RightOperand, LastArgument]),
    held("operations in an assignment", Assignment),
    held("operations in an if's condition", IfCondition),
    held("operations in a loop's condition", LoopCondition),
    held("operations in a closing if's condition", PickCondition),
    around("ifs, first branch", &[If(First)]),
    around("ifs, second branch", &[If(Second)]),
    around("loops", &[Loop]),
    around("ifs and loops", &[If(First), Loop, If(Second)]),
    closing("closing ifs, first sequence", &[First]),
    closing("closing ifs, second sequence", &[Second]),
    closing("closing ifs, sequences in turn", &[First, Second]),
    Kind {
        name: "ifs, loops and operations",
        closings: &[],
        commands: &[If(First), Loop, If(Second)],
        holder: Assignment,
        expressions: &[LeftOperand, RightOperand],
    },
    Kind {
        name: "closing ifs and calls of 8 arguments",
        closings: &[First, Second],
        commands: &[],
        holder: Return,
        expressions: &[FirstArgument, LastArgument],
    },
    Kind {
        name: "all forms",
        closings: &[First, Second],
        commands: &[If(First), Loop, If(Second)],
        holder: LoopCondition,
        expressions: &[LeftOperand, FirstArgument, RightOperand, LastArgument],
    },
];

// ---- The books ----

/// Procedures 1 and 2 return their first and their last argument.
const GIVES_FIRST: u8 = 1;
const GIVES_LAST: u8 = 2;

/// The book around the body of procedure 0, which has as many locals as can be.
fn bind(parameters: u8, body: Vec<u8>) -> Vec<u8> {
    book(&[(parameters, 8, body), (8, 0, give(variable(0))), (8, 0, give(variable(7)))])
}

/// pick v0: v0 := v0 - 1 and the nesting, else return 0. The call's arguments stand at the depth.
fn counting(kind: &Kind, depth: usize) -> Vec<u8> {
    let nest = Nest { kind, parameters: 8 };
    let again = call(0, &(0..8).map(variable).collect::<Vec<_>>());
    let further = all(&[count_down(0), nest.body(2, depth - 1, again)]);
    bind(8, pick(variable(0), further, give(constant(0))))
}

/// The nesting alone: the call, which has no arguments, stands at the depth.
fn endless(kind: &Kind, depth: usize) -> Vec<u8> {
    let nest = Nest { kind, parameters: 0 };
    bind(0, nest.body(1, depth, call(0, &[])))
}

struct Nest<'a> {
    kind: &'a Kind,
    /// Those of procedure 0, which its locals come after.
    parameters: u8,
}

impl Nest<'_> {
    /// 1 until the recursion has come back, then 0: so loops make one turn.
    fn flag(&self) -> u8 {
        self.parameters
    }

    /// What the recursion gave.
    fn result(&self) -> u8 {
        self.parameters + 1
    }

    /// A closing sequence at depth `at` in which `again` stands at depth `depth`.
    fn body(&self, at: usize, depth: usize, again: Vec<u8>) -> Vec<u8> {
        // Between them stands one command that holds the expression.
        let [closings, commands, expressions] = self.shares(depth - at - 1);
        let value = in_turn(self.kind.expressions, expressions)
            .fold(again, |inner, form| self.expression(form, inner));
        let nested = in_turn(self.kind.closings, closings)
            .fold(self.hold(value, commands), |inner, form| self.closing(form, inner));
        all(&[set(self.flag(), constant(1)), nested])
    }

    /// How many levels closing ifs, ifs and loops, and expressions have.
    fn shares(&self, levels: usize) -> [usize; 3] {
        let kind = self.kind;
        let there =
            [!kind.closings.is_empty(), !kind.commands.is_empty(), !kind.expressions.is_empty()];
        let count = there.iter().filter(|&&there| there).count();
        let mut shares = there.map(|there| if there { levels / count } else { 0 });
        let last = there.iter().rposition(|&there| there).expect("a kind nests something");
        shares[last] += levels % count;
        shares
    }

    /// The closing sequence that holds the expression, inside so many ifs and loops.
    fn hold(&self, value: Vec<u8>, commands: usize) -> Vec<u8> {
        let inside = |holder| {
            let done = all(&[holder, set(self.flag(), constant(0))]);
            let nested = in_turn(self.kind.commands, commands)
                .fold(done, |inner, form| self.command(form, inner));
            all(&[nested, give(variable(self.result()))])
        };
        match self.kind.holder {
            Return => give(value),
            PickCondition => pick(value, give(constant(1)), give(constant(0))),
            Assignment => inside(set(self.result(), value)),
            IfCondition => inside(if_else(value, set(self.result(), constant(1)), vec![])),
            LoopCondition => inside(while_do(value, vec![])),
        }
    }

    /// One more expression around, which leaves the recursion's value or adds to it.
    fn expression(&self, form: Expression, inner: Vec<u8>) -> Vec<u8> {
        // A loop ends when its condition gives 0, which is what the recursion ends with.
        let other = constant(u32::from(self.kind.holder != LoopCondition));
        let others = vec![other.clone(); 7];
        match form {
            LeftOperand => operation(SUM, inner, other),
            RightOperand => operation(SUM, other, inner),
            FirstArgument => call(GIVES_FIRST, &[vec![inner], others].concat()),
            LastArgument => call(GIVES_LAST, &[others, vec![inner]].concat()),
        }
    }

    /// One more if or loop around, whose condition leads inside once.
    fn command(&self, form: Command, inner: Vec<u8>) -> Vec<u8> {
        match form {
            If(First) => if_else(variable(self.flag()), inner, vec![]),
            If(Second) => if_else(constant(0), vec![], inner),
            Loop => while_do(variable(self.flag()), inner),
        }
    }

    /// One more closing if around, whose condition leads inside.
    fn closing(&self, form: Branch, inner: Vec<u8>) -> Vec<u8> {
        match form {
            First => pick(variable(self.flag()), inner, give(constant(0))),
            Second => pick(constant(0), give(constant(0)), inner),
        }
    }
}

/// So many forms, each in its turn.
fn in_turn<T: Copy>(forms: &[T], count: usize) -> impl Iterator<Item = T> + '_ {
    forms.iter().copied().cycle().take(count)
}

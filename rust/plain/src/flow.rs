//! Summaries and the flow rules: the walk, the checker's question and the finder's rounds.
//!
//! A set of parameters is one byte, bit i for parameter i.

use crate::book::{
    Book, Closing, Command, Expression, ExpressionId, Last, Procedure, MOST_VARIABLES,
};

type Set = u8;
const EMPTY: Set = 0;

/// What the finder answers.
#[derive(Clone, Copy, Debug, PartialEq, Eq)]
pub struct Found {
    pub size: usize,
    /// The rounds made, the last of which added nothing.
    pub rounds: u64,
}

/// Whether a summary of the right size satisfies the rules.
pub fn satisfies(book: &Book, summary: &[u8]) -> bool {
    let must_hold = walk_all(book, summary);
    names_only_parameters(book, summary)
        && must_hold.iter().zip(summary).all(|(&must, &set)| is_within(must, set))
}

/// Makes rounds from the given summary until one adds nothing; answers the number of rounds.
pub fn rounds_from(book: &Book, summary: &mut [u8]) -> u64 {
    let mut rounds = 0;
    loop {
        // The whole round walks with the summary as it stood before the round.
        let must_hold = walk_all(book, summary);
        let mut added = false;
        for (set, must) in summary.iter_mut().zip(must_hold) {
            added |= !is_within(must, *set);
            *set |= must;
        }
        rounds += 1;
        if !added {
            return rounds;
        }
    }
}

fn is_within(part: Set, whole: Set) -> bool {
    part & !whole == EMPTY
}

/// Every set with all parameters of its procedure.
pub fn widest(book: &Book) -> Vec<Set> {
    let mut summary = vec![EMPTY; book.summary_size()];
    for (number, procedure) in book.procedures.iter().enumerate() {
        summary[number] = all_parameters(procedure);
        summary[procedure.rows.clone()].fill(all_parameters(procedure));
    }
    summary
}

fn names_only_parameters(book: &Book, summary: &[u8]) -> bool {
    book.procedures.iter().enumerate().all(|(number, procedure)| {
        let all = all_parameters(procedure);
        let rows = &summary[procedure.rows.clone()];
        is_within(summary[number], all) && rows.iter().all(|&set| is_within(set, all))
    })
}

fn all_parameters(procedure: &Procedure) -> Set {
    // In 16 bits, since eight parameters would shift out of a byte.
    ((1u16 << procedure.parameters) - 1) as Set
}

/// Walks every body with the summary; answers what must lie in each of its sets.
fn walk_all(book: &Book, summary: &[u8]) -> Vec<Set> {
    let mut must_hold = vec![EMPTY; summary.len()];
    for (number, procedure) in book.procedures.iter().enumerate() {
        let mut walk = Walk {
            book,
            summary,
            must_hold: &mut must_hold,
            result: number,
            width: procedure.variables(),
        };
        walk.close(&procedure.body, Sets::at_start(procedure.parameters), EMPTY);
    }
    must_hold
}

/// A set for each variable; those past the procedure's own stay empty.
#[derive(Clone, Copy)]
struct Sets([Set; MOST_VARIABLES]);

impl Sets {
    fn at_start(parameters: usize) -> Sets {
        let mut sets = [EMPTY; MOST_VARIABLES];
        for (parameter, set) in sets[..parameters].iter_mut().enumerate() {
            *set = 1 << parameter;
        }
        Sets(sets)
    }

    fn of_row(row: &[u8]) -> Sets {
        let mut sets = [EMPTY; MOST_VARIABLES];
        sets[..row.len()].copy_from_slice(row);
        Sets(sets)
    }

    fn union(mut self, other: Sets) -> Sets {
        for (set, added) in self.0.iter_mut().zip(other.0) {
            *set |= added;
        }
        self
    }
}

/// The walk of one body.
struct Walk<'a> {
    book: &'a Book,
    summary: &'a [u8],
    must_hold: &'a mut [Set],
    /// The place of the procedure's result set in the summary.
    result: usize,
    /// The number of the procedure's variables, so the length of its rows.
    width: usize,
}

impl Walk<'_> {
    fn close(&mut self, closing: &Closing, sets: Sets, guard: Set) {
        let sets = self.perform(&closing.commands, sets, guard);
        match &closing.last {
            Last::Return(value) => {
                let returned = self.rests_on(*value, &sets) | guard;
                self.must_hold[self.result] |= returned;
            }
            Last::Pick { condition, branches } => {
                let guard = guard | self.rests_on(*condition, &sets);
                self.close(&branches.0, sets, guard);
                self.close(&branches.1, sets, guard);
            }
        }
    }

    /// Walks the commands and answers the sets after them. The guard is passed on by value, so it
    /// has its former value again after an if or a loop.
    fn perform(&mut self, commands: &[Command], mut sets: Sets, guard: Set) -> Sets {
        for command in commands {
            match command {
                Command::Set { variable, value } => {
                    sets.0[usize::from(*variable)] = self.rests_on(*value, &sets) | guard;
                }
                Command::If { condition, first, second } => {
                    let inner = guard | self.rests_on(*condition, &sets);
                    let after_first = self.perform(first, sets, inner);
                    let after_second = self.perform(second, sets, inner);
                    sets = after_first.union(after_second);
                }
                Command::While { condition, inside, row } => {
                    self.must_lie_in_row(*row, &sets);
                    sets = Sets::of_row(&self.summary[*row..row + self.width]);
                    let inner = guard | self.rests_on(*condition, &sets);
                    let at_end = self.perform(inside, sets, inner);
                    self.must_lie_in_row(*row, &at_end);
                }
            }
        }
        sets
    }

    fn must_lie_in_row(&mut self, row: usize, sets: &Sets) {
        for (must, set) in self.must_hold[row..row + self.width].iter_mut().zip(sets.0) {
            *must |= set;
        }
    }

    fn rests_on(&self, id: ExpressionId, sets: &Sets) -> Set {
        match self.book.expression(id) {
            Expression::Constant(_) => EMPTY,
            Expression::Variable(variable) => sets.0[usize::from(variable)],
            Expression::Operation(_, left, right) => {
                self.rests_on(left, sets) | self.rests_on(right, sets)
            }
            Expression::Call { procedure, first_argument } => {
                let procedure = usize::from(procedure);
                let count = self.book.procedures[procedure].parameters;
                let result = self.summary[procedure];
                self.book
                    .arguments(first_argument, count)
                    .iter()
                    .enumerate()
                    .filter(|(position, _)| result & (1 << position) != 0)
                    .fold(EMPTY, |union, (_, &argument)| union | self.rests_on(argument, sets))
            }
        }
    }
}

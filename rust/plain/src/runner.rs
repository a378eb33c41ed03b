//! Running: values, operations, steps, call depth and the work space.

use crate::book::{Book, Closing, Command, Expression, ExpressionId, Last, Operation};

const MOST_CALL_DEPTH: usize = 64;
const MOST_PARAMETERS: usize = 8;

/// How a run ended.
#[derive(Clone, Copy, Debug, PartialEq, Eq)]
#[repr(u64)]
pub enum Ending {
    Finished = 1,
    OutOfSteps = 2,
    TooDeep = 3,
}

/// What a run answers.
#[derive(Clone, Copy, Debug, PartialEq, Eq)]
pub struct Run {
    pub ending: Ending,
    /// 0 unless finished.
    pub value: u32,
    /// The steps spent.
    pub steps: u32,
}

/// What ends a run before it finishes.
#[derive(Clone, Copy, PartialEq, Eq)]
enum Stop {
    OutOfSteps,
    TooDeep,
}

/// Runs a procedure of the book; `work` holds at least 16 cells per call depth and is left cleared.
pub fn run(book: &Book, procedure: usize, inputs: &[u32], budget: u32, work: &mut [u32]) -> Run {
    let mut runner = Runner { book, work, steps_left: budget };
    let outcome = runner.enter(procedure, inputs, Frame { start: 0, depth: 1 });
    let steps = budget - runner.steps_left;
    work.fill(0);
    match outcome {
        Ok(value) => Run { ending: Ending::Finished, value, steps },
        Err(Stop::OutOfSteps) => Run { ending: Ending::OutOfSteps, value: 0, steps },
        Err(Stop::TooDeep) => Run { ending: Ending::TooDeep, value: 0, steps },
    }
}

struct Runner<'a> {
    book: &'a Book,
    work: &'a mut [u32],
    steps_left: u32,
}

/// A procedure at work: where its variables start in the work space, and its call depth.
#[derive(Clone, Copy)]
struct Frame {
    start: usize,
    depth: usize,
}

impl Runner<'_> {
    fn enter(&mut self, procedure: usize, arguments: &[u32], frame: Frame) -> Result<u32, Stop> {
        let book = self.book;
        let procedure = &book.procedures[procedure];
        let variables = &mut self.work[frame.start..frame.start + procedure.variables()];
        let (parameters, locals) = variables.split_at_mut(arguments.len());
        parameters.copy_from_slice(arguments);
        // An earlier call may have left its numbers here.
        locals.fill(0);
        self.close(&procedure.body, procedure.variables(), frame)
    }

    fn close(&mut self, closing: &Closing, width: usize, frame: Frame) -> Result<u32, Stop> {
        self.perform(&closing.commands, width, frame)?;
        self.step()?;
        match &closing.last {
            Last::Return(value) => self.evaluate(*value, width, frame),
            Last::Pick { condition, branches } => {
                if self.evaluate(*condition, width, frame)? != 0 {
                    self.close(&branches.0, width, frame)
                } else {
                    self.close(&branches.1, width, frame)
                }
            }
        }
    }

    fn perform(&mut self, commands: &[Command], width: usize, frame: Frame) -> Result<(), Stop> {
        for command in commands {
            match command {
                Command::Set { variable, value } => {
                    self.step()?;
                    let value = self.evaluate(*value, width, frame)?;
                    self.work[frame.start + usize::from(*variable)] = value;
                }
                Command::If { condition, first, second } => {
                    self.step()?;
                    let taken = match self.evaluate(*condition, width, frame)? {
                        0 => second,
                        _ => first,
                    };
                    self.perform(taken, width, frame)?;
                }
                Command::While { condition, inside, .. } => loop {
                    // One step for each test, before the condition's own.
                    self.step()?;
                    if self.evaluate(*condition, width, frame)? == 0 {
                        break;
                    }
                    self.perform(inside, width, frame)?;
                },
            }
        }
        Ok(())
    }

    /// `width` is the number of variables of the procedure at work: a callee's come after them.
    fn evaluate(&mut self, id: ExpressionId, width: usize, frame: Frame) -> Result<u32, Stop> {
        self.step()?;
        match self.book.expression(id) {
            Expression::Constant(constant) => Ok(constant),
            Expression::Variable(variable) => Ok(self.work[frame.start + usize::from(variable)]),
            Expression::Operation(operation, left, right) => {
                let left = self.evaluate(left, width, frame)?;
                let right = self.evaluate(right, width, frame)?;
                Ok(operate(operation, left, right))
            }
            Expression::Call { procedure, first_argument } => {
                self.call(usize::from(procedure), first_argument, width, frame)
            }
        }
    }

    fn call(
        &mut self,
        procedure: usize,
        first_argument: u16,
        width: usize,
        frame: Frame,
    ) -> Result<u32, Stop> {
        let book = self.book;
        let count = book.procedures[procedure].parameters;
        let mut arguments = [0; MOST_PARAMETERS];
        for (place, &argument) in book.arguments(first_argument, count).iter().enumerate() {
            arguments[place] = self.evaluate(argument, width, frame)?;
        }
        // Only after all arguments: a run can end out of steps in one of them.
        if frame.depth == MOST_CALL_DEPTH {
            return Err(Stop::TooDeep);
        }
        let callee = Frame { start: frame.start + width, depth: frame.depth + 1 };
        self.enter(procedure, &arguments[..count], callee)
    }

    /// Spends one step, unless that would pass the budget.
    #[inline]
    fn step(&mut self) -> Result<(), Stop> {
        self.steps_left = self.steps_left.checked_sub(1).ok_or(Stop::OutOfSteps)?;
        Ok(())
    }
}

#[inline]
fn operate(operation: Operation, left: u32, right: u32) -> u32 {
    match operation {
        Operation::Sum => left.wrapping_add(right),
        Operation::Difference => left.wrapping_sub(right),
        Operation::Product => left.wrapping_mul(right),
        Operation::Quotient => left.checked_div(right).unwrap_or(0),
        Operation::Equal => u32::from(left == right),
        Operation::Less => u32::from(left < right),
        Operation::Smaller => left.min(right),
        Operation::Larger => left.max(right),
    }
}

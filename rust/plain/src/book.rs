//! The recipe book: contents, bodies, and the tree they are read into.

use crate::Refusal;
use std::ops::Range;

const MOST_BYTES: usize = 32_768;
const MOST_PROCEDURES: usize = 32;
const MOST_PARAMETERS: usize = 8;
const MOST_LOCALS: usize = 8;
const MOST_DEPTH: usize = 24;
const MOST_LOOPS: usize = 64;
/// The most variables of one procedure: 8 parameters, then 8 locals.
pub const MOST_VARIABLES: usize = MOST_PARAMETERS + MOST_LOCALS;

const ENTRY_BYTES: usize = 6;

const END: u8 = 0x00;
const SET: u8 = 0x01;
const IF: u8 = 0x02;
const WHILE: u8 = 0x03;
const RETURN: u8 = 0x04;
const PICK: u8 = 0x05;
const CONSTANT: u8 = 0x10;
const VARIABLE: u8 = 0x11;
const OPERATION: u8 = 0x12;
const CALL: u8 = 0x13;

/// A book that was read. Expressions are by far the most numerous part of a book, so they stand in
/// one vector and name each other by their place in it; commands own what they hold.
pub struct Book {
    pub procedures: Vec<Procedure>,
    expressions: Vec<Expression>,
    /// The arguments of all calls; a call names the place of its first.
    arguments: Vec<ExpressionId>,
    loops: usize,
    summary_size: usize,
}

pub struct Procedure {
    pub parameters: usize,
    pub locals: usize,
    pub body: Closing,
    /// The places of its loops' rows in a summary: they stand together.
    pub rows: Range<usize>,
}

impl Procedure {
    pub fn variables(&self) -> usize {
        self.parameters + self.locals
    }
}

/// A closing sequence: ordinary commands, then one closing command.
pub struct Closing {
    pub commands: Vec<Command>,
    pub last: Last,
}

/// A closing command.
pub enum Last {
    Return(ExpressionId),
    Pick { condition: ExpressionId, branches: Box<(Closing, Closing)> },
}

/// An ordinary command.
pub enum Command {
    Set { variable: u8, value: ExpressionId },
    If { condition: ExpressionId, first: Vec<Command>, second: Vec<Command> },
    While { condition: ExpressionId, inside: Vec<Command>, row: usize },
}

#[derive(Clone, Copy)]
pub enum Expression {
    Constant(u32),
    Variable(u8),
    Operation(Operation, ExpressionId, ExpressionId),
    Call { procedure: u8, first_argument: u16 },
}

/// A place in `Book::expressions`. A book has at most 32,768 bytes, so 16 bits suffice.
#[derive(Clone, Copy, PartialEq, Eq, Debug)]
pub struct ExpressionId(u16);

#[derive(Clone, Copy, PartialEq, Eq, Debug)]
pub enum Operation {
    Sum,
    Difference,
    Product,
    Quotient,
    Equal,
    Less,
    Smaller,
    Larger,
}

impl Operation {
    fn numbered(number: u8) -> Option<Operation> {
        use Operation::*;
        [Sum, Difference, Product, Quotient, Equal, Less, Smaller, Larger]
            .get(usize::from(number))
            .copied()
    }
}

impl Book {
    /// Reads a book; the refusal is the lowest of 1 to 4 that applies.
    pub fn read(bytes: &[u8]) -> Result<Book, Refusal> {
        if bytes.is_empty() || bytes.len() > MOST_BYTES {
            return Err(Refusal::BookLength);
        }
        let entries = read_contents(bytes).ok_or(Refusal::Contents)?;
        let book = read_bodies(bytes, &entries).ok_or(Refusal::Body)?;
        // Only now: a broken body anywhere comes before too many loops.
        if book.loops > MOST_LOOPS {
            return Err(Refusal::Loops);
        }
        Ok(book)
    }

    /// One set per procedure, then one per variable of its procedure for each loop.
    pub fn summary_size(&self) -> usize {
        self.summary_size
    }

    #[inline]
    pub fn expression(&self, id: ExpressionId) -> Expression {
        self.expressions[usize::from(id.0)]
    }

    #[inline]
    pub fn arguments(&self, first: u16, count: usize) -> &[ExpressionId] {
        let first = usize::from(first);
        &self.arguments[first..first + count]
    }
}

/// One entry of the table of contents, its offset already verified.
struct Entry {
    start: usize,
    end: usize,
    parameters: usize,
    locals: usize,
}

fn read_contents(bytes: &[u8]) -> Option<Vec<Entry>> {
    let count = usize::from(bytes[0]);
    if count == 0 || count > MOST_PROCEDURES {
        return None;
    }
    let contents_end = 1 + ENTRY_BYTES * count;
    let contents = bytes.get(1..contents_end)?;
    let mut entries = Vec::with_capacity(count);
    let mut expected_start = contents_end;
    for entry in contents.chunks_exact(ENTRY_BYTES) {
        let start = usize::from(u16::from_le_bytes([entry[0], entry[1]]));
        let length = usize::from(u16::from_le_bytes([entry[2], entry[3]]));
        let parameters = usize::from(entry[4]);
        let locals = usize::from(entry[5]);
        if start != expected_start || parameters > MOST_PARAMETERS || locals > MOST_LOCALS {
            return None;
        }
        expected_start = start + length;
        entries.push(Entry { start, end: expected_start, parameters, locals });
    }
    // Each body starts where the last ended, so this also keeps every body inside the book.
    (expected_start == bytes.len()).then_some(entries)
}

fn read_bodies(bytes: &[u8], entries: &[Entry]) -> Option<Book> {
    let mut reader = BodyReader {
        bytes: &[],
        entries,
        variables: 0,
        expressions: Vec::with_capacity(bytes.len() / 4),
        arguments: Vec::new(),
        loops: 0,
        summary_size: entries.len(),
    };
    let mut procedures = Vec::with_capacity(entries.len());
    for entry in entries {
        reader.bytes = &bytes[entry.start..entry.end];
        reader.variables = entry.parameters + entry.locals;
        let rows_start = reader.summary_size;
        let body = reader.closing(1)?;
        if !reader.bytes.is_empty() {
            return None;
        }
        let rows = rows_start..reader.summary_size;
        let Entry { parameters, locals, .. } = *entry;
        procedures.push(Procedure { parameters, locals, body, rows });
    }
    Some(Book {
        procedures,
        expressions: reader.expressions,
        arguments: reader.arguments,
        loops: reader.loops,
        summary_size: reader.summary_size,
    })
}

/// Reads the bodies one after another; `None` anywhere means that a body breaks a rule.
struct BodyReader<'a> {
    /// What is left of the body being read.
    bytes: &'a [u8],
    entries: &'a [Entry],
    /// The number of variables of the body's procedure.
    variables: usize,
    expressions: Vec<Expression>,
    arguments: Vec<ExpressionId>,
    loops: usize,
    /// The place of the next row. Counted on past 64 loops: those books are refused after the bodies.
    summary_size: usize,
}

impl BodyReader<'_> {
    fn byte(&mut self) -> Option<u8> {
        let (&byte, rest) = self.bytes.split_first()?;
        self.bytes = rest;
        Some(byte)
    }

    fn closing(&mut self, depth: usize) -> Option<Closing> {
        let mut commands = Vec::new();
        loop {
            match self.byte()? {
                RETURN => {
                    let value = self.within(depth)?.expression(depth + 1)?;
                    return Some(Closing { commands, last: Last::Return(value) });
                }
                PICK => {
                    let condition = self.within(depth)?.expression(depth + 1)?;
                    let first = self.closing(depth + 1)?;
                    let second = self.closing(depth + 1)?;
                    let branches = Box::new((first, second));
                    return Some(Closing { commands, last: Last::Pick { condition, branches } });
                }
                code => commands.push(self.ordinary(code, depth)?),
            }
        }
    }

    /// A run of ordinary commands and the 00 that ends it.
    fn sequence(&mut self, depth: usize) -> Option<Vec<Command>> {
        let mut commands = Vec::new();
        loop {
            match self.byte()? {
                END => return Some(commands),
                code => commands.push(self.ordinary(code, depth)?),
            }
        }
    }

    fn ordinary(&mut self, code: u8, depth: usize) -> Option<Command> {
        self.within(depth)?;
        match code {
            SET => {
                let variable = self.variable()?;
                let value = self.expression(depth + 1)?;
                Some(Command::Set { variable, value })
            }
            IF => {
                let condition = self.expression(depth + 1)?;
                let first = self.sequence(depth + 1)?;
                let second = self.sequence(depth + 1)?;
                Some(Command::If { condition, first, second })
            }
            WHILE => {
                // The row is taken here, before the loops inside: rows go by the place of the 03.
                let row = self.summary_size;
                self.summary_size += self.variables;
                self.loops += 1;
                let condition = self.expression(depth + 1)?;
                let inside = self.sequence(depth + 1)?;
                Some(Command::While { condition, inside, row })
            }
            _ => None,
        }
    }

    fn expression(&mut self, depth: usize) -> Option<ExpressionId> {
        self.within(depth)?;
        let expression = match self.byte()? {
            CONSTANT => {
                let (constant, rest) = self.bytes.split_first_chunk::<4>()?;
                self.bytes = rest;
                Expression::Constant(u32::from_le_bytes(*constant))
            }
            VARIABLE => Expression::Variable(self.variable()?),
            OPERATION => {
                let operation = Operation::numbered(self.byte()?)?;
                let left = self.expression(depth + 1)?;
                let right = self.expression(depth + 1)?;
                Expression::Operation(operation, left, right)
            }
            CALL => self.call(depth)?,
            _ => return None,
        };
        let id = ExpressionId(self.expressions.len() as u16);
        self.expressions.push(expression);
        Some(id)
    }

    fn call(&mut self, depth: usize) -> Option<Expression> {
        let procedure = self.byte()?;
        let count = self.entries.get(usize::from(procedure))?.parameters;
        // Gathered first: the arguments may hold calls, whose own arguments are stored before.
        let mut gathered = [ExpressionId(0); MOST_PARAMETERS];
        for argument in &mut gathered[..count] {
            *argument = self.expression(depth + 1)?;
        }
        let first_argument = self.arguments.len() as u16;
        self.arguments.extend_from_slice(&gathered[..count]);
        Some(Expression::Call { procedure, first_argument })
    }

    fn variable(&mut self) -> Option<u8> {
        let variable = self.byte()?;
        (usize::from(variable) < self.variables).then_some(variable)
    }

    /// Goes on only where a command or an expression may still stand at this depth.
    fn within(&mut self, depth: usize) -> Option<&mut Self> {
        (depth <= MOST_DEPTH).then_some(self)
    }
}

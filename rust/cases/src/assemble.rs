//! A small assembler: one function per form of the document's table, each giving its bytes.

/// A procedure: parameters, locals, body.
pub type Procedure = (u8, u8, Vec<u8>);

/// A book with a right table of contents over whatever the bodies are.
pub fn book(procedures: &[Procedure]) -> Vec<u8> {
    let mut bytes = vec![procedures.len() as u8];
    let mut start = 1 + 6 * procedures.len();
    for (parameters, locals, body) in procedures {
        bytes.extend((start as u16).to_le_bytes());
        bytes.extend((body.len() as u16).to_le_bytes());
        bytes.extend([*parameters, *locals]);
        start += body.len();
    }
    for (_, _, body) in procedures {
        bytes.extend(body);
    }
    bytes
}

/// A book of one procedure.
pub fn single(parameters: u8, locals: u8, body: Vec<u8>) -> Vec<u8> {
    book(&[(parameters, locals, body)])
}

/// The parts one after another.
pub fn all(parts: &[Vec<u8>]) -> Vec<u8> {
    parts.concat()
}

pub fn set(variable: u8, value: Vec<u8>) -> Vec<u8> {
    [vec![0x01, variable], value].concat()
}

pub fn if_else(condition: Vec<u8>, first: Vec<u8>, second: Vec<u8>) -> Vec<u8> {
    [vec![0x02], condition, first, vec![0], second, vec![0]].concat()
}

pub fn while_do(condition: Vec<u8>, inside: Vec<u8>) -> Vec<u8> {
    [vec![0x03], condition, inside, vec![0]].concat()
}

pub fn give(value: Vec<u8>) -> Vec<u8> {
    [vec![0x04], value].concat()
}

pub fn pick(condition: Vec<u8>, first: Vec<u8>, second: Vec<u8>) -> Vec<u8> {
    [vec![0x05], condition, first, second].concat()
}

pub fn constant(number: u32) -> Vec<u8> {
    [vec![0x10], number.to_le_bytes().to_vec()].concat()
}

pub fn variable(number: u8) -> Vec<u8> {
    vec![0x11, number]
}

pub fn operation(number: u8, left: Vec<u8>, right: Vec<u8>) -> Vec<u8> {
    [vec![0x12, number], left, right].concat()
}

pub fn call(procedure: u8, arguments: &[Vec<u8>]) -> Vec<u8> {
    [vec![0x13, procedure], arguments.concat()].concat()
}

pub const SUM: u8 = 0;
pub const DIFFERENCE: u8 = 1;
pub const PRODUCT: u8 = 2;
pub const QUOTIENT: u8 = 3;
pub const EQUAL: u8 = 4;
pub const LESS: u8 = 5;
pub const SMALLER: u8 = 6;
pub const LARGER: u8 = 7;

/// `set variable to variable - 1`.
pub fn count_down(number: u8) -> Vec<u8> {
    set(number, operation(DIFFERENCE, variable(number), constant(1)))
}

//! Random books that keep every rule, grown byte by byte from the document's grammar.
//!
//! The grower notes what each byte is for (its marks), so that damage can be aimed, and counts what
//! it grew, so that a reader's answer is known without any reader.

use crate::assemble;
use crate::random::Random;

pub const MOST_BYTES: usize = 32_768;
pub const MOST_DEPTH: usize = 24;
pub const MOST_LOOPS: usize = 64;
pub const MOST_PROCEDURES: usize = 32;

/// What the bodies together may grow past the goal: the smallest ones, and the ends of the last parts.
const OVERSHOOT: usize = 2_500;

/// A grown book.
pub struct Grown {
    pub bytes: Vec<u8>,
    pub marks: Vec<Mark>,
    pub shapes: Vec<Shape>,
    /// For each loop, in the order of the book, its procedure.
    pub loops: Vec<usize>,
}

impl Grown {
    /// The summary's size by the document's count.
    pub fn summary_size(&self) -> usize {
        let rows: usize = self.loops.iter().map(|&owner| self.shapes[owner].variables()).sum();
        self.shapes.len() + rows
    }
}

#[derive(Clone, Copy, Debug)]
pub struct Shape {
    pub parameters: usize,
    pub locals: usize,
}

impl Shape {
    pub fn variables(self) -> usize {
        self.parameters + self.locals
    }

    fn random(random: &mut Random) -> Shape {
        match random.below(8) {
            0 => Shape { parameters: 8, locals: 8 },
            1 => Shape { parameters: 0, locals: random.below(3) },
            2 => Shape { parameters: random.between(0, 8), locals: random.between(0, 8) },
            _ => Shape { parameters: random.between(1, 4), locals: random.between(0, 3) },
        }
    }
}

/// What the byte at a place of the book is for.
#[derive(Clone, Copy, Debug)]
pub struct Mark {
    pub place: usize,
    pub kind: Kind,
    pub procedure: usize,
}

#[derive(Clone, Copy, Debug, PartialEq, Eq)]
pub enum Kind {
    Command,
    Expression,
    Variable,
    Operation,
    Callee,
    End,
}

/// What a book is to be like.
#[derive(Clone, Copy, Debug)]
pub struct Plan {
    pub procedures: usize,
    /// The goal for all bodies together.
    pub body_bytes: usize,
    pub loops: usize,
    /// Grow to exactly the largest length.
    pub largest: bool,
    /// Calls go only to procedures that stand later, so that no call recurs.
    pub no_recursion: bool,
    /// How readily parts nest, in percent.
    pub nesting: usize,
}

impl Plan {
    pub fn random(random: &mut Random) -> Plan {
        let (procedures, body_bytes) = match random.below(200) {
            0..=59 => (random.between(1, 2), random.between(3, 40)),
            60..=149 => (random.between(1, 4), random.between(20, 200)),
            150..=189 => (random.between(1, 8), random.between(100, 700)),
            190..=197 => (random.between(1, 32), random.between(300, 4_000)),
            _ => (random.between(1, 32), random.between(4_000, MOST_BYTES - OVERSHOOT)),
        };
        Plan {
            procedures,
            body_bytes,
            loops: random.of(&[0, 1, 3, 8, MOST_LOOPS]),
            largest: body_bytes > 4_000 && random.chance(1, 4),
            no_recursion: random.chance(1, 2),
            nesting: random.of(&[25, 50, 80]),
        }
    }

    pub fn grow(self, random: &mut Random) -> Grown {
        let mut shapes: Vec<_> = (0..self.procedures).map(|_| Shape::random(random)).collect();
        if self.largest {
            // What fills the book up needs a variable in the last procedure.
            let last = shapes.last_mut().expect("at least one procedure");
            last.locals = last.locals.max(1);
        }
        self.grow_shapes(random, shapes)
    }

    /// Grows a book of procedures with the given parameters and locals.
    pub fn grow_shapes(self, random: &mut Random, shapes: Vec<Shape>) -> Grown {
        let contents = 1 + 6 * shapes.len();
        let goal = self.body_bytes.min(MOST_BYTES - OVERSHOOT - contents);
        let mut grower =
            Grower { random, plan: self, shapes, body: Body::default(), loops: vec![] };
        let mut bodies = Vec::new();
        let mut grown = 0;
        for procedure in 0..grower.shapes.len() {
            // Each body gets a share of what is left of the goal, the last one all of it.
            let left = goal.saturating_sub(grown);
            let share = match grower.shapes.len() - procedure {
                1 => left,
                others => grower.random.between(0, 2 * left / others),
            };
            let body = grower.grow_body(procedure, share);
            grown += body.bytes.len();
            bodies.push(body);
        }
        if self.largest {
            fill_up(
                bodies.last_mut().expect("at least one procedure"),
                MOST_BYTES - contents - grown,
            );
        }
        let (shapes, loops) = (grower.shapes, grower.loops);
        bind(bodies, shapes, loops)
    }
}

#[derive(Default)]
struct Body {
    bytes: Vec<u8>,
    /// Places count from the body's start.
    marks: Vec<Mark>,
}

/// Puts `missing` bytes of assignments before a body; at least 18, or a number that 4 and 7 make.
fn fill_up(body: &mut Body, missing: usize) {
    // 7 times this is the same as `missing` modulo 4.
    let sevens = (missing * 3) % 4;
    let mut filler = Vec::new();
    for _ in 0..sevens {
        filler.extend(assemble::set(0, assemble::constant(1)));
    }
    while filler.len() < missing {
        filler.extend(assemble::set(0, assemble::variable(0)));
    }
    body.marks.iter_mut().for_each(|mark| mark.place += filler.len());
    body.bytes.splice(0..0, filler);
}

fn bind(bodies: Vec<Body>, shapes: Vec<Shape>, loops: Vec<usize>) -> Grown {
    let mut start = 1 + 6 * bodies.len();
    let mut marks = Vec::new();
    let mut procedures = Vec::new();
    for (body, shape) in bodies.into_iter().zip(&shapes) {
        marks.extend(body.marks.iter().map(|mark| Mark { place: mark.place + start, ..*mark }));
        start += body.bytes.len();
        procedures.push((shape.parameters as u8, shape.locals as u8, body.bytes));
    }
    Grown { bytes: assemble::book(&procedures), marks, shapes, loops }
}

struct Grower<'a> {
    random: &'a mut Random,
    plan: Plan,
    shapes: Vec<Shape>,
    body: Body,
    loops: Vec<usize>,
}

/// Where in a procedure the grower is. The depth is that of the next command or expression.
#[derive(Clone, Copy)]
struct At {
    procedure: usize,
    depth: usize,
    /// The length of the body at which to come to an end.
    goal: usize,
    /// Variables that count the loops around: seldom assigned, so that those loops end.
    counters: u16,
}

impl At {
    fn inside(self) -> At {
        At { depth: self.depth + 1, ..self }
    }

    fn up_to(self, goal: usize) -> At {
        At { goal, ..self }
    }
}

impl Grower<'_> {
    fn grow_body(&mut self, procedure: usize, goal: usize) -> Body {
        self.closing(At { procedure, depth: 1, goal, counters: 0 });
        std::mem::take(&mut self.body)
    }

    fn push(&mut self, at: At, kind: Kind, byte: usize) {
        let place = self.body.bytes.len();
        self.body.marks.push(Mark { place, kind, procedure: at.procedure });
        self.body.bytes.push(byte as u8);
    }

    fn room(&self, at: At) -> usize {
        at.goal.saturating_sub(self.body.bytes.len())
    }

    /// A goal somewhere between here and the whole part's.
    fn part_of(&mut self, at: At) -> At {
        let here = self.body.bytes.len();
        let goal = here + self.random.between(0, self.room(at));
        at.up_to(goal)
    }

    fn nests(&mut self) -> bool {
        self.random.chance(self.plan.nesting, 100)
    }

    /// A return at depth d has its expression at d + 1, so a closing sequence stands at 23 at most.
    fn closing(&mut self, at: At) {
        self.commands(at, 6);
        if at.depth + 2 < MOST_DEPTH && self.room(at) >= 12 && self.nests() {
            self.push(at, Kind::Command, 0x05);
            let part = self.part_of(at.inside());
            self.condition(part);
            let part = self.part_of(at.inside());
            self.closing(part);
            self.closing(at.inside());
        } else if self.recurs(at) {
            self.recursion(at);
        } else {
            self.push(at, Kind::Command, 0x04);
            self.expression(at.inside());
        }
    }

    /// Ordinary commands until fewer than `reserve` bytes of the goal are left.
    fn commands(&mut self, at: At, reserve: usize) {
        while at.depth < MOST_DEPTH && self.room(at) > reserve {
            // The body's own sequence goes on to the goal; others may stop before.
            if at.depth > 1 && self.random.chance(1, 6) {
                break;
            }
            let part = match self.room(at) {
                room if room > 60 => self.part_of(at),
                _ => at,
            };
            self.ordinary(part);
        }
    }

    fn sequence(&mut self, at: At) {
        self.commands(at, 3);
        self.push(at, Kind::End, 0);
    }

    fn ordinary(&mut self, at: At) {
        let may_loop = self.loops.len() < self.plan.loops;
        let assigned = self.assigned(at);
        match (self.random.below(10), assigned) {
            (0..=2, Some(counter)) if may_loop && self.nests() => self.counted_loop(at, counter),
            (3, _) if may_loop => self.any_loop(at),
            (4..=9, Some(variable)) if !self.nests() || at.depth > 20 => self.set(at, variable),
            (_, Some(variable)) if self.random.chance(1, 3) => self.set(at, variable),
            _ => self.if_else(at),
        }
    }

    /// A variable to assign, most often one that counts no loop around.
    fn assigned(&mut self, at: At) -> Option<usize> {
        let count = self.shapes[at.procedure].variables();
        let free: Vec<_> = (0..count).filter(|v| at.counters & (1 << v) == 0).collect();
        if count > 0 && (free.is_empty() || self.random.chance(1, 50)) {
            return self.random.chance(1, 10).then(|| self.random.below(count));
        }
        (!free.is_empty()).then(|| self.random.of(&free))
    }

    fn set(&mut self, at: At, variable: usize) {
        self.push(at, Kind::Command, 0x01);
        self.push(at, Kind::Variable, variable);
        self.expression(at.inside());
    }

    fn if_else(&mut self, at: At) {
        self.push(at, Kind::Command, 0x02);
        let part = self.part_of(at.inside());
        self.condition(part);
        let part = self.part_of(at.inside());
        self.sequence(part);
        self.sequence(at.inside());
    }

    fn any_loop(&mut self, at: At) {
        self.push(at, Kind::Command, 0x03);
        self.loops.push(at.procedure);
        let part = self.part_of(at.inside());
        self.condition(part);
        self.sequence(at.inside());
    }

    /// counter := a few; while counter: .. ; counter := counter - 1.
    fn counted_loop(&mut self, at: At, counter: usize) {
        if self.random.chance(2, 3) {
            let turns = self.random.below(4) as u32;
            self.push(at, Kind::Command, 0x01);
            self.push(at, Kind::Variable, counter);
            self.constant(at.inside(), turns);
        }
        self.push(at, Kind::Command, 0x03);
        self.loops.push(at.procedure);
        self.variable(at.inside(), counter);
        let inside = At { counters: at.counters | 1 << counter, ..at.inside() };
        self.commands(inside, 14);
        // A set, an operation and its operands: the operands need depths up to that of `inside` + 2.
        if inside.depth + 2 <= MOST_DEPTH {
            self.push(inside, Kind::Command, 0x01);
            self.push(inside, Kind::Variable, counter);
            self.one_less(inside.inside(), counter);
        }
        self.push(inside, Kind::End, 0);
    }

    fn one_less(&mut self, at: At, variable: usize) {
        self.push(at, Kind::Expression, 0x12);
        self.push(at, Kind::Operation, 1);
        self.variable(at.inside(), variable);
        self.constant(at.inside(), 1);
    }

    fn recurs(&mut self, at: At) -> bool {
        let parameters = self.shapes[at.procedure].parameters;
        let enough_depth = at.depth + 6 <= MOST_DEPTH;
        !self.plan.no_recursion && parameters > 0 && enough_depth && self.random.chance(1, 5)
    }

    /// pick v0: return (call self (v0 - 1, ..)) op E, else return E.
    fn recursion(&mut self, at: At) {
        self.push(at, Kind::Command, 0x05);
        self.variable(at.inside(), 0);
        self.push(at.inside(), Kind::Command, 0x04);
        let sum = at.inside().inside();
        self.push(sum, Kind::Expression, 0x12);
        let operation = self.random.below(8);
        self.push(sum, Kind::Operation, operation);
        let call = sum.inside();
        self.push(call, Kind::Expression, 0x13);
        self.push(call, Kind::Callee, at.procedure);
        self.one_less(call.inside(), 0);
        for _ in 1..self.shapes[at.procedure].parameters {
            self.leaf(call.inside());
        }
        self.leaf(call);
        self.push(at.inside(), Kind::Command, 0x04);
        self.leaf(at.inside().inside());
    }

    fn condition(&mut self, at: At) {
        match self.random.below(3) {
            0 => self.expression(at),
            _ => self.leaf(at),
        }
    }

    fn expression(&mut self, at: At) {
        if at.depth >= MOST_DEPTH || self.room(at) < 8 || self.random.chance(1, 4) {
            return self.leaf(at);
        }
        match self.random.below(10) {
            0..=5 => self.operation(at),
            _ => match self.callee(at) {
                Some(callee) => self.call(at, callee),
                None => self.leaf(at),
            },
        }
    }

    fn operation(&mut self, at: At) {
        self.push(at, Kind::Expression, 0x12);
        let operation = self.random.below(8);
        self.push(at, Kind::Operation, operation);
        let part = self.part_of(at.inside());
        self.expression(part);
        self.expression(at.inside());
    }

    fn callee(&mut self, at: At) -> Option<usize> {
        let count = self.shapes.len();
        let first = if self.plan.no_recursion { at.procedure + 1 } else { 0 };
        (first < count).then(|| self.random.between(first, count - 1))
    }

    fn call(&mut self, at: At, callee: usize) {
        self.push(at, Kind::Expression, 0x13);
        self.push(at, Kind::Callee, callee);
        for _ in 0..self.shapes[callee].parameters {
            let part = self.part_of(at.inside());
            self.expression(part);
        }
    }

    /// An expression that holds no other; a call without arguments may be one.
    fn leaf(&mut self, at: At) {
        let variables = self.shapes[at.procedure].variables();
        if variables > 0 && self.random.chance(3, 4) {
            let variable = self.random.below(variables);
            return self.variable(at, variable);
        }
        if self.random.chance(1, 10) {
            if let Some(callee) =
                self.callee(at).filter(|&callee| self.shapes[callee].parameters == 0)
            {
                return self.call(at, callee);
            }
        }
        let value = self.random.value();
        self.constant(at, value);
    }

    fn variable(&mut self, at: At, variable: usize) {
        self.push(at, Kind::Expression, 0x11);
        self.push(at, Kind::Variable, variable);
    }

    fn constant(&mut self, at: At, value: u32) {
        self.push(at, Kind::Expression, 0x10);
        self.body.bytes.extend(value.to_le_bytes());
    }
}

// ---- Books at the limits ----

/// A book whose deepest expression stands at exactly the given depth, 3 or more, through a random
/// mixture of forms. Two procedures of two parameters and a local.
pub fn deep(random: &mut Random, depth: usize) -> Vec<u8> {
    let first = deep_closing(random, 1, depth);
    let second = assemble::give(assemble::variable(0));
    assemble::book(&[(2, 1, first), (2, 1, second)])
}

fn shallow() -> Vec<u8> {
    assemble::variable(1)
}

/// What stands at depth `at`, holding something at the given depth.
fn deep_closing(random: &mut Random, at: usize, depth: usize) -> Vec<u8> {
    use assemble::*;
    // A branch holds a return with its expression, so two levels more than the pick.
    let forms = if at + 2 < depth { 6 } else { 2 };
    match random.below(forms) {
        0 => give(deep_expression(random, at + 1, depth)),
        1 => [deep_ordinary(random, at, depth), give(shallow())].concat(),
        2 => pick(deep_expression(random, at + 1, depth), give(shallow()), give(shallow())),
        3 => pick(shallow(), deep_closing(random, at + 1, depth), give(shallow())),
        4 => pick(shallow(), give(shallow()), deep_closing(random, at + 1, depth)),
        _ => [deep_ordinary(random, at, depth), give(shallow())].concat(),
    }
}

fn deep_ordinary(random: &mut Random, at: usize, depth: usize) -> Vec<u8> {
    use assemble::*;
    let forms = if at + 2 <= depth { 6 } else { 3 };
    match random.below(forms) {
        0 => set(2, deep_expression(random, at + 1, depth)),
        1 => if_else(deep_expression(random, at + 1, depth), vec![], vec![]),
        2 => while_do(deep_expression(random, at + 1, depth), vec![]),
        3 => if_else(shallow(), deep_ordinary(random, at + 1, depth), vec![]),
        4 => if_else(shallow(), vec![], deep_ordinary(random, at + 1, depth)),
        _ => while_do(shallow(), deep_ordinary(random, at + 1, depth)),
    }
}

fn deep_expression(random: &mut Random, at: usize, depth: usize) -> Vec<u8> {
    use assemble::*;
    if at >= depth {
        return if random.chance(1, 2) { constant(3) } else { variable(0) };
    }
    let number = random.below(8) as u8;
    match random.below(4) {
        0 => operation(number, deep_expression(random, at + 1, depth), shallow()),
        1 => operation(number, shallow(), deep_expression(random, at + 1, depth)),
        2 => call(1, &[deep_expression(random, at + 1, depth), shallow()]),
        _ => call(0, &[shallow(), deep_expression(random, at + 1, depth)]),
    }
}

/// A book of exactly so many loops, spread over a few procedures, some inside others.
pub fn with_loops(random: &mut Random, loops: usize) -> Vec<u8> {
    use assemble::*;
    let count = random.between(1, 4);
    let mut left = loops;
    let mut procedures = Vec::new();
    for procedure in 0..count {
        let own = if procedure + 1 == count { left } else { random.between(0, left) };
        left -= own;
        let mut body = Vec::new();
        let mut missing = own;
        while missing > 0 {
            let nest = random.between(1, missing.min(5));
            missing -= nest;
            let innermost = if random.chance(1, 2) { vec![] } else { set(1, variable(2)) };
            let rotate = [set(0, variable(1)), set(2, variable(0))].concat();
            body.extend((0..nest).fold(innermost, |inner, _| {
                while_do(variable(random.below(3) as u8), [inner, rotate.clone()].concat())
            }));
        }
        body.extend(give(variable(random.below(3) as u8)));
        procedures.push((2, 1, body));
    }
    book(&procedures)
}

/// A book that takes the finder many rounds: so many loops in a row, each moving sets on by one
/// variable a turn, of which only the last variable goes over into the next loop's first. That is
/// about a round for each variable of each loop.
pub fn shifting(loops: usize, parameters: u8, locals: u8) -> Vec<u8> {
    let body = shifting_body(loops, parameters + locals - 1);
    assemble::single(parameters, locals, body)
}

/// Moves the set of variable 0 through so many loops and returns it.
fn shifting_body(loops: usize, last: u8) -> Vec<u8> {
    use assemble::*;
    let shift = all(&(1..=last).rev().map(|to| set(to, variable(to - 1))).collect::<Vec<_>>());
    let clear = all(&(1..=last).map(|to| set(to, constant(0))).collect::<Vec<_>>());
    let turn = all(&[while_do(constant(1), shift), set(0, variable(last)), clear.clone()]);
    all(&[clear, vec![turn; loops].concat(), give(variable(0))])
}

/// A book of so many procedures whose finder adds just one parameter to one set in each round: with
/// 32 of them no book takes it more rounds. A parameter moves through both loops of a procedure, a
/// variable a round, into its result and so into the procedure before. Back at the last procedure it
/// has set the next parameter moving.
pub fn ring(procedures: usize) -> Vec<u8> {
    use assemble::*;
    let last = procedures - 1;
    let around: Vec<_> = (1..8).map(variable).chain([constant(0)]).collect();
    let through: Vec<_> = (0..8).map(variable).collect();
    let begin = |procedure: usize| match procedure == last {
        true => operation(SUM, variable(0), call(0, &around)),
        false => call(procedure as u8 + 1, &through),
    };
    let body = |procedure| all(&[set(0, begin(procedure)), shifting_body(2, 15)]);
    book(&(0..procedures).map(|procedure| (8, 8, body(procedure))).collect::<Vec<_>>())
}

/// A book on which a search that walks a body as a whole does most: one procedure, which calls itself
/// as the last procedure of a ring calls the first, so that each round changes one set of the one body.
/// About so many bytes; what they are more than its 64 loops need are calls that no set rests on.
pub fn lone_ring(bytes: usize) -> Vec<u8> {
    use assemble::*;
    let around: Vec<_> = (1..8).map(variable).chain([constant(0)]).collect();
    let begin = set(0, operation(SUM, variable(0), call(0, &around)));
    let idle = set(1, call(0, &(0..8).map(variable).collect::<Vec<_>>()));
    let loops = shifting_body(MOST_LOOPS, 15);
    let needed = single(8, 8, all(&[begin.clone(), loops.clone()])).len();
    let calls = idle.repeat((bytes - needed) / idle.len());
    single(8, 8, all(&[begin, calls, loops]))
}

/// The rounds that a lone ring takes, as `ring_rounds` says.
pub fn lone_ring_rounds() -> u64 {
    (8 * (1 + MOST_LOOPS * 16) + 1) as u64
}

/// The rounds that a ring takes: one for each parameter of each result and row, and one that adds
/// nothing.
pub fn ring_rounds(procedures: usize) -> u64 {
    let sets_of_each = 1 + 2 * 16;
    (8 * sets_of_each * procedures + 1) as u64
}

//! Ways to damage a book. Some of them leave it readable; the implementations must agree on that, too.

use crate::books::{Grown, Kind};
use crate::random::Random;

/// A damaged copy of a grown book.
pub fn damage(random: &mut Random, grown: &Grown) -> Vec<u8> {
    let mut bytes = grown.bytes.clone();
    for _ in 0..random.of(&[1, 1, 1, 2, 3]) {
        // Each kind of damage looks at the book as it was grown, so the first one hits what it aims at.
        damage_once(random, grown, &mut bytes);
    }
    bytes
}

fn damage_once(random: &mut Random, grown: &Grown, bytes: &mut Vec<u8>) {
    match random.below(20) {
        0 => flip_bit(random, bytes),
        1 => {
            let place = random.below(bytes.len().max(1));
            overwrite(bytes, place, random.byte());
        }
        2 => {
            let length = random.below(bytes.len().max(1));
            bytes.truncate(length);
        }
        3 => {
            let cut = random.between(1, 3).min(bytes.len());
            bytes.truncate(bytes.len() - cut);
        }
        4 => {
            let count = random.between(1, 8);
            bytes.extend(random.bytes(count));
        }
        5 => {
            let count =
                random.of(&[0, 33, 32, 1, 255, bytes.first().map_or(0, |&count| count ^ 1)]);
            overwrite(bytes, 0, count);
        }
        6 => change_entry(random, grown, bytes),
        7 => change_marked(random, grown, bytes, Kind::Command, any_code),
        8 => change_marked(random, grown, bytes, Kind::Expression, any_code),
        9 => {
            let variables = grown.shapes[random.below(grown.shapes.len())].variables() as u8;
            change_marked(random, grown, bytes, Kind::Variable, |random| {
                variables.wrapping_add(random.of(&[0, 0, 1, 16, 239]))
            })
        }
        10 => change_marked(random, grown, bytes, Kind::Operation, |random| {
            random.of(&[8, 9, 0x10, 255])
        }),
        11 => {
            let count = grown.shapes.len() as u8;
            change_marked(random, grown, bytes, Kind::Callee, |random| {
                count.wrapping_add(random.of(&[0, 0, 1, 32, 250]))
            })
        }
        12 => change_marked(random, grown, bytes, Kind::End, any_code),
        13 => insert_in_body(random, grown, bytes),
        14 => delete_from_body(random, grown, bytes),
        15 => lengthen_last(random, bytes),
        16 => empty_body(random, bytes),
        17 => move_border(random, bytes),
        18 => wrap_offsets(random, bytes),
        _ => copy_within(random, bytes),
    }
}

fn flip_bit(random: &mut Random, bytes: &mut [u8]) {
    if !bytes.is_empty() {
        let place = random.below(bytes.len());
        bytes[place] ^= 1 << random.below(8);
    }
}

fn overwrite(bytes: &mut [u8], place: usize, byte: u8) {
    if let Some(old) = bytes.get_mut(place) {
        *old = byte;
    }
}

/// Codes that are known somewhere, and others.
fn any_code(random: &mut Random) -> u8 {
    let known = [0, 1, 2, 3, 4, 5, 0x10, 0x11, 0x12, 0x13];
    let others = [6, 7, 0x0F, 0x14, 0x15, 0x20, 0x80, 0xFF];
    if random.chance(2, 3) {
        random.of(&known)
    } else {
        random.of(&others)
    }
}

/// Changes the byte of a random mark of the kind.
fn change_marked(
    random: &mut Random,
    grown: &Grown,
    bytes: &mut [u8],
    kind: Kind,
    new: impl Fn(&mut Random) -> u8,
) {
    let start = random.below(grown.marks.len());
    let around = grown.marks[start..].iter().chain(&grown.marks[..start]);
    if let Some(mark) = around.into_iter().find(|mark| mark.kind == kind) {
        let byte = new(random);
        overwrite(bytes, mark.place, byte);
    }
}

/// A byte of an entry of the contents.
fn change_entry(random: &mut Random, grown: &Grown, bytes: &mut [u8]) {
    let entry = 1 + 6 * random.below(grown.shapes.len());
    let field = random.below(6);
    let Some(&old) = bytes.get(entry + field) else { return };
    let new = match field {
        0..=3 => old.wrapping_add(random.of(&[1, 255, 2, 0x80])),
        _ => random.of(&[9, 8, 255, old.wrapping_add(1), old.wrapping_sub(1)]),
    };
    overwrite(bytes, entry + field, new);
}

/// The contents of a book that was grown, as far as they still stand.
fn count_of(bytes: &[u8]) -> usize {
    let count = bytes.first().map_or(0, |&count| usize::from(count));
    if bytes.len() > 6 * count {
        count
    } else {
        0
    }
}

fn field(bytes: &[u8], place: usize) -> usize {
    usize::from(u16::from_le_bytes([bytes[place], bytes[place + 1]]))
}

fn put_field(bytes: &mut [u8], place: usize, number: usize) {
    bytes[place..place + 2].copy_from_slice(&(number as u16).to_le_bytes());
}

/// Lengthens or shortens one body in the contents and moves the offsets after it.
fn change_length(bytes: &mut [u8], procedure: usize, change: isize) {
    let add = |old: usize| (old as isize + change) as usize;
    let length = 1 + 6 * procedure + 2;
    put_field(bytes, length, add(field(bytes, length)));
    for later in procedure + 1..count_of(bytes) {
        let offset = 1 + 6 * later;
        put_field(bytes, offset, add(field(bytes, offset)));
    }
}

/// A byte more inside a body, with the contents put right.
fn insert_in_body(random: &mut Random, grown: &Grown, bytes: &mut Vec<u8>) {
    let mark = random.of(&grown.marks);
    if mark.place <= bytes.len() && mark.procedure < count_of(bytes) {
        let byte = if random.chance(1, 2) { any_code(random) } else { random.byte() };
        bytes.insert(mark.place, byte);
        change_length(bytes, mark.procedure, 1);
    }
}

/// A byte less inside a body, with the contents put right.
fn delete_from_body(random: &mut Random, grown: &Grown, bytes: &mut Vec<u8>) {
    let mark = random.of(&grown.marks);
    if mark.place < bytes.len() && mark.procedure < count_of(bytes) {
        bytes.remove(mark.place);
        change_length(bytes, mark.procedure, -1);
    }
}

/// Bytes after the last closing command, counted into the last body.
fn lengthen_last(random: &mut Random, bytes: &mut Vec<u8>) {
    let count = count_of(bytes);
    if count > 0 {
        let more = random.between(1, 6);
        let byte = any_code(random);
        bytes.extend((0..more).map(|_| byte));
        change_length(bytes, count - 1, more as isize);
    }
}

/// Takes a whole body out, its entry staying with length 0.
fn empty_body(random: &mut Random, bytes: &mut Vec<u8>) {
    let count = count_of(bytes);
    if count > 0 {
        let procedure = random.below(count);
        let start = field(bytes, 1 + 6 * procedure);
        let length = field(bytes, 1 + 6 * procedure + 2);
        if start > 6 * count && start + length <= bytes.len() {
            bytes.drain(start..start + length);
            change_length(bytes, procedure, -(length as isize));
        }
    }
}

/// Gives bytes of one body to its neighbour: the contents keep their rules, the bodies do not.
fn move_border(random: &mut Random, bytes: &mut [u8]) {
    let count = count_of(bytes);
    if count > 1 {
        let procedure = random.below(count - 1);
        let change = random.between(1, 4);
        let (length, next) = (1 + 6 * procedure + 2, 1 + 6 * (procedure + 1));
        put_field(bytes, length, field(bytes, length) + change);
        put_field(bytes, next, field(bytes, next) + change);
        put_field(bytes, next + 2, field(bytes, next + 2).wrapping_sub(change));
    }
}

/// Contents that would keep their rules if offset and length were added modulo 2^16.
fn wrap_offsets(random: &mut Random, bytes: &mut [u8]) {
    let count = count_of(bytes);
    if count > 1 {
        let procedure = random.below(count - 1);
        let (offset, next) = (1 + 6 * procedure, 1 + 6 * (procedure + 1));
        let here = field(bytes, offset);
        let target = random.below(here + 1);
        let next_end = field(bytes, next) + field(bytes, next + 2);
        put_field(bytes, offset + 2, (65_536 + target).wrapping_sub(here));
        put_field(bytes, next, target);
        put_field(bytes, next + 2, next_end.wrapping_sub(target));
    }
}

/// A piece of the book over another place of it.
fn copy_within(random: &mut Random, bytes: &mut [u8]) {
    if bytes.len() > 2 {
        let length = random.between(1, (bytes.len() / 2).min(24));
        let from = random.below(bytes.len() - length);
        let to = random.below(bytes.len() - length);
        bytes.copy_within(from..from + length, to);
    }
}

//! Random level tables: lattices of several families with their levels in any order, and damaged ones.

use crate::random::Random;

const MOST_LEVELS: usize = 16;

/// A valid table.
pub fn valid(random: &mut Random) -> Vec<u8> {
    let levels = match random.below(5) {
        0 => chain(random.between(1, MOST_LEVELS)),
        1 => product(random),
        2 => all_subsets(random.between(0, 4)),
        _ => {
            let mut levels = closed_family(random);
            let bottom = levels.iter().fold(u32::MAX, |common, level| common & level);
            if !levels.contains(&bottom) {
                // Under every level, so the family stays closed; it has at most 15 before.
                levels.push(bottom);
            }
            levels
        }
    };
    table_of(random, levels)
}

/// A table that is seldom valid.
pub fn damaged(random: &mut Random) -> Vec<u8> {
    let mut table = valid(random);
    let count = usize::from(table[0]);
    match random.below(15) {
        0 => {
            let family = closed_family(random);
            return table_of(random, family);
        }
        1 => table.push(random.byte()),
        2 => {
            table.pop();
        }
        3 => {
            let length = random.below(table.len());
            table.truncate(length);
        }
        4 => table[0] = random.of(&[0, 1, 16, 17, 255, count as u8 + 1, count as u8 - 1]),
        5 => {
            // A chain of 17: only its size is against the rules.
            let order = chain(17);
            return table_of(random, order);
        }
        6 => {
            let entry = random.between(1, table.len() - 1);
            table[entry] = random.of(&[count as u8, 255, 16]);
        }
        7 => {
            let entry = random.between(1, table.len() - 1);
            table[entry] = random.below(count) as u8;
        }
        8 => {
            let level = random.below(count);
            table[1 + level * count + level] = random.below(count) as u8;
        }
        9 | 10 => {
            // Both entries of a pair: still commutative, seldom associative.
            let (a, b) = (random.below(count), random.below(count));
            let joined = random.below(count) as u8;
            table[1 + a * count + b] = joined;
            table[1 + b * count + a] = joined;
        }
        11..=13 => {
            // Just one law fails: idempotence, or, in two ways, commutativity.
            let count = random.between(2, MOST_LEVELS);
            let join: fn(usize, usize, usize) -> usize = match random.below(3) {
                0 => |count, a, b| (a + b) % count,
                1 => |_, _, b| b,
                _ => |_, a, b| if a == 0 { b } else { a },
            };
            return numbered_anyhow(random, count, |a, b| join(count, a, b));
        }
        _ => {
            let length = random.below(300);
            table = random.bytes(length);
            if let Some(first) = table.first_mut() {
                *first %= 18;
            }
        }
    }
    table
}

// Levels are sets of bits here, and the join is the union.

fn chain(count: usize) -> Vec<u32> {
    (0..count).map(|length| (1 << length) - 1).collect()
}

fn product(random: &mut Random) -> Vec<u32> {
    let (long, short) =
        random.of(&[(2, 2), (3, 2), (4, 2), (5, 3), (8, 2), (4, 4), (3, 3), (7, 2)]);
    let low = chain(long);
    chain(short).iter().flat_map(|high| low.iter().map(move |low| high << 16 | low)).collect()
}

fn all_subsets(elements: usize) -> Vec<u32> {
    (0..1 << elements).collect()
}

/// A family that is closed under union, of at most 15 sets, with or without a least one.
fn closed_family(random: &mut Random) -> Vec<u32> {
    let mut family: Vec<u32> = Vec::new();
    for _ in 0..random.between(1, 10) {
        let added = random.number() as u32 & 0x7F;
        let mut larger = family.clone();
        larger.push(added);
        larger.extend(family.iter().map(|old| old | added));
        larger.sort_unstable();
        larger.dedup();
        if larger.len() < MOST_LEVELS {
            family = larger;
        }
    }
    family
}

/// The table of a family closed under union, its levels numbered in a random order.
fn table_of(random: &mut Random, levels: Vec<u32>) -> Vec<u8> {
    let place = |level: u32| levels.iter().position(|&other| other == level).expect("closed");
    numbered_anyhow(random, levels.len(), |a, b| place(levels[a] | levels[b]))
}

/// The table of a join, its levels numbered in a random order.
fn numbered_anyhow(
    random: &mut Random,
    count: usize,
    join: impl Fn(usize, usize) -> usize,
) -> Vec<u8> {
    let mut order: Vec<usize> = (0..count).collect();
    for last in (1..count).rev() {
        order.swap(last, random.below(last + 1));
    }
    let number = |level| order.iter().position(|&other| other == level).expect("a level") as u8;
    let mut table = vec![count as u8];
    for &a in &order {
        table.extend(order.iter().map(|&b| number(join(a, b))));
    }
    table
}

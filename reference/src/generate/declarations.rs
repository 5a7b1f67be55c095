//! Declarations of units: names, blocks, and lists of them.

use super::rng::Rng;
use crate::mover::Block;
use crate::units::{Declaration, Name};

/// Names that are close to each other, or of bytes that are no letters.
pub const NAMES: [Name; 14] = [
    *b"MIXER  1",
    *b"MIXER  2",
    *b"MIXER   ",
    *b"mixer  1",
    *b"NIXER  1",
    *b"PUMP\0\0\0\0",
    *b"PUMP    ",
    *b"PUMP\0\0\0\x01",
    [0; 8],
    [0xFF; 8],
    *b"        ",
    *b"\x80 \x00\xFE7\t\r ",
    *b"1 2 3 4 ",
    *b"0 -0 007",
];

pub fn declared(unit: u32, name: Name, start: u32, length: u32) -> Declaration {
    Declaration { unit, name, block: Block { start, length } }
}

pub fn unit(rng: &mut Rng) -> u32 {
    let any = rng.draw() as u32;
    rng.pick(&[0, 1, 2, 3, 4, 65535, u32::MAX, any])
}

/// A name of any bytes; a unit list as text has none with a line feed.
pub fn name(rng: &mut Rng) -> Name {
    let mut any = Name::default();
    any.copy_from_slice(&rng.bytes(8));
    match rng.once_in(4) {
        true => any,
        false => rng.pick(&NAMES),
    }
}

/// A name with one byte moved on.
fn moved_on(mut name: Name, at: usize, by: usize) -> Name {
    name[at] = name[at].wrapping_add(by as u8);
    name
}

/// As many names, all alike but for one byte.
fn names_apart(rng: &mut Rng, count: usize) -> Vec<Name> {
    let (name, at) = (name(rng), rng.pick(&[0, 3, 6, 7, 7]));
    (0..count).map(|place| moved_on(name, at, place)).collect()
}

/// A block of few words inside D, from `base` on.
fn near(rng: &mut Rng, base: u32, spread: u32) -> Block {
    let start = (base + rng.below(spread)).min(7999);
    let length = rng.pick(&[1, 1, 2, 3, 4, 6, 10]);
    Block { start, length: length.min(8000 - start) }
}

/// Few names and words close together: two declarations stand in every relation.
pub fn crowded(rng: &mut Rng, count: usize) -> Vec<Declaration> {
    let names: Vec<Name> = (0..rng.between(1, 6)).map(|_| name(rng)).collect();
    let anywhere = rng.below(7900);
    let base = rng.pick(&[0, 96, anywhere, 7890, 7980]);
    let spread = rng.pick(&[3, 6, 20, 60, 400]);
    let mut list: Vec<Declaration> = Vec::new();
    for _ in 0..count {
        let fresh =
            Declaration { unit: unit(rng), name: rng.pick(&names), block: near(rng, base, spread) };
        // Once in a while what was declared already, by another unit.
        let again = list.get(rng.index(4 * list.len() + 1)).copied();
        list.push(again.map_or(fresh, |old| Declaration { unit: unit(rng), ..old }));
    }
    list
}

/// Names and words of their own, side by side: no clash.
pub fn apart(rng: &mut Rng, count: usize) -> Vec<Declaration> {
    let length = rng.between(1, 100);
    let base = rng.below(8001 - length * (count as u32).min(80));
    let places = names_apart(rng, count).into_iter().zip((base..).step_by(length as usize));
    let mut list: Vec<Declaration> =
        places.map(|(name, start)| declared(unit(rng), name, start, length)).collect();
    // The places are not in the order of the words.
    for place in 0..list.len() {
        let other = rng.index(list.len());
        list.swap(place, other);
    }
    list
}

/// As many blocks, no two alike, and all with one word in them: every two clash, by one name
/// or by two.
pub fn quarrel(rng: &mut Rng, count: usize) -> Vec<Declaration> {
    let word = rng.between(7, 7990);
    let names = match rng.below(3) {
        0 => vec![name(rng); count],
        1 => names_apart(rng, count),
        _ => (0..count).map(|_| rng.pick(&NAMES)).collect(),
    };
    let block = |place: u32| (word - place % 8, place % 8 + 1 + place / 8);
    let blocks = (0..).map(block);
    let both = names.into_iter().zip(blocks);
    both.map(|(name, (start, length))| declared(unit(rng), name, start, length)).collect()
}

/// One block under one name, declared by all: no clash.
pub fn agreed(rng: &mut Rng, count: usize) -> Vec<Declaration> {
    let (name, block) = (name(rng), near(rng, 7890, 110));
    (0..count).map(|_| Declaration { unit: unit(rng), name, block }).collect()
}

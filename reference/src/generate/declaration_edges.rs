//! Lists of declarations at the edges of what document 02 says.

use super::declarations::*;
use super::rng::Rng;
use crate::units::{Declaration, Name};

type List = Vec<Declaration>;

/// Blocks beside, over and inside a block of six words at 100.
const BESIDE: [(u32, u32); 18] = [
    (100, 6),
    (100, 5),
    (100, 7),
    (99, 6),
    (101, 6),
    (101, 4),
    (101, 5),
    (105, 1),
    (105, 5),
    (106, 1),
    (106, 6),
    (95, 5),
    (95, 6),
    (99, 1),
    (100, 1),
    (99, 8),
    (0, 8000),
    (106, 7894),
];

/// Two declarations in every relation, under one name and under two, either one first.
pub fn relations() -> Vec<List> {
    let one = declared(1, NAMES[0], 100, 6);
    let mut lists = Vec::new();
    for (start, length) in BESIDE {
        for name in [NAMES[0], NAMES[1]] {
            for unit in [1, 2] {
                let other = declared(unit, name, start, length);
                lists.extend([vec![one, other], vec![other, one]]);
            }
        }
    }
    lists
}

/// Names that differ in one bit of one byte, over blocks that are the same, share a word and
/// share none.
pub fn names() -> Vec<List> {
    let mut lists = Vec::new();
    for base in [NAMES[0], [0; 8]] {
        for at in 0..8 {
            for bit in [0, 7] {
                let mut name: Name = base;
                name[at] ^= 1 << bit;
                for (start, length) in [(100, 6), (105, 3), (106, 3)] {
                    lists.push(vec![declared(7, base, 100, 6), declared(7, name, start, length)]);
                }
            }
        }
    }
    lists
}

/// Blocks at the edges of D: sound ones, empty ones, ones out of range.
const AT_EDGES: [(u32, u32); 27] = [
    (0, 1),
    (7999, 1),
    (0, 8000),
    (1, 7999),
    (7900, 100),
    (7899, 101),
    (7950, 50),
    (0, 0),
    (5, 0),
    (7999, 0),
    (8000, 0),
    (8001, 0),
    (u32::MAX, 0),
    (7999, 2),
    (8000, 1),
    (0, 8001),
    (1, 8000),
    (7950, 51),
    (8001, 1),
    (65536, 10),
    (10, 65537),
    (u32::MAX, 1),
    (1, u32::MAX),
    (u32::MAX, u32::MAX),
    (1 << 31, 1 << 31),
    (u32::MAX - 99, 200),
    (4000, u32::MAX - 3000),
];

/// Each of these alone, at every place of three, in a list of 64 somewhere and at its end, and
/// in one of 65.
pub fn blocks(rng: &mut Rng) -> Vec<List> {
    let mut lists = Vec::new();
    for (start, length) in AT_EDGES {
        let drawn = rng.index(64);
        for (count, at) in [(1, 0), (3, 0), (3, 1), (3, 2), (64, drawn), (64, 63), (65, 64)] {
            let mut list = apart(rng, count);
            list[at] = declared(unit(rng), name(rng), start, length);
            lists.push(list);
        }
    }
    lists
}

/// Lists of every size that matters, with no clash, with all, and with some.
pub fn sizes(rng: &mut Rng) -> Vec<List> {
    let mut lists = Vec::new();
    for count in [0, 1, 2, 3, 62, 63, 64, 65, 66, 70] {
        for make in [apart, agreed, quarrel, crowded] {
            lists.push(make(rng, count));
        }
    }
    lists
}

/// 64 declarations of which two clash, at places of all kinds, by one name and by two.
pub fn single_clashes(rng: &mut Rng) -> Vec<List> {
    let mut lists = Vec::new();
    let drawn = rng.between(1, 30) as usize;
    for (low, high) in [(0, 1), (0, 63), (62, 63), (31, 32), (1, 62), (drawn, drawn + 31)] {
        for turn in 0..4 {
            let mut list = apart(rng, 64);
            let told = list[low].block;
            // Past the others, or over one of them by its last word.
            let last = told.start + told.length - 1;
            let other = list[high];
            list[high] = match turn {
                0 => Declaration { name: list[low].name, ..other },
                1 => Declaration { block: told, ..other },
                2 => declared(other.unit, other.name, last, 1),
                _ => declared(list[low].unit, list[low].name, other.block.start, 1),
            };
            lists.push(list);
        }
    }
    lists
}

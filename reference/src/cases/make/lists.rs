//! Lists of declarations: edges of every rule, and random lists.

use crate::cases::lists::{Asked, ListCase};
use crate::generate::declaration_edges as edges;
use crate::generate::declarations::*;
use crate::generate::rng::Rng;
use crate::units::Declaration;

const ROOM: u32 = 2016;
const ROOMS: [u32; 5] = [ROOM, 0, ROOM - 1, ROOM + 1, 2100];

fn asked(rng: &mut Rng, list: Vec<Declaration>, room: u32) -> Asked {
    let any = rng.draw() as u32;
    // Some reports hold small numbers, some run over the largest.
    let seed = rng.pick(&[0, 1, u32::MAX - 3, any, any, any]);
    Asked { list, room, seed }
}

/// Mostly a report of the least room, now and then one that is too small or larger.
fn room(rng: &mut Rng) -> u32 {
    if rng.once_in(8) {
        rng.pick(&ROOMS)
    } else {
        ROOM
    }
}

fn edge_lists(rng: &mut Rng) -> Vec<Asked> {
    let mut found = Vec::new();
    for list in edges::sizes(rng) {
        for room in ROOMS {
            found.push(asked(rng, list.clone(), room));
        }
    }
    let mut lists = edges::relations();
    lists.extend(edges::names());
    lists.extend(edges::blocks(rng));
    lists.extend(edges::single_clashes(rng));
    for list in lists {
        let room = room(rng);
        found.push(asked(rng, list, room));
    }
    found
}

/// One block made empty or put out of range.
fn spoilt(rng: &mut Rng, mut list: Vec<Declaration>) -> Vec<Declaration> {
    let at = rng.index(list.len());
    let Some(one) = list.get_mut(at) else {
        return list;
    };
    let past = 8001 - one.block.start;
    match rng.below(4) {
        0 => one.block.length = 0,
        1 => one.block.length = past,
        2 => one.block.start = rng.pick(&[8000, u32::MAX, 1 << 31]),
        _ => one.block.length = rng.draw() as u32 | 1 << 31,
    }
    list
}

/// A list of up to 64 of any kind, seldom with a block that is not sound.
pub fn random_list(rng: &mut Rng) -> Vec<Declaration> {
    let count = match rng.below(32) {
        0 => rng.between(40, 64),
        1..=3 => rng.between(13, 40),
        _ => rng.between(2, 12),
    } as usize;
    let list = match rng.below(12) {
        0 => apart(rng, count),
        1 => agreed(rng, count),
        2 if count <= 40 => quarrel(rng, count),
        _ => crowded(rng, count),
    };
    match rng.once_in(16) {
        true => spoilt(rng, list),
        false => list,
    }
}

fn random_asked(rng: &mut Rng) -> Asked {
    let list = match rng.below(40) {
        0 => quarrel(rng, 64),
        _ => random_list(rng),
    };
    let room = room(rng);
    asked(rng, list, room)
}

/// The edges first, as many of them as fit, then random ones.
pub fn list_cases(rng: &mut Rng, count: usize) -> Vec<ListCase> {
    let mut found = edge_lists(rng);
    found.truncate(count);
    while found.len() < count {
        found.push(random_asked(rng));
    }
    found.into_iter().map(ListCase::solve).collect()
}

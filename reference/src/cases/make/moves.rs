//! Moves: accepted ones with gaps to find, and each refusal from 10 to 14.

use crate::cases::moves::MoveCase;
use crate::compose;
use crate::file::encode;
use crate::generate::blocks::{cutting, dense, into_gap, likely, no_place, wrong};
use crate::generate::faults::aimed;
use crate::generate::files::comment;
use crate::generate::program::Made;
use crate::generate::rng::Rng;
use crate::generate::specials;
use crate::mover::{Block, Pool};

type Draw = fn(&mut Rng, &Made) -> (Block, Pool);

/// Draws until the answer is one of those wanted; the last try stands if none is.
fn search(rng: &mut Rng, made: &Made, file: &[u8], draw: Draw, wanted: &[u32]) -> MoveCase {
    let mut found = None;
    for _ in 0..40 {
        let (block, pool) = draw(rng, made);
        let case = MoveCase::solve(file.to_vec(), block, pool);
        let hit = wanted.contains(&case.refusal);
        found = Some(case);
        if hit {
            break;
        }
    }
    // The loop runs at least once; the default only keeps this total.
    found.unwrap_or_else(|| {
        MoveCase::solve(file.to_vec(), Block { start: 0, length: 0 }, Pool { start: 0, end: 0 })
    })
}

/// Several calls for one program.
fn program_cases(rng: &mut Rng, turn: usize) -> Vec<MoveCase> {
    let made = dense(rng);
    let file = encode(&comment(rng), &made.records);
    let mut found = vec![
        search(rng, &made, &file, likely, &[0]),
        search(rng, &made, &file, into_gap, &[0]),
        search(rng, &made, &file, cutting, &[13]),
        search(rng, &made, &file, no_place, &[14]),
    ];
    let number = turn as u32 % 3 + 10;
    found.push(search(rng, &made, &file, wrong, &[number]));
    if turn.is_multiple_of(4) {
        let number = turn as u32 / 4 % 7 + 2;
        let refused = aimed(rng, number, turn);
        let file = compose::file(&refused.records);
        let (block, pool) = if rng.once_in(2) { wrong(rng, &made) } else { likely(rng, &made) };
        found.push(MoveCase::solve(file, block, pool));
    }
    found
}

/// The document's own moves.
fn special_cases() -> Vec<MoveCase> {
    let block = Block { start: 100, length: 10 };
    let pool = Pool { start: 200, end: 300 };
    let gap = Pool { start: 200, end: 204 };
    let mut found: Vec<MoveCase> =
        [106, 107].map(|target| MoveCase::solve(specials::ddiv_into(target), block, pool)).to_vec();
    found.push(MoveCase::solve(specials::dmov(99, 0), block, pool));
    for length in [2, 3] {
        let block = Block { start: 100, length };
        found.push(MoveCase::solve(specials::mov(200, 203), block, gap));
    }
    found.push(MoveCase::solve(vec![1, 0, 1, 0, 28, 0, 0, 0], block, pool));
    found
}

pub fn move_cases(rng: &mut Rng, count: usize) -> Vec<MoveCase> {
    let mut cases = special_cases();
    let mut turn = 0;
    while cases.len() < count {
        cases.extend(program_cases(rng, turn));
        turn += 1;
    }
    cases.truncate(count);
    cases
}

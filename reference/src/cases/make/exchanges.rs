//! Exchanges: accepted ones, and refusals 9, 10, 12 and 14.

use crate::cases::exchanges::ExchangeCase;
use crate::cases::memories::{BYTES, EDGES, PATTERN, SMALL};
use crate::generate::rng::Rng;
use crate::mover::Block;

/// A block and a place that do not meet, WORK free.
fn apart(rng: &mut Rng) -> (Block, u32) {
    let any_length = rng.between(1, 3950);
    let length = rng.pick(&[1, 2, 10, any_length, 3950]);
    let low = rng.below(7900 - 2 * length + 1);
    let high = rng.between(low + length, 7900 - length);
    let (start, place) = if rng.once_in(2) { (low, high) } else { (high, low) };
    (Block { start, length }, place)
}

/// Block and place for one refusal; 0 for none.
fn ranges(rng: &mut Rng, aim: u32) -> (Block, u32) {
    let (block, place) = apart(rng);
    let at = |start: u32, length: u32| Block { start, length };
    match aim {
        10 => match rng.below(4) {
            0 => (at(block.start, 0), place),
            1 => (at(7999, 2), place),
            2 => (at(u32::MAX, u32::MAX), place),
            _ => (at(8000, 1), u32::MAX),
        },
        12 => match rng.below(3) {
            0 => (at(7899, 2), place),
            1 => (at(7950, 5), place),
            _ => (at(0, 7901), u32::MAX),
        },
        14 => match rng.below(6) {
            0 => (block, block.start),
            1 => (block, block.start + block.length - 1),
            2 => (block, block.start.saturating_sub(block.length - 1)),
            3 => (block, 7901 - block.length),
            4 => (block, rng.pick(&[8000, 7999, u32::MAX])),
            _ => (at(block.start, 1), rng.between(7900, 7999)),
        },
        _ => (block, place),
    }
}

pub fn exchange_cases(rng: &mut Rng, count: usize) -> Vec<ExchangeCase> {
    let mut cases = Vec::new();
    for turn in 0..count {
        let aim = [0, 0, 0, 9, 10, 12, 14, 14][turn % 8];
        let words = match aim {
            9 => rng.pick(&[0, 1, 7900, 7999, 8001, 8192]),
            _ => 8000,
        };
        // A wrong size is told whatever the ranges are.
        let inner = if aim == 9 { rng.pick(&[0, 10, 12, 14]) } else { aim };
        let (block, place) = ranges(rng, inner);
        let rule = rng.pick(&[BYTES, SMALL, PATTERN, EDGES]);
        cases.push(ExchangeCase::solve(rule, rng.draw() as u32, words, block, place));
    }
    cases
}

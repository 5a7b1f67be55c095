//! Blocks and pools, aimed at the refusals 10 to 14 and at accepted moves.

use super::operands::Hot;
use super::program::{program_around, Made, Plan};
use super::rng::Rng;
use crate::file::Record;
use crate::mover::{Block, Pool};
use crate::operand::{extents, Extent};

/// A program whose words lie close together, with gaps between them.
pub fn dense(rng: &mut Rng) -> Made {
    let mut hot = Hot::new(rng);
    let anywhere = rng.below(7800);
    let base = rng.pick(&[0, 96, 200, anywhere, 7850]);
    hot.words = vec![base, base + rng.between(10, 40)];
    hot.spread = rng.between(4, 20);
    let plan = Plan { records: rng.between(3, 22) as usize, steps: 300, loops: rng.pick(&[0, 8]) };
    program_around(rng, plan, hot)
}

fn uses(records: &[Record]) -> Vec<Extent> {
    records.iter().flat_map(extents).collect()
}

fn block_at(start: u32, length: u32) -> Block {
    Block { start, length }
}

fn pool(start: u32, end: u32) -> Pool {
    Pool { start, end }
}

/// A block around one of the program's extents, or anywhere.
fn likely_block(rng: &mut Rng, records: &[Record]) -> Block {
    let used = uses(records);
    if used.is_empty() || rng.once_in(6) {
        return block_at(rng.below(7890), rng.between(1, 10));
    }
    let extent = rng.pick(&used);
    let before = rng.pick(&[0, 0, 0, 1, 2, 5]);
    let after = rng.pick(&[0, 0, 1, 2, 6, 20]);
    block_at(extent.start.saturating_sub(before), before + extent.length + after)
}

/// A pool among the program's words, or wide, or at the end of D.
fn likely_pool(rng: &mut Rng, records: &[Record]) -> Pool {
    let used = uses(records);
    match rng.below(4) {
        0 => pool(0, 8000),
        1 => pool(rng.below(4000), rng.between(4000, 8000)),
        2 => pool(rng.between(7850, 7890), rng.between(7890, 8000)),
        _ if used.is_empty() => pool(100, 200),
        _ => {
            let start = rng.pick(&used).start.saturating_sub(rng.below(6));
            pool(start, (start + rng.between(1, 40)).min(8000))
        }
    }
}

pub fn likely(rng: &mut Rng, made: &Made) -> (Block, Pool) {
    (likely_block(rng, &made.records), likely_pool(rng, &made.records))
}

/// Refusals 10, 11 and 12, alone or with others behind them in the order.
pub fn wrong(rng: &mut Rng, made: &Made) -> (Block, Pool) {
    let (block, likely) = likely(rng, made);
    let far = u32::MAX;
    match rng.below(12) {
        0 => (block_at(block.start, 0), likely),
        1 => (block_at(rng.pick(&[7999, 8000, far]), rng.pick(&[2, far])), likely),
        2 => (block_at(far, 1), pool(5, 4)),
        3 => (block_at(0, rng.pick(&[8001, far])), likely),
        4 => (block_at(8000, rng.below(2)), likely),
        5 => (block, pool(far, rng.below(8001))),
        6 => (block, pool(101, 100)),
        7 => (block, pool(rng.below(8000), rng.pick(&[8001, far]))),
        8 => (block_at(7890, 20), pool(8001, 8001)),
        9 => (block_at(7899, rng.between(2, 101)), likely),
        10 => (block_at(rng.between(7900, 7999), 1), likely),
        _ => (block_at(0, rng.between(7901, 8000)), likely),
    }
}

/// Refusal 13: a block with its edge inside an extent of two words or more.
pub fn cutting(rng: &mut Rng, made: &Made) -> (Block, Pool) {
    let wide: Vec<Extent> =
        uses(&made.records).into_iter().filter(|extent| extent.length > 1).collect();
    let (block, pool) = likely(rng, made);
    if wide.is_empty() {
        return (block, pool);
    }
    let extent = rng.pick(&wide);
    let inside = extent.start + rng.between(1, extent.length - 1);
    let block = match rng.below(3) {
        0 => block_at(inside, rng.between(1, 9)),
        1 => {
            let length = rng.between(1, inside.min(9));
            block_at(inside - length, length)
        }
        // The whole block inside the extent.
        _ => block_at(extent.start, 1),
    };
    (block, pool)
}

/// Refusal 14: pools with no place in them.
pub fn no_place(rng: &mut Rng, made: &Made) -> (Block, Pool) {
    let (block, likely) = likely(rng, made);
    let start = rng.below(7000);
    let pool = match rng.below(6) {
        0 => pool(start, start),
        1 => pool(start, start + block.length - 1),
        2 => pool(block.start, (block.start + block.length).min(8000)),
        3 => pool(7900, 8000),
        4 => pool(7900 - (block.length - 1).min(7900), 8000),
        _ => likely,
    };
    (block, pool)
}

/// A short block that must look for a gap among the program's words.
pub fn into_gap(rng: &mut Rng, made: &Made) -> (Block, Pool) {
    let used = uses(&made.records);
    let block = match rng.below(4) {
        0 => block_at(rng.below(7800), rng.between(1, 4)),
        _ => likely_block(rng, &made.records),
    };
    if used.is_empty() {
        return (block, pool(0, 8000));
    }
    let start = rng.pick(&used).start.saturating_sub(rng.below(3));
    (block, pool(start, (start + rng.between(4, 50)).min(8000)))
}

//! Accepted moves: the lowest place, found a second way; old and moved program side by
//! side over exchanged memories; and the way back.

use super::{hold, random_memory, Held, Tally};
use crate::check::check;
use crate::compose;
use crate::devices::{D_WORDS, WORK_START};
use crate::exchange::exchange;
use crate::generate::blocks::{cutting, into_gap, likely, no_place, wrong};
use crate::generate::memories::elapsed;
use crate::generate::program::Made;
use crate::generate::rng::Rng;
use crate::mover::{move_block, Block, Pool};
use crate::scan::scan;
use crate::usemap::use_map;

/// The lowest place, by marking every word that is taken and looking for a free run.
fn place_by_marks(file: &[u8], block: Block, pool: Pool) -> Option<u32> {
    let map = use_map(file).ok()?;
    let taken = |word: u32| {
        let in_block = word >= block.start && word < block.start + block.length;
        in_block || word >= WORK_START || map.marks(word) != (false, false)
    };
    let mut run = 0;
    for word in pool.start..pool.end.min(D_WORDS) {
        run = if taken(word) { 0 } else { run + 1 };
        if run == block.length {
            return Some(word + 1 - block.length);
        }
    }
    None
}

/// Several scans of both programs, memories exchanged at the start.
fn twins(rng: &mut Rng, made: &Made, moved: &[u8], block: Block, place: u32) -> Held {
    let file = compose::file(&made.records);
    let mut old = random_memory(rng, &made.records);
    let mut new = old.clone();
    exchange(&mut new.d, block, place).map_err(|refusal| refusal.to_string())?;
    for _ in 0..4 {
        let (time, budget) = (elapsed(rng), rng.pick(&[3, 40, 30_000, 30_000]));
        let one = scan(&file, &mut old, time, budget);
        let other = scan(moved, &mut new, time, budget);
        hold(one == other, "both programs answer alike")?;
        let mut back = new.clone();
        exchange(&mut back.d, block, place).map_err(|refusal| refusal.to_string())?;
        hold(back == old, "memories alike after exchange")?;
    }
    Ok(())
}

/// The moved file is accepted with the same W; moving back restores every byte.
fn and_back(file: &[u8], moved: &[u8], block: Block, place: u32) -> Held {
    let (old, new) = (check(file), check(moved));
    let same = old.is_ok_and(|o| new.is_ok_and(|n| o.steps == n.steps && o.frame == n.frame));
    hold(same, "the moved file is accepted with the same W")?;
    let mut again = moved.to_vec();
    let start = Block { start: place, length: block.length };
    let home = Pool { start: block.start, end: block.start + block.length };
    hold(move_block(&mut again, start, home) == Ok(block.start), "the way back is accepted")?;
    hold(again == file, "the way back restores every byte")
}

pub fn round(rng: &mut Rng, made: &Made, tally: &mut Tally) -> Held {
    let file = compose::file(&made.records);
    for draw in [likely, likely, into_gap, cutting, no_place, wrong] {
        let (block, pool) = draw(rng, made);
        let mut moved = file.clone();
        tally.moves += 1;
        match move_block(&mut moved, block, pool) {
            Ok(place) => {
                tally.moved += 1;
                tally.twin_scans += 4;
                hold(place_by_marks(&file, block, pool) == Some(place), "the lowest place")?;
                twins(rng, made, &moved, block, place)?;
                and_back(&file, &moved, block, place)?;
            }
            Err(refusal) => {
                hold(moved == file, "a refused move changes nothing")?;
                // Blocks refused ahead of 14 may be of any size.
                let none = refusal.number != 14 || place_by_marks(&file, block, pool).is_none();
                hold(none, "14 only if there is no place")?;
            }
        }
    }
    Ok(())
}

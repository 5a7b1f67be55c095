//! Files of any kind: every entry answers, refuses alike, and a refusal changes nothing.

use super::{hold, random_memory, Held, Tally};
use crate::check::check;
use crate::generate::memories::{bad_leftovers, elapsed, too_long};
use crate::generate::rng::Rng;
use crate::memory::Memory;
use crate::mover::{move_block, Block, Pool};
use crate::refusal::Refusal;
use crate::scan::scan;
use crate::usemap::use_map;

/// A memory with a table of a wrong size, or with a leftover out of its range.
fn lent_wrong(rng: &mut Rng, mut memory: Memory) -> Memory {
    match rng.below(7) {
        0 => memory.d.truncate(rng.below(8000) as usize),
        1 => memory.m.push(0),
        2 => memory.t.clear(),
        3 => memory.rest.truncate(rng.below(2) as usize),
        4 => memory.rest.push(0),
        _ => memory.rest = bad_leftovers(rng).to_vec(),
    }
    memory
}

/// 9 by what is lent or by the time, with any budget.
fn nine(rng: &mut Rng, file: &[u8], lent: &Memory, elapsed: u32) -> Held {
    let mut memory = lent.clone();
    let told = scan(file, &mut memory, elapsed, rng.pick(&[0, 100])).err();
    hold(told == Some(Refusal::new(9, 0)) && memory == *lent, "9, changing nothing")
}

pub fn round(rng: &mut Rng, file: &[u8], tally: &mut Tally) -> Held {
    tally.files += 1;
    let answer = check(file);
    let before = random_memory(rng, &[]);
    let mut memory = before.clone();
    let scanned = scan(file, &mut memory, elapsed(rng), rng.below(2000));
    let mapped = use_map(file);
    let mut moved = file.to_vec();
    let block = Block { start: rng.below(8100), length: rng.below(40) };
    let pool = Pool { start: rng.below(8100), end: rng.below(8100) };
    let result = move_block(&mut moved, block, pool);
    match answer {
        Ok(_) => {
            let wrong = lent_wrong(rng, before.clone());
            let (time, longer) = (elapsed(rng), too_long(rng));
            nine(rng, file, &wrong, time)?;
            nine(rng, file, &before, longer)?;
            hold(scanned.is_ok() && mapped.is_ok(), "scan and map of an accepted file")
        }
        Err(refusal) => {
            tally.refused += 1;
            hold((1..=8).contains(&refusal.number), "the check refuses by 1 to 8")?;
            hold(scanned == Err(refusal) && memory == before, "the scan refuses alike")?;
            let mut wrong = lent_wrong(rng, before);
            let told = scan(file, &mut wrong, too_long(rng), 100);
            hold(told == Err(refusal), "1 to 8 come before 9")?;
            hold(mapped.err() == Some(refusal), "the map refuses alike")?;
            hold(result == Err(refusal) && moved == file, "the mover refuses alike")
        }
    }
}

//! The storm: many random inputs, and what must hold of every answer. It shows that no
//! input stops the reference, and that its parts agree with each other.

mod jobs;
mod moves;
mod refused;
mod requests;
mod salvages;
mod scans;
mod times;
mod units;

use crate::cases::memories::MemorySpec;
use crate::compose;
use crate::file::Record;
use crate::generate::blocks::dense;
use crate::generate::faults::{aimed, aimed_twice};
use crate::generate::files::{broken_frame, damaged, garbage};
use crate::generate::memories;
use crate::generate::program::{program, small, Plan};
use crate::generate::rng::Rng;
use crate::memory::Memory;

/// How much of each was tried.
#[derive(Clone, Copy, Debug, Default)]
pub struct Tally {
    pub files: u64,
    pub refused: u64,
    pub scans: u64,
    pub watchdogs: u64,
    pub moves: u64,
    pub moved: u64,
    pub twin_scans: u64,
    pub requests: u64,
    pub replies: u64,
    pub lists: u64,
    pub clashes: u64,
    /// First lines that one of two texts handed back.
    pub lines: u64,
    /// Times that were split, and the scans that they were given to.
    pub times: u64,
    pub parts: u64,
    pub jobs: u64,
    pub jobs_done: u64,
    /// Torn files, and those that END was added to.
    pub torn: u64,
    pub ends_added: u64,
}

/// What did not hold, in words.
pub type Held = Result<(), String>;

fn hold(condition: bool, what: &str) -> Held {
    if condition {
        Ok(())
    } else {
        Err(what.to_string())
    }
}

/// A memory of any kind for this program.
fn random_memory(rng: &mut Rng, records: &[Record]) -> Memory {
    let spec: MemorySpec = memories::memory(rng, records);
    spec.lend(&spec.image(&[]))
}

/// A file that is likely refused.
fn unlikely_file(rng: &mut Rng, turn: usize) -> Vec<u8> {
    let records = small(rng).records;
    match turn % 5 {
        0 => garbage(rng),
        1 => broken_frame(rng, &records, turn / 5),
        2 => compose::file(&aimed(rng, turn as u32 / 5 % 7 + 2, turn / 35).records),
        3 => compose::file(&aimed_twice(rng, turn / 5).records),
        _ => damaged(rng, &records),
    }
}

fn accepted_program(rng: &mut Rng, turn: usize) -> crate::generate::program::Made {
    match turn % 6 {
        0 | 1 => dense(rng),
        2 => program(rng, Plan { records: 60, steps: 20_000, loops: 4 }),
        _ => small(rng),
    }
}

fn round(rng: &mut Rng, turn: usize, tally: &mut Tally) -> Held {
    units::round(rng, tally)?;
    times::round(rng, tally)?;
    for _ in 0..4 {
        let memory = random_memory(rng, &[]);
        requests::round(rng, &memory, tally)?;
    }
    if turn.is_multiple_of(2) {
        let file = unlikely_file(rng, turn / 2);
        return refused::round(rng, &file, tally);
    }
    let made = accepted_program(rng, turn / 2);
    scans::round(rng, &made.records, tally)?;
    moves::round(rng, &made, tally)
}

pub fn storm(seed: u64, count: u32) -> Result<Tally, String> {
    let mut tally = Tally::default();
    for turn in 0..count {
        // Each round has a seed of its own, so that a failing one can be run alone.
        let own = seed.wrapping_mul(0x1_0000_0000).wrapping_add(u64::from(turn));
        let rng = &mut Rng::new(own);
        round(rng, turn as usize, &mut tally)
            .and_then(|()| jobs::round(rng, turn as usize, &mut tally))
            .and_then(|()| salvages::round(rng, turn as usize, &mut tally))
            .map_err(|what| format!("round {turn}: {what}"))?;
    }
    Ok(tally)
}

#[cfg(test)]
mod tests {
    #[test]
    fn a_short_storm_holds() {
        let tally = super::storm(5, 1500).unwrap();
        assert!(tally.moved > 100 && tally.watchdogs > 50 && tally.refused > 400);
        assert!(tally.requests == 6000 && tally.replies > 2000);
        assert!(tally.lists == 1500 && tally.clashes > 10_000 && tally.lines > 800);
        assert!(tally.times == 1500 && tally.parts > 10_000);
        assert!(tally.jobs == 1500 && tally.jobs_done > 400);
        assert!(tally.torn == 4500 && (1000..3500).contains(&tally.ends_added));
    }
}

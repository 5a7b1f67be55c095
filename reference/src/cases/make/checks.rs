//! Files for the check: accepted ones, and each refusal from 1 to 8.

use crate::cases::checks::CheckCase;
use crate::file::encode;
use crate::generate::faults::{aimed, aimed_twice};
use crate::generate::files::{broken_frame, comment, damaged, garbage};
use crate::generate::program::{program, small, Plan};
use crate::generate::rng::Rng;
use crate::generate::specials;

fn with_comment(rng: &mut Rng, records: &[crate::file::Record]) -> Vec<u8> {
    encode(&comment(rng), records)
}

/// One file; `turn` tells the mix and walks over the causes of each refusal.
fn file(rng: &mut Rng, turn: usize) -> Vec<u8> {
    let (slot, round) = (turn % 25, turn / 25);
    let records = match slot {
        0..=3 => small(rng).records,
        4 => program(rng, Plan { records: 45, steps: 9_000_000, loops: 4 }).records,
        5 => {
            let records = small(rng).records;
            return broken_frame(rng, &records, round);
        }
        6 => aimed(rng, 2, round).records,
        7..=14 => aimed(rng, 3, 8 * round + slot - 7).records,
        15 => aimed(rng, 4, round).records,
        16..=18 => aimed(rng, 5, 3 * round + slot - 16).records,
        19..=21 => aimed(rng, slot as u32 - 13, round).records,
        22 | 23 => aimed_twice(rng, 2 * round + slot - 22).records,
        _ if round.is_multiple_of(4) => return garbage(rng),
        _ => {
            let records = small(rng).records;
            return damaged(rng, &records);
        }
    };
    with_comment(rng, &records)
}

pub fn check_cases(rng: &mut Rng, count: usize) -> Vec<CheckCase> {
    let mut files = specials::files(rng);
    files.truncate(count);
    for turn in 0..count - files.len() {
        files.push(file(rng, turn));
    }
    files.into_iter().map(CheckCase::solve).collect()
}

//! Use maps of accepted programs, and refused ones.

use crate::cases::maps::MapCase;
use crate::file::encode;
use crate::generate::blocks::dense;
use crate::generate::faults::aimed;
use crate::generate::files::{broken_frame, comment};
use crate::generate::program::{program, small, Plan};
use crate::generate::rng::Rng;

fn file(rng: &mut Rng, turn: usize) -> Vec<u8> {
    let records = match turn % 8 {
        0..=2 => dense(rng).records,
        3 | 4 => small(rng).records,
        5 | 6 => program(rng, Plan { records: 40, steps: 2000, loops: 10 }).records,
        _ => {
            let number = turn as u32 / 8 % 8 + 1;
            if number == 1 {
                let records = small(rng).records;
                return broken_frame(rng, &records, turn / 64);
            }
            aimed(rng, number, turn / 64).records
        }
    };
    encode(&comment(rng), &records)
}

pub fn map_cases(rng: &mut Rng, count: usize) -> Vec<MapCase> {
    (0..count).map(|turn| MapCase::solve(file(rng, turn))).collect()
}

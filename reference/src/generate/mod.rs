//! Generators of inputs: programs, faults, files, memories, blocks and pools, jobs, torn files,
//! requests, declarations.

pub mod blocks;
pub mod declaration_edges;
pub mod declarations;
pub mod edge_programs;
pub mod edges;
pub mod faults;
pub mod files;
pub mod jobs;
pub mod memories;
pub mod operands;
pub mod program;
pub mod record_faults;
pub mod request_edges;
pub mod requests;
pub mod rng;
mod rung_faults;
mod rungs;
pub mod specials;
pub mod spellings;
pub mod structure_faults;
pub mod timers;
pub mod torn;
pub mod torn_edges;
pub mod torn_records;

#[cfg(test)]
mod tests {
    use super::program::{program, small, Plan};
    use super::rng::Rng;
    use crate::{check, compose};

    #[test]
    fn programs_are_accepted() {
        let mut rng = Rng::new(7);
        for round in 0..3000 {
            let made = match round % 50 {
                0 => program(&mut rng, Plan { records: 300, steps: 9_000_000, loops: 3 }),
                _ => small(&mut rng),
            };
            let answer = check::check(&compose::file(&made.records));
            assert!(answer.is_ok(), "{:?} {:?}", answer.err(), made.records);
        }
    }
}

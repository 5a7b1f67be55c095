//! Programs aimed at one refusal from 2 to 8, and at two of them at once.

use super::program::{small, tiny, Made};
use super::rng::Rng;
use super::{record_faults, rung_faults, structure_faults};

/// Breaks a program so that the refusal of this number holds.
fn spoil(rng: &mut Rng, made: &mut Made, number: u32, turn: usize) {
    match number {
        2..=4 => {
            let record = match number {
                2 => record_faults::unknown(rng, made),
                3 => record_faults::bad_operand(rng, made, turn),
                _ => record_faults::into_work(rng, made, turn),
            };
            record_faults::replace(rng, made, record);
        }
        5 => {
            let snippet = rung_faults::snippet(rng, made, turn);
            let seam = rng.pick(&made.seams);
            made.insert(seam, &snippet);
        }
        6 => structure_faults::structure(rng, made, turn),
        7 => structure_faults::labels(rng, made, turn),
        _ => structure_faults::steps(rng, made, turn),
    }
}

/// A program that is refused by exactly this number.
pub fn aimed(rng: &mut Rng, number: u32, turn: usize) -> Made {
    let mut made = if number == 3 { tiny(rng) } else { small(rng) };
    spoil(rng, &mut made, number, turn);
    made
}

/// A program in which two refusals hold: the one ahead in the order must be told.
pub fn aimed_twice(rng: &mut Rng, turn: usize) -> Made {
    let mut made = small(rng);
    // Faults that insert records go first: seams would not hold behind a replaced record.
    let (one, other) = (rng.between(2, 8), rng.between(2, 8));
    spoil(rng, &mut made, one.max(other), turn);
    spoil(rng, &mut made, one.min(other), turn / 7);
    made
}

#[cfg(test)]
mod tests {
    use super::*;
    use crate::generate::files::broken_frame;
    use crate::{check, compose};

    #[test]
    fn each_aim_hits() {
        let mut rng = Rng::new(11);
        for number in 2..=8 {
            for turn in 0..400 {
                let made = aimed(&mut rng, number, turn);
                let told = check::check(&compose::file(&made.records)).err();
                let told = told.map(|refusal| refusal.number);
                assert_eq!(told, Some(number), "turn {turn}: {:?}", made.records);
            }
        }
    }

    #[test]
    fn frames_are_refused() {
        let mut rng = Rng::new(12);
        for turn in 0..600 {
            let records = small(&mut rng).records;
            let bytes = broken_frame(&mut rng, &records, turn);
            let told = check::check(&bytes).err().map(|r| (r.number, r.record));
            assert_eq!(told, Some((1, 0)), "turn {turn}");
        }
    }
}

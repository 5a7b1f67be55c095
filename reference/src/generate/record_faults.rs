//! Records that break refusals 2, 3 and 4, put in the place of a good one.

use super::edges;
use super::program::Made;
use super::rng::Rng;
use crate::devices::D;
use crate::file::{Operand, Record};
use crate::instruction::{Instruction, Shape};

fn unknown_numbers() -> Vec<u8> {
    (0..=255).filter(|&number| Instruction::from_number(number).is_none()).collect()
}

fn good_record(rng: &mut Rng, made: &Made) -> Record {
    let instruction = rng.pick(Instruction::ALL);
    made.hot.record(rng, instruction)
}

/// Refusal 2: an unknown number, or a spare byte that is not 0.
pub fn unknown(rng: &mut Rng, made: &Made) -> Record {
    let mut record = good_record(rng, made);
    match rng.below(4) {
        0 | 1 => record.number = rng.pick(&unknown_numbers()),
        2 => record.number = rng.pick(&[24, 31, 41, 47, 56, 255]),
        _ => record.spare = rng.pick(&[1, 2, 128, 255]),
    }
    // A fault of an operand in the same record loses to this one.
    if rng.once_in(4) {
        record.operands[rng.index(3)] = Operand::new(9, 9, u32::MAX);
    }
    record
}

/// Every operand of every instruction, by place.
fn places() -> Vec<(Instruction, usize)> {
    let all = Instruction::ALL.iter();
    all.flat_map(|&instruction| (0..3).map(move |slot| (instruction, slot))).collect()
}

/// Every wrong operand of every shape, each at one place that has the shape.
fn wrong_operands() -> Vec<(Instruction, usize, Operand)> {
    let mut shapes: Vec<Shape> = Vec::new();
    let mut found = Vec::new();
    for (instruction, slot) in places() {
        let shape = instruction.shapes()[slot];
        if !shapes.contains(&shape) {
            shapes.push(shape);
            let wrong = edges::bad(shape).into_iter();
            found.extend(wrong.map(|operand| (instruction, slot, operand)));
        }
    }
    found
}

/// Refusal 3: one operand of one instruction wrong in one way. `turn` walks over all places
/// and, three times as often, over all wrong operands, so that each of both is met.
pub fn bad_operand(rng: &mut Rng, made: &Made, turn: usize) -> Record {
    let (places, wrong) = (places(), wrong_operands());
    let (instruction, slot, operand) = if turn.is_multiple_of(4) {
        let (instruction, slot) = places[turn / 4 % places.len()];
        (instruction, slot, rng.pick(&edges::bad(instruction.shapes()[slot])))
    } else {
        wrong[(turn - turn / 4 - 1) % wrong.len()]
    };
    let mut record = made.hot.record(rng, instruction);
    record.operands[slot] = operand;
    record
}

/// Refusal 4: a target whose extent meets WORK; also walked over by `turn`.
pub fn into_work(rng: &mut Rng, made: &Made, turn: usize) -> Record {
    let mut writers = Vec::new();
    for &instruction in Instruction::ALL {
        for (slot, shape) in instruction.shapes().into_iter().enumerate() {
            let starts = edges::into_work(shape);
            if !starts.is_empty() {
                writers.push((instruction, slot, starts));
            }
        }
    }
    let (instruction, slot, starts) = &writers[turn % writers.len()];
    let mut record = made.hot.record(rng, *instruction);
    record.operands[*slot] = Operand::new(D, 0, rng.pick(starts));
    record
}

/// Puts the record in the place of one of the program's.
pub fn replace(rng: &mut Rng, made: &mut Made, record: Record) {
    let at = rng.index(made.records.len());
    made.records[at] = record;
}

#[cfg(test)]
mod tests {
    use super::*;
    use crate::generate::program::tiny;

    #[test]
    fn six_hundred_turns_meet_every_place_and_every_wrong_operand() {
        let mut rng = Rng::new(9);
        let made = tiny(&mut rng);
        let drawn: Vec<Record> = (0..600).map(|turn| bad_operand(&mut rng, &made, turn)).collect();
        for (instruction, slot, operand) in wrong_operands() {
            let met = |r: &Record| r.number == instruction.number() && r.operands[slot] == operand;
            assert!(drawn.iter().any(met), "{instruction:?} {slot} {operand:?}");
        }
        for (instruction, slot) in places() {
            let shape = instruction.shapes()[slot];
            let met = |r: &Record| {
                r.number == instruction.number() && edges::bad(shape).contains(&r.operands[slot])
            };
            assert!(drawn.iter().any(met), "{instruction:?} {slot}");
        }
    }
}

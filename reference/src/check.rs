//! The check: refusals 1 to 8 in their order.

use crate::devices::meets_work;
use crate::file::{self, Frame, Record};
use crate::instruction::Instruction;
use crate::operand::{extents, fits};
use crate::refusal::Refusal;
use crate::{labels, rung, structure};

/// A program that the check accepts.
#[derive(Clone, Debug)]
pub struct Accepted {
    pub frame: Frame,
    pub records: Vec<Record>,
    /// W of the whole program, at most 10,000,000.
    pub steps: u32,
}

/// Refusals 2, 3 and 4 of one record, in that order.
pub fn record_fault(record: &Record) -> Option<u32> {
    let instruction = match Instruction::from_number(record.number) {
        Some(instruction) if record.spare == 0 => instruction,
        _ => return Some(2),
    };
    let shapes = instruction.shapes();
    if (0..3).any(|i| !fits(record.operands[i], shapes[i])) {
        return Some(3);
    }
    let into_work = |e: &crate::operand::Extent| e.written && meets_work(e.start, e.length);
    if extents(record).iter().any(into_work) {
        return Some(4);
    }
    None
}

pub fn check(bytes: &[u8]) -> Result<Accepted, Refusal> {
    let frame = file::frame(bytes)?;
    let records = file::records(bytes, frame);
    for (at, record) in records.iter().enumerate() {
        if let Some(number) = record_fault(record) {
            return Err(Refusal::new(number, at));
        }
    }
    rung::judge(&records)?;
    structure::judge(&records)?;
    labels::judge(&records)?;
    let steps = structure::most_steps(&records);
    if steps > structure::MOST_STEPS {
        return Err(Refusal::new(8, 0));
    }
    Ok(Accepted { frame, records, steps: steps as u32 })
}

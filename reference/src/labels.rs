//! Refusal 7: labels are set once, and each CJ finds its label later in its own body.

use crate::file::Record;
use crate::instruction::Instruction;
use crate::refusal::Refusal;
use crate::structure::bodies;

fn has_label(record: &Record, instruction: Instruction, label: u32) -> bool {
    record.number == instruction.number() && record.operands[0].value == label
}

/// The first LBL of this number.
pub fn first(records: &[Record], label: u32) -> Option<usize> {
    records.iter().position(|record| has_label(record, Instruction::Lbl, label))
}

/// To be called on programs that refusal 6 passes, since bodies mean nothing before.
pub fn judge(records: &[Record]) -> Result<(), Refusal> {
    let bodies = bodies(records);
    for (at, record) in records.iter().enumerate() {
        let found = || first(records, record.operands[0].value);
        let kept = match Instruction::from_number(record.number) {
            Some(Instruction::Lbl) => found() == Some(at),
            Some(Instruction::Cj) => found().is_some_and(|to| to > at && bodies[to] == bodies[at]),
            _ => true,
        };
        if !kept {
            return Err(Refusal::new(7, at));
        }
    }
    Ok(())
}

#[cfg(test)]
mod tests {
    use super::*;
    use crate::file::Operand;

    fn told(parts: &[(u8, u32)]) -> Option<u32> {
        let mut records = Vec::new();
        for &(number, value) in parts {
            let operands = [Operand::new(8, 0, value), Operand::default(), Operand::default()];
            records.push(Record { number, spare: 0, operands });
        }
        judge(&records).err().map(|refusal| refusal.record)
    }

    #[test]
    fn places() {
        assert_eq!(told(&[(21, 5), (22, 5)]), None);
        assert_eq!(told(&[(22, 5), (22, 5)]), Some(1));
        assert_eq!(told(&[(21, 5), (22, 6)]), Some(0));
        assert_eq!(told(&[(22, 5), (21, 5)]), Some(1));
        assert_eq!(told(&[(21, 5), (19, 0), (22, 5), (20, 0)]), Some(0));
        assert_eq!(told(&[(19, 0), (21, 5), (20, 0), (22, 5)]), Some(1));
        assert_eq!(told(&[(19, 0), (21, 5), (22, 5), (20, 0)]), None);
        assert_eq!(told(&[(21, 5), (19, 0), (20, 0), (22, 5)]), None);
    }
}

//! Loops: refusal 6, the partners of FOR and NEXT, and W (refusal 8).

use crate::file::Record;
use crate::instruction::Instruction;
use crate::refusal::Refusal;

pub const DEEPEST: usize = 8;
pub const MOST_STEPS: u128 = 10_000_000;

fn is(record: &Record, instruction: Instruction) -> bool {
    record.number == instruction.number()
}

/// Refusal 6: the first record that breaks the structure.
pub fn judge(records: &[Record]) -> Result<(), Refusal> {
    let Some(last) = records.len().checked_sub(1) else {
        return Ok(());
    };
    let mut open = 0;
    for (at, record) in records.iter().enumerate() {
        let broken = if is(record, Instruction::Next) {
            open == 0
        } else if is(record, Instruction::For) {
            open == DEEPEST
        } else {
            is(record, Instruction::End) && at != last
        };
        if broken {
            return Err(Refusal::new(6, at));
        }
        open += usize::from(is(record, Instruction::For));
        open -= usize::from(is(record, Instruction::Next));
    }
    if open != 0 || !is(&records[last], Instruction::End) {
        return Err(Refusal::new(6, last));
    }
    Ok(())
}

/// For each record, the FOR whose body it stands in directly; none outside all loops.
/// A FOR and its NEXT belong to the body around the loop.
pub fn bodies(records: &[Record]) -> Vec<Option<usize>> {
    let mut open: Vec<usize> = Vec::new();
    let mut bodies = Vec::with_capacity(records.len());
    for (at, record) in records.iter().enumerate() {
        if is(record, Instruction::Next) {
            open.pop();
        }
        bodies.push(open.last().copied());
        if is(record, Instruction::For) {
            open.push(at);
        }
    }
    bodies
}

/// For each FOR its NEXT and for each NEXT its FOR; any other record is its own partner.
pub fn partners(records: &[Record]) -> Vec<usize> {
    let mut partners: Vec<usize> = (0..records.len()).collect();
    let mut open = Vec::new();
    for (at, record) in records.iter().enumerate() {
        if is(record, Instruction::For) {
            open.push(at);
        } else if is(record, Instruction::Next) {
            if let Some(start) = open.pop() {
                partners[at] = start;
                partners[start] = at;
            }
        }
    }
    partners
}

/// W of the whole program. Eight nested loops of 32767 pass 64 bits and more, so it
/// saturates; a product with 0 passes stays exact.
pub fn most_steps(records: &[Record]) -> u128 {
    // (W of the body so far, passes of its FOR) for each open loop.
    let mut outer: Vec<(u128, u128)> = Vec::new();
    let mut steps: u128 = 0;
    for record in records {
        if is(record, Instruction::For) {
            let passes = record.operands[0].signed().max(0) as u128;
            outer.push((steps, passes));
            steps = 0;
        } else if is(record, Instruction::Next) {
            let (before, passes) = outer.pop().unwrap_or((0, 0));
            let whole = passes.saturating_mul(steps.saturating_add(1)).saturating_add(1);
            steps = before.saturating_add(whole);
        } else {
            steps = steps.saturating_add(1);
        }
    }
    steps
}

#[cfg(test)]
mod tests {
    use super::*;
    use crate::file::Operand;

    fn program(numbers: &[u8], passes: i32) -> Vec<Record> {
        let mut records = Vec::new();
        for &number in numbers {
            let mut record = Record { number, ..Record::default() };
            if number == 19 {
                record.operands[0] = Operand::constant(passes);
            }
            records.push(record);
        }
        records
    }

    fn told(numbers: &[u8]) -> Option<u32> {
        judge(&program(numbers, 1)).err().map(|refusal| refusal.record)
    }

    #[test]
    fn structure() {
        assert_eq!(told(&[23]), None);
        assert_eq!(told(&[20, 23]), Some(0));
        assert_eq!(told(&[19, 23]), Some(1));
        assert_eq!(told(&[0]), Some(0));
        assert_eq!(told(&[23, 0]), Some(0));
        let deep: Vec<u8> = [[19; 9], [20; 9]].concat();
        assert_eq!(told(&deep), Some(8));
        assert_eq!(bodies(&program(&[0, 19, 0, 20, 23], 1)), [None, None, Some(1), None, None]);
    }

    #[test]
    fn steps() {
        assert_eq!(most_steps(&program(&[19, 1, 37, 20, 23], 3)), 11);
        assert_eq!(most_steps(&program(&[19, 1, 37, 20, 23], 0)), 2);
        let mut deep = vec![19; 8];
        deep.extend([0; 1900]);
        deep.extend([20; 8]);
        assert_eq!(most_steps(&program(&deep, 32767)), u128::MAX);
    }
}

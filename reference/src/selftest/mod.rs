//! The cases that the documents themselves decide, each with the answer that they name.

mod compared;
mod marked;
mod timed;
mod traps;

use crate::instruction::Instruction;
use crate::memory::Memory;
use crate::scan::{scan_default, Answer};
use crate::{check, compose, file};

/// One case: what it is, what the document says, what came out.
pub struct Line {
    pub name: &'static str,
    pub expected: String,
    pub found: String,
}

impl Line {
    pub fn agrees(&self) -> bool {
        self.expected == self.found
    }
}

pub fn lines() -> Vec<Line> {
    let mut lines = marked::lines();
    lines.extend(compared::lines());
    lines.extend(traps::lines());
    lines.extend(timed::lines());
    lines
}

fn line(name: &'static str, expected: &str, found: String) -> Line {
    Line { name, expected: expected.to_string(), found }
}

/// The check's answer in words.
fn told(records: &[file::Record]) -> String {
    match check::check(&compose::file(records)) {
        Ok(accepted) => {
            format!("accepted records {} steps {}", accepted.records.len(), accepted.steps)
        }
        Err(refusal) => refusal.to_string(),
    }
}

/// Runs one record with flow over a memory and hands back memory and answer.
fn act(
    instruction: Instruction,
    operands: &[file::Operand],
    mut memory: Memory,
) -> (Memory, Answer) {
    let bytes = compose::file(&compose::with_flow(instruction, operands));
    let none = Answer { ended: false, steps: 0, record: 0, error: 0, error_record: 0 };
    let answer = scan_default(&bytes, &mut memory, 0).unwrap_or(none);
    (memory, answer)
}

/// SM180, SM181 and SM182 as three digits.
fn flags(memory: &Memory) -> String {
    [180, 181, 182]
        .map(|n| if crate::memory::bit(&memory.sm, n) { '1' } else { '0' })
        .iter()
        .collect()
}

#[cfg(test)]
mod tests {
    #[test]
    fn all_agree() {
        for line in super::lines() {
            assert_eq!(line.expected, line.found, "{}", line.name);
        }
    }
}

//! Refusal 5: the rung rule, judged in record order with jumps ignored.

use crate::file::Record;
use crate::instruction::Instruction;
use crate::refusal::Refusal;

/// Entries that the block stack and the branch stack hold.
pub const STACK: usize = 8;

/// What the check knows of the flow: that it is there, never whether it is on.
#[derive(Clone, Copy, Debug, Default)]
struct State {
    present: bool,
    after_action: bool,
    blocks: usize,
    branches: usize,
}

impl State {
    fn stacks_empty(&self) -> bool {
        self.blocks == 0 && self.branches == 0
    }

    fn load(&mut self) -> bool {
        if !self.present || self.after_action {
            return self.stacks_empty();
        }
        self.blocks += 1;
        self.blocks <= STACK
    }

    fn combine(&mut self) -> bool {
        if self.blocks == 0 {
            return false;
        }
        self.blocks -= 1;
        true
    }

    fn branch(&mut self, instruction: Instruction) -> bool {
        if self.blocks != 0 {
            return false;
        }
        match instruction {
            Instruction::Mps => {
                self.branches += 1;
                self.branches <= STACK
            }
            Instruction::Mrd => self.branches > 0,
            _ if self.branches == 0 => false,
            _ => {
                self.branches -= 1;
                true
            }
        }
    }

    /// One instruction; false if the rule is broken there.
    fn pass(&mut self, instruction: Instruction) -> bool {
        use Instruction::*;
        if instruction == Nop {
            return true;
        }
        let free = instruction.is_load() || matches!(instruction, For | Next | Lbl | End);
        if !free && !self.present {
            return false;
        }
        let kept = match instruction {
            load if load.is_load() => self.load(),
            Anb | Orb => self.combine(),
            Mps | Mrd | Mpp => self.branch(instruction),
            action if action.is_action() => self.blocks == 0,
            ending if ending.ends_flow() => self.stacks_empty(),
            // AND, ANI, OR, ORI need the flow and nothing else.
            _ => true,
        };
        self.present = !instruction.ends_flow();
        self.after_action = instruction.is_action();
        kept
    }
}

pub fn judge(records: &[Record]) -> Result<(), Refusal> {
    let mut state = State::default();
    for (at, record) in records.iter().enumerate() {
        let kept = match Instruction::from_number(record.number) {
            Some(instruction) => state.pass(instruction),
            None => true,
        };
        if !kept {
            return Err(Refusal::new(5, at));
        }
    }
    Ok(())
}

#[cfg(test)]
mod tests {
    use super::*;

    fn told(numbers: &[u8]) -> Option<u32> {
        let records: Vec<Record> =
            numbers.iter().map(|&number| Record { number, ..Record::default() }).collect();
        judge(&records).err().map(|refusal| refusal.record)
    }

    #[test]
    fn flow_and_stacks() {
        assert_eq!(told(&[1, 12, 3, 12, 23]), None);
        assert_eq!(told(&[3]), Some(0));
        assert_eq!(told(&[1, 1, 12]), Some(2));
        assert_eq!(told(&[1, 9, 12, 0, 1]), Some(4));
        assert_eq!(told(&[1, 9, 1, 7, 12, 11, 12, 1, 21, 3]), Some(9));
        assert_eq!(told(&[1; 9]), None);
        assert_eq!(told(&[1; 10]), Some(9));
        assert_eq!(told(&[1, 9, 9, 9, 9, 9, 9, 9, 9]), None);
        assert_eq!(told(&[1, 9, 9, 9, 9, 9, 9, 9, 9, 9]), Some(9));
        assert_eq!(told(&[1, 10]), Some(1));
        assert_eq!(told(&[23, 3]), Some(1));
    }
}

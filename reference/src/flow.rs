//! Power flow while a scan runs: the flow itself, the block stack and the branch stack.

use crate::instruction::Instruction;

#[derive(Clone, Debug, Default)]
pub struct Flow {
    /// None is absent, else on or off.
    now: Option<bool>,
    after_action: bool,
    blocks: Vec<bool>,
    branches: Vec<bool>,
}

impl Flow {
    /// With flow means on: absent and off are both without.
    pub fn on(&self) -> bool {
        self.now == Some(true)
    }

    pub fn load(&mut self, condition: bool) {
        if let (Some(before), false) = (self.now, self.after_action) {
            self.blocks.push(before);
        }
        self.now = Some(condition);
    }

    pub fn and(&mut self, condition: bool) {
        self.now = Some(self.on() && condition);
    }

    pub fn or(&mut self, condition: bool) {
        self.now = Some(self.on() || condition);
    }

    /// The stacks never run dry in an accepted program; `unwrap_or` only keeps this total.
    fn pop_block(&mut self) -> bool {
        self.blocks.pop().unwrap_or(false)
    }

    pub fn and_block(&mut self) {
        let block = self.pop_block();
        self.and(block);
    }

    pub fn or_block(&mut self) {
        let block = self.pop_block();
        self.or(block);
    }

    pub fn branch_push(&mut self) {
        self.branches.push(self.on());
    }

    pub fn branch_read(&mut self) {
        self.now = Some(self.branches.last().copied().unwrap_or(false));
    }

    pub fn branch_pop(&mut self) {
        self.now = Some(self.branches.pop().unwrap_or(false));
    }

    /// To be called after each instruction, NOP too.
    pub fn executed(&mut self, instruction: Instruction) {
        if instruction == Instruction::Nop {
            return;
        }
        self.after_action = instruction.is_action();
        if instruction.ends_flow() {
            self.now = None;
        }
    }
}

//! Rungs that keep the rung rule by construction, with block and branch stacks up to 8.

use super::program::Maker;
use crate::compose::{record, sm};
use crate::instruction::Instruction::{self, *};

const FULL: usize = 8;
const CONTACTS: [Instruction; 4] = [And, Ani, Or, Ori];
const LOADS: [Instruction; 5] = [Ld, Ldi, LdEqual, LdAbove, LdBelow];
const BIT_ACTIONS: [Instruction; 5] = [Out, Set, Rst, Ton, Ton];
const WORD_ACTIONS: [Instruction; 17] =
    [Mov, Add, Sub, Div, Sqt, Inc, Dec, Vabs, Neg, Dmov, Dadd, Dsub, Dmul, Ddiv, Dsqt, Dinc, Ddec];

/// What the rung has on its stacks so far.
#[derive(Default)]
struct Walk {
    blocks: usize,
    branches: usize,
    after_action: bool,
}

impl Maker<'_> {
    fn contact(&mut self) {
        let instruction = self.rng.pick(&CONTACTS);
        self.draw(instruction);
    }

    /// An LD-type. LD SM0 is common: without flow most records would do nothing.
    fn load(&mut self) {
        if self.rng.once_in(2) {
            return self.emit(record(Ld, &[sm(0)]));
        }
        let instruction = self.rng.pick(&LOADS);
        self.draw(instruction);
    }

    fn action(&mut self) {
        let instruction = match self.rng.below(4) {
            0 => self.rng.pick(&BIT_ACTIONS),
            _ => self.rng.pick(&WORD_ACTIONS),
        };
        self.draw(instruction);
    }

    fn combine(&mut self) {
        let instruction = self.rng.pick(&[Anb, Orb, Orb]);
        self.draw(instruction);
    }

    /// A starting LD and perhaps contacts: flow on or off, stacks empty.
    pub fn condition(&mut self) {
        self.load();
        while self.rng.once_in(4) {
            self.contact();
        }
    }

    fn deep_blocks(&mut self) {
        let depth = self.rng.between(1, FULL as u32);
        for _ in 0..depth {
            self.load();
        }
        for _ in 0..depth {
            self.combine();
        }
    }

    fn deep_branches(&mut self, walk: &mut Walk) {
        let depth = self.rng.between(1, FULL as u32) as usize;
        for _ in 0..depth {
            self.draw(Mps);
            if self.rng.once_in(3) {
                self.contact();
            }
        }
        walk.branches = depth;
    }

    /// One more instruction, whichever the stacks allow.
    fn wander(&mut self, walk: &mut Walk) {
        let clear = walk.blocks == 0;
        let acting = match self.rng.below(8) {
            0 if !walk.after_action && walk.blocks < FULL => {
                self.load();
                walk.blocks += 1;
                false
            }
            1 if walk.blocks > 0 => {
                self.combine();
                walk.blocks -= 1;
                false
            }
            2 if clear && walk.branches < FULL => {
                self.draw(Mps);
                walk.branches += 1;
                false
            }
            3 if clear && walk.branches > 0 => {
                self.draw(Mrd);
                false
            }
            4 | 5 if clear => {
                self.action();
                true
            }
            _ => {
                self.contact();
                false
            }
        };
        walk.after_action = acting;
    }

    /// Empties both stacks, acting on branches on the way.
    fn close(&mut self, walk: &mut Walk) {
        for _ in 0..walk.blocks {
            self.combine();
        }
        for _ in 0..walk.branches {
            if self.rng.once_in(4) {
                self.draw(Mrd);
                self.contact();
                self.action();
            }
            self.draw(Mpp);
            if self.rng.once_in(2) {
                self.action();
            }
        }
    }

    /// A whole rung; without an action at its end only 19 to 23 may follow it.
    pub fn rung(&mut self, with_action: bool) {
        let mut walk = Walk::default();
        self.condition();
        match self.rng.below(10) {
            0 => self.deep_blocks(),
            1 => self.deep_branches(&mut walk),
            _ => {}
        }
        for _ in 0..self.rng.below(5) {
            self.wander(&mut walk);
        }
        self.close(&mut walk);
        if with_action {
            self.action();
        } else {
            self.contact();
        }
    }
}

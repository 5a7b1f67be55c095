//! Programs that the check accepts, valid by construction: rungs, loops, jumps.

use super::operands::Hot;
use super::rng::Rng;
use crate::compose::{end, label, record};
use crate::file::{Operand, Record};
use crate::instruction::Instruction;

/// How large a program shall be, roughly.
#[derive(Clone, Copy, Debug)]
pub struct Plan {
    pub records: usize,
    /// W stays near or below this.
    pub steps: u64,
    /// One item in how many is a loop; 0 for none at all.
    pub loops: u32,
}

/// A point between rungs, where the flow is absent or the last instruction an action and
/// both stacks are empty.
#[derive(Clone, Copy, Debug)]
pub struct Seam {
    pub at: usize,
    pub depth: usize,
}

#[derive(Clone, Debug)]
pub struct Made {
    /// END included.
    pub records: Vec<Record>,
    pub seams: Vec<Seam>,
    /// Labels that the program does not set.
    pub free: Vec<u32>,
    pub hot: Hot,
}

pub struct Maker<'r> {
    pub rng: &'r mut Rng,
    pub made: Made,
}

const DEEPEST: usize = 8;

impl Maker<'_> {
    /// One record, now and then with a NOP before it, which changes nothing anywhere.
    pub fn emit(&mut self, record: Record) {
        if self.rng.once_in(24) {
            self.made.records.push(Record::default());
        }
        self.made.records.push(record);
    }

    pub fn draw(&mut self, instruction: Instruction) {
        let record = self.made.hot.record(self.rng, instruction);
        self.emit(record);
    }

    fn length(&self) -> usize {
        self.made.records.len()
    }

    fn seam(&mut self, depth: usize) {
        let at = self.length();
        self.made.seams.push(Seam { at, depth });
    }

    /// A label of this body that still waits for its LBL, or a fresh one.
    fn some_label(&mut self, pending: &mut Vec<u32>) -> Option<u32> {
        if !pending.is_empty() && self.rng.once_in(3) {
            return Some(self.rng.pick(pending));
        }
        let fresh = self.made.free.pop()?;
        pending.push(fresh);
        Some(fresh)
    }

    fn jump(&mut self, pending: &mut Vec<u32>) {
        self.condition();
        match self.some_label(pending) {
            Some(number) => self.emit(record(Instruction::Cj, &[label(number)])),
            None => self.draw(Instruction::Out),
        }
    }

    fn set_label(&mut self, pending: &mut Vec<u32>) {
        let number = match pending.is_empty() {
            true => self.made.free.pop(),
            false => Some(pending.swap_remove(self.rng.index(pending.len()))),
        };
        if let Some(number) = number {
            self.emit(record(Instruction::Lbl, &[label(number)]));
        }
    }

    /// Passes that keep the loop's W within `steps`, small ones and the largest favoured.
    fn passes(&mut self, body: u64, steps: u64) -> i32 {
        let most = (steps / (body + 1)).min(32767) as u32;
        let wanted = match self.rng.below(8) {
            0 => 0,
            1 => 1,
            2 => most,
            3 => self.rng.between(0, most),
            _ => self.rng.between(1, 4),
        };
        wanted.min(most) as i32
    }

    /// A loop; hands back its W.
    fn a_loop(&mut self, plan: Plan, depth: usize, room: usize, steps: u64) -> u64 {
        let start = self.length();
        self.made.records.push(record(Instruction::For, &[]));
        let body = self.sequence(plan, depth + 1, room.saturating_sub(2), steps / 3);
        self.made.records.push(record(Instruction::Next, &[]));
        let passes = self.passes(body, steps);
        self.made.records[start].operands[0] = Operand::constant(passes);
        1 + passes as u64 * (body + 1)
    }

    /// Loops down to the deepest level, each of a few passes.
    fn nest(&mut self, depth: usize, steps: u64) -> u64 {
        if depth == DEEPEST {
            let before = self.length();
            self.rung(true);
            return (self.length() - before) as u64;
        }
        let start = self.length();
        self.made.records.push(record(Instruction::For, &[]));
        self.seam(depth + 1);
        let body = self.nest(depth + 1, steps / 2);
        self.made.records.push(record(Instruction::Next, &[]));
        let passes = self.passes(body, steps).min(3);
        self.made.records[start].operands[0] = Operand::constant(passes);
        1 + passes as u64 * (body + 1)
    }

    /// One item of a sequence; hands back its W.
    fn item(
        &mut self,
        plan: Plan,
        depth: usize,
        left: (usize, u64),
        pending: &mut Vec<u32>,
    ) -> u64 {
        let (room, steps) = left;
        let loops = plan.loops > 0 && depth < DEEPEST && self.rng.once_in(plan.loops);
        if loops && room >= 18 && self.rng.once_in(6) {
            return self.nest(depth, steps);
        }
        if loops && room >= 3 {
            let part = self.rng.between(3, room as u32) as usize;
            return self.a_loop(plan, depth, part, steps);
        }
        let before = self.length();
        match self.rng.below(12) {
            0 => self.jump(pending),
            1 => self.set_label(pending),
            2 => self.emit(Record::default()),
            3 => {
                // A rung that ends without action may only be followed by 19 to 23.
                self.rung(false);
                let length = self.length();
                self.set_label(pending);
                if self.length() == length {
                    self.draw(Instruction::Out);
                }
            }
            _ => self.rung(true),
        }
        (self.length() - before) as u64
    }

    /// A sequence at a loop depth; hands back its W.
    fn sequence(&mut self, plan: Plan, depth: usize, room: usize, steps: u64) -> u64 {
        let stop = self.length() + room;
        let mut pending = Vec::new();
        let mut spent = 0;
        self.seam(depth);
        while self.length() < stop && spent < steps {
            let left = (stop - self.length(), steps - spent);
            spent += self.item(plan, depth, left, &mut pending);
            self.seam(depth);
        }
        let before = self.length();
        for number in pending {
            self.emit(record(Instruction::Lbl, &[label(number)]));
        }
        spent + (self.length() - before) as u64
    }
}

fn shuffled_labels(rng: &mut Rng) -> Vec<u32> {
    let mut labels: Vec<u32> = (0..128).collect();
    for i in (1..labels.len()).rev() {
        labels.swap(i, rng.index(i + 1));
    }
    labels
}

pub fn program_around(rng: &mut Rng, plan: Plan, hot: Hot) -> Made {
    let free = shuffled_labels(rng);
    let made = Made { records: Vec::new(), seams: Vec::new(), free, hot };
    let mut maker = Maker { rng, made };
    maker.sequence(plan, 0, plan.records, plan.steps);
    maker.made.records.push(end());
    maker.made
}

pub fn program(rng: &mut Rng, plan: Plan) -> Made {
    let hot = Hot::new(rng);
    program_around(rng, plan, hot)
}

/// A small program of a common size, with or without loops.
pub fn small(rng: &mut Rng) -> Made {
    let plan = Plan {
        records: rng.between(1, 28) as usize,
        steps: rng.pick(&[40, 200, 200, 600]),
        loops: rng.pick(&[0, 3, 5, 8]),
    };
    program(rng, plan)
}

/// A few rungs, where the rest of the program does not matter.
pub fn tiny(rng: &mut Rng) -> Made {
    let plan = Plan { records: rng.between(1, 5) as usize, steps: 50, loops: 0 };
    program(rng, plan)
}

/// A program for scans: longer, so that its records meet in memory.
pub fn medium(rng: &mut Rng) -> Made {
    let plan = Plan {
        records: rng.between(6, 48) as usize,
        steps: rng.pick(&[100, 300, 300, 1000]),
        loops: rng.pick(&[0, 4, 6, 10]),
    };
    program(rng, plan)
}

impl Made {
    /// Puts records in at a seam; the seams behind move on.
    pub fn insert(&mut self, seam: Seam, snippet: &[Record]) {
        self.records.splice(seam.at..seam.at, snippet.iter().copied());
        for other in &mut self.seams {
            if other.at > seam.at {
                other.at += snippet.len();
            }
        }
    }
}

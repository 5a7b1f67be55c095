//! The scan: refusal 9 after 1 to 8, then record by record to END or to the watchdog.

use crate::check::{check, Accepted};
use crate::clock::{self, Units, LONGEST_ELAPSED};
use crate::devices;
use crate::file::Record;
use crate::flow::Flow;
use crate::instruction::{Instruction, Width};
use crate::memory::{bit, put_bit, Memory};
use crate::refusal::Refusal;
use crate::{labels, structure, words};

/// Of the entry that takes no budget: document 02, (vi).
pub const DEFAULT_BUDGET: u32 = 200_000;

#[derive(Clone, Copy, PartialEq, Eq, Debug)]
pub struct Answer {
    /// Ended at END; else stopped by the watchdog.
    pub ended: bool,
    pub steps: u32,
    /// END, or the record that was due.
    pub record: u32,
    /// The first error and its record; 0 and 0 if there was none.
    pub error: u32,
    pub error_record: u32,
}

/// One open loop: where it starts and how many passes are still to be made.
struct Loop {
    start: usize,
    passes: u32,
}

struct Run<'a> {
    records: &'a [Record],
    partners: Vec<usize>,
    memory: &'a mut Memory,
    units: Units,
    flow: Flow,
    loops: Vec<Loop>,
    error: Option<(u32, usize)>,
}

impl Run<'_> {
    fn contact(&self, record: &Record) -> bool {
        let operand = record.operands[0];
        bit(self.memory.bits(operand.kind), operand.value)
    }

    fn compare(&self, instruction: Instruction, record: &Record) -> bool {
        let first = words::read(self.memory, record.operands[0], Width::W16);
        let second = words::read(self.memory, record.operands[1], Width::W16);
        match instruction {
            Instruction::LdEqual => first == second,
            Instruction::LdAbove => first > second,
            _ => first < second,
        }
    }

    fn coil(&mut self, record: &Record, on: bool) {
        let operand = record.operands[0];
        put_bit(self.memory.bits_mut(operand.kind), operand.value, on);
    }

    fn timer(&mut self, record: &Record) {
        let number = record.operands[0].value;
        let preset = i64::from(record.operands[1].signed());
        let old = i64::from(self.memory.t[number as usize]).max(0);
        let units = i64::from(self.units.of(number));
        let value = if self.flow.on() { preset.min(old + units) } else { 0 };
        // The constant is at least 1, so without flow the contact goes off.
        self.memory.t[number as usize] = value as i16;
        put_bit(&mut self.memory.contacts, number, value == preset);
    }

    fn word(&mut self, at: usize, instruction: Instruction, record: &Record) {
        if !self.flow.on() {
            return;
        }
        if let Err(error) = words::execute(self.memory, instruction, record) {
            self.error.get_or_insert((error, at));
        }
    }

    /// Everything that is no jump: rung, coils, timers, words.
    fn act(&mut self, at: usize, instruction: Instruction, record: &Record) {
        use Instruction::*;
        let on = self.flow.on();
        match instruction {
            Ld => self.flow.load(self.contact(record)),
            Ldi => self.flow.load(!self.contact(record)),
            And => self.flow.and(self.contact(record)),
            Ani => self.flow.and(!self.contact(record)),
            Or => self.flow.or(self.contact(record)),
            Ori => self.flow.or(!self.contact(record)),
            LdEqual | LdAbove | LdBelow => self.flow.load(self.compare(instruction, record)),
            Anb => self.flow.and_block(),
            Orb => self.flow.or_block(),
            Mps => self.flow.branch_push(),
            Mrd => self.flow.branch_read(),
            Mpp => self.flow.branch_pop(),
            Out => self.coil(record, on),
            Set if on => self.coil(record, true),
            Rst if on => self.coil(record, false),
            Ton => self.timer(record),
            _ => self.word(at, instruction, record),
        }
    }

    fn enter(&mut self, at: usize, record: &Record) -> usize {
        let passes = record.operands[0].value;
        if passes == 0 {
            return self.partners[at] + 1;
        }
        self.loops.push(Loop { start: at, passes });
        at + 1
    }

    fn go_round(&mut self, at: usize) -> usize {
        if let Some(inner) = self.loops.last_mut() {
            inner.passes -= 1;
            if inner.passes > 0 {
                return inner.start + 1;
            }
        }
        self.loops.pop();
        at + 1
    }

    fn jump(&self, at: usize, record: &Record) -> usize {
        if !self.flow.on() {
            return at + 1;
        }
        labels::first(self.records, record.operands[0].value).unwrap_or(at + 1)
    }

    /// Executes one record and names the one due next.
    fn step(&mut self, at: usize) -> usize {
        let record = self.records[at];
        let Some(instruction) = Instruction::from_number(record.number) else {
            return at + 1;
        };
        let next = match instruction {
            Instruction::For => self.enter(at, &record),
            Instruction::Next => self.go_round(at),
            Instruction::Cj => self.jump(at, &record),
            _ => {
                self.act(at, instruction, &record);
                at + 1
            }
        };
        self.flow.executed(instruction);
        next
    }
}

/// Told of each record executed and whether the flow was on before it.
pub type Watch<'w> = &'w mut dyn FnMut(usize, bool);

fn run(program: &Accepted, memory: &mut Memory, elapsed: u32, budget: u32, watch: Watch) -> Answer {
    put_bit(&mut memory.sm, devices::SM_RUNNING, true);
    let units = Units::of_scan(&mut memory.rest, elapsed);
    let mut run = Run {
        records: &program.records,
        partners: structure::partners(&program.records),
        memory,
        units,
        flow: Flow::default(),
        loops: Vec::new(),
        error: None,
    };
    let last = program.records.len() - 1;
    let (mut at, mut steps, mut ended) = (0, 0, false);
    while !ended && steps < budget {
        watch(at, run.flow.on());
        let next = run.step(at);
        steps += 1;
        ended = at == last;
        if !ended {
            at = next;
        }
    }
    let (error, error_record) = run.error.unwrap_or((0, 0));
    Answer { ended, steps, record: at as u32, error, error_record: error_record as u32 }
}

/// `elapsed` is in milliseconds.
pub fn scan_watched(
    bytes: &[u8],
    memory: &mut Memory,
    elapsed: u32,
    budget: u32,
    watch: Watch,
) -> Result<Answer, Refusal> {
    let program = check(bytes)?;
    let fits = memory.sizes_right() && clock::sound(&memory.rest);
    if !fits || elapsed > LONGEST_ELAPSED {
        return Err(Refusal::new(9, 0));
    }
    Ok(run(&program, memory, elapsed, budget, watch))
}

pub fn scan(
    bytes: &[u8],
    memory: &mut Memory,
    elapsed: u32,
    budget: u32,
) -> Result<Answer, Refusal> {
    scan_watched(bytes, memory, elapsed, budget, &mut |_, _| ())
}

/// The entry that takes no budget.
pub fn scan_default(bytes: &[u8], memory: &mut Memory, elapsed: u32) -> Result<Answer, Refusal> {
    scan(bytes, memory, elapsed, DEFAULT_BUDGET)
}

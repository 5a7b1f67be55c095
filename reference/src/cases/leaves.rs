//! Leaf cases: one word instruction on numbers, and pairs.

use super::bytes::{Reader, Writer};
use super::values;
use crate::arith::{apply, operation, Operation};
use crate::generate::rng::Rng;
use crate::instruction::{Instruction, Width};
use crate::memory::{pair, put_pair};

pub const PAIR: u8 = 200;
pub const PUT_PAIR: u8 = 201;

/// Bit 7 of the flags: this execution writes SM180 to SM182.
const TOUCHES: u32 = 0x80;

#[derive(Clone, Copy, PartialEq, Eq, Debug)]
pub struct Leaf {
    pub op: u8,
    pub width: u8,
    pub a: i32,
    pub b: i32,
    pub error: u32,
    pub value: i32,
    pub second: i32,
    pub flags: u32,
}

/// The 16-bit instruction's number where there is one, so that both widths share it.
fn op_number(instruction: Instruction) -> u8 {
    use Instruction::*;
    match instruction {
        Dmov => Mov.number(),
        Dadd => Add.number(),
        Dsub => Sub.number(),
        Ddiv => Div.number(),
        Dsqt => Sqt.number(),
        Dinc => Inc.number(),
        Ddec => Dec.number(),
        other => other.number(),
    }
}

fn word_leaf(instruction: Instruction, a: i64, b: i64) -> Option<Leaf> {
    let (operation, width) = operation(instruction)?;
    let blank = Leaf {
        op: op_number(instruction),
        width: width.bits() as u8,
        a: a as i32,
        b: b as i32,
        error: 0,
        value: 0,
        second: 0,
        flags: 0,
    };
    Some(match apply(operation, width, a, b) {
        Err(error) => Leaf { error, ..blank },
        Ok(outcome) => Leaf {
            value: outcome.value as i32,
            second: outcome.second.unwrap_or(0) as i32,
            flags: outcome.flags.map_or(0, |f| {
                TOUCHES | u32::from(f.zero) | u32::from(f.above) << 1 | u32::from(f.below) << 2
            }),
            ..blank
        },
    })
}

fn takes_two(operation: Operation) -> bool {
    use Operation::*;
    matches!(operation, Sum | Subtract | Multiply | Divide)
}

/// The edge values of a word instruction, then `count` random ones.
fn word_leaves(instruction: Instruction, count: u32, rng: &mut Rng, out: &mut Vec<Leaf>) {
    let Some((operation, width)) = operation(instruction) else {
        return;
    };
    if takes_two(operation) {
        let edges = values::edges(width);
        for &a in &edges {
            out.extend(edges.iter().filter_map(|&b| word_leaf(instruction, a, b)));
        }
    } else {
        let singles = values::singles(width);
        out.extend(singles.iter().filter_map(|&a| word_leaf(instruction, a, 0)));
    }
    for _ in 0..count {
        let a = rng.signed(width.bits());
        let b = if takes_two(operation) { rng.signed(width.bits()) } else { 0 };
        out.extend(word_leaf(instruction, a, b));
    }
}

fn pair_leaf(high: i16, low: i16) -> Leaf {
    let value = pair(high, low) as i32;
    let (a, b) = (i32::from(high), i32::from(low));
    Leaf { op: PAIR, width: 32, a, b, error: 0, value, second: 0, flags: 0 }
}

fn put_pair_leaf(a: i64) -> Leaf {
    let (high, low) = put_pair(a);
    let (value, second) = (i32::from(high), i32::from(low));
    Leaf { op: PUT_PAIR, width: 32, a: a as i32, b: 0, error: 0, value, second, flags: 0 }
}

fn pair_leaves(count: u32, rng: &mut Rng, out: &mut Vec<Leaf>) {
    let words = values::edges(Width::W16);
    for &high in &words {
        out.extend(words.iter().map(|&low| pair_leaf(high as i16, low as i16)));
    }
    out.extend(values::singles(Width::W32).into_iter().map(put_pair_leaf));
    for _ in 0..count {
        out.push(pair_leaf(rng.signed(16) as i16, rng.signed(16) as i16));
        out.push(put_pair_leaf(rng.signed(32)));
    }
}

pub fn generate(count: u32, rng: &mut Rng) -> Vec<Leaf> {
    let mut out = Vec::new();
    for &instruction in Instruction::ALL {
        word_leaves(instruction, count, rng, &mut out);
    }
    pair_leaves(count, rng, &mut out);
    out
}

impl Leaf {
    /// The number of the instruction that this leaf stands for; none for a pair.
    pub fn instruction(&self) -> Option<u8> {
        let same = |&&i: &&Instruction| {
            operation(i).is_some_and(|(_, width)| width.bits() == u32::from(self.width))
                && op_number(i) == self.op
        };
        Instruction::ALL.iter().find(same).map(|instruction| instruction.number())
    }

    /// The same leaf solved again; none if it is no leaf at all.
    pub fn again(&self) -> Option<Leaf> {
        match self.op {
            PAIR => Some(pair_leaf(self.a as i16, self.b as i16)),
            PUT_PAIR => Some(put_pair_leaf(i64::from(self.a))),
            _ => {
                let instruction = Instruction::from_number(self.instruction()?)?;
                word_leaf(instruction, i64::from(self.a), i64::from(self.b))
            }
        }
    }

    pub fn write(&self, out: &mut Writer) {
        out.u8(self.op);
        out.u8(self.width);
        out.u16(0);
        out.i32(self.a);
        out.i32(self.b);
        out.u32(self.error);
        out.i32(self.value);
        out.i32(self.second);
        out.u32(self.flags);
        out.u32(0);
    }

    pub fn read(from: &mut Reader) -> Option<Leaf> {
        let (op, width, _) = (from.u8()?, from.u8()?, from.u16()?);
        let (a, b, error) = (from.i32()?, from.i32()?, from.u32()?);
        let (value, second, flags, _) = (from.i32()?, from.i32()?, from.u32()?, from.u32()?);
        Some(Leaf { op, width, a, b, error, value, second, flags })
    }
}

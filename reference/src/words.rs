//! Word operands in memory: reading sources, writing targets, and one word instruction.

use crate::arith::{self, Flags, Outcome};
use crate::devices;
use crate::file::{Operand, Record};
use crate::instruction::{Instruction, Shape, Width};
use crate::memory::{group, pair, put_bit, put_group, put_pair, Memory};

pub fn read(memory: &Memory, operand: Operand, width: Width) -> i64 {
    let at = operand.value as usize;
    match (operand.kind, width) {
        (devices::CONSTANT, _) => i64::from(operand.signed()),
        (devices::D, Width::W16) => i64::from(memory.d[at]),
        (devices::D, Width::W32) => pair(memory.d[at], memory.d[at + 1]),
        (devices::T, _) => i64::from(memory.t[at]),
        _ => group(memory.bits(operand.kind), operand.value, operand.group, width.bits()),
    }
}

fn write_words(memory: &mut Memory, at: usize, width: Width, value: i64) {
    match width {
        Width::W16 => memory.d[at] = value as i16,
        Width::W32 => (memory.d[at], memory.d[at + 1]) = put_pair(value),
    }
}

fn write(memory: &mut Memory, operand: Operand, width: Width, outcome: &Outcome) {
    if operand.kind != devices::D {
        let table = memory.bits_mut(operand.kind);
        return put_group(table, operand.value, operand.group, outcome.value);
    }
    let at = operand.value as usize;
    write_words(memory, at, width, outcome.value);
    if let Some(second) = outcome.second {
        write_words(memory, at + width.words() as usize, width, second);
    }
}

fn set_flags(memory: &mut Memory, flags: Flags) {
    put_bit(&mut memory.sm, devices::SM_ZERO, flags.zero);
    put_bit(&mut memory.sm, devices::SM_ABOVE, flags.above);
    put_bit(&mut memory.sm, devices::SM_BELOW, flags.below);
}

/// Is this operand read, is it written?
fn roles(shape: Shape) -> (bool, bool) {
    match shape {
        Shape::Source(_) => (true, false),
        Shape::Both(_) => (true, true),
        Shape::Target(_) | Shape::Quotient(_) => (false, true),
        _ => (false, false),
    }
}

/// Executes a word instruction that has flow. An error changes nothing, flags included.
pub fn execute(memory: &mut Memory, instruction: Instruction, record: &Record) -> Result<(), u32> {
    let Some((operation, width)) = arith::operation(instruction) else {
        return Ok(());
    };
    let shapes = instruction.shapes();
    let mut sources = Vec::new();
    let mut target = None;
    for (operand, shape) in record.operands.into_iter().zip(shapes) {
        let (is_read, is_written) = roles(shape);
        if is_read {
            sources.push(read(memory, operand, width));
        }
        if is_written {
            target = Some(operand);
        }
    }
    let source = |i: usize| sources.get(i).copied().unwrap_or(0);
    let outcome = arith::apply(operation, width, source(0), source(1))?;
    if let Some(operand) = target {
        write(memory, operand, width, &outcome);
    }
    if let Some(flags) = outcome.flags {
        set_flags(memory, flags);
    }
    Ok(())
}

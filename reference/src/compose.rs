//! Short spellings to compose records and programs by hand.

use crate::devices;
use crate::file::{encode, Operand, Record};
use crate::instruction::Instruction;

pub fn k(value: i32) -> Operand {
    Operand::constant(value)
}

pub fn d(number: u32) -> Operand {
    Operand::new(devices::D, 0, number)
}

pub fn t(number: u32) -> Operand {
    Operand::new(devices::T, 0, number)
}

pub fn m(number: u32) -> Operand {
    Operand::new(devices::M, 0, number)
}

pub fn y(number: u32) -> Operand {
    Operand::new(devices::Y, 0, number)
}

pub fn sm(number: u32) -> Operand {
    Operand::new(devices::SM, 0, number)
}

pub fn label(number: u32) -> Operand {
    Operand::new(devices::LABEL, 0, number)
}

/// A group of 4n bits of M.
pub fn group_m(n: u8, first: u32) -> Operand {
    Operand::new(devices::M, n, first)
}

/// A record with its operands in order; those not given are unused.
pub fn record(instruction: Instruction, operands: &[Operand]) -> Record {
    let mut record = Record { number: instruction.number(), ..Record::default() };
    for (place, operand) in record.operands.iter_mut().zip(operands) {
        *place = *operand;
    }
    record
}

pub fn end() -> Record {
    record(Instruction::End, &[])
}

/// LD SM0, the record, END: the record acts once with flow.
pub fn with_flow(instruction: Instruction, operands: &[Operand]) -> Vec<Record> {
    vec![record(Instruction::Ld, &[sm(0)]), record(instruction, operands), end()]
}

/// A file with no comment.
pub fn file(records: &[Record]) -> Vec<u8> {
    encode(&[], records)
}

//! Operands against the shapes that the instruction table asks for, and their extents in D.

use crate::devices::{self, device_size};
use crate::file::{Operand, Record};
use crate::instruction::{Instruction, Shape, Width};

/// One number of a device that has no group: the bit or the word lies in range.
fn single(operand: Operand, kinds: &[u8]) -> bool {
    kinds.contains(&operand.kind) && operand.group == 0 && operand.value < device_size(operand.kind)
}

fn constant(operand: Operand, lowest: i32, highest: i32) -> bool {
    operand.kind == devices::CONSTANT
        && operand.group == 0
        && (lowest..=highest).contains(&operand.signed())
}

fn group(operand: Operand, kinds: &[u8], width: Width) -> bool {
    let bits = 4 * u64::from(operand.group);
    kinds.contains(&operand.kind)
        && (1..=width.largest_group()).contains(&operand.group)
        && u64::from(operand.value) + bits <= u64::from(device_size(operand.kind))
}

/// `words` words of D, all in range.
fn words(operand: Operand, words: u32) -> bool {
    operand.kind == devices::D && operand.group == 0 && devices::inside_d(operand.value, words)
}

fn source(operand: Operand, width: Width) -> bool {
    let constants = match width {
        Width::W16 => constant(operand, -32768, 32767),
        Width::W32 => constant(operand, i32::MIN, i32::MAX),
    };
    // T has a word of 16 bits, so it is no source of 32.
    let timer = width == Width::W16 && single(operand, &[devices::T]);
    constants
        || timer
        || group(operand, &[devices::X, devices::Y, devices::M], width)
        || words(operand, width.words())
}

fn target(operand: Operand, width: Width) -> bool {
    group(operand, &[devices::Y, devices::M], width) || words(operand, width.words())
}

/// Is the operand as the table allows?
pub fn fits(operand: Operand, shape: Shape) -> bool {
    use devices::{LABEL, M, SM, T, X, Y};
    match shape {
        Shape::Unused => operand == Operand::default(),
        Shape::Contact => single(operand, &[X, Y, M, SM, T]),
        Shape::Coil => single(operand, &[Y, M]),
        Shape::Source(width) => source(operand, width),
        Shape::Target(width) | Shape::Both(width) => target(operand, width),
        Shape::Quotient(width) => words(operand, 2 * width.words()),
        Shape::Timer => single(operand, &[T]),
        Shape::Preset => constant(operand, 1, 32767),
        Shape::Passes => constant(operand, 0, 32767),
        Shape::Label => {
            operand.kind == LABEL && operand.group == 0 && operand.value < devices::LABELS
        }
    }
}

/// The D words that one operand names.
#[derive(Clone, Copy, PartialEq, Eq, Debug)]
pub struct Extent {
    /// Place of the operand in its record, 0 to 2.
    pub operand: usize,
    pub start: u32,
    pub length: u32,
    pub read: bool,
    pub written: bool,
}

fn extent(operand: usize, value: Operand, shape: Shape) -> Option<Extent> {
    if value.kind != devices::D {
        return None;
    }
    let (length, read, written) = match shape {
        Shape::Source(width) => (width.words(), true, false),
        Shape::Target(width) => (width.words(), false, true),
        Shape::Both(width) => (width.words(), true, true),
        Shape::Quotient(width) => (2 * width.words(), false, true),
        _ => return None,
    };
    Some(Extent { operand, start: value.value, length, read, written })
}

/// All extents in D of a record, in operand order; none if the number is unknown.
pub fn extents(record: &Record) -> Vec<Extent> {
    let Some(instruction) = Instruction::from_number(record.number) else {
        return Vec::new();
    };
    let shapes = instruction.shapes();
    (0..3).filter_map(|i| extent(i, record.operands[i], shapes[i])).collect()
}

#[cfg(test)]
mod tests {
    use super::*;
    use Width::*;

    fn op(kind: u8, group: u8, value: u32) -> Operand {
        Operand::new(kind, group, value)
    }

    #[test]
    fn groups() {
        assert!(fits(op(devices::M, 4, 1984), Shape::Source(W16)));
        assert!(!fits(op(devices::M, 4, 1985), Shape::Source(W16)));
        assert!(!fits(op(devices::M, 5, 0), Shape::Source(W16)));
        assert!(fits(op(devices::X, 8, 224), Shape::Source(W32)));
        assert!(!fits(op(devices::X, 1, 0), Shape::Target(W32)));
        assert!(!fits(op(devices::M, 0, 0), Shape::Source(W16)));
        assert!(!fits(op(devices::M, 1, u32::MAX), Shape::Source(W16)));
        assert!(!fits(op(devices::Y, 1, 0), Shape::Quotient(W16)));
        assert!(!fits(op(devices::Y, 1, 0), Shape::Coil));
    }

    #[test]
    fn words_and_constants() {
        assert!(fits(op(devices::D, 0, 7996), Shape::Quotient(W32)));
        assert!(!fits(op(devices::D, 0, 7997), Shape::Quotient(W32)));
        assert!(!fits(op(devices::D, 0, 7999), Shape::Source(W32)));
        assert!(!fits(op(devices::T, 0, 0), Shape::Source(W32)));
        assert!(fits(op(devices::T, 0, 255), Shape::Source(W16)));
        assert!(!fits(Operand::constant(32768), Shape::Source(W16)));
        assert!(fits(Operand::constant(i32::MIN), Shape::Source(W32)));
        assert!(!fits(Operand::constant(0), Shape::Preset));
        assert!(!fits(Operand::constant(0), Shape::Target(W16)));
    }
}

//! Operands at the edges of what the instruction table allows: just inside, just outside.

use crate::devices::{CONSTANT, D, LABEL, M, NONE, SM, T, X, Y};
use crate::file::Operand;
use crate::instruction::{Shape, Width};

fn op(kind: u8, group: u8, value: u32) -> Operand {
    Operand::new(kind, group, value)
}

fn constants(values: &[i32]) -> Vec<Operand> {
    values.iter().map(|&value| Operand::constant(value)).collect()
}

/// Groups of each n that end at the device's last bit, `beyond` bits too far.
fn last_groups(kinds: &[(u8, u32)], width: Width, beyond: u32) -> Vec<Operand> {
    let mut found = Vec::new();
    for &(kind, size) in kinds {
        for n in 1..=width.largest_group() {
            found.push(op(kind, n, size - 4 * u32::from(n) + beyond));
        }
    }
    found
}

const SOURCE_BITS: [(u8, u32); 3] = [(X, 256), (Y, 256), (M, 2000)];
const TARGET_BITS: [(u8, u32); 2] = [(Y, 256), (M, 2000)];

fn good_source(width: Width) -> Vec<Operand> {
    let mut found = last_groups(&SOURCE_BITS, width, 0);
    found.extend([op(X, 1, 0), op(M, 2, 4), op(D, 0, 0), op(D, 0, 8000 - width.words())]);
    found.extend([op(D, 0, 7899), op(D, 0, 7900)]);
    found.extend(constants(&[-32768, 32767, -1, 0, 1, 2, -7]));
    match width {
        Width::W16 => found.extend([op(T, 0, 0), op(T, 0, 255)]),
        Width::W32 => found.extend(constants(&[i32::MIN, i32::MAX, 65536, 32768, -32769])),
    }
    found
}

fn good_target(width: Width) -> Vec<Operand> {
    let mut found = last_groups(&TARGET_BITS, width, 0);
    found.extend([op(Y, 1, 0), op(D, 0, 0), op(D, 0, 7900 - width.words())]);
    found
}

/// Operands at the edge of the range that the check still accepts.
pub fn good(shape: Shape) -> Vec<Operand> {
    match shape {
        Shape::Unused => vec![Operand::default()],
        Shape::Contact => vec![
            op(X, 0, 0),
            op(X, 0, 255),
            op(Y, 0, 255),
            op(M, 0, 0),
            op(M, 0, 1999),
            op(SM, 0, 0),
            op(SM, 0, 255),
            op(SM, 0, 180),
            op(T, 0, 0),
            op(T, 0, 255),
        ],
        Shape::Coil => vec![op(Y, 0, 0), op(Y, 0, 255), op(M, 0, 0), op(M, 0, 1999)],
        Shape::Source(width) => good_source(width),
        Shape::Target(width) | Shape::Both(width) => good_target(width),
        Shape::Quotient(width) => vec![op(D, 0, 0), op(D, 0, 7900 - 2 * width.words())],
        Shape::Timer => vec![op(T, 0, 0), op(T, 0, 255)],
        Shape::Preset => constants(&[1, 2, 32767]),
        Shape::Passes => constants(&[0, 1, 32767]),
        Shape::Label => vec![op(LABEL, 0, 0), op(LABEL, 0, 127)],
    }
}

fn bad_kinds(kinds: &[u8]) -> Vec<Operand> {
    kinds.iter().map(|&kind| op(kind, 0, 1)).collect()
}

fn bad_unused() -> Vec<Operand> {
    vec![
        op(1, 0, 0),
        op(8, 0, 0),
        op(255, 0, 0),
        op(0, 1, 0),
        op(0, 128, 0),
        op(0, 0, 1),
        op(0, 0, 0x100),
        op(0, 0, 0x1_0000),
        op(0, 0, 0x100_0000),
        op(D, 0, 5),
    ]
}

fn bad_contact() -> Vec<Operand> {
    let mut found = bad_kinds(&[NONE, CONSTANT, D, LABEL, 9, 255]);
    found.extend([op(X, 0, 256), op(Y, 0, 256), op(M, 0, 2000), op(SM, 0, 256), op(T, 0, 256)]);
    found.extend([op(M, 1, 0), op(X, 8, 0), op(SM, 1, 0), op(T, 255, 0)]);
    found.extend([op(M, 0, u32::MAX), op(X, 0, 0x1_0000), op(Y, 0, 0x8000_0000)]);
    found
}

fn bad_coil() -> Vec<Operand> {
    let mut found = bad_kinds(&[NONE, CONSTANT, X, SM, T, D, LABEL, 9, 255]);
    found.extend([op(Y, 0, 256), op(M, 0, 2000), op(Y, 1, 0), op(M, 4, 0)]);
    found.extend([op(M, 0, u32::MAX), op(Y, 0, 0x1_0000)]);
    found
}

/// What no word operand may be, source or target.
fn bad_word(width: Width, words: u32) -> Vec<Operand> {
    let mut found = bad_kinds(&[NONE, SM, LABEL, 9, 255]);
    found.extend(last_groups(&SOURCE_BITS, width, 1));
    let too_wide = width.largest_group() + 1;
    found.extend([op(Y, 0, 0), op(M, 0, 0), op(Y, too_wide, 0), op(M, too_wide, 0)]);
    found.extend([op(M, 255, 0), op(M, 64, 0), op(Y, 1, u32::MAX), op(M, 1, 0x1_0000)]);
    found.extend([op(D, 0, 8001 - words), op(D, 0, 8000), op(D, 1, 0), op(D, 0, u32::MAX)]);
    found.extend([op(D, 0, 0x1_0000), op(D, 0, 0x8000_0000), op(SM, 1, 0)]);
    found
}

fn bad_source(width: Width) -> Vec<Operand> {
    let mut found = bad_word(width, width.words());
    found.extend([op(X, 0, 0), op(X, width.largest_group() + 1, 0), op(CONSTANT, 1, 0)]);
    match width {
        Width::W16 => {
            found.extend(constants(&[32768, -32769, 65535, i32::MIN, i32::MAX]));
            found.extend([op(T, 0, 256), op(T, 1, 0), op(T, 0, u32::MAX)]);
        }
        Width::W32 => found.extend([op(T, 0, 0), op(T, 0, 255), op(CONSTANT, 8, 0)]),
    }
    found
}

fn bad_target(width: Width, words: u32) -> Vec<Operand> {
    let mut found = bad_word(width, words);
    found.extend([op(X, 1, 0), op(CONSTANT, 0, 0), op(T, 0, 0), op(X, 0, 0)]);
    found
}

fn bad_constant(outside: &[i32]) -> Vec<Operand> {
    let mut found = constants(outside);
    found.extend([op(CONSTANT, 1, 1), Operand::default(), op(D, 0, 1), op(LABEL, 0, 1)]);
    found
}

/// Operands that the table does not allow, each for one reason.
pub fn bad(shape: Shape) -> Vec<Operand> {
    match shape {
        Shape::Unused => bad_unused(),
        Shape::Contact => bad_contact(),
        Shape::Coil => bad_coil(),
        Shape::Source(width) => bad_source(width),
        Shape::Target(width) | Shape::Both(width) => bad_target(width, width.words()),
        Shape::Quotient(width) => {
            let mut found = bad_target(width, 2 * width.words());
            found.extend([op(Y, 1, 0), op(M, 4, 0)]);
            found
        }
        Shape::Timer => {
            let mut found = bad_kinds(&[NONE, CONSTANT, X, Y, M, SM, D, LABEL, 9]);
            found.extend([op(T, 0, 256), op(T, 1, 0), op(T, 0, u32::MAX)]);
            found
        }
        Shape::Preset => bad_constant(&[0, -1, 32768, 65537, i32::MIN]),
        Shape::Passes => bad_constant(&[-1, 32768, 65536, i32::MIN]),
        Shape::Label => {
            let mut found = bad_kinds(&[NONE, CONSTANT, X, D, 9]);
            found.extend([op(LABEL, 0, 128), op(LABEL, 1, 0), op(LABEL, 0, u32::MAX)]);
            found.push(op(LABEL, 0, 256));
            found
        }
    }
}

/// Starts in D at which a target of this shape meets WORK and is still in range.
pub fn into_work(shape: Shape) -> Vec<u32> {
    let words = match shape {
        Shape::Target(width) | Shape::Both(width) => width.words(),
        Shape::Quotient(width) => 2 * width.words(),
        _ => return Vec::new(),
    };
    let mut starts: Vec<u32> = (7901 - words..=7900).collect();
    starts.extend([7950, 8000 - words]);
    starts
}

#[cfg(test)]
mod tests {
    use super::*;
    use crate::instruction::Instruction;
    use crate::operand::fits;

    #[test]
    fn both_sides_of_each_edge() {
        for instruction in Instruction::ALL {
            for shape in instruction.shapes() {
                for operand in good(shape) {
                    assert!(fits(operand, shape), "{shape:?} {operand:?}");
                }
                for operand in bad(shape) {
                    assert!(!fits(operand, shape), "{shape:?} {operand:?}");
                }
            }
        }
    }
}

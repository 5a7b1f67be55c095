//! Short programs that hold one word instruction with constants at its edges.

use super::rng::Rng;
use crate::arith::{operation, Operation};
use crate::compose::{d, file, k, with_flow};
use crate::devices::{M, Y};
use crate::file::Operand;
use crate::instruction::{Instruction, Shape, Width};

fn pairs(width: Width) -> Vec<(i32, i32)> {
    let top = ((1i64 << (width.bits() - 1)) - 1) as i32;
    let low = -top - 1;
    vec![(low, low), (top, 1), (low, -1), (low, 1), (top, top), (7, 0), (5, -5), (-7, 2), (0, 0)]
}

fn singles(width: Width) -> Vec<i32> {
    let top = ((1i64 << (width.bits() - 1)) - 1) as i32;
    let square = if width == Width::W16 { 181 * 181 } else { 46340 * 46340 };
    vec![-top - 1, -top, -1, 0, 1, 2, 3, 4, 1000, square - 1, square, top]
}

fn target(rng: &mut Rng, shape: Shape) -> Operand {
    let small = rng.between(1, 4) as u8;
    match (shape, rng.below(3)) {
        (Shape::Target(_), 0) => Operand::new(rng.pick(&[Y, M]), small, rng.below(30)),
        _ => d(rng.pick(&[0, 10, 7890])),
    }
}

/// One file: LD SM0, the instruction, END.
fn one(rng: &mut Rng, instruction: Instruction, a: i32, b: i32) -> Vec<u8> {
    let mut sources = [k(a), k(b)].into_iter();
    let operands = instruction.shapes().map(|shape| match shape {
        Shape::Source(_) => sources.next().unwrap_or_default(),
        Shape::Unused => Operand::default(),
        _ => target(rng, shape),
    });
    file(&with_flow(instruction, &operands))
}

/// Files for every word instruction that takes constants.
pub fn files(rng: &mut Rng) -> Vec<Vec<u8>> {
    let mut found = Vec::new();
    for &instruction in Instruction::ALL {
        let Some((operation, width)) = operation(instruction) else {
            continue;
        };
        match operation {
            Operation::Increase | Operation::Decrease => {}
            Operation::Sum | Operation::Subtract | Operation::Multiply | Operation::Divide => {
                for (a, b) in pairs(width) {
                    found.push(one(rng, instruction, a, b));
                }
            }
            _ => found.extend(singles(width).into_iter().map(|a| one(rng, instruction, a, 0))),
        }
    }
    found
}

//! Operands that an instruction allows, drawn near a few hot numbers so that records of
//! one program meet in memory.

use super::edges;
use super::rng::Rng;
use crate::devices::{device_size, CONSTANT, D, LABEL, M, SM, T, X, Y};
use crate::file::{Operand, Record};
use crate::instruction::{Instruction, Shape, Width};

/// The numbers around which a program works.
#[derive(Clone, Debug)]
pub struct Hot {
    pub words: Vec<u32>,
    pub bits: Vec<u32>,
    pub timers: Vec<u32>,
    /// How far from a hot word an operand may lie.
    pub spread: u32,
}

impl Hot {
    pub fn new(rng: &mut Rng) -> Hot {
        let places = [0, 100, 200, 1000, 3999, 7880, 7890, 7894, 7898];
        let words = (0..rng.between(1, 3)).map(|_| match rng.below(2) {
            0 => rng.pick(&places),
            _ => rng.below(7900),
        });
        Hot {
            words: words.collect(),
            bits: vec![rng.below(250), rng.below(40), 0],
            timers: vec![rng.below(256), rng.pick(&[0, 209, 210, 251, 252, 255])],
            spread: rng.between(3, 12),
        }
    }

    fn word(&self, rng: &mut Rng, length: u32, limit: u32) -> Operand {
        let near = rng.pick(&self.words) + rng.below(self.spread);
        Operand::new(D, 0, near.min(limit - length))
    }

    fn group(&self, rng: &mut Rng, kinds: &[u8], width: Width) -> Operand {
        let kind = rng.pick(kinds);
        let n = rng.between(1, u32::from(width.largest_group()));
        let near = rng.pick(&self.bits) + rng.below(8);
        Operand::new(kind, n as u8, near.min(device_size(kind) - 4 * n))
    }

    fn contact(&self, rng: &mut Rng) -> Operand {
        match rng.below(8) {
            0 | 1 => Operand::new(SM, 0, rng.pick(&[0, 0, 1, 180, 181, 182])),
            2 => Operand::new(T, 0, rng.pick(&self.timers)),
            n => {
                let kind = [X, Y, M, M, X][n as usize - 3];
                let near = rng.pick(&self.bits) + rng.below(12);
                Operand::new(kind, 0, near.min(device_size(kind) - 1))
            }
        }
    }

    fn coil(&self, rng: &mut Rng) -> Operand {
        let kind = rng.pick(&[Y, M, M]);
        let near = rng.pick(&self.bits) + rng.below(12);
        Operand::new(kind, 0, near.min(device_size(kind) - 1))
    }

    fn source(&self, rng: &mut Rng, width: Width) -> Operand {
        match (rng.below(8), width) {
            (0, _) => Operand::constant(rng.signed(width.bits()) as i32),
            (1, _) => self.group(rng, &[X, Y, M], width),
            (2, Width::W16) => Operand::new(T, 0, rng.pick(&self.timers)),
            _ => self.word(rng, width.words(), 8000),
        }
    }

    fn target(&self, rng: &mut Rng, width: Width) -> Operand {
        match rng.below(5) {
            0 => self.group(rng, &[Y, M], width),
            _ => self.word(rng, width.words(), 7900),
        }
    }

    /// An operand that the shape allows and that does not meet WORK as a target.
    pub fn operand(&self, rng: &mut Rng, shape: Shape) -> Operand {
        if rng.once_in(6) && shape != Shape::Label {
            return rng.pick(&edges::good(shape));
        }
        match shape {
            Shape::Unused => Operand::default(),
            Shape::Contact => self.contact(rng),
            Shape::Coil => self.coil(rng),
            Shape::Source(width) => self.source(rng, width),
            Shape::Target(width) | Shape::Both(width) => self.target(rng, width),
            Shape::Quotient(width) => self.word(rng, 2 * width.words(), 7900),
            Shape::Timer => Operand::new(T, 0, rng.pick(&self.timers)),
            Shape::Preset => Operand::constant(rng.pick(&[1, 2, 5, 10, 100, 1000, 32767])),
            Shape::Passes => Operand::new(CONSTANT, 0, rng.below(4)),
            Shape::Label => Operand::new(LABEL, 0, rng.below(128)),
        }
    }

    pub fn record(&self, rng: &mut Rng, instruction: Instruction) -> Record {
        let operands = instruction.shapes().map(|shape| self.operand(rng, shape));
        Record { number: instruction.number(), spare: 0, operands }
    }
}

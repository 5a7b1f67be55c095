//! Memories by rule: a case file tells a rule and a seed instead of 16,892 bytes.

use super::bytes::{Reader, Writer};
use crate::memory::{Memory, BIT_BYTES, IMAGE, REST};

pub const ZERO: u32 = 0;
pub const ONES: u32 = 1;
pub const BYTES: u32 = 2;
pub const SMALL: u32 = 3;
pub const PATTERN: u32 = 4;
pub const EDGES: u32 = 5;
pub const KEPT: u32 = 6;

const EDGE_WORDS: [i16; 8] = [0, 1, -1, 32767, -32768, 2, 1000, -31072];

/// A linear congruential generator that every reader of case files can repeat.
struct Congruential(u32);

impl Congruential {
    fn draw(&mut self) -> u8 {
        self.0 = self.0.wrapping_mul(1_664_525).wrapping_add(1_013_904_223);
        (self.0 >> 24) as u8
    }
}

/// `bit_bytes` bytes and then `words` words, as the rule says.
pub fn fill(rule: u32, seed: u32, bit_bytes: usize, words: usize) -> Vec<u8> {
    let length = bit_bytes + 2 * words;
    let mut draws = Congruential(seed);
    match rule {
        ONES => vec![0xFF; length],
        BYTES => (0..length).map(|_| draws.draw()).collect(),
        PATTERN => (0..length).map(|i| (u64::from(seed) + 37 * i as u64) as u8).collect(),
        SMALL | EDGES => {
            let mut bytes: Vec<u8> = (0..bit_bytes).map(|_| draws.draw()).collect();
            for _ in 0..words {
                let drawn = draws.draw();
                let word = match rule {
                    SMALL => i16::from(drawn % 16) - 4,
                    _ => EDGE_WORDS[usize::from(drawn % 8)],
                };
                bytes.extend(word.to_le_bytes());
            }
            bytes
        }
        _ => vec![0; length],
    }
}

/// Which table is lent in a wrong size, and how. Table 0 is none of them.
#[derive(Clone, Copy, PartialEq, Eq, Debug, Default)]
pub struct Misfit {
    /// 1 X, 2 Y, 3 M, 4 SM, 5 T contacts, 6 D, 7 T values, 8 leftovers.
    pub table: u32,
    /// 0 one entry short, 1 empty, 2 one entry more.
    pub way: u32,
}

#[derive(Clone, PartialEq, Eq, Debug, Default)]
pub struct MemorySpec {
    pub rule: u32,
    pub misfit: Misfit,
    pub seed: u32,
    pub patches: Vec<(u16, u8)>,
}

fn resize<T: Clone + Default>(table: &mut Vec<T>, way: u32) {
    let length = match way {
        0 => table.len() - 1,
        1 => 0,
        _ => table.len() + 1,
    };
    table.resize(length, T::default());
}

impl MemorySpec {
    /// The same with these leftovers: of the 10 ms timers, of the 100 ms timers.
    pub fn with_leftovers(mut self, rest: [u8; 2]) -> MemorySpec {
        self.patches.extend((REST as u16..).zip(rest));
        self
    }

    /// The image before the scan; `kept` is the one that the case before left.
    pub fn image(&self, kept: &[u8]) -> Vec<u8> {
        let mut image = match self.rule {
            KEPT => kept.to_vec(),
            // The two leftovers are made as one word more.
            rule => fill(rule, self.seed, BIT_BYTES, 8000 + 256 + 1),
        };
        for &(offset, value) in &self.patches {
            image[usize::from(offset)] = value;
        }
        image
    }

    /// The tables as they are lent.
    pub fn lend(&self, image: &[u8]) -> Memory {
        let mut memory = Memory::from_image(image).unwrap_or_else(Memory::zero);
        let way = self.misfit.way;
        match self.misfit.table {
            1 => resize(&mut memory.x, way),
            2 => resize(&mut memory.y, way),
            3 => resize(&mut memory.m, way),
            4 => resize(&mut memory.sm, way),
            5 => resize(&mut memory.contacts, way),
            6 => resize(&mut memory.d, way),
            7 => resize(&mut memory.t, way),
            8 => resize(&mut memory.rest, way),
            _ => {}
        }
        memory
    }

    pub fn write(&self, out: &mut Writer) {
        out.u32(self.rule | self.misfit.table << 8 | self.misfit.way << 16);
        out.u32(self.seed);
        out.u16(self.patches.len() as u16);
        for &(offset, value) in &self.patches {
            out.u16(offset);
            out.u8(value);
        }
    }

    pub fn read(from: &mut Reader) -> Option<MemorySpec> {
        let (field, seed, count) = (from.u32()?, from.u32()?, from.u16()?);
        let misfit = Misfit { table: field >> 8 & 0xFF, way: field >> 16 & 0xFF };
        let mut patches = Vec::new();
        for _ in 0..count {
            let (offset, value) = (from.u16()?, from.u8()?);
            if usize::from(offset) >= IMAGE {
                return None;
            }
            patches.push((offset, value));
        }
        Some(MemorySpec { rule: field & 0xFF, misfit, seed, patches })
    }
}

/// Offsets at which two images of one length differ, with the later byte.
pub fn differences(before: &[u8], after: &[u8]) -> Vec<(usize, u8)> {
    let pairs = before.iter().zip(after).enumerate();
    pairs.filter(|(_, (old, new))| old != new).map(|(at, (_, new))| (at, *new)).collect()
}

#[cfg(test)]
mod tests {
    use super::*;

    /// The leftovers are made as the last word, so the tables are what they are without them.
    #[test]
    fn leftovers_come_last() {
        for rule in ZERO..=EDGES {
            for seed in [0, 1, 77, u32::MAX] {
                let spec = MemorySpec { rule, seed, ..MemorySpec::default() };
                let image = spec.image(&[]);
                assert_eq!(image.len(), IMAGE);
                assert_eq!(image[..REST], fill(rule, seed, BIT_BYTES, 8000 + 256));
                let patched = spec.with_leftovers([9, 99]).image(&[]);
                assert_eq!((&patched[..REST], &patched[REST..]), (&image[..REST], &[9, 99][..]));
            }
        }
    }
}

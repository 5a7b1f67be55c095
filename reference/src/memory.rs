//! The lent memory: packed bit tables, D words, T values, leftovers; its image as one file.

use crate::devices;

/// Bytes of the image: X 32, Y 32, M 250, SM 32, T contacts 32, then the words, the leftovers.
pub const BIT_BYTES: usize = 32 + 32 + 250 + 32 + 32;
/// Where the leftovers stand in it.
pub const REST: usize = BIT_BYTES + 2 * 8000 + 2 * 256;
pub const IMAGE: usize = REST + 2;

/// Tables as they were lent: any of them may be of a wrong size (refusal 9).
#[derive(Clone, PartialEq, Eq, Debug)]
pub struct Memory {
    pub x: Vec<u8>,
    pub y: Vec<u8>,
    pub m: Vec<u8>,
    pub sm: Vec<u8>,
    pub contacts: Vec<u8>,
    pub d: Vec<i16>,
    pub t: Vec<i16>,
    /// The leftovers: milliseconds of the 10 ms timers, then of the 100 ms timers.
    pub rest: Vec<u8>,
}

pub fn bit(table: &[u8], number: u32) -> bool {
    table[number as usize / 8] >> (number % 8) & 1 == 1
}

pub fn put_bit(table: &mut [u8], number: u32, on: bool) {
    let mask = 1u8 << (number % 8);
    if on {
        table[number as usize / 8] |= mask;
    } else {
        table[number as usize / 8] &= !mask;
    }
}

/// The number that a group of 4n bits holds, read at a width of `width` bits: the first
/// bit is the lowest, missing high bits are 0, a full group is two's complement.
pub fn group(table: &[u8], first: u32, n: u8, width: u32) -> i64 {
    let bits = 4 * u32::from(n);
    let mut number = 0i64;
    for i in (0..bits).rev() {
        number = 2 * number + i64::from(bit(table, first + i));
    }
    let negative = bits == width && bit(table, first + bits - 1);
    if negative {
        number - (1i64 << bits)
    } else {
        number
    }
}

/// Spreads the low 4n bits of a number into a table; no other bit changes.
pub fn put_group(table: &mut [u8], first: u32, n: u8, number: i64) {
    let mut rest = number;
    for i in 0..4 * u32::from(n) {
        put_bit(table, first + i, rest.rem_euclid(2) == 1);
        rest = rest.div_euclid(2);
    }
}

/// A pair holds its high word at the lower number.
pub fn pair(high: i16, low: i16) -> i64 {
    i64::from(high) * 65536 + i64::from(low as u16)
}

pub fn put_pair(number: i64) -> (i16, i16) {
    let low = number.rem_euclid(65536) as u16 as i16;
    let high = number.div_euclid(65536).rem_euclid(65536) as u16 as i16;
    (high, low)
}

fn words(bytes: &[u8]) -> Vec<i16> {
    bytes.chunks_exact(2).map(|two| i16::from_le_bytes([two[0], two[1]])).collect()
}

impl Memory {
    /// All zero, each table of its right size.
    pub fn zero() -> Memory {
        Memory {
            x: vec![0; 32],
            y: vec![0; 32],
            m: vec![0; 250],
            sm: vec![0; 32],
            contacts: vec![0; 32],
            d: vec![0; devices::D_WORDS as usize],
            t: vec![0; devices::T_COUNT as usize],
            rest: vec![0; 2],
        }
    }

    pub fn sizes_right(&self) -> bool {
        let bytes = [&self.x, &self.y, &self.m, &self.sm, &self.contacts, &self.rest];
        let words = [&self.d, &self.t];
        bytes.map(Vec::len) == [32, 32, 250, 32, 32, 2] && words.map(Vec::len) == [8000, 256]
    }

    /// None if the image is not exactly as long as the tables together.
    pub fn from_image(image: &[u8]) -> Option<Memory> {
        if image.len() != IMAGE {
            return None;
        }
        let part = |from: usize, length: usize| image[from..from + length].to_vec();
        Some(Memory {
            x: part(0, 32),
            y: part(32, 32),
            m: part(64, 250),
            sm: part(314, 32),
            contacts: part(346, 32),
            d: words(&image[378..16378]),
            t: words(&image[16378..REST]),
            rest: image[REST..].to_vec(),
        })
    }

    pub fn image(&self) -> Vec<u8> {
        let mut image = Vec::with_capacity(IMAGE);
        for table in [&self.x, &self.y, &self.m, &self.sm, &self.contacts] {
            image.extend_from_slice(table);
        }
        for word in self.d.iter().chain(&self.t) {
            image.extend_from_slice(&word.to_le_bytes());
        }
        image.extend_from_slice(&self.rest);
        image
    }

    /// The bit table of a device kind; T stands for its contacts.
    pub fn bits(&self, kind: u8) -> &[u8] {
        match kind {
            devices::X => &self.x,
            devices::Y => &self.y,
            devices::M => &self.m,
            devices::SM => &self.sm,
            _ => &self.contacts,
        }
    }

    pub fn bits_mut(&mut self, kind: u8) -> &mut [u8] {
        match kind {
            devices::X => &mut self.x,
            devices::Y => &mut self.y,
            devices::M => &mut self.m,
            devices::SM => &mut self.sm,
            _ => &mut self.contacts,
        }
    }
}

#[cfg(test)]
mod tests {
    use super::*;

    #[test]
    fn pairs() {
        assert_eq!(put_pair(100_000), (1, -31072));
        assert_eq!(pair(1, -31072), 100_000);
        for number in [i32::MIN, -1, 0, 65535, i32::MAX].map(i64::from) {
            let (high, low) = put_pair(number);
            assert_eq!(pair(high, low), number);
        }
    }

    #[test]
    fn groups() {
        let mut table = vec![0u8; 4];
        put_bit(&mut table, 4, true);
        put_bit(&mut table, 7, true);
        assert_eq!(group(&table, 4, 2, 16), 9);
        let mut full = vec![0xFFu8; 4];
        assert_eq!(group(&full, 0, 4, 16), -1);
        assert_eq!(group(&full, 0, 4, 32), 65535);
        assert_eq!(group(&full, 0, 8, 32), -1);
        put_group(&mut full, 6, 2, -16);
        assert_eq!(full, [0x3F, 0xFC, 0xFF, 0xFF]);
    }

    #[test]
    fn images() {
        let image: Vec<u8> = (0..IMAGE).map(|i| (i * 7 % 251) as u8).collect();
        let memory = Memory::from_image(&image).unwrap();
        assert!(memory.sizes_right());
        assert_eq!(memory.image(), image);
        assert_eq!((REST, IMAGE), (16890, 16892));
        assert_eq!(memory.rest, image[16890..]);
        for size in [0, 16889, 16890, 16891] {
            assert!(Memory::from_image(&image[..size]).is_none());
        }
    }
}

//! Coils as lists of bits: read from and written to the M table, packed as frames have them.

use crate::memory::{bit, put_bit};

pub fn read(m: &[u8], start: u16, count: u16) -> Vec<bool> {
    let first = u32::from(start);
    (first..first + u32::from(count)).map(|number| bit(m, number)).collect()
}

pub fn write(m: &mut [u8], start: u16, bits: &[bool]) {
    for (number, &on) in (u32::from(start)..).zip(bits) {
        put_bit(m, number, on);
    }
}

/// Eight to a byte, the first in the lowest bit; the last byte is filled up with 0.
pub fn packed(bits: &[bool]) -> Vec<u8> {
    let byte = |eight: &[bool]| eight.iter().rev().fold(0, |sum, &on| 2 * sum + u8::from(on));
    bits.chunks(8).map(byte).collect()
}

/// The first `count` bits of the bytes; what fills the last byte up says nothing.
pub fn unpacked(bytes: &[u8], count: u16) -> Vec<bool> {
    (0..u32::from(count)).map(|number| bit(bytes, number)).collect()
}

#[cfg(test)]
mod tests {
    use super::*;

    #[test]
    fn packing() {
        let bits = unpacked(&[0xCD, 0xFD], 10);
        assert_eq!(packed(&bits), [0xCD, 0x01]);
        let mut m = vec![0u8; 250];
        write(&mut m, 1990, &bits);
        assert_eq!(m[248..], [0x40, 0x73]);
        assert_eq!(read(&m, 1990, 10), bits);
    }
}

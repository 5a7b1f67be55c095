//! Modbus frames: whole ones of each function, and ways to damage them.

use super::rng::Rng;
use crate::modbus::crc::sealed;

pub const KNOWN: [u8; 6] = [1, 3, 5, 6, 15, 16];
pub const UNKNOWN: [u8; 18] =
    [0, 2, 4, 7, 8, 11, 17, 20, 22, 23, 24, 43, 100, 127, 128, 131, 144, 255];

/// A frame of any station, function and body, with its CRC.
pub fn frame(station: u8, function: u8, body: &[u8]) -> Vec<u8> {
    let mut bytes = vec![station, function];
    bytes.extend(body);
    sealed(bytes)
}

/// The four bytes of two numbers, each with its high byte first.
pub fn two(first: u16, second: u16) -> Vec<u8> {
    [first.to_be_bytes(), second.to_be_bytes()].concat()
}

/// The bytes of a write of that many coils or registers; some count where none is right.
pub fn right_count(function: u8, quantity: u16) -> usize {
    let count = match function {
        15 => usize::from(quantity).div_ceil(8),
        _ => 2 * usize::from(quantity),
    };
    count.min(255)
}

/// Functions 15 and 16, with a byte count and as many bytes as it says.
pub fn write_many(
    rng: &mut Rng,
    station: u8,
    function: u8,
    (start, quantity): (u16, u16),
    count: usize,
) -> Vec<u8> {
    let mut body = two(start, quantity);
    body.push(count as u8);
    body.extend(rng.bytes(count));
    frame(station, function, &body)
}

/// A frame of a known function with these two numbers, and the byte count that is right.
pub fn known(rng: &mut Rng, station: u8, function: u8, first: u16, second: u16) -> Vec<u8> {
    match function {
        15 | 16 => {
            let count = right_count(function, second);
            write_many(rng, station, function, (first, second), count)
        }
        _ => frame(station, function, &two(first, second)),
    }
}

/// The limit of what one frame may read or write.
pub fn most(function: u8) -> u16 {
    match function {
        1 => 2000,
        3 => 125,
        15 => 1968,
        16 => 123,
        _ => 1,
    }
}

/// A request that earns no exception.
pub fn sound(rng: &mut Rng, station: u8, function: u8) -> Vec<u8> {
    let end = match function {
        1 | 5 | 15 => 2000,
        3 => 8000,
        _ => 7900,
    };
    let any = rng.between(1, u32::from(most(function)));
    let small = rng.between(1, u32::from(most(function)).min(20));
    let quantity = rng.pick(&[small, small, small, any]);
    let start = rng.between(0, end - quantity) as u16;
    let second = match function {
        5 => rng.pick(&[0x0000, 0xFF00]),
        6 => rng.draw() as u16,
        _ => quantity as u16,
    };
    known(rng, station, function, start, second)
}

/// A request of any function with any numbers.
pub fn any(rng: &mut Rng, station: u8) -> Vec<u8> {
    if rng.once_in(8) {
        let length = rng.between(0, 30) as usize;
        let function = rng.byte();
        let body = rng.bytes(length);
        return frame(station, function, &body);
    }
    let function = rng.pick(&KNOWN);
    let near = rng.pick(&[0, 1990, 2000, 7890, 7900, 7995, 8000]) + rng.below(12);
    let (far, wild) = (rng.draw() as u16, rng.draw() as u16);
    let first = rng.pick(&[near as u16, near as u16, far]);
    let close = most(function) - 1 + rng.below(3) as u16;
    let second = rng.pick(&[1, 2, 9, 17, close, 0xFF00, wild]);
    let second = if rng.once_in(2) { 1 + rng.below(40) as u16 } else { second };
    known(rng, station, function, first, second)
}

/// The frame with a CRC that fits what stands before its last two bytes.
pub fn resealed(frame: &[u8]) -> Vec<u8> {
    sealed(frame[..frame.len().saturating_sub(2)].to_vec())
}

/// One damage: a bit turned, bytes cut, added, swapped or drawn anew.
pub fn damaged(rng: &mut Rng, mut frame: Vec<u8>) -> Vec<u8> {
    let at = rng.index(frame.len().max(1));
    let other = rng.index(frame.len().max(1));
    match rng.below(6) {
        0 if !frame.is_empty() => frame[at] ^= 1 << rng.below(8),
        1 => frame.truncate(at),
        2 => frame.insert(at.min(frame.len()), rng.byte()),
        3 if !frame.is_empty() => frame.swap(at, other),
        4 if !frame.is_empty() => frame[at] = rng.byte(),
        _ => frame.extend_from_within(at.min(frame.len())..),
    }
    frame
}

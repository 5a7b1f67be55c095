//! Spellings of declarations, right and wrong, and ways to misspell any text.

use super::declarations::NAMES;
use super::rng::Rng;
use crate::units::Name;

/// Bytes that a misspelling puts in: blanks of all kinds, signs, digits and what stands next
/// to them.
pub const WRONG: [u8; 15] = *b"\x00\t\n\r +-./09:A\xB0\xFF";

/// Numbers, right and wrong, the last one empty. Some would be right if they were cut to 16,
/// 32, 64 or 128 bits.
const NUMBERS: &[u8] = b"0 1 9 10 99 100 999 1000 7999 8000 8001 8009 8010 8100 9000 9999 10000 \
    65534 65535 65536 65537 65636 70000 80000 99999 100000 655350 2147483648 4294967194 \
    4294967295 4294967296 4294967297 4294967396 9999999999 10000000000 42949672950 \
    18446744073709551615 18446744073709551616 18446744073709551716 \
    100000000000000000000000000000 999999999999999999999999999999 \
    340282366920938463463374607431768211556 000000000000000000000000000000 \
    00 01 007 0000 0100 08000 0000000100 -0 -1 -100 +0 +1 +100 --1 - \
    1. 1,0 1e2 0x10 1_0 ten 1\r 1\t 1\x00 \xB1 ";

pub fn numbers() -> Vec<&'static [u8]> {
    NUMBERS.split(|&byte| byte == b' ').collect()
}

/// A name for a text: one of the close ones, or any bytes but line feeds.
pub fn name(rng: &mut Rng) -> Name {
    let mut any = rng.pick(&NAMES);
    if rng.once_in(3) {
        any.copy_from_slice(&rng.bytes(8));
    }
    any.map(|byte| if byte == b'\n' { b'_' } else { byte })
}

/// A line of its name and fields: a blank before each field, a line feed at the end.
pub fn line(name: Name, fields: &[&[u8]]) -> Vec<u8> {
    let mut bytes = name.to_vec();
    for field in fields {
        bytes.push(b' ');
        bytes.extend_from_slice(field);
    }
    bytes.push(b'\n');
    bytes
}

/// A declaration text of one line.
pub fn declaration(name: Name, start: u32, length: u32) -> Vec<u8> {
    line(name, &[start.to_string().as_bytes(), length.to_string().as_bytes()])
}

/// A line of a unit list, of any spellings.
pub fn unit_line(unit: &[u8], name: Name, start: &[u8], length: &[u8]) -> Vec<u8> {
    [unit, b" ", &line(name, &[start, length])].concat()
}

/// Each byte made another.
pub fn changed(text: &[u8], into: &[u8]) -> Vec<Vec<u8>> {
    let mut found = Vec::new();
    for at in 0..text.len() {
        for &byte in into.iter().filter(|&&byte| byte != text[at]) {
            let mut other = text.to_vec();
            other[at] = byte;
            found.push(other);
        }
    }
    found
}

/// A byte more, at each place.
pub fn widened(text: &[u8], by: &[u8]) -> Vec<Vec<u8>> {
    let mut found = Vec::new();
    for at in 0..=text.len() {
        for &byte in by {
            let mut other = text.to_vec();
            other.insert(at, byte);
            found.push(other);
        }
    }
    found
}

/// Each byte left out.
pub fn narrowed(text: &[u8]) -> Vec<Vec<u8>> {
    let without = |at: usize| [&text[..at], &text[at + 1..]].concat();
    (0..text.len()).map(without).collect()
}

/// Cut at every byte.
pub fn cut(text: &[u8]) -> Vec<Vec<u8>> {
    (0..text.len()).map(|end| text[..end].to_vec()).collect()
}

/// Two neighbours in the other order.
pub fn swapped(text: &[u8]) -> Vec<Vec<u8>> {
    let swap = |at: usize| {
        let mut other = text.to_vec();
        other.swap(at, at + 1);
        other
    };
    (1..text.len()).map(|at| swap(at - 1)).collect()
}

/// One misspelling, which may be none after all.
pub fn misspelt(rng: &mut Rng, mut text: Vec<u8>) -> Vec<u8> {
    let at = rng.index(text.len());
    let byte = if rng.once_in(3) { rng.byte() } else { rng.pick(&WRONG) };
    match rng.below(5) {
        0 if !text.is_empty() => text[at] = byte,
        1 if !text.is_empty() => drop(text.remove(at)),
        2 => text.truncate(at),
        3 if at > 0 => text.swap(at - 1, at),
        _ => text.insert(at, byte),
    }
    text
}

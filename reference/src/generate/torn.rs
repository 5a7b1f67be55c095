//! Torn files: programs of any kind that are cut, scrambled, joined or shifted.

use super::faults::{aimed, aimed_twice};
use super::files::{broken_frame, damaged, flip, garbage};
use super::program::{medium, small};
use super::rng::Rng;
use crate::compose::file;
use crate::file::{encode_records, RECORD, TRAILER};

/// A file before it is torn: sound, with a fault of each kind, or never right. `turn` walks
/// over them.
pub fn untorn(rng: &mut Rng, turn: usize) -> Vec<u8> {
    match turn % 18 {
        number @ 2..=8 => file(&aimed(rng, number as u32, turn / 18).records),
        9 => file(&aimed_twice(rng, turn / 18).records),
        10 => {
            let records = small(rng).records;
            broken_frame(rng, &records, turn / 18)
        }
        11 => {
            let records = small(rng).records;
            damaged(rng, &records)
        }
        12 => garbage(rng),
        13 => file(&medium(rng).records),
        _ => file(&small(rng).records),
    }
}

/// As it stands, up to some byte.
fn cut(rng: &mut Rng, whole: &[u8]) -> Vec<u8> {
    whole[..rng.index(whole.len() + 1)].to_vec()
}

/// Cut where a record begins.
fn cut_between(rng: &mut Rng, whole: &[u8]) -> Vec<u8> {
    whole[..RECORD * rng.index(whole.len() / RECORD + 1)].to_vec()
}

/// Some bytes of the trailer are others.
fn scrambled(rng: &mut Rng, whole: &[u8]) -> Vec<u8> {
    let start = whole.len().saturating_sub(TRAILER);
    let mut found = whole.to_vec();
    for byte in &mut found[start..] {
        if rng.once_in(2) {
            *byte = rng.byte();
        }
    }
    found
}

/// A stretch is zeros, or any bytes.
fn overwritten(rng: &mut Rng, whole: &[u8]) -> Vec<u8> {
    let mut found = whole.to_vec();
    let start = rng.index(found.len());
    let length = rng.between(1, 60) as usize;
    let zeros = rng.once_in(2);
    for byte in found.iter_mut().skip(start).take(length) {
        *byte = if zeros { 0 } else { rng.byte() };
    }
    found
}

/// The start of one file, then another one.
fn joined(rng: &mut Rng, whole: &[u8]) -> Vec<u8> {
    let mut found = match rng.below(3) {
        0 => cut(rng, whole),
        1 => cut_between(rng, whole),
        _ => whole.to_vec(),
    };
    found.extend(file(&small(rng).records));
    found
}

/// Bytes are missing at the start.
fn shortened(rng: &mut Rng, whole: &[u8]) -> Vec<u8> {
    let short = rng.below(8) as usize;
    let many = rng.pick(&[short, 8, 19, 20, 21, 40]);
    whole[many.min(whole.len())..].to_vec()
}

/// Bytes stand ahead of the records: a comment, or records of no program.
fn lengthened(rng: &mut Rng, whole: &[u8]) -> Vec<u8> {
    let short = rng.below(8) as usize;
    let many = rng.pick(&[short, 8, 19, 20, 20, 21, 40, 60]);
    let mut found = if rng.once_in(2) { rng.bytes(many) } else { vec![0; many] };
    found.extend(whole);
    found
}

/// A stretch is missing, or stands there twice.
fn shifted(rng: &mut Rng, whole: &[u8]) -> Vec<u8> {
    let at = rng.index(whole.len() + 1);
    let length = rng.pick(&[1, 2, 8, 19, 20, 20, 40]);
    let other = if rng.once_in(2) { at + length } else { at.saturating_sub(length) };
    [&whole[..at], &whole[other.min(whole.len())..]].concat()
}

/// More bytes stand behind the file.
fn followed(rng: &mut Rng, whole: &[u8]) -> Vec<u8> {
    let many = rng.between(1, 60) as usize;
    let more = if rng.once_in(2) { rng.bytes(many) } else { vec![0; many] };
    [whole, &more].concat()
}

/// Its END is gone, and with it the trailer or not.
fn endless(rng: &mut Rng, whole: &[u8]) -> Vec<u8> {
    let end = whole.len().saturating_sub(TRAILER + RECORD);
    let behind = if rng.once_in(2) { &whole[(end + RECORD).min(whole.len())..] } else { &[] };
    [&whole[..end], behind].concat()
}

/// A file is torn in one way.
pub fn torn(rng: &mut Rng, whole: &[u8]) -> Vec<u8> {
    match rng.below(18) {
        0 | 1 => whole.to_vec(),
        2 | 3 => cut(rng, whole),
        4 => cut_between(rng, whole),
        5 | 6 => whole[..whole.len().saturating_sub(rng.index(TRAILER + 1))].to_vec(),
        7 | 8 => scrambled(rng, whole),
        9 => overwritten(rng, whole),
        10 => joined(rng, whole),
        11 => shortened(rng, whole),
        12 => lengthened(rng, whole),
        13 => shifted(rng, whole),
        14 | 15 => followed(rng, whole),
        16 => endless(rng, whole),
        _ => {
            let mut found = whole.to_vec();
            let count = rng.between(1, 4);
            flip(rng, &mut found, count);
            found
        }
    }
}

/// Records of sound programs one after the other, no END among them.
pub fn unended(rng: &mut Rng, count: usize) -> Vec<u8> {
    let mut records = Vec::new();
    while records.len() < count {
        let mut more = medium(rng).records;
        more.pop();
        records.extend(more);
    }
    encode_records(&records[..count])
}

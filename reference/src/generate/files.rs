//! Files: frames broken in each way (refusal 1), and damaged ones.

use super::rng::Rng;
use crate::file::{encode, encode_records, trailer, Record, MOST_RECORDS};

fn framed(records: &[Record], edition: u16, count: u16, distance: u32) -> Vec<u8> {
    let mut bytes = encode_records(records);
    bytes.extend(trailer(edition, count, distance));
    bytes
}

/// A comment of a random short length, often none.
pub fn comment(rng: &mut Rng) -> Vec<u8> {
    let length = rng.pick(&[0, 0, 0, 0, 1, 7, 20, 33]);
    rng.bytes(length)
}

/// Refusal 1; `turn` walks over its causes.
pub fn broken_frame(rng: &mut Rng, records: &[Record], turn: usize) -> Vec<u8> {
    let count = records.len() as u16;
    let distance = 20 * u32::from(count) + 8;
    let whole = encode(&comment(rng), records);
    match turn % 12 {
        0 => whole[whole.len() - rng.index(8)..].to_vec(),
        1 => framed(records, rng.pick(&[0, 2, 3, 256, 257, 0xFFFF]), count, distance),
        2 => framed(&[], 1, 0, 8),
        3 => framed(records, 1, 0, distance),
        4 => framed(records, 1, rng.pick(&[2001, 2002, 65535]), distance),
        5 => framed(records, 1, 2001, 20 * 2001 + 8),
        6 => framed(records, 1, count, distance + rng.pick(&[1, 20, 0x1_0000])),
        7 => framed(records, 1, count, distance - rng.pick(&[1, 8, 20])),
        8 => framed(records, 1, count, rng.pick(&[0, u32::MAX, 0x8000_0000 | distance])),
        // Whole records or bytes missing in front: the distance points before the file.
        9 => whole[whole.len() - distance as usize + rng.pick(&[1, 19, 20])..].to_vec(),
        10 => framed(records, 1, count + 1, distance + 20),
        _ => framed(records, 1, count.wrapping_sub(1).max(1) + 1, distance + 21),
    }
}

pub fn flip(rng: &mut Rng, bytes: &mut [u8], count: u32) {
    for _ in 0..count {
        let at = rng.index(bytes.len());
        if let Some(byte) = bytes.get_mut(at) {
            *byte ^= rng.pick(&[1, 2, 4, 8, 16, 32, 64, 128, 255]);
        }
    }
}

/// Swaps two records, or doubles one over another: the frame stays right.
fn shuffle(rng: &mut Rng, records: &[Record]) -> Vec<Record> {
    let mut found = records.to_vec();
    let (a, b) = (rng.index(found.len()), rng.index(found.len()));
    match rng.below(3) {
        0 => found.swap(a, b),
        1 => found[a] = found[b],
        _ => drop(found.remove(a)),
    }
    found
}

/// A file that was right once: bytes flipped, cut, lengthened, records shuffled.
pub fn damaged(rng: &mut Rng, records: &[Record]) -> Vec<u8> {
    let mut bytes = encode(&comment(rng), records);
    match rng.below(9) {
        0..=3 => {
            let count = rng.between(1, 3);
            flip(rng, &mut bytes, count);
        }
        4 => bytes.truncate(rng.index(bytes.len())),
        5 => bytes = bytes[rng.index(bytes.len())..].to_vec(),
        6 => {
            let more = rng.between(1, 30) as usize;
            bytes.extend(rng.bytes(more));
        }
        _ => return encode(&[], &shuffle(rng, records)),
    }
    bytes
}

/// Random bytes, bare or in a right frame.
pub fn garbage(rng: &mut Rng) -> Vec<u8> {
    if rng.once_in(2) {
        let length = rng.below(200) as usize;
        return rng.bytes(length);
    }
    let count = rng.between(1, 6);
    let mut bytes = rng.bytes(20 * count as usize);
    // A known number and a zero byte in front let some records get further.
    for record in bytes.chunks_exact_mut(20) {
        (record[0], record[1]) = (record[0] % 56, 0);
    }
    bytes.extend(trailer(1, count as u16, 20 * count + 8));
    bytes
}

/// A program of exactly this many records: NOPs up to END.
pub fn of_length(count: usize) -> Vec<Record> {
    let mut records = vec![Record::default(); count.min(MOST_RECORDS + 1)];
    if let Some(last) = records.last_mut() {
        last.number = 23;
    }
    records
}

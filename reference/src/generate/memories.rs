//! Memories for scans: a rule, a seed, and patches at words that the program names and at the
//! leftovers; and the time that a scan is given.

use super::rng::Rng;
use crate::cases::memories::{MemorySpec, BYTES, EDGES, ONES, PATTERN, SMALL, ZERO};
use crate::clock::LONGEST_ELAPSED;
use crate::file::Record;
use crate::memory::BIT_BYTES;
use crate::operand::extents;

const EDGE_WORDS: [i16; 12] = [0, 1, -1, 2, -2, 7, -7, 181, 32767, -32768, -32767, 1000];

/// The program's own words, so that a patch tells.
fn named_words(records: &[Record]) -> Vec<u32> {
    let found = records.iter().flat_map(extents);
    found.flat_map(|extent| extent.start..extent.start + extent.length).collect()
}

fn patches(rng: &mut Rng, records: &[Record]) -> Vec<(u16, u8)> {
    let words = named_words(records);
    let mut found = Vec::new();
    if words.is_empty() {
        return found;
    }
    for _ in 0..rng.below(5) {
        let offset = (BIT_BYTES as u32 + 2 * rng.pick(&words)) as u16;
        let [low, high] = rng.pick(&EDGE_WORDS).to_le_bytes();
        found.extend([(offset, low), (offset + 1, high)]);
    }
    found
}

/// Leftovers in their ranges, the ends of these favoured.
pub fn leftovers(rng: &mut Rng) -> [u8; 2] {
    let (ten, hundred) = (rng.below(10) as u8, rng.below(100) as u8);
    [rng.pick(&[0, 9, ten, ten]), rng.pick(&[0, 99, hundred, hundred])]
}

/// Leftovers of which one is out of its range, or both are.
pub fn bad_leftovers(rng: &mut Rng) -> [u8; 2] {
    let [ten, hundred] = leftovers(rng);
    let any = [rng.between(10, 255) as u8, rng.between(100, 255) as u8];
    let (bad_ten, bad_hundred) = (rng.pick(&[10, 99, 255, any[0]]), rng.pick(&[100, 255, any[1]]));
    match rng.below(5) {
        0 | 1 => [bad_ten, hundred],
        2 | 3 => [ten, bad_hundred],
        _ => [bad_ten, bad_hundred],
    }
}

/// A memory of any kind, with leftovers in their ranges.
pub fn memory(rng: &mut Rng, records: &[Record]) -> MemorySpec {
    let rule = rng.pick(&[ZERO, ONES, BYTES, BYTES, SMALL, SMALL, PATTERN, EDGES, EDGES]);
    let seed = rng.draw() as u32;
    let spec = MemorySpec { rule, seed, patches: patches(rng, records), ..MemorySpec::default() };
    spec.with_leftovers(leftovers(rng))
}

/// Milliseconds that a scan may be given, those around whole units favoured.
pub fn elapsed(rng: &mut Rng) -> u32 {
    match rng.below(4) {
        0 => rng.below(LONGEST_ELAPSED + 1),
        1 => rng.below(250),
        _ => rng.pick(&[0, 1, 9, 10, 99, 100, 101, 1_000, 9_999, 10_000]),
    }
}

/// Milliseconds that no scan is given; some would do if they were cut to 16 bits.
pub fn too_long(rng: &mut Rng) -> u32 {
    rng.pick(&[10_001, 10_001, 10_100, 32_767, 32_768, 65_535, 65_536, 65_636, 1 << 31, u32::MAX])
}

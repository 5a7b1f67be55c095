//! The move of a register block: refusals 10 to 14, the lowest place, the moved file.

use crate::check::check;
use crate::devices::{inside_d, meets, meets_work, D_WORDS};
use crate::file::{value_offset, Frame, Record};
use crate::operand::{extents, Extent};
use crate::refusal::Refusal;

#[derive(Clone, Copy, PartialEq, Eq, Debug)]
pub struct Block {
    pub start: u32,
    pub length: u32,
}

/// End excluded; may be empty.
#[derive(Clone, Copy, PartialEq, Eq, Debug)]
pub struct Pool {
    pub start: u32,
    pub end: u32,
}

impl Block {
    /// Refusal 10 when this does not hold.
    pub fn is_sound(self) -> bool {
        self.length > 0 && inside_d(self.start, self.length)
    }

    pub fn meets_extent(self, extent: &Extent) -> bool {
        meets(self.start, self.length, extent.start, extent.length)
    }

    /// Every word of the extent lies in the block; for sound blocks only.
    fn holds(self, extent: &Extent) -> bool {
        extent.start >= self.start && extent.start + extent.length <= self.start + self.length
    }

    pub fn meets_block(self, other: Block) -> bool {
        meets(self.start, self.length, other.start, other.length)
    }
}

/// The first record with an operand that lies partly in the block.
pub fn first_straddler(records: &[Record], block: Block) -> Option<usize> {
    let straddles = |e: &Extent| block.meets_extent(e) && !block.holds(e);
    records.iter().position(|record| extents(record).iter().any(straddles))
}

/// Tries every start of the pool from the lowest up.
fn lowest_place(records: &[Record], block: Block, pool: Pool) -> Option<u32> {
    let used: Vec<Extent> = records.iter().flat_map(extents).collect();
    (pool.start..pool.end).find(|&start| {
        let place = Block { start, length: block.length };
        u64::from(start) + u64::from(block.length) <= u64::from(pool.end)
            && !place.meets_block(block)
            && !meets_work(start, block.length)
            && !used.iter().any(|extent| place.meets_extent(extent))
    })
}

fn rewrite(bytes: &mut [u8], frame: Frame, records: &[Record], block: Block, place: u32) {
    for (at, record) in records.iter().enumerate() {
        for extent in extents(record) {
            if !block.holds(&extent) {
                continue;
            }
            let moved = extent.start - block.start + place;
            let offset = value_offset(frame, at, extent.operand);
            bytes[offset..offset + 4].copy_from_slice(&moved.to_le_bytes());
        }
    }
}

/// Moves the block inside the lent file and tells the start of its place.
pub fn move_block(bytes: &mut [u8], block: Block, pool: Pool) -> Result<u32, Refusal> {
    let program = check(bytes)?;
    let refused = |number: u32| Err(Refusal::new(number, 0));
    if !block.is_sound() {
        return refused(10);
    }
    if pool.start > pool.end || pool.end > D_WORDS {
        return refused(11);
    }
    if meets_work(block.start, block.length) {
        return refused(12);
    }
    if let Some(at) = first_straddler(&program.records, block) {
        return Err(Refusal::new(13, at));
    }
    let Some(place) = lowest_place(&program.records, block, pool) else {
        return refused(14);
    };
    rewrite(bytes, program.frame, &program.records, block, place);
    Ok(place)
}

//! Cases of the mover.

use super::bytes::{Reader, Writer};
use super::filefield::FileField;
use super::memories::differences;
use crate::mover::{move_block, Block, Pool};

#[derive(Clone, PartialEq, Eq, Debug)]
pub struct MoveCase {
    pub file: Vec<u8>,
    pub block: Block,
    pub pool: Pool,
    pub refusal: u32,
    pub record: u32,
    pub place: u32,
    pub changes: Vec<(u32, u8)>,
}

impl MoveCase {
    pub fn solve(file: Vec<u8>, block: Block, pool: Pool) -> MoveCase {
        let mut moved = file.clone();
        let (refusal, record, place) = match move_block(&mut moved, block, pool) {
            Ok(place) => (0, 0, place),
            Err(refusal) => (refusal.number, refusal.record, 0),
        };
        let changes = differences(&file, &moved);
        let changes = changes.into_iter().map(|(at, value)| (at as u32, value)).collect();
        MoveCase { file, block, pool, refusal, record, place, changes }
    }

    pub fn write(&self, files: &mut FileField, out: &mut Writer) {
        files.write(&self.file, out);
        for value in [self.block.start, self.block.length, self.pool.start, self.pool.end] {
            out.u32(value);
        }
        for value in [self.refusal, self.record, self.place] {
            out.u32(value);
        }
        out.u16(self.changes.len() as u16);
        for &(offset, value) in &self.changes {
            out.u32(offset);
            out.u8(value);
        }
    }

    pub fn read(files: &mut FileField, from: &mut Reader) -> Option<MoveCase> {
        let file = files.read(from)?;
        let block = Block { start: from.u32()?, length: from.u32()? };
        let pool = Pool { start: from.u32()?, end: from.u32()? };
        let (refusal, record, place) = (from.u32()?, from.u32()?, from.u32()?);
        let mut changes = Vec::new();
        for _ in 0..from.u16()? {
            changes.push((from.u32()?, from.u8()?));
        }
        Some(MoveCase { file, block, pool, refusal, record, place, changes })
    }
}

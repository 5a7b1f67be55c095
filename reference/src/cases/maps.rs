//! Cases of the use map.

use super::bytes::{Reader, Writer};
use super::filefield::FileField;
use crate::usemap::{use_map, Stretch};

#[derive(Clone, PartialEq, Eq, Debug)]
pub struct MapCase {
    pub file: Vec<u8>,
    pub refusal: u32,
    pub record: u32,
    pub runs: Vec<Stretch>,
}

impl MapCase {
    pub fn solve(file: Vec<u8>) -> MapCase {
        let (refusal, record, runs) = match use_map(&file) {
            Ok(map) => (0, 0, map.stretches()),
            Err(refusal) => (refusal.number, refusal.record, Vec::new()),
        };
        MapCase { file, refusal, record, runs }
    }

    pub fn write(&self, files: &mut FileField, out: &mut Writer) {
        files.write(&self.file, out);
        out.u32(self.refusal);
        out.u32(self.record);
        out.u16(self.runs.len() as u16);
        for run in &self.runs {
            out.u16(run.first as u16);
            out.u16(run.last as u16);
            out.u8(u8::from(run.read) | u8::from(run.written) << 1);
        }
    }

    pub fn read(files: &mut FileField, from: &mut Reader) -> Option<MapCase> {
        let file = files.read(from)?;
        let (refusal, record) = (from.u32()?, from.u32()?);
        let mut runs = Vec::new();
        for _ in 0..from.u16()? {
            let (first, last, marks) = (from.u16()?, from.u16()?, from.u8()?);
            let (first, last) = (u32::from(first), u32::from(last));
            runs.push(Stretch { first, last, read: marks & 1 != 0, written: marks & 2 != 0 });
        }
        Some(MapCase { file, refusal, record, runs })
    }
}

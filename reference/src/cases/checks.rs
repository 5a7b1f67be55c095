//! Cases of the check.

use super::bytes::{Reader, Writer};
use crate::check::check;

#[derive(Clone, PartialEq, Eq, Debug)]
pub struct CheckCase {
    pub file: Vec<u8>,
    pub refusal: u32,
    pub record: u32,
    pub records: u32,
    pub steps: u32,
}

impl CheckCase {
    pub fn solve(file: Vec<u8>) -> CheckCase {
        let (refusal, record, records, steps) = match check(&file) {
            Ok(program) => (0, 0, program.records.len() as u32, program.steps),
            Err(refusal) => (refusal.number, refusal.record, 0, 0),
        };
        CheckCase { file, refusal, record, records, steps }
    }

    pub fn write(&self, out: &mut Writer) {
        out.u32(self.file.len() as u32);
        out.u32(self.refusal);
        out.u32(self.record);
        out.u32(self.records);
        out.u32(self.steps);
        out.all(&self.file);
    }

    pub fn read(from: &mut Reader) -> Option<CheckCase> {
        let (length, refusal, record) = (from.u32()?, from.u32()?, from.u32()?);
        let (records, steps) = (from.u32()?, from.u32()?);
        let file = from.all(length as usize)?.to_vec();
        Some(CheckCase { file, refusal, record, records, steps })
    }
}

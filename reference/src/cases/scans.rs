//! Cases of the scan.

use super::bytes::{Reader, Writer};
use super::checksum::checksum;
use super::filefield::FileField;
use super::memories::{differences, MemorySpec};
use crate::scan::{scan, Answer};

pub const REFUSED: u32 = 0;
pub const ENDED: u32 = 1;
pub const WATCHDOG: u32 = 2;

#[derive(Clone, PartialEq, Eq, Debug)]
pub struct ScanCase {
    pub file: Vec<u8>,
    pub memory: MemorySpec,
    pub elapsed: u32,
    pub budget: u32,
    pub refusal: u32,
    pub record: u32,
    pub kind: u32,
    /// All zero if the call is refused.
    pub answer: Answer,
    pub changes: Vec<(u16, u8)>,
    pub checksum: u32,
}

const NO_ANSWER: Answer = Answer { ended: false, steps: 0, record: 0, error: 0, error_record: 0 };

impl ScanCase {
    /// Runs the scan; `kept` is the image that the case before left and becomes this one's.
    pub fn solve(
        file: Vec<u8>,
        memory: MemorySpec,
        elapsed: u32,
        budget: u32,
        kept: &mut Vec<u8>,
    ) -> ScanCase {
        let before = memory.image(kept);
        let mut lent = memory.lend(&before);
        let result = scan(&file, &mut lent, elapsed, budget);
        // Tables of wrong sizes have no image.
        *kept = if lent.sizes_right() { lent.image() } else { before.clone() };
        let (refusal, record, kind, answer) = match result {
            Ok(answer) => (0, 0, if answer.ended { ENDED } else { WATCHDOG }, answer),
            Err(refusal) => (refusal.number, refusal.record, REFUSED, NO_ANSWER),
        };
        let changes = differences(&before, kept);
        let changes = changes.into_iter().map(|(at, value)| (at as u16, value)).collect();
        let checksum = checksum(kept);
        ScanCase { file, memory, elapsed, budget, refusal, record, kind, answer, changes, checksum }
    }

    pub fn write(&self, files: &mut FileField, out: &mut Writer) {
        files.write(&self.file, out);
        self.memory.write(out);
        let answer = &self.answer;
        for value in [self.elapsed, self.budget, self.refusal, self.record, self.kind] {
            out.u32(value);
        }
        for value in [answer.steps, answer.record, answer.error, answer.error_record] {
            out.u32(value);
        }
        out.u16(self.changes.len() as u16);
        for &(offset, value) in &self.changes {
            out.u16(offset);
            out.u8(value);
        }
        out.u32(self.checksum);
    }

    pub fn read(files: &mut FileField, from: &mut Reader) -> Option<ScanCase> {
        let file = files.read(from)?;
        let memory = MemorySpec::read(from)?;
        let (elapsed, budget) = (from.u32()?, from.u32()?);
        let (refusal, record, kind) = (from.u32()?, from.u32()?, from.u32()?);
        let (steps, stop, error, error_record) =
            (from.u32()?, from.u32()?, from.u32()?, from.u32()?);
        let answer = Answer { ended: kind == ENDED, steps, record: stop, error, error_record };
        let mut changes = Vec::new();
        for _ in 0..from.u16()? {
            changes.push((from.u16()?, from.u8()?));
        }
        let checksum = from.u32()?;
        Some(ScanCase {
            file,
            memory,
            elapsed,
            budget,
            refusal,
            record,
            kind,
            answer,
            changes,
            checksum,
        })
    }
}

//! The salvage of a torn file: what is whole at its start, made a proper file again. Written
//! from document 02.

use crate::check::record_fault;
use crate::compose::{end, file};
use crate::file::{records, Frame, Record, MOST_RECORDS, RECORD, TRAILER};
use crate::refusal::Refusal;

/// The longest file that a salvage writes.
pub const LONGEST: usize = RECORD * MOST_RECORDS + TRAILER;

/// What is told of a salvage that is done.
#[derive(Clone, Copy, PartialEq, Eq, Debug)]
pub struct Salvaged {
    /// Records of the input that are kept.
    pub kept: usize,
    /// Was an END added behind them?
    pub added: bool,
    /// Bytes of the input behind the records kept.
    pub rest: usize,
}

impl Salvaged {
    /// Bytes of the file that is written.
    pub fn length(self) -> usize {
        RECORD * (self.kept + usize::from(self.added)) + TRAILER
    }
}

/// Passes 2 and 3. A target in WORK is left to the check.
fn sound(record: &Record) -> bool {
    !matches!(record_fault(record), Some(2 | 3))
}

/// The records to keep. All whole ones are read first, whatever they are; then the list is
/// cut behind its first END, and after that ahead of the first record that is not sound.
fn run(torn: &[u8]) -> Vec<Record> {
    let mut found = records(torn, Frame { comment: 0, count: torn.len() / RECORD });
    // An END that is sound has no other bytes than this one.
    if let Some(at) = found.iter().position(|record| *record == end()) {
        found.truncate(at + 1);
    }
    if let Some(at) = found.iter().position(|record| !sound(record)) {
        found.truncate(at);
    }
    found
}

/// Writes the file to the start of `out`, or nothing at all.
pub fn salvage(torn: &[u8], out: &mut [u8]) -> Result<Salvaged, Refusal> {
    let mut records = run(torn);
    let kept = records.len();
    let added = records.last() != Some(&end());
    records.extend(added.then(end));
    if records.len() > MOST_RECORDS {
        return Err(Refusal::new(1, 0));
    }
    let whole = file(&records);
    let place = out.get_mut(..whole.len()).ok_or(Refusal::new(16, 0))?;
    place.copy_from_slice(&whole);
    Ok(Salvaged { kept, added, rest: torn.len() - RECORD * kept })
}

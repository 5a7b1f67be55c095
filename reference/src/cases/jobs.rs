//! Cases of jobs.

use super::bytes::{Reader, Writer};
use super::checksum::checksum_of_words;
use super::exchanges::{table, MOST_WORDS};
use super::filefield::FileField;
use super::memories::differences;
use crate::jobs::{job, Task};
use crate::mover::Block;

/// The most lines of a case.
const MOST_LINES: u32 = 70;

/// What a case asks.
#[derive(Clone, PartialEq, Eq, Debug)]
pub struct Asked {
    pub file: Vec<u8>,
    pub rule: u32,
    pub seed: u32,
    /// Words lent: 8,000, 0 for no table, or a wrong number.
    pub words: u32,
    pub tasks: Vec<Task>,
}

#[derive(Clone, PartialEq, Eq, Debug)]
pub struct JobCase {
    pub asked: Asked,
    pub refusal: u32,
    pub record: u32,
    pub line: u32,
    pub other: u32,
    pub moves: u32,
    pub checksum: u32,
    pub changes: Vec<(u32, u8)>,
}

fn read_task(from: &mut Reader) -> Option<Task> {
    let block = Block { start: from.u32()?, length: from.u32()? };
    Some(Task { block, place: from.u32()? })
}

impl Asked {
    fn read(files: &mut FileField, from: &mut Reader) -> Option<Asked> {
        let file = files.read(from)?;
        let (rule, seed, words, count) = (from.u32()?, from.u32()?, from.u32()?, from.u32()?);
        if words > MOST_WORDS || count > MOST_LINES {
            return None;
        }
        let tasks: Option<Vec<Task>> = (0..count).map(|_| read_task(from)).collect();
        Some(Asked { file, rule, seed, words, tasks: tasks? })
    }
}

impl JobCase {
    pub fn solve(asked: Asked) -> JobCase {
        let mut file = asked.file.clone();
        let mut d = table(asked.rule, asked.seed, asked.words);
        let lent = (!d.is_empty()).then_some(&mut d[..]);
        let done = job(&mut file, lent, &asked.tasks);
        let moves = if done.is_ok() { asked.tasks.len() as u32 } else { 0 };
        let (refusal, record, line, other) = match done {
            Ok(()) => (0, 0, 0, 0),
            Err(told) => (told.refusal.number, told.refusal.record, told.line, told.other),
        };
        let changes = differences(&asked.file, &file);
        let changes = changes.into_iter().map(|(at, value)| (at as u32, value)).collect();
        let checksum = checksum_of_words(&d);
        JobCase { asked, refusal, record, line, other, moves, checksum, changes }
    }

    /// Is it refused since two lines meet?
    pub fn is_meeting(&self) -> bool {
        self.line != self.other
    }

    pub fn write(&self, files: &mut FileField, out: &mut Writer) {
        let asked = &self.asked;
        files.write(&asked.file, out);
        for value in [asked.rule, asked.seed, asked.words, asked.tasks.len() as u32] {
            out.u32(value);
        }
        for task in &asked.tasks {
            for value in [task.block.start, task.block.length, task.place] {
                out.u32(value);
            }
        }
        for value in [self.refusal, self.record, self.line, self.other, self.moves, self.checksum] {
            out.u32(value);
        }
        out.u16(self.changes.len() as u16);
        for &(offset, value) in &self.changes {
            out.u32(offset);
            out.u8(value);
        }
    }

    pub fn read(files: &mut FileField, from: &mut Reader) -> Option<JobCase> {
        let asked = Asked::read(files, from)?;
        let (refusal, record, line) = (from.u32()?, from.u32()?, from.u32()?);
        let (other, moves, checksum) = (from.u32()?, from.u32()?, from.u32()?);
        let mut changes = Vec::new();
        for _ in 0..from.u16()? {
            changes.push((from.u32()?, from.u8()?));
        }
        Some(JobCase { asked, refusal, record, line, other, moves, checksum, changes })
    }
}

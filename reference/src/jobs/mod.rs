//! Jobs: several blocks, each moved to a place that is named for it. Written from document 02.

pub mod text;

use crate::check::{check, Accepted};
use crate::devices::D_WORDS;
use crate::file::value_offset;
use crate::mover::{move_block, Block, Pool};
use crate::operand::extents;
use crate::refusal::Refusal;
use std::ops::Range;

/// The most lines that a job may have.
pub const MOST: usize = 64;

/// One line of a job: a block, and where the place begins that is named for it.
#[derive(Clone, Copy, PartialEq, Eq, Debug)]
pub struct Task {
    pub block: Block,
    pub place: u32,
}

/// A refusal, and the lines that it is told at: the line of 10 to 14, twice; where two lines
/// meet, the later one and the earlier; else 0.
#[derive(Clone, Copy, PartialEq, Eq, Debug)]
pub struct JobRefusal {
    pub refusal: Refusal,
    pub line: u32,
    pub other: u32,
}

impl JobRefusal {
    fn at(refusal: Refusal, line: usize, other: usize) -> JobRefusal {
        // A job has at most 64 lines where a line is told.
        JobRefusal { refusal, line: line as u32, other: other as u32 }
    }
}

impl Task {
    /// Just as long as the block. An end past all 32-bit numbers is past D as well.
    pub fn pool(self) -> Pool {
        Pool { start: self.place, end: self.place.saturating_add(self.block.length) }
    }

    /// From the place to where the block was.
    pub fn back(self) -> Task {
        let block = Block { start: self.place, length: self.block.length };
        Task { block, place: self.block.start }
    }

    /// The words of the block and those of the place; for moves that are accepted only.
    fn ranges(self) -> [Range<usize>; 2] {
        [self.block.start, self.place].map(|start| {
            let start = start as usize;
            start..start + self.block.length as usize
        })
    }
}

/// The first line that has a word of an earlier one, and the first of those. Every word is
/// given to the line that has it.
fn first_meeting(tasks: &[Task]) -> Option<(usize, usize)> {
    let mut owners: Vec<Option<usize>> = vec![None; D_WORDS as usize];
    for (line, task) in tasks.iter().enumerate() {
        let words = || task.ranges().into_iter().flatten();
        if let Some(other) = words().filter_map(|word| owners[word]).min() {
            return Some((line, other));
        }
        words().for_each(|word| owners[word] = Some(line));
    }
    None
}

/// Each D number goes with the one block that it is in, all of them at once.
fn rewrite(bytes: &mut [u8], program: &Accepted, tasks: &[Task]) {
    for (at, record) in program.records.iter().enumerate() {
        for extent in extents(record) {
            // No operand lies partly in a block.
            let Some(task) = tasks.iter().find(|task| task.block.meets_extent(&extent)) else {
                continue;
            };
            let moved = task.place + (extent.start - task.block.start);
            let offset = value_offset(program.frame, at, extent.operand);
            bytes[offset..offset + 4].copy_from_slice(&moved.to_le_bytes());
        }
    }
}

/// Each block has what its place had, and the other way round, all of them at once.
fn exchange(d: &mut [i16], tasks: &[Task]) {
    let before = d.to_vec();
    for task in tasks {
        let [block, place] = task.ranges();
        d[block.clone()].copy_from_slice(&before[place.clone()]);
        d[place].copy_from_slice(&before[block]);
    }
}

/// A whole job inside the lent file and the lent D table, if one is lent.
pub fn job(bytes: &mut [u8], d: Option<&mut [i16]>, tasks: &[Task]) -> Result<(), JobRefusal> {
    let unplaced = |refusal: Refusal| JobRefusal::at(refusal, 0, 0);
    if tasks.len() > MOST {
        return Err(unplaced(Refusal::new(16, 0)));
    }
    let program = check(bytes).map_err(unplaced)?;
    if d.as_ref().is_some_and(|d| d.len() != D_WORDS as usize) {
        return Err(unplaced(Refusal::new(9, 0)));
    }
    for (line, task) in tasks.iter().enumerate() {
        // On a copy: each is judged on the original.
        move_block(&mut bytes.to_vec(), task.block, task.pool())
            .map_err(|refusal| JobRefusal::at(refusal, line, line))?;
    }
    if let Some((line, other)) = first_meeting(tasks) {
        return Err(JobRefusal::at(Refusal::new(14, 0), line, other));
    }
    rewrite(bytes, &program, tasks);
    if let Some(d) = d {
        exchange(d, tasks);
    }
    Ok(())
}

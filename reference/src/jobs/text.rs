//! A job as text: a line `START LENGTH PLACE` for each of its moves.

use super::Task;
use crate::mover::Block;
use crate::refusal::Refusal;
use crate::units::spelling::{lines, number, BLANK};

/// A line without its line feed: three numbers, and nothing beside the blanks between them.
fn task(line: &[u8]) -> Option<Task> {
    let fields: Vec<&[u8]> = line.split(|&byte| byte == BLANK).collect();
    let [start, length, place]: [&[u8]; 3] = fields.try_into().ok()?;
    let block = Block { start: number(start, u32::MAX)?, length: number(length, u32::MAX)? };
    Some(Task { block, place: number(place, u32::MAX)? })
}

/// All lines of a job, or 15 at the first that is misspelt.
pub fn read(text: &[u8]) -> Result<Vec<Task>, Refusal> {
    let (tasks, refusal) = lines(text, task);
    refusal.map_or(Ok(tasks), Err)
}

/// A job as it is written.
pub fn written(tasks: &[Task]) -> Vec<u8> {
    let line = |task: &Task| format!("{} {} {}\n", task.block.start, task.block.length, task.place);
    tasks.iter().map(line).collect::<String>().into()
}

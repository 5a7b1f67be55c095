//! The subcommand of jobs: a program, a job as text, and the memory that goes with the program.

use super::answers::{memory_of, said};
use super::units::words;
use super::{load, store, Said};
use crate::jobs::{self, text, Task};
use crate::refusal::Refusal;

/// 15 comes first, then all that the job itself refuses.
fn done(job: &[u8], bytes: &mut [u8], d: Option<&mut [i16]>) -> Result<Vec<Task>, Refusal> {
    let tasks = text::read(job)?;
    jobs::job(bytes, d, &tasks).map_err(|told| told.refusal)?;
    Ok(tasks)
}

/// Told as the product does: a line for each move, and how many they are.
fn lines(tasks: &[Task]) -> String {
    let line =
        |task: &Task| format!("moved {} to {}\n", words(task.block), words(task.back().block));
    tasks.iter().map(line).collect::<String>() + &format!("moves {}", tasks.len())
}

pub fn job(file: &str, job: &str, memory: Option<&str>) -> Said {
    let (mut bytes, job) = (load(file)?, load(job)?);
    let mut lent = memory.map(load).transpose()?.map(|image| memory_of(&image));
    let d = lent.as_mut().map(|memory| &mut memory.d[..]);
    match done(&job, &mut bytes, d) {
        Ok(tasks) => {
            store(file, &bytes)?;
            if let (Some(path), Some(lent)) = (memory, lent) {
                store(path, &lent.image())?;
            }
            said(lines(&tasks))
        }
        Err(refusal) => said(refusal.to_string()),
    }
}

//! Jobs for accepted programs: every order of the lines and one move after the other come to
//! the same file and table, and the way back restores both.

use super::{accepted_program, hold, random_memory, Held, Tally};
use crate::check::check;
use crate::compose;
use crate::exchange::exchange;
use crate::generate::jobs::any;
use crate::generate::rng::Rng;
use crate::generate::spellings::misspelt;
use crate::jobs::text::{read, written};
use crate::jobs::{job, JobRefusal, Task};
use crate::mover::{move_block, Block};
use crate::refusal::Refusal;

/// A file and its D table.
type Plant = (Vec<u8>, Vec<i16>);

fn after(before: &Plant, tasks: &[Task]) -> (Result<(), JobRefusal>, Plant) {
    let mut plant = before.clone();
    (job(&mut plant.0, Some(&mut plant.1), tasks), plant)
}

fn shuffled(rng: &mut Rng, tasks: &[Task]) -> Vec<Task> {
    let mut found = tasks.to_vec();
    for i in (1..found.len()).rev() {
        found.swap(i, rng.index(i + 1));
    }
    found
}

/// The mover and the exchange, one line after the other.
fn one_by_one(before: &Plant, tasks: &[Task]) -> Result<Plant, Refusal> {
    let (mut file, mut d) = before.clone();
    for task in tasks {
        move_block(&mut file, task.block, task.pool())?;
        exchange(&mut d, task.block, task.place)?;
    }
    Ok((file, d))
}

fn accepted(rng: &mut Rng, before: &Plant, tasks: &[Task], new: &Plant) -> Held {
    let turned = shuffled(rng, tasks);
    hold(after(before, &turned) == (Ok(()), new.clone()), "every order of the lines is one")?;
    hold(one_by_one(before, tasks).as_ref() == Ok(new), "the moves one by one")?;
    hold(one_by_one(before, &turned).as_ref() == Ok(new), "the moves one by one, reordered")?;
    let back: Vec<Task> = turned.iter().map(|task| task.back()).collect();
    hold(after(new, &back) == (Ok(()), before.clone()), "the way back restores every byte")?;
    let same = check(&before.0).is_ok_and(|old| check(&new.0).is_ok_and(|n| n.steps == old.steps));
    hold(same, "the program after a job is accepted with the same W")
}

/// Do two lines have a word in common, by their ends?
fn meet(one: Task, other: Task) -> bool {
    let ranges = |task: Task| -> [Block; 2] { [task.block, task.back().block] };
    ranges(one).iter().any(|a| ranges(other).iter().any(|b| a.meets_block(*b)))
}

/// The lines that are told are the first that have this fault.
fn refused(before: &Plant, tasks: &[Task], told: JobRefusal) -> Held {
    let (line, other) = (told.line as usize, told.other as usize);
    let alone = |task: &Task| move_block(&mut before.0.clone(), task.block, task.pool()).err();
    if line == other {
        let first = tasks.iter().position(|task| alone(task).is_some());
        return hold(first == Some(line), "the first line that is refused")
            .and_then(|()| hold(alone(&tasks[line]) == Some(told.refusal), "as a move alone is"));
    }
    hold(tasks.iter().all(|task| alone(task).is_none()), "a meeting is told last")?;
    let mut pairs = (0..tasks.len()).flat_map(|i| (0..i).map(move |j| (i, j)));
    let first = pairs.find(|&(i, j)| meet(tasks[i], tasks[j]));
    hold(first == Some((line, other)) && told.refusal == Refusal::new(14, 0), "the first meeting")
}

/// A job has one spelling, and what is read is written so.
fn texts(rng: &mut Rng, tasks: &[Task]) -> Held {
    let text = written(tasks);
    hold(read(&text).as_deref() == Ok(tasks), "a job that is written is read")?;
    let other = misspelt(rng, text);
    match read(&other) {
        Ok(tasks) => hold(written(&tasks) == other, "a job has one spelling"),
        Err(refusal) => hold(refusal.number == 15, "15 by spelling"),
    }
}

pub fn round(rng: &mut Rng, turn: usize, tally: &mut Tally) -> Held {
    let made = accepted_program(rng, turn);
    let before: Plant = (compose::file(&made.records), random_memory(rng, &made.records).d);
    let tasks = any(rng, &made);
    texts(rng, &tasks)?;
    tally.jobs += 1;
    let (answer, new) = after(&before, &tasks);
    match answer {
        Ok(()) => {
            tally.jobs_done += 1;
            accepted(rng, &before, &tasks, &new)
        }
        Err(told) => {
            hold(new == before, "a refused job changes nothing")?;
            refused(&before, &tasks, told)
        }
    }
}

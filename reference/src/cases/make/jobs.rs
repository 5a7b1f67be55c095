//! Jobs: accepted ones in both orders and back, each refusal of a line, lines that meet, and
//! what is told ahead of them.

use crate::cases::jobs::{Asked, JobCase};
use crate::cases::memories::{BYTES, EDGES, PATTERN, SMALL};
use crate::compose;
use crate::file::encode;
use crate::generate::blocks::dense;
use crate::generate::faults::aimed;
use crate::generate::files::{broken_frame, comment, damaged};
use crate::generate::jobs::{any, sound, spoilt, MEETING};
use crate::generate::program::{medium, Made};
use crate::generate::rng::Rng;
use crate::generate::specials;
use crate::jobs::{job, Task};
use crate::mover::Block;

const AIMS: [u32; 9] = [MEETING, 14, 13, MEETING, 10, 11, MEETING, 12, 14];

/// A case over a D table of a random kind, now and then over none.
fn solved(rng: &mut Rng, file: &[u8], tasks: Vec<Task>) -> JobCase {
    let words = rng.pick(&[8000, 8000, 8000, 0]);
    over(rng, file, tasks, words)
}

fn over(rng: &mut Rng, file: &[u8], tasks: Vec<Task>, words: u32) -> JobCase {
    let rule = rng.pick(&[BYTES, SMALL, PATTERN, EDGES]);
    let seed = rng.draw() as u32;
    JobCase::solve(Asked { file: file.to_vec(), rule, seed, words, tasks })
}

fn reversed(tasks: &[Task]) -> Vec<Task> {
    tasks.iter().rev().copied().collect()
}

/// Both orders of one job, over the same table.
fn both(case: JobCase) -> [JobCase; 2] {
    let tasks = reversed(&case.asked.tasks);
    let turned = JobCase::solve(Asked { tasks, ..case.asked.clone() });
    [case, turned]
}

/// An accepted job in both orders, and the way back from what it leaves.
fn accepted(rng: &mut Rng, file: &[u8], tasks: &[Task]) -> Vec<JobCase> {
    let mut found = both(solved(rng, file, tasks.to_vec())).to_vec();
    let mut moved = file.to_vec();
    if job(&mut moved, None, tasks).is_ok() {
        found.push(solved(rng, &moved, tasks.iter().map(|task| task.back()).collect()));
    }
    found
}

/// Draws until the fault that is aimed at is the one told; the last try stands if none is.
fn aimed_at(rng: &mut Rng, made: &Made, file: &[u8], tasks: &[Task], aim: u32) -> JobCase {
    let mut found = solved(rng, file, tasks.to_vec());
    for _ in 0..40 {
        let spoilt = spoilt(rng, made, tasks, aim);
        found = solved(rng, file, spoilt);
        let told = if found.is_meeting() { MEETING } else { found.refusal };
        if told == aim {
            break;
        }
    }
    found
}

/// Over 64 lines, and 9: each ahead of faults that come later.
fn told_first(rng: &mut Rng, made: &Made, file: &[u8], turn: usize) -> Vec<JobCase> {
    let tasks = any(rng, made);
    let wrong = rng.pick(&[1, 2, 7900, 7999, 8001, 8192]);
    let mut found = vec![over(rng, file, tasks.clone(), wrong)];
    if turn.is_multiple_of(4) && !tasks.is_empty() {
        let count = [64, 65, 66, 70][turn / 4 % 4];
        let many: Vec<Task> = tasks.iter().cycle().take(count).copied().collect();
        let words = rng.pick(&[8000, 0, wrong]);
        found.push(over(rng, file, many, words));
    }
    found
}

/// Programs that the check refuses, by each number or by chance.
fn refused(rng: &mut Rng, made: &Made, turn: usize) -> Vec<JobCase> {
    let number = turn as u32 % 8 + 1;
    let file = match number {
        1 => broken_frame(rng, &made.records, turn / 8),
        _ => compose::file(&aimed(rng, number, turn / 8).records),
    };
    let (one, other) = (any(rng, made), any(rng, made));
    let words = rng.pick(&[8000, 0, 7999]);
    let by_chance = damaged(rng, &made.records);
    vec![over(rng, &file, one, words), solved(rng, &by_chance, other)]
}

/// Several jobs for one program.
fn program_cases(rng: &mut Rng, turn: usize) -> Vec<JobCase> {
    let made = if turn.is_multiple_of(3) { medium(rng) } else { dense(rng) };
    let file = encode(&comment(rng), &made.records);
    let count = [2, 1, 3, 2, 5, 8, 2, 4][turn % 8];
    let tasks = sound(rng, &made.records, count);
    let mut found = accepted(rng, &file, &tasks);
    for part in 0..3 {
        let aim = AIMS[(3 * turn + part) % AIMS.len()];
        found.extend(both(aimed_at(rng, &made, &file, &tasks, aim)));
    }
    let drawn = any(rng, &made);
    found.extend(both(solved(rng, &file, drawn)));
    if turn.is_multiple_of(2) {
        found.extend(told_first(rng, &made, &file, turn / 2));
    } else {
        found.extend(refused(rng, &made, turn / 2));
    }
    found
}

fn task(start: u32, length: u32, place: u32) -> Task {
    Task { block: Block { start, length }, place }
}

/// As many lines as there may be, one word each: one that cuts an operand, none, and then one
/// that is made to meet another.
fn long_ones(rng: &mut Rng) -> Vec<JobCase> {
    let file = specials::ddiv_into(106);
    let many: Vec<Task> = (0..64).map(|i| task(2 * i, 1, 1000 + 2 * i)).collect();
    let mut found = both(over(rng, &file, many.clone(), 8000)).to_vec();
    let apart: Vec<Task> = (0..64).map(|i| task(200 + i, 1, 7899 - i)).collect();
    found.extend(both(over(rng, &file, apart.clone(), 8000)));
    for (line, place) in [(63, 7899), (1, 7899), (63, 7837), (40, 263), (5, 200)] {
        let mut meeting = apart.clone();
        meeting[line].place = place;
        found.extend(both(solved(rng, &file, meeting)));
    }
    let whole = [task(0, 3950, 3950)];
    found.push(over(rng, &compose::file(&[compose::end()]), whole.to_vec(), 8000));
    found
}

/// The document's own blocks, a job of no line, and what touches without meeting.
fn special_cases(rng: &mut Rng) -> Vec<JobCase> {
    let file = specials::ddiv_into(106);
    let mut found = Vec::new();
    let broken = [1, 0, 1, 0, 28, 0, 0, 0];
    for words in [8000, 0, 7999] {
        found.push(over(rng, &file, Vec::new(), words));
        found.push(over(rng, &broken, Vec::new(), words));
        found.push(over(rng, &broken, vec![task(0, 0, 0); 65], words));
    }
    let first = task(100, 10, 300);
    for second in [
        task(110, 10, 310),
        task(110, 10, 290),
        task(110, 10, 309),
        task(110, 10, 291),
        task(290, 10, 310),
        task(291, 10, 310),
        task(309, 1, 400),
        task(300, 10, 400),
        task(400, 10, 90),
        task(400, 10, 91),
        task(400, 10, 101),
        task(107, 1, 400),
        task(100, 10, 300),
        task(300, 10, 100),
        task(106, 4, 400),
        task(0, 1, u32::MAX),
        task(0, 2, u32::MAX),
        task(0, u32::MAX, u32::MAX),
    ] {
        found.extend(both(solved(rng, &file, vec![first, second])));
    }
    // Lines that meet two earlier ones, by their first words now the one and now the other.
    let (one, two) = (task(0, 2, 10), task(20, 2, 30));
    for last in [task(11, 20, 500), task(500, 20, 11), task(21, 10, 1)] {
        found.extend(both(solved(rng, &file, vec![one, first, two, last])));
        found.extend(both(solved(rng, &file, vec![two, one, last, last])));
    }
    found.extend(long_ones(rng));
    found
}

pub fn job_cases(rng: &mut Rng, count: usize) -> Vec<JobCase> {
    let mut cases = special_cases(rng);
    let mut turn = 0;
    while cases.len() < count {
        cases.extend(program_cases(rng, turn));
        turn += 1;
    }
    cases.truncate(count);
    cases
}

//! Jobs: blocks that cut no operand with places that nothing uses, and jobs with a fault in
//! one of their lines or between two.

use super::blocks::cutting;
use super::program::Made;
use super::rng::Rng;
use crate::devices::{D_WORDS, WORK_START};
use crate::file::Record;
use crate::jobs::Task;
use crate::mover::Block;
use crate::operand::extents;

/// Two lines that meet, as an aim beside the numbers of refusals.
pub const MEETING: u32 = 100;

/// The words of D as a job finds them.
struct Ground {
    /// Words that an operand has.
    used: Vec<u32>,
    /// Is there an operand that has this word and the one before it?
    joined: Vec<bool>,
    /// What lines that are drawn already have, WORK, and whatever an operand has.
    closed: Vec<bool>,
    /// The same without the operands.
    taken: Vec<bool>,
}

fn words(block: Block) -> std::ops::Range<usize> {
    block.start as usize..(block.start + block.length) as usize
}

impl Ground {
    fn new(records: &[Record]) -> Ground {
        let size = D_WORDS as usize;
        let taken: Vec<bool> = (0..D_WORDS).map(|word| word >= WORK_START).collect();
        let mut ground =
            Ground { used: Vec::new(), joined: vec![false; size], closed: taken.clone(), taken };
        for extent in records.iter().flat_map(extents) {
            let range = words(Block { start: extent.start, length: extent.length });
            ground.used.push(extent.start);
            ground.closed[range.clone()].fill(true);
            ground.joined[range.start + 1..range.end].fill(true);
        }
        ground
    }

    /// A block around an operand or anywhere, as long as it has to be to cut none.
    fn block(&self, rng: &mut Rng) -> Block {
        let near = match self.used.is_empty() || rng.once_in(4) {
            true => rng.below(WORK_START),
            false => rng.pick(&self.used),
        };
        let mut start = near.saturating_sub(rng.pick(&[0, 0, 0, 1, 2, 7]));
        while self.joined[start as usize] {
            start -= 1;
        }
        let mut end = (start + rng.pick(&[1, 1, 1, 2, 3, 5, 10, 30])).min(D_WORDS);
        while self.joined.get(end as usize) == Some(&true) {
            end += 1;
        }
        Block { start, length: end - start }
    }

    /// Where a place may begin: beside the block, beside an earlier line, at the ends of what
    /// is free, or anywhere.
    fn place(&self, rng: &mut Rng, block: Block, before: &[Task]) -> u32 {
        let length = block.length;
        let beside = match before.is_empty() {
            true => block.start,
            false => rng.pick(before).place,
        };
        match rng.below(8) {
            0 => block.start + length,
            1 => block.start.saturating_sub(length),
            2 => beside.saturating_sub(length),
            3 => beside + length,
            4 => WORK_START.saturating_sub(length),
            5 => 0,
            _ => rng.below(WORK_START),
        }
    }

    /// A line that is accepted beside those before it; none if the draw is none.
    fn task(&self, rng: &mut Rng, before: &[Task]) -> Option<Task> {
        let block = self.block(rng);
        let start = self.place(rng, block, before);
        let place = Block { start, length: block.length };
        let fits = start + block.length <= WORK_START
            && !place.meets_block(block)
            && !self.taken[words(block)].contains(&true)
            && !self.closed[words(place)].contains(&true);
        fits.then_some(Task { block, place: start })
    }

    fn take(&mut self, task: Task) {
        for block in [task.block, task.back().block] {
            self.taken[words(block)].fill(true);
            self.closed[words(block)].fill(true);
        }
    }
}

/// A job of so many lines that is accepted, or of fewer if there is no room for them.
pub fn sound(rng: &mut Rng, records: &[Record], count: usize) -> Vec<Task> {
    let mut ground = Ground::new(records);
    let mut tasks = Vec::new();
    for _ in 0..40 * count {
        if tasks.len() == count {
            break;
        }
        if let Some(task) = ground.task(rng, &tasks) {
            ground.take(task);
            tasks.push(task);
        }
    }
    tasks
}

fn block_at(start: u32, length: u32) -> Block {
    Block { start, length }
}

fn bad_block(rng: &mut Rng, task: Task) -> Block {
    let far = u32::MAX;
    match rng.below(6) {
        0 => block_at(task.block.start, 0),
        1 => block_at(D_WORDS - rng.below(2), 2),
        2 => block_at(D_WORDS, rng.below(2)),
        3 => block_at(0, rng.pick(&[D_WORDS + 1, far])),
        4 => block_at(far, rng.pick(&[1, far])),
        _ => block_at(rng.below(D_WORDS), far),
    }
}

/// Places that reach past D, some of them past all 32-bit numbers.
fn past_d(rng: &mut Rng, task: Task) -> u32 {
    let length = task.block.length;
    let (near, far) = ((D_WORDS + 1).saturating_sub(length), u32::MAX - length);
    rng.pick(&[near, D_WORDS, D_WORDS + 1, far, u32::MAX])
}

fn in_work(rng: &mut Rng) -> Block {
    match rng.below(3) {
        0 => block_at(WORK_START - 1, rng.between(2, 101)),
        1 => block_at(rng.between(WORK_START, D_WORDS - 1), 1),
        _ => block_at(0, rng.between(WORK_START + 1, D_WORDS)),
    }
}

/// Places that meet the block itself, WORK or an operand.
fn no_place(rng: &mut Rng, made: &Made, task: Task) -> u32 {
    let Block { start, length } = task.block;
    let used: Vec<u32> = made.records.iter().flat_map(extents).map(|e| e.start).collect();
    match rng.below(6) {
        0 => start,
        1 => start.saturating_add(length.saturating_sub(1)),
        2 => start.saturating_sub(length.saturating_sub(1)),
        3 => (WORK_START + 1).saturating_sub(length),
        4 => D_WORDS.saturating_sub(length),
        _ if used.is_empty() => start,
        _ => rng.pick(&used),
    }
}

/// A line that has words of the other one, or begins where that ends.
fn beside(rng: &mut Rng, task: Task, other: Task) -> Task {
    let home = rng.pick(&[other.place, other.place, other.block.start]);
    let end = home.saturating_add(other.block.length.saturating_sub(rng.below(2)));
    match rng.below(6) {
        0 => other,
        1 => other.back(),
        2 => Task { block: task.block, place: home },
        3 => Task { block: task.block, place: end },
        4 => Task { block: block_at(home, task.block.length), place: task.place },
        _ => Task { block: block_at(end, task.block.length), place: task.place },
    }
}

/// The job, whose lines may be wrong already, with one line made wrong or brought to another.
pub fn spoilt(rng: &mut Rng, made: &Made, tasks: &[Task], aim: u32) -> Vec<Task> {
    let mut found = tasks.to_vec();
    if found.is_empty() {
        return found;
    }
    let at = rng.index(found.len());
    let task = found[at];
    found[at] = match aim {
        10 => Task { block: bad_block(rng, task), place: task.place },
        11 => Task { block: task.block, place: past_d(rng, task) },
        12 => Task { block: in_work(rng), place: task.place },
        13 => Task { block: cutting(rng, made).0, place: task.place },
        14 => Task { block: task.block, place: no_place(rng, made, task) },
        MEETING => {
            let other = found[rng.index(found.len())];
            beside(rng, task, other)
        }
        _ => task,
    };
    found
}

/// A job of any kind for this program.
pub fn any(rng: &mut Rng, made: &Made) -> Vec<Task> {
    let count = rng.pick(&[1, 2, 2, 3, 4, 6, 12]);
    let mut tasks = sound(rng, &made.records, count);
    for _ in 0..rng.pick(&[0, 0, 0, 1, 1, 2, 3]) {
        let aim = rng.pick(&[10, 11, 12, 13, 14, MEETING, MEETING, MEETING]);
        tasks = spoilt(rng, made, &tasks, aim);
    }
    tasks
}

#[cfg(test)]
mod tests {
    use super::*;
    use crate::compose;
    use crate::generate::blocks::dense;
    use crate::jobs::job;

    #[test]
    fn sound_ones_are_accepted() {
        let mut rng = Rng::new(21);
        for count in 0..120 {
            let made = dense(&mut rng);
            let tasks = sound(&mut rng, &made.records, count % 65);
            let mut file = compose::file(&made.records);
            assert_eq!(job(&mut file, None, &tasks), Ok(()), "{tasks:?}");
            assert!(tasks.len() + 4 > count % 65, "{count}: {}", tasks.len());
        }
    }
}

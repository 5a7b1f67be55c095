//! Scans of accepted programs: steps within W and budget, and what stays unchanged.

use super::{hold, random_memory, Held, Tally};
use crate::check::check;
use crate::compose;
use crate::devices::WORK_START;
use crate::file::Record;
use crate::generate::memories::elapsed;
use crate::generate::rng::Rng;
use crate::instruction::Instruction;
use crate::memory::{bit, Memory};
use crate::scan::{scan, Answer};
use crate::usemap::use_map;

fn unchanged(file: &[u8], before: &Memory, after: &Memory) -> Held {
    let work = WORK_START as usize;
    hold(before.d[work..] == after.d[work..], "WORK unchanged")?;
    hold(before.x == after.x, "X unchanged")?;
    let map = use_map(file).map_err(|refusal| refusal.to_string())?;
    for word in 0..8000u32 {
        let same = before.d[word as usize] == after.d[word as usize];
        hold(same || map.marks(word).1, "a word not marked written unchanged")?;
    }
    for number in 0..256 {
        let may_change = matches!(number, 0 | 180..=182);
        let same = bit(&before.sm, number) == bit(&after.sm, number);
        hold(same || may_change, "other special bits unchanged")?;
    }
    hold(bit(&after.sm, 0), "SM0 on")
}

/// The leftovers advance with any program and budget.
fn leftovers_hold(before: &Memory, after: &Memory, elapsed: u32) -> Held {
    let left = |old: u8, base: u32| ((u32::from(old) + elapsed) % base) as u8;
    let wanted = [left(before.rest[0], 10), left(before.rest[1], 100)];
    hold(after.rest == wanted, "leftovers after a scan")
}

fn steps_hold(answer: &Answer, most: u32, budget: u32, last: usize) -> Held {
    hold(answer.steps <= most, "steps within W")?;
    hold(answer.steps <= budget, "steps within the budget")?;
    if answer.ended {
        hold(answer.record as usize == last, "ended at END")
    } else {
        hold(answer.steps == budget, "the watchdog uses the budget up")
    }
}

/// A scan with W steps always ends; one with one step less than it took does not, and
/// leaves the same memory, since END changes nothing.
fn budgets(file: &[u8], before: &Memory, elapsed: u32, most: u32) -> Held {
    let run = |budget: u32| {
        let mut memory = before.clone();
        scan(file, &mut memory, elapsed, budget).map(|answer| (answer, memory))
    };
    let (whole, memory) = run(most).map_err(|refusal| refusal.to_string())?;
    hold(whole.ended, "W steps are enough")?;
    let (short, other) = run(whole.steps - 1).map_err(|refusal| refusal.to_string())?;
    hold(!short.ended && other == memory, "one step less leaves END due")?;
    hold(short.record == whole.record, "END is the record due")
}

pub fn round(rng: &mut Rng, records: &[Record], tally: &mut Tally) -> Held {
    let file = compose::file(records);
    let program = check(&file).map_err(|refusal| format!("a good program is {refusal}"))?;
    let before = random_memory(rng, records);
    let (time, budget) = (elapsed(rng), rng.pick(&[0, 1, 5, 30, 200, 30_000]));
    let mut memory = before.clone();
    let answer = scan(&file, &mut memory, time, budget).map_err(|r| r.to_string())?;
    tally.files += 1;
    tally.scans += 1;
    tally.watchdogs += u64::from(!answer.ended);
    steps_hold(&answer, program.steps, budget, records.len() - 1)?;
    let jumps = records.iter().any(|record| record.number == Instruction::Cj.number());
    if answer.ended && !jumps {
        hold(answer.steps == program.steps, "without jumps a scan takes W steps")?;
    }
    unchanged(&file, &before, &memory)?;
    leftovers_hold(&before, &memory, time)?;
    budgets(&file, &before, time, program.steps)
}

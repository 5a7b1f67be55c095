//! `coverage`: what case files reach, as a table.

use super::{load, Said};
use crate::cases::reach::Reach;
use crate::generate::requests::KNOWN;
use crate::instruction::Instruction;

fn refusals(reach: &Reach) -> String {
    let mut text = format!("accepted      {:>8}\n", reach.refusals[0]);
    for number in 1..reach.refusals.len() {
        text += &format!("refusal {number:<5} {:>8}\n", reach.refusals[number]);
    }
    text
}

fn instructions(reach: &Reach) -> String {
    let mut text = String::from("instruction     in cases   executed  with flow\n");
    for instruction in Instruction::ALL {
        let number = usize::from(instruction.number());
        text += &format!(
            "{number:>2} {:<10} {:>10} {:>10} {:>10}\n",
            instruction.name(),
            reach.listed[number],
            reach.executed[number],
            reach.with_flow[number]
        );
    }
    text
}

fn time(reach: &Reach) -> String {
    let t = &reach.time;
    let [hundred, ten, one] = t.bases;
    let tons = format!("TON with flow 100 ms {hundred} 10 ms {ten} 1 ms {one}");
    let [size, leftover, elapsed] = t.nines;
    let nines = format!("nines by size {size} by leftover {leftover} by time {elapsed}");
    format!("{tons}\nleftovers found {} moved {}\n{nines}\n", t.found, t.moved)
}

fn requests(reach: &Reach) -> String {
    let [one, two, three] = [1, 2, 3].map(|code| reach.exceptions[code]);
    let exceptions = format!("exceptions 01 {one} 02 {two} 03 {three}");
    let mut text = format!("requests silent {} {exceptions} replies", reach.silent);
    for function in KNOWN {
        text += &format!(" {function:02} {}", reach.replies[usize::from(function)]);
    }
    text + "\n"
}

fn units(reach: &Reach) -> String {
    let l = &reach.lists;
    let lists = format!("without a clash {} with some {} with all {}", l.peaceful, l.some, l.full);
    let kinds = format!("two blocks {} shared words {}", l.two_blocks, l.shared_words);
    let [nothing, first, second] = reach.texts;
    let texts = format!("texts first {first} second {second} nothing {nothing}");
    format!("lists {lists} over {}\nclashes {kinds}\n{texts}\nunit lines {}\n", l.over, reach.lines)
}

fn jobs(reach: &Reach) -> String {
    let j = &reach.jobs;
    let done = format!("done {} of several {} changing {}", j.done, j.several, j.changing);
    let lines = format!("of 64 lines {} over {}", j.full, j.over);
    format!("jobs {done} moves {} meetings {} {lines}\n", j.moves, j.meetings)
}

fn salvages(reach: &Reach) -> String {
    let s = &reach.salvages;
    let done = format!("end found {} end added {}", s.found, s.added);
    let refused = format!("refused 1 {} refused 16 {}", s.ones, s.sixteens);
    let mut text = format!("salvages {done} {refused}\nwritten files accepted {}", s.checked[0]);
    for (number, count) in s.checked.iter().enumerate().skip(1) {
        text += &format!(" {number}: {count}");
    }
    text + "\n"
}

/// Sums over all the files given.
pub fn coverage(paths: &[&str]) -> Said {
    let mut reach = Reach::default();
    for path in paths {
        if reach.add(&load(path)?).is_none() {
            return Err(format!("{path}: not a case file"));
        }
    }
    let mut text = refusals(&reach) + &instructions(&reach);
    text += &format!("scans ended {} watchdog {}\n", reach.ended, reach.watchdog);
    text += &time(&reach);
    text += &format!("error 1 {} error 2 {}\n", reach.errors[1], reach.errors[2]);
    text += &format!("groups and bits {}\n", reach.groups);
    text += &requests(&reach);
    text += &units(&reach);
    text += &jobs(&reach);
    text += &salvages(&reach);
    let differ = reach.cases - reach.agree;
    text += &format!("{} agree, {differ} differ\n", reach.agree);
    Ok((text.into(), i32::from(differ > 0)))
}

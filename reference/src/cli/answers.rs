//! The subcommands that give one answer about one file.

use super::{load, number, numbers, store, Said};
use crate::memory::Memory;
use crate::modbus::{self, BUFFER};
use crate::mover::{Block, Pool};
use crate::refusal::Refusal;
use crate::scan::{Answer, DEFAULT_BUDGET};

pub fn said(text: String) -> Said {
    Ok(((text + "\n").into(), 0))
}

pub fn check(file: &str) -> Said {
    match crate::check::check(&load(file)?) {
        Ok(program) => {
            said(format!("accepted records {} steps {}", program.records.len(), program.steps))
        }
        Err(refusal) => said(refusal.to_string()),
    }
}

/// A memory file of a wrong size is lent as tables of wrong sizes: here, none at all.
pub fn memory_of(image: &[u8]) -> Memory {
    let none = Memory { d: Vec::new(), ..Memory::zero() };
    Memory::from_image(image).unwrap_or(none)
}

fn describe(answer: &Answer) -> String {
    let kind = if answer.ended { "ended" } else { "watchdog" };
    format!(
        "{kind} steps {} record {} error {} record {}",
        answer.steps, answer.record, answer.error, answer.error_record
    )
}

pub fn scan(file: &str, path: &str, elapsed: &str, budget: Option<&&str>) -> Said {
    let elapsed = number(elapsed)?;
    let budget = budget.map_or(Ok(DEFAULT_BUDGET), |word| number(word))?;
    let mut memory = memory_of(&load(path)?);
    match crate::scan::scan(&load(file)?, &mut memory, elapsed, budget) {
        Ok(answer) => {
            store(path, &memory.image())?;
            said(describe(&answer))
        }
        Err(refusal) => said(refusal.to_string()),
    }
}

pub fn map(file: &str) -> Said {
    match crate::usemap::use_map(&load(file)?) {
        Ok(map) => {
            let lines = map.stretches().into_iter().map(|stretch| format!("{stretch}\n"));
            Ok((lines.collect::<String>().into(), 0))
        }
        Err(refusal) => said(refusal.to_string()),
    }
}

fn ranges(verb: &str, block: Block, link: &str, place: u32) -> String {
    // Only told for accepted calls, where both ranges lie inside D and are not empty.
    let end = |start: u32| start + block.length - 1;
    let (from, to) = (block.start, place);
    format!("{verb} D{from}-D{} {link} D{to}-D{}", end(from), end(to))
}

pub fn move_block(file: &str, words: &[&str]) -> Said {
    let [start, length, pool_start, pool_end] = numbers(words)?;
    let (block, pool) = (Block { start, length }, Pool { start: pool_start, end: pool_end });
    let mut bytes = load(file)?;
    match crate::mover::move_block(&mut bytes, block, pool) {
        Ok(place) => {
            store(file, &bytes)?;
            said(ranges("moved", block, "to", place))
        }
        Err(refusal) => said(refusal.to_string()),
    }
}

pub fn exchange(path: &str, words: &[&str]) -> Said {
    let [start, length, place] = numbers(words)?;
    let block = Block { start, length };
    let mut memory = memory_of(&load(path)?);
    let done: Result<(), Refusal> = crate::exchange::exchange(&mut memory.d, block, place);
    match done {
        Ok(()) => {
            store(path, &memory.image())?;
            said(ranges("exchanged", block, "with", place))
        }
        Err(refusal) => said(refusal.to_string()),
    }
}

/// A frame's bytes as pairs of digits.
fn spelt(bytes: &[u8]) -> String {
    bytes.iter().map(|byte| format!(" {byte:02x}")).collect()
}

pub fn answer(path: &str, station: u32, request: &str) -> Said {
    let image = load(path)?;
    let frame = load(request)?;
    let mut memory = memory_of(&image);
    let mut reply = [0u8; BUFFER];
    let done = modbus::answer(station, &frame, &mut memory.m, &mut memory.d, &mut reply);
    // Only a memory that was changed is written; a refused one has no image of its own.
    if done.is_ok() && memory.image() != image {
        store(path, &memory.image())?;
    }
    match done {
        Ok(modbus::Answer::Reply(length)) => said(format!("reply{}", spelt(&reply[..length]))),
        Ok(modbus::Answer::Silent) => said("silent".to_string()),
        Err(refusal) => said(refusal.to_string()),
    }
}

#[cfg(test)]
mod tests {
    use super::memory_of;
    use crate::clock;
    use crate::memory::IMAGE;

    #[test]
    fn memory_files() {
        // A leftover out of its range is the scan's to refuse; a size is everyone's.
        let memory = memory_of(&[0xFF; IMAGE]);
        assert!(memory.sizes_right() && !clock::sound(&memory.rest));
        for size in [0, 16890, 16891, 16893] {
            assert!(!memory_of(&vec![0; size]).sizes_right());
        }
    }
}

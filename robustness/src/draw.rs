//! What is drawn for one turn: a file, mostly damaged, a memory, a block, a pool and a place, a frame, a job, a torn file and an output for it.

use ninhalto_reference::cases::make::{random_request, random_torn};
use ninhalto_reference::compose;
use ninhalto_reference::generate::blocks::{cutting, dense, into_gap, likely, no_place, wrong};
use ninhalto_reference::generate::faults::{aimed, aimed_twice};
use ninhalto_reference::generate::files::{broken_frame, damaged, garbage};
use ninhalto_reference::generate::jobs;
use ninhalto_reference::generate::memories;
use ninhalto_reference::generate::program::{small, Made};
use ninhalto_reference::generate::rng::Rng;
use ninhalto_reference::generate::specials::over_steps;
use ninhalto_reference::generate::torn::unended;
use ninhalto_reference::jobs::Task;
use ninhalto_reference::memory::Memory;
use ninhalto_reference::mover::{Block, Pool};
use ninhalto_reference::salvage::{salvage, LONGEST};
use ninhalto_reference::scan::DEFAULT_BUDGET;

pub struct Drawn {
    pub file: Vec<u8>,
    pub memory: Memory,
    pub elapsed: u32,
    pub budget: u32,
    pub block: Block,
    pub pool: Pool,
    pub place: u32,
    pub station: u32,
    pub buffer: usize,
    pub frame: Vec<u8>,
    pub tasks: Vec<Task>,
    pub torn: Vec<u8>,
    pub output: Vec<u8>,
}

/// Seven of eight turns damage a file in some way; the eighth leaves it whole. One of 256 has a program that may need more
/// steps than a scan without a budget makes.
fn file(rng: &mut Rng, made: &Made, turn: usize) -> Vec<u8> {
    match turn % 8 {
        0 => garbage(rng),
        1 => broken_frame(rng, &made.records, turn / 8),
        2 => compose::file(&aimed(rng, turn as u32 / 8 % 7 + 2, turn / 56).records),
        3 => compose::file(&aimed_twice(rng, turn / 8).records),
        7 if turn % 256 == 255 => compose::file(&over_steps(rng, DEFAULT_BUDGET)),
        7 => compose::file(&made.records),
        _ => damaged(rng, &made.records),
    }
}

/// One memory in sixteen has a table of a wrong size, one in sixteen leftovers that are out of their ranges, and one in
/// sixteen leftovers that are too few or too many.
fn memory(rng: &mut Rng, made: &Made) -> Memory {
    let spec = memories::memory(rng, &made.records);
    let mut memory = spec.lend(&spec.image(&[]));
    match rng.below(64) {
        0 => memory.d.truncate(rng.below(8000) as usize),
        1 => memory.m.push(0),
        2 => memory.t.clear(),
        3 => drop(memory.y.pop()),
        4..=7 => memory.rest = memories::bad_leftovers(rng).to_vec(),
        8 | 9 => memory.rest.truncate(rng.below(2) as usize),
        10 | 11 => memory.rest.push(rng.byte()),
        _ => (),
    }
    memory
}

/// One time in sixteen is too long, and one is about the longest.
fn elapsed(rng: &mut Rng) -> u32 {
    match rng.below(16) {
        0 => memories::too_long(rng),
        1 => rng.between(9_990, 10_010),
        _ => memories::elapsed(rng),
    }
}

/// Station, reply buffer and frame. One station in sixteen is none, and so many buffers are too short.
fn request(rng: &mut Rng) -> (u32, usize, Vec<u8>) {
    let asked = random_request(rng);
    let wrong = rng.pick(&[0, 248, asked.own + 256, u32::MAX]);
    let station = if rng.once_in(16) { wrong } else { asked.own };
    let buffer = if rng.once_in(16) { rng.below(256) } else { asked.buffer };
    (station, buffer as usize, asked.frame)
}

/// One in 256 has about 2,000 records and no END, one in 256 is zeros of any length, with more NOPs than a file may have or fewer.
fn torn(rng: &mut Rng, turn: usize) -> Vec<u8> {
    match turn % 256 {
        85 => {
            let count = rng.between(1995, 2003) as usize;
            unended(rng, count)
        }
        170 => vec![0; rng.below(80_000) as usize],
        _ => random_torn(rng, turn),
    }
}

/// Any bytes, of any length about that of the file that is salvaged; one in four is just as long, one in four one byte shorter.
fn output(rng: &mut Rng, torn: &[u8]) -> Vec<u8> {
    let needed = salvage(torn, &mut [0; LONGEST]).map_or(LONGEST, |told| told.length());
    let less = needed - rng.between(1, 28) as usize;
    let more = needed + rng.between(1, 120) as usize;
    let anything = rng.below(60_000) as usize;
    let size = rng.pick(&[needed, needed, needed - 1, needed - 1, less, more, more, anything]);
    rng.bytes(size)
}

pub fn draw(rng: &mut Rng, turn: usize) -> Drawn {
    let made = if rng.once_in(2) { dense(rng) } else { small(rng) };
    let file = file(rng, &made, turn);
    let memory = memory(rng, &made);
    let (block, pool) = rng.pick(&[likely, likely, into_gap, cutting, no_place, wrong])(rng, &made);
    let elapsed = elapsed(rng);
    let budget = rng.pick(&[0, 1, 5, 30, 200, 30_000, u32::MAX]);
    let near = block.start.wrapping_add(rng.below(20));
    let anywhere = rng.below(8100);
    let place = rng.pick(&[near, anywhere, anywhere, u32::MAX]);
    let (station, buffer, frame) = request(rng);
    let tasks = jobs::any(rng, &made);
    let torn = torn(rng, turn);
    let output = output(rng, &torn);
    Drawn {
        file,
        memory,
        elapsed,
        budget,
        block,
        pool,
        place,
        station,
        buffer,
        frame,
        tasks,
        torn,
        output,
    }
}

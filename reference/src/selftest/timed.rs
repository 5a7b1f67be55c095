//! The speed of timers: document 02, (iv).

use super::{line, Line};
use crate::compose::file;
use crate::file::Record;
use crate::generate::timers::{again, by_sm1, on, EDGES, FAR};
use crate::memory::{put_bit, Memory};
use crate::scan::{scan, DEFAULT_BUDGET};

fn with(rest: [u8; 2]) -> Memory {
    Memory { rest: rest.to_vec(), ..Memory::zero() }
}

/// The values of the edge timers and the leftovers.
fn told(memory: &Memory) -> String {
    let values = EDGES.map(|timer| memory.t[timer as usize]);
    format!("{values:?} left {:?}", memory.rest)
}

/// One scan over this memory; a refused one must change nothing.
fn after(records: &[Record], mut memory: Memory, elapsed: u32, budget: u32) -> String {
    let before = memory.clone();
    match scan(&file(records), &mut memory, elapsed, budget) {
        Ok(_) => told(&memory),
        Err(refusal) if memory == before => refusal.to_string(),
        Err(_) => "refused, yet the memory changed".to_string(),
    }
}

/// T0, T209, T210, T251, T252 and T255 with flow.
fn edges(rest: [u8; 2], elapsed: u32) -> String {
    after(&on(&EDGES, FAR), with(rest), elapsed, DEFAULT_BUDGET)
}

/// So many scans, one after the other.
fn in_parts(part: u32, count: usize) -> String {
    let bytes = file(&on(&EDGES, FAR));
    let mut memory = Memory::zero();
    for _ in 0..count {
        if let Err(refusal) = scan(&bytes, &mut memory, part, DEFAULT_BUDGET) {
            return refusal.to_string();
        }
    }
    told(&memory)
}

fn without_flow() -> String {
    let mut memory = with([5, 50]);
    EDGES.iter().for_each(|&timer| memory.t[timer as usize] = 9);
    after(&by_sm1(&EDGES), memory, 7, DEFAULT_BUDGET)
}

/// Only SM0 and the leftovers are set.
fn budget_0() -> String {
    let mut memory = with([9, 99]);
    let answer = scan(&file(&on(&EDGES, FAR)), &mut memory, 1, 0);
    let mut wanted = with([0, 0]);
    put_bit(&mut wanted.sm, 0, true);
    match answer {
        Ok(a) if memory == wanted => format!("{} steps {} record {}", a.ended, a.steps, a.record),
        _ => "something else".to_string(),
    }
}

fn wrong_size(rest: &[u8]) -> String {
    let memory = Memory { rest: rest.to_vec(), ..Memory::zero() };
    after(&on(&EDGES, FAR), memory, 1, DEFAULT_BUDGET)
}

/// A program that is refused, over leftovers and a time that are wrong too.
fn refused_program() -> String {
    after(&on(&[256], FAR), with([255, 255]), u32::MAX, DEFAULT_BUDGET)
}

/// One TON of each base executed three times in a scan.
fn in_a_loop() -> String {
    after(&again(3, &[209, 210, 252], FAR), with([8, 60]), 245, DEFAULT_BUDGET)
}

/// The same with a preset that the second execution reaches.
fn in_a_loop_to_the_end() -> String {
    after(&again(3, &[209, 210, 252], 5), with([8, 60]), 245, DEFAULT_BUDGET)
}

pub fn lines() -> Vec<Line> {
    let nine = "refused 9 record 0";
    let second = "[100, 100, 1000, 1000, 10000, 10000] left [0, 0]";
    vec![
        line("10,000 ms", second, edges([0, 0], 10_000)),
        line("99 ms", "[0, 0, 9, 9, 99, 99] left [9, 99]", edges([0, 0], 99)),
        line("1 ms over 9 and 99", "[1, 1, 1, 1, 1, 1] left [0, 0]", edges([9, 99], 1)),
        line("0 ms over 9 and 99", "[0, 0, 0, 0, 0, 0] left [9, 99]", edges([9, 99], 0)),
        line(
            "9,999 ms over 9 and 99",
            "[100, 100, 1000, 1000, 9999, 9999] left [8, 98]",
            edges([9, 99], 9_999),
        ),
        line("10,000 scans of 1 ms", second, in_parts(1, 10_000)),
        line("300 scans of 33 ms", "[99, 99, 990, 990, 9900, 9900] left [0, 0]", in_parts(33, 300)),
        line("without flow", "[0, 0, 0, 0, 0, 0] left [2, 57]", without_flow()),
        line("budget 0 and leftovers", "false steps 0 record 0", budget_0()),
        line("three passes", "[0, 9, 75, 0, 735, 0] left [3, 5]", in_a_loop()),
        line("three passes to 5", "[0, 5, 5, 0, 5, 0] left [3, 5]", in_a_loop_to_the_end()),
        line("leftovers 10 and 0", nine, edges([10, 0], 0)),
        line("leftovers 0 and 100", nine, edges([0, 100], 0)),
        line("leftovers 255 and 255", nine, edges([255, 255], 10_000)),
        line("elapsed 10,001", nine, edges([0, 0], 10_001)),
        line("elapsed 4,294,967,295", nine, edges([9, 99], u32::MAX)),
        line("one leftover", nine, wrong_size(&[0])),
        line("three leftovers", nine, wrong_size(&[0, 0, 0])),
        line("TON T256, leftovers and time wrong too", "refused 3 record 1", refused_program()),
    ]
}

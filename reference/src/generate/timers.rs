//! Programs of timers: every base at its edges, once over and in loops.

use crate::compose::{d, end, k, record, sm, t};
use crate::file::Record;
use crate::instruction::Instruction::{For, Inc, Ld, Ldi, Next, Ton};

/// The first and the last timer of each base.
pub const EDGES: [u32; 6] = [0, 209, 210, 251, 252, 255];

/// A preset that no scan of these reaches.
pub const FAR: i32 = 32767;

fn rung(contact: u32, timers: &[u32], preset: i32) -> Vec<Record> {
    let tons = timers.iter().map(|&timer| record(Ton, &[t(timer), k(preset)]));
    std::iter::once(record(Ld, &[sm(contact)])).chain(tons).collect()
}

/// LD SM0, TON of each, END.
pub fn on(timers: &[u32], preset: i32) -> Vec<Record> {
    let mut records = rung(0, timers, preset);
    records.push(end());
    records
}

/// LD SM1, TON of each, END: off where SM1 is.
pub fn by_sm1(timers: &[u32]) -> Vec<Record> {
    let mut records = rung(1, timers, FAR);
    records.push(end());
    records
}

/// FOR, LD SM0, TON of each, NEXT, END: so many executions of each in one scan.
pub fn again(passes: i32, timers: &[u32], preset: i32) -> Vec<Record> {
    let mut records = vec![record(For, &[k(passes)])];
    records.extend(rung(0, timers, preset));
    records.extend([record(Next, &[]), end()]);
    records
}

/// Timers of each base that run on, and T210, which starts itself again and is counted in D0.
pub fn running() -> Vec<Record> {
    let mut records = rung(0, &EDGES[..2], FAR);
    records.extend(rung(0, &EDGES[3..], FAR));
    records.extend([record(Ldi, &[t(210)]), record(Ton, &[t(210), k(25)])]);
    records.extend([record(Ld, &[t(210)]), record(Inc, &[d(0)]), end()]);
    records
}

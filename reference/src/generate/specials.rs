//! Files that stand for themselves: the document's own, and the largest and smallest.

use super::files::of_length;
use super::program::{program, Plan};
use super::rng::Rng;
use super::structure_faults::{any_steps, exact_steps, never_entered};
use crate::check::check;
use crate::compose::{d, end, file, k, label, m, record, sm, with_flow};
use crate::file::{encode, Record};
use crate::instruction::Instruction::{Cj, Ddiv, Dmov, For, Inc, Lbl, Ld, Mov, Next, Nop};

/// FOR 1000, FOR 9997, NEXT, NEXT, so many NOP, END.
pub fn ten_million(nops: usize) -> Vec<Record> {
    let (outer, inner) = (record(For, &[k(1000)]), record(For, &[k(9997)]));
    let mut records = vec![outer, inner, record(Next, &[]), record(Next, &[])];
    records.extend(vec![record(Nop, &[]); nops]);
    records.push(end());
    records
}

/// FOR 3, LD SM0, INC D0, NEXT, END.
pub fn three_passes() -> Vec<Record> {
    vec![record(For, &[k(3)]), record(Ld, &[sm(0)]), record(Inc, &[d(0)]), record(Next, &[]), end()]
}

/// FOR 4878, FOR 13, LD SM0, INC D0, NEXT, NEXT, so many NOP, END: with none it needs 200,000 steps.
pub fn counting_up(nops: usize) -> Vec<Record> {
    let mut records = vec![record(For, &[k(4878)]), record(For, &[k(13)])];
    records.extend([record(Ld, &[sm(0)]), record(Inc, &[d(0)])]);
    records.extend([record(Next, &[]), record(Next, &[])]);
    records.extend(vec![record(Nop, &[]); nops]);
    records.push(end());
    records
}

/// LD M0, CJ P1, FOR 100, FOR 32767, NEXT, NEXT, LBL P1, END: 4 steps with M0 on, else over three million.
pub fn long_way_round() -> Vec<Record> {
    let mut records = vec![record(Ld, &[m(0)]), record(Cj, &[label(1)])];
    records.extend([record(For, &[k(100)]), record(For, &[k(32767)])]);
    records.extend([record(Next, &[]), record(Next, &[]), record(Lbl, &[label(1)]), end()]);
    records
}

/// A program whose W is above this.
pub fn over_steps(rng: &mut Rng, steps: u32) -> Vec<Record> {
    loop {
        let plan = Plan { records: 30, steps: 1_000_000, loops: 3 };
        let records = program(rng, plan).records;
        if check(&file(&records)).is_ok_and(|accepted| accepted.steps > steps) {
            return records;
        }
    }
}

/// A program whose W is exactly this.
pub fn of_steps(rng: &mut Rng, steps: u64) -> Vec<u8> {
    let mut records = exact_steps(rng, steps - 1);
    records.push(end());
    file(&records)
}

pub fn ddiv_into(target: u32) -> Vec<u8> {
    file(&with_flow(Ddiv, &[k(7), k(2), d(target)]))
}

pub fn dmov(from: u32, to: u32) -> Vec<u8> {
    file(&with_flow(Dmov, &[d(from), d(to)]))
}

pub fn mov(from: u32, to: u32) -> Vec<u8> {
    file(&with_flow(Mov, &[d(from), d(to)]))
}

/// W a little past a power of two, or exactly at the limit.
fn of_many_steps(steps: u128) -> Vec<u8> {
    let mut records = any_steps(steps - 1);
    records.push(end());
    file(&records)
}

/// For the check.
pub fn files(rng: &mut Rng) -> Vec<Vec<u8>> {
    let shortest = file(&[end()]);
    let mut found = vec![shortest.clone(), Vec::new(), shortest[1..].to_vec()];
    found.extend([shortest[20..].to_vec(), shortest[21..].to_vec()]);
    found.extend([7898, 7899, 7999].map(|target| dmov(0, target)));
    found.extend([7896, 7897, 7996, 7997].map(ddiv_into));
    found.extend([file(&ten_million(998)), file(&ten_million(999))]);
    found.extend([10_000_000, 10_000_001, 9_999_999].map(|steps| of_steps(rng, steps)));
    found.extend([10_000_000, 10_000_001].map(of_many_steps));
    found.extend([31, 32, 63, 64, 65].map(|bits| of_many_steps((1u128 << bits) + 100)));
    found.extend([file(&never_entered(rng)), file(&three_passes())]);
    found.extend([2000, 2001].map(|count| file(&of_length(count))));
    found.extend([4096, 4097].map(|length| encode(&rng.bytes(length), &[end()])));
    found
}

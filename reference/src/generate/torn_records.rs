//! Torn files with records that the salvage keeps, or stops at.

use super::edges::{bad, good};
use super::operands::Hot;
use super::rng::Rng;
use crate::compose::{d, end, file, k, label, m, record, sm, y};
use crate::file::{encode_records, Operand, Record, RECORD};
use crate::instruction::Instruction::{self, *};
use crate::instruction::Shape;

type Bytes = Vec<u8>;

fn plain(instruction: Instruction) -> Record {
    record(instruction, &[])
}

/// Without its trailer.
fn bare(records: &[Record]) -> Bytes {
    encode_records(records)
}

/// 4 alone: a target that meets WORK, in part or whole.
fn into_work() -> Vec<Vec<Record>> {
    let targets = [
        record(Dmov, &[d(0), d(7899)]),
        record(Dmov, &[d(0), d(7998)]),
        record(Mov, &[k(1), d(7900)]),
        record(Inc, &[d(7999)]),
        record(Ddec, &[d(7950)]),
        record(Div, &[k(7), k(2), d(7899)]),
        record(Ddiv, &[k(7), k(2), d(7897)]),
        record(Ddiv, &[k(7), k(2), d(7996)]),
    ];
    let program = |target| vec![record(Ld, &[sm(0)]), target, record(Inc, &[d(0)]), end()];
    targets.map(program).to_vec()
}

/// 5 to 8.
fn refused_later() -> Vec<Vec<Record>> {
    let (load, out) = (record(Ld, &[sm(0)]), record(Out, &[y(0)]));
    let (open, close) = (record(For, &[k(32767)]), plain(Next));
    let set = record(Lbl, &[label(127)]);
    vec![
        // 5: an action with no flow, a pop of nothing, nine branches, a rung left open.
        vec![out, end()],
        vec![load, plain(Mpp), out, end()],
        [vec![load], vec![plain(Mps); 9], vec![end()]].concat(),
        vec![load, load, end()],
        // 6: NEXT with no FOR, nine FORs open, a FOR left open.
        vec![close, end()],
        [vec![record(For, &[k(1)]); 9], vec![close; 9], vec![end()]].concat(),
        vec![open, end()],
        // 7: a label set twice, a CJ with no label.
        vec![set, set, end()],
        vec![load, record(Cj, &[label(0)]), end()],
        // 8: W above 10,000,000.
        vec![open, open, close, close, end()],
    ]
}

/// Records that are kept: those that break 4 to 8, with END behind them and without, and
/// sound ones.
pub fn kept(rng: &mut Rng) -> Vec<Bytes> {
    let faulty = [into_work(), refused_later()].concat();
    let ended = faulty.iter().map(|records| bare(records));
    let endless = faulty.iter().map(|records| bare(&records[..records.len() - 1]));
    let mut found: Vec<Bytes> = ended.chain(endless).collect();
    found.extend(instructions(rng));
    found.extend(good_operands());
    found
}

/// Every instruction, and some zeros behind the trailer.
fn instructions(rng: &mut Rng) -> Vec<Bytes> {
    let hot = Hot::new(rng);
    let mut found = Vec::new();
    for &instruction in Instruction::ALL {
        let bytes = file(&[hot.record(rng, instruction), plain(Nop), end()]);
        found.push([bytes, vec![0; 3]].concat());
    }
    found
}

/// Records with one operand set, for each place of each instruction.
fn places(operands: fn(Shape) -> Vec<Operand>) -> Vec<Vec<Record>> {
    let mut found = Vec::new();
    for &instruction in Instruction::ALL {
        let shapes = instruction.shapes();
        let usual = shapes.map(|shape| good(shape)[0]);
        for (slot, &shape) in shapes.iter().enumerate() {
            let with = |operand: Operand| {
                let mut record = record(instruction, &usual);
                record.operands[slot] = operand;
                record
            };
            found.push(operands(shape).into_iter().map(with).collect());
        }
    }
    found
}

/// Operands at the edges of what is allowed, one file for each instruction and place.
fn good_operands() -> Vec<Bytes> {
    let mut files: Vec<Bytes> = places(good).iter().map(|records| bare(records)).collect();
    // An unused operand is zero at all edges.
    files.retain(|bytes| bytes.len() > RECORD);
    files
}

/// As the first record of a file, in its middle, and just ahead of its END.
fn around(stop: Record) -> [Bytes; 3] {
    let usual = [record(Ld, &[sm(0)]), record(Inc, &[d(0)]), end()];
    [0, 1, 2].map(|at| file(&[&usual[..at], &[stop], &usual[at..]].concat()))
}

/// 2: unknown numbers, next to the known ones and far from them; a spare byte that is not 0.
fn unknown() -> Vec<Record> {
    let mut found = Vec::new();
    for number in [24, 31, 41, 47, 56, 128, 151, 255] {
        found.push(Record { number, ..Record::default() });
    }
    for spare in [1, 2, 128, 255] {
        found.push(Record { spare, ..record(Ld, &[m(0)]) });
        found.push(Record { spare, ..Record::default() });
    }
    found
}

/// 3: an operand wrong by number, kind or group; an unused one that is not zero; and a target
/// out of range, which goes before WORK.
fn misfits() -> Vec<Record> {
    vec![
        record(Ld, &[m(2000)]),
        record(Ld, &[d(0)]),
        record(Ld, &[Operand::new(4, 1, 0)]),
        record(Ld, &[Operand::new(9, 0, 0)]),
        record(Ld, &[m(0), k(0)]),
        record(Ld, &[m(0), Operand::default(), Operand::new(0, 0, 1)]),
        record(Dmov, &[d(0), d(7999)]),
        record(Ddiv, &[k(7), k(2), d(7997)]),
    ]
}

/// Records that break 2 or 3 are not kept, nor what stands behind them.
pub fn stopping(rng: &mut Rng) -> Vec<Bytes> {
    let stops = [unknown(), misfits()].concat();
    let mut found: Vec<Bytes> = stops.into_iter().flat_map(around).collect();
    // One wrong operand for each place of each instruction.
    for wrong in places(bad) {
        let stop = rng.pick(&wrong);
        let at = rng.index(3);
        found.push(around(stop)[at].clone());
    }
    found.extend(no_ends());
    found
}

/// END and NOP with one byte set that must be zero: neither of them is one.
fn no_ends() -> Vec<Bytes> {
    let mut found = Vec::new();
    for at in 1..RECORD {
        for value in [1, 255] {
            // Ahead of it a NOP, behind it an END.
            let mut bytes = file(&[plain(Nop), end(), end()]);
            bytes[RECORD + at] = value;
            found.push(bytes);
        }
        let mut bytes = file(&[plain(Nop), plain(Nop), end()]);
        bytes[RECORD + at] = 1 << (at % 8);
        found.push(bytes);
    }
    found
}

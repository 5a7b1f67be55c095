//! The cases that document 01 wants run and compared, and the one of document 02, (vi).

use super::{line, told, Line};
use crate::compose::{d, end, file, k, record, sm, with_flow};
use crate::file::Record;
use crate::generate::specials::counting_up;
use crate::instruction::Instruction;
use crate::memory::{put_bit, Memory};
use crate::mover::{move_block, Block, Pool};
use crate::scan::{scan, scan_default};

fn long_program(nops: usize) -> Vec<Record> {
    let mut records = vec![
        record(Instruction::For, &[k(1000)]),
        record(Instruction::For, &[k(9997)]),
        record(Instruction::Next, &[]),
        record(Instruction::Next, &[]),
    ];
    records.extend(vec![record(Instruction::Nop, &[]); nops]);
    records.push(end());
    records
}

fn moved(records: &[Record], block: (u32, u32), pool: (u32, u32)) -> String {
    let mut bytes = file(records);
    let before = bytes.clone();
    let block = Block { start: block.0, length: block.1 };
    match move_block(&mut bytes, block, Pool { start: pool.0, end: pool.1 }) {
        Ok(place) => format!("moved to D{place}"),
        Err(refusal) if bytes == before => refusal.to_string(),
        Err(_) => "refused, yet the file changed".to_string(),
    }
}

fn ddiv_into(target: u32) -> String {
    let records = with_flow(Instruction::Ddiv, &[k(7), k(2), d(target)]);
    moved(&records, (100, 10), (200, 300))
}

fn dmov_from_99() -> String {
    moved(&with_flow(Instruction::Dmov, &[d(99), d(0)]), (100, 10), (200, 300))
}

/// D200 and D203 in use, pool 200 to 204, a block of the given length.
fn into_gap(length: u32) -> String {
    moved(&with_flow(Instruction::Mov, &[d(200), d(203)]), (100, length), (200, 204))
}

fn budget_0() -> String {
    let bytes = file(&with_flow(Instruction::Inc, &[d(0)]));
    let mut memory = Memory::zero();
    let answer = scan(&bytes, &mut memory, 500, 0);
    let mut only_sm0 = Memory::zero();
    put_bit(&mut only_sm0.sm, 0, true);
    match answer {
        Ok(a) if !a.ended && memory == only_sm0 => {
            format!("watchdog steps {} record {}", a.steps, a.record)
        }
        _ => "something else".to_string(),
    }
}

fn shortest() -> String {
    let mut bytes = vec![0u8; 28];
    bytes[0] = 0x17;
    bytes[20] = 1;
    bytes[22] = 1;
    bytes[24] = 0x1C;
    match crate::check::check(&bytes) {
        Ok(accepted) if file(&accepted.records) == bytes => {
            format!("accepted steps {}", accepted.steps)
        }
        _ => "something else".to_string(),
    }
}

/// The loop of T9 run with exactly its steps, and with one less.
fn budgets_around_end() -> String {
    let records = [
        record(Instruction::For, &[k(3)]),
        record(Instruction::Ld, &[sm(0)]),
        record(Instruction::Inc, &[d(0)]),
        record(Instruction::Next, &[]),
        end(),
    ];
    let mut found = String::new();
    for budget in [11, 10, 4] {
        let mut memory = Memory::zero();
        if let Ok(a) = scan(&file(&records), &mut memory, 0, budget) {
            found += &format!("{} {} {} {};", a.ended, a.steps, a.record, memory.d[0]);
        }
    }
    found
}

/// Without a budget: a program that needs 200,000 steps, and the same with one NOP more.
fn without_budget() -> String {
    let mut found = String::new();
    for nops in [0, 1] {
        let mut memory = Memory::zero();
        if let Ok(a) = scan_default(&file(&counting_up(nops)), &mut memory, 0) {
            found += &format!("{} {} {} {};", a.ended, a.steps, a.record, memory.d[0]);
        }
    }
    found
}

pub fn lines() -> Vec<Line> {
    let whole = "accepted records 1003 steps 10000000";
    vec![
        line("FOR 1000, FOR 9997, 998 NOP", whole, told(&long_program(998))),
        line("the same with one NOP more", "refused 8 record 0", told(&long_program(999))),
        line("block D100 of 10, DDIV target D106", "moved to D200", ddiv_into(106)),
        line("block D100 of 10, DDIV target D107", "refused 13 record 1", ddiv_into(107)),
        line("block D100 of 10, DMOV source D99", "refused 13 record 1", dmov_from_99()),
        line("D200 and D203 in use, length 2", "moved to D201", into_gap(2)),
        line("D200 and D203 in use, length 3", "refused 14 record 0", into_gap(3)),
        line("budget 0", "watchdog steps 0 record 0", budget_0()),
        line("the shortest program", "accepted steps 1", shortest()),
        line(
            "budgets around the end of T9",
            "true 11 4 3;false 10 4 3;false 4 1 1;",
            budgets_around_end(),
        ),
        line(
            "200,000 and 200,001 steps without a budget",
            "true 200000 6 -2122;false 200000 7 -2122;",
            without_budget(),
        ),
    ]
}

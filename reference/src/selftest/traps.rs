//! The errors that look right, and the other edges that document 01 spells out.

use super::{act, flags, line, told, Line};
use crate::compose::{d, end, file, k, record, sm, t, with_flow};
use crate::instruction::Instruction;
use crate::memory::{bit, put_bit, Memory};
use crate::scan::scan;

fn lowest_twice() -> String {
    let (memory, _) = act(Instruction::Add, &[k(-32768), k(-32768), d(0)], Memory::zero());
    format!("{} flags {}", memory.d[0], flags(&memory))
}

fn div_over_its_sources() -> String {
    let mut memory = Memory::zero();
    (memory.d[0], memory.d[1]) = (17, 5);
    let (memory, _) = act(Instruction::Div, &[d(0), d(1), d(0)], memory);
    format!("{:?}", &memory.d[..2])
}

fn ddiv_at_work() -> String {
    let into = |target: u32| told(&with_flow(Instruction::Ddiv, &[k(1), k(1), d(target)]));
    format!("{}; {}", into(7896), into(7897))
}

/// An instruction that ends in error, over flags that are all on.
fn in_error(instruction: Instruction, operands: &[crate::file::Operand]) -> String {
    let mut memory = Memory::zero();
    for number in 180..183 {
        put_bit(&mut memory.sm, number, true);
    }
    memory.d[0] = 77;
    let (memory, answer) = act(instruction, operands, memory);
    format!("{} record {} {} {}", answer.error, answer.error_record, memory.d[0], flags(&memory))
}

fn timer(old: i16, elapsed: u32) -> String {
    let bytes = file(&with_flow(Instruction::Ton, &[t(3), k(10)]));
    let mut memory = Memory::zero();
    memory.t[3] = old;
    match scan(&bytes, &mut memory, elapsed, 100) {
        Ok(_) => format!("{} {}", memory.t[3], bit(&memory.contacts, 3)),
        Err(refusal) => refusal.to_string(),
    }
}

fn for_0() -> String {
    let records = [
        record(Instruction::For, &[k(0)]),
        record(Instruction::Ld, &[sm(0)]),
        record(Instruction::Inc, &[d(0)]),
        record(Instruction::Next, &[]),
        end(),
    ];
    let mut memory = Memory::zero();
    match scan(&file(&records), &mut memory, 0, 100) {
        Ok(a) => format!("{} {} {} {}", a.ended, a.steps, a.record, memory.d[0]),
        Err(refusal) => refusal.to_string(),
    }
}

pub fn lines() -> Vec<Line> {
    use Instruction::{Div, Neg, Sqt, Vabs};
    vec![
        line("ADD -32768 and -32768", "0 flags 001", lowest_twice()),
        line("DIV D0 by D1 into D0", "[3, 2]", div_over_its_sources()),
        line(
            "DDIV to D7896, D7897",
            "accepted records 3 steps 3; refused 4 record 1",
            ddiv_at_work(),
        ),
        line("DIV by 0", "1 record 1 77 111", in_error(Div, &[k(1), k(0), d(0)])),
        line("SQT of -1", "2 record 1 77 111", in_error(Sqt, &[k(-1), d(0)])),
        line("NEG of -32768", "2 record 1 77 111", in_error(Neg, &[k(-32768), d(0)])),
        line("VABS of -32768", "2 record 1 77 111", in_error(Vabs, &[k(-32768), d(0)])),
        line("TON 10 at 4 after 500 ms", "9 false", timer(4, 500)),
        line("TON 10 at -4 after 1,000 ms", "10 true", timer(-4, 1_000)),
        line("TON 10 at 32767 after 10,000 ms", "10 true", timer(32767, 10_000)),
        line("FOR 0 passes its body by", "true 2 4 0", for_0()),
    ]
}

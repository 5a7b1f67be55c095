//! T1 to T12.

use super::{act, flags, line, told, Line};
use crate::compose::{d, end, group_m, k, record, sm, with_flow};
use crate::file::Operand;
use crate::instruction::Instruction;
use crate::memory::{pair, put_bit, Memory};

fn dmov_to(target: u32) -> String {
    told(&with_flow(Instruction::Dmov, &[k(5), d(target)]))
}

/// Words D0 on after one instruction over memory of zeros.
fn words(instruction: Instruction, operands: &[Operand], count: usize) -> String {
    let (memory, _) = act(instruction, operands, Memory::zero());
    format!("{:?}", &memory.d[..count])
}

fn with_flags(instruction: Instruction, operands: &[Operand]) -> String {
    let (memory, _) = act(instruction, operands, Memory::zero());
    format!("{} flags {}", memory.d[0], flags(&memory))
}

fn loop_of_three() -> String {
    told(&[
        record(Instruction::For, &[k(3)]),
        record(Instruction::Ld, &[sm(0)]),
        record(Instruction::Inc, &[d(0)]),
        record(Instruction::Next, &[]),
        end(),
    ])
}

fn group_of_two() -> String {
    let mut memory = Memory::zero();
    put_bit(&mut memory.m, 4, true);
    put_bit(&mut memory.m, 7, true);
    let (memory, _) = act(Instruction::Mov, &[group_m(2, 4), d(0)], memory);
    memory.d[0].to_string()
}

fn root_32() -> String {
    let (memory, _) = act(Instruction::Dsqt, &[k(83000), d(0)], Memory::zero());
    pair(memory.d[0], memory.d[1]).to_string()
}

fn quotient_32() -> String {
    let (memory, _) = act(Instruction::Ddiv, &[k(83000), k(2000), d(0)], Memory::zero());
    let (quotient, remainder) = (pair(memory.d[0], memory.d[1]), pair(memory.d[2], memory.d[3]));
    format!("{quotient} and {remainder}")
}

pub fn lines() -> Vec<Line> {
    use Instruction::*;
    vec![
        line("T1 DMOV to D7898", "accepted records 3 steps 3", dmov_to(7898)),
        line("T2 DMOV to D7899", "refused 4 record 1", dmov_to(7899)),
        line("T3 DMOV to D7999", "refused 3 record 1", dmov_to(7999)),
        line("T4 DIV 2500 by 1000", "[2, 500, 0]", words(Div, &[k(2500), k(1000), d(0)], 3)),
        line("T5 DIV -7 by 2", "[-3, -1, 0]", words(Div, &[k(-7), k(2), d(0)], 3)),
        line("T6 SQT 1000", "31 flags 001", with_flags(Sqt, &[k(1000), d(0)])),
        line("T7 DSQT 83000", "288", root_32()),
        line("T8 ADD 32767 and 1", "-32768 flags 010", with_flags(Add, &[k(32767), k(1), d(0)])),
        line("T9 FOR 3, LD SM0, INC D0, NEXT, END", "accepted records 5 steps 11", loop_of_three()),
        line("T10 group of n = 2 from M4", "9", group_of_two()),
        line("T11 DDIV 83000 by 2000", "41 and 1000", quotient_32()),
        line("T12 100000 in a pair", "[1, -31072, 0]", words(Dmov, &[k(100_000), d(0)], 3)),
    ]
}

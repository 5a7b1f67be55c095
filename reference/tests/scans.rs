//! Scans with answers worked out by hand.

use ninhalto_reference::compose::{d, end, file, group_m, k, label, m, record, sm, t, y};
use ninhalto_reference::file::Record;
use ninhalto_reference::instruction::Instruction::*;
use ninhalto_reference::memory::{bit, put_bit, Memory};
use ninhalto_reference::scan::{scan, scan_default, Answer};

fn run(records: &[Record], memory: &mut Memory) -> Answer {
    scan_default(&file(records), memory, 100).expect("an accepted program")
}

#[test]
fn nested_loops() {
    let inc = |word: u32| [record(Ld, &[sm(0)]), record(Inc, &[d(word)])];
    let mut records = vec![record(For, &[k(3)])];
    records.extend(inc(0));
    records.push(record(For, &[k(4)]));
    records.extend(inc(1));
    records.extend([record(Next, &[]), record(Next, &[]), end()]);
    let mut memory = Memory::zero();
    let answer = run(&records, &mut memory);
    assert_eq!((memory.d[0], memory.d[1]), (3, 12));
    // Inner loop 1 + 4 x 3 = 13; outer 1 + 3 x (2 + 13 + 1) = 49; END.
    assert_eq!((answer.ended, answer.steps, answer.record), (true, 50, 8));
}

#[test]
fn jump_over_a_loop() {
    let records = [
        record(Ld, &[m(0)]),
        record(Cj, &[label(9)]),
        record(For, &[k(5)]),
        record(Ld, &[sm(0)]),
        record(Inc, &[d(0)]),
        record(Next, &[]),
        record(Lbl, &[label(9)]),
        end(),
    ];
    let mut memory = Memory::zero();
    assert_eq!(run(&records, &mut memory).steps, 2 + 16 + 2);
    put_bit(&mut memory.m, 0, true);
    assert_eq!(run(&records, &mut memory).steps, 4);
    assert_eq!(memory.d[0], 5);
}

#[test]
fn blocks_and_branches() {
    // (M0 or M1) and (M2 or M3) -> Y0; MPS; and M4 -> Y1; MRD; and not M4 -> Y2; MPP -> Y3.
    let records = [
        record(Ld, &[m(0)]),
        record(Or, &[m(1)]),
        record(Ld, &[m(2)]),
        record(Or, &[m(3)]),
        record(Anb, &[]),
        record(Out, &[y(0)]),
        record(Mps, &[]),
        record(And, &[m(4)]),
        record(Out, &[y(1)]),
        record(Mrd, &[]),
        record(Ani, &[m(4)]),
        record(Out, &[y(2)]),
        record(Mpp, &[]),
        record(Out, &[y(3)]),
        end(),
    ];
    for inputs in 0..32u8 {
        let mut memory = Memory::zero();
        memory.m[0] = inputs;
        run(&records, &mut memory);
        let on = |number: u8| inputs >> number & 1 == 1;
        let flow = (on(0) || on(1)) && (on(2) || on(3));
        let wanted = [flow, flow && on(4), flow && !on(4), flow];
        let found = [0, 1, 2, 3].map(|number| bit(&memory.y, number));
        assert_eq!(found, wanted, "{inputs:05b}");
    }
}

#[test]
fn comparison_as_a_block() {
    // LD D0 > 5, LD= D1 0, ORB, OUT Y9: the second LD pushes.
    let records = [
        record(LdAbove, &[d(0), k(5)]),
        record(LdEqual, &[d(1), k(0)]),
        record(Orb, &[]),
        record(Out, &[y(9)]),
        end(),
    ];
    for (first, second, wanted) in [(6, 1, true), (5, 1, false), (-6, 0, true), (5, -1, false)] {
        let mut memory = Memory::zero();
        (memory.d[0], memory.d[1]) = (first, second);
        run(&records, &mut memory);
        assert_eq!(bit(&memory.y, 9), wanted);
    }
}

#[test]
fn timer_over_scans() {
    let records = [record(Ld, &[m(0)]), record(Ton, &[t(7), k(25)]), end()];
    let mut memory = Memory::zero();
    put_bit(&mut memory.m, 0, true);
    let mut values = Vec::new();
    for _ in 0..3 {
        scan(&file(&records), &mut memory, 1_000, 100).unwrap();
        values.push((memory.t[7], bit(&memory.contacts, 7)));
    }
    assert_eq!(values, [(10, false), (20, false), (25, true)]);
    put_bit(&mut memory.m, 0, false);
    scan(&file(&records), &mut memory, 1_000, 100).unwrap();
    assert_eq!((memory.t[7], bit(&memory.contacts, 7)), (0, false));
}

#[test]
fn short_group_targets() {
    let mut memory = Memory::zero();
    memory.m[0] = 0xFF;
    // 15 + 1 in a group of four bits: the low four bits are 0, the neighbours stay.
    run(&[record(Ld, &[sm(0)]), record(Inc, &[group_m(1, 2)]), end()], &mut memory);
    assert_eq!(memory.m[0], 0b1100_0011);
    // The flags judge the exact sum, not what the group keeps.
    let add = record(Add, &[k(16), k(0), group_m(1, 2)]);
    run(&[record(Ld, &[sm(0)]), add, end()], &mut memory);
    assert_eq!((memory.m[0], bit(&memory.sm, 180)), (0b1100_0011, false));
}

#[test]
fn first_error_in_order_of_execution() {
    // The first pass goes by the DIV by zero, since M0 is off until the pass ends.
    let records = [
        record(For, &[k(2)]),
        record(Ld, &[m(0)]),
        record(Div, &[k(1), k(0), d(0)]),
        record(Ld, &[sm(0)]),
        record(Sqt, &[k(-4), d(9)]),
        record(Set, &[m(0)]),
        record(Next, &[]),
        end(),
    ];
    let answer = run(&records, &mut Memory::zero());
    assert_eq!((answer.error, answer.error_record), (2, 4));
}

//! Timers of the three bases and leftovers, with answers worked out by hand.

use ninhalto_reference::compose::{d, end, file, k, label, m, record, sm, t};
use ninhalto_reference::exchange::exchange;
use ninhalto_reference::file::Record;
use ninhalto_reference::generate::timers::{again, by_sm1, on, EDGES, FAR};
use ninhalto_reference::instruction::Instruction::*;
use ninhalto_reference::memory::{bit, put_bit, Memory};
use ninhalto_reference::modbus;
use ninhalto_reference::mover::Block;
use ninhalto_reference::refusal::Refusal;
use ninhalto_reference::scan::{scan, scan_default, Answer};

fn with(rest: [u8; 2]) -> Memory {
    Memory { rest: rest.to_vec(), ..Memory::zero() }
}

fn run(records: &[Record], memory: &mut Memory, elapsed: u32) -> Answer {
    scan_default(&file(records), memory, elapsed).expect("an accepted program")
}

fn values(memory: &Memory) -> [i16; 6] {
    EDGES.map(|timer| memory.t[timer as usize])
}

#[test]
fn every_timer_has_its_base() {
    let every: Vec<u32> = (0..256).collect();
    let mut memory = with([3, 77]);
    run(&on(&every, FAR), &mut memory, 1_234);
    // 77 + 1234 = 13 x 100 + 11, and 3 + 1234 = 123 x 10 + 7.
    assert!(memory.t[..210].iter().all(|&value| value == 13));
    assert!(memory.t[210..252].iter().all(|&value| value == 123));
    assert!(memory.t[252..].iter().all(|&value| value == 1_234));
    assert_eq!(memory.rest, [7, 11]);
}

/// Leftovers before, elapsed, units of 100 ms, 10 ms and 1 ms, leftovers after.
type Row = ([u8; 2], u32, [i16; 3], [u8; 2]);

#[test]
fn units_and_leftovers() {
    let wanted: [Row; 17] = [
        ([0, 0], 0, [0, 0, 0], [0, 0]),
        ([0, 0], 1, [0, 0, 1], [1, 1]),
        ([0, 0], 9, [0, 0, 9], [9, 9]),
        ([0, 0], 10, [0, 1, 10], [0, 10]),
        ([0, 0], 99, [0, 9, 99], [9, 99]),
        ([0, 0], 100, [1, 10, 100], [0, 0]),
        ([0, 0], 101, [1, 10, 101], [1, 1]),
        ([0, 0], 9_999, [99, 999, 9_999], [9, 99]),
        ([0, 0], 10_000, [100, 1_000, 10_000], [0, 0]),
        ([9, 99], 0, [0, 0, 0], [9, 99]),
        ([9, 99], 1, [1, 1, 1], [0, 0]),
        ([9, 99], 9, [1, 1, 9], [8, 8]),
        ([9, 99], 99, [1, 10, 99], [8, 98]),
        ([9, 99], 100, [1, 10, 100], [9, 99]),
        ([9, 99], 10_000, [100, 1_000, 10_000], [9, 99]),
        ([9, 0], 1, [0, 1, 1], [0, 1]),
        ([0, 99], 1, [1, 0, 1], [1, 0]),
    ];
    for (rest, elapsed, [hundred, ten, one], left) in wanted {
        let mut memory = with(rest);
        run(&on(&EDGES, FAR), &mut memory, elapsed);
        assert_eq!(values(&memory), [hundred, hundred, ten, ten, one, one], "{rest:?} {elapsed}");
        assert_eq!(memory.rest, left, "{rest:?} {elapsed}");
    }
}

#[test]
fn units_are_fixed_once_for_a_scan() {
    // 95 + 105 is two units at each of four executions, and the leftover is set once.
    let mut memory = with([0, 95]);
    run(&again(4, &[0, 209], FAR), &mut memory, 105);
    assert_eq!((memory.t[0], memory.t[209], &memory.rest[..]), (8, 8, &[5, 0][..]));
    // Two records on one timer, of which the second has the smaller preset.
    let two = [
        record(Ld, &[sm(0)]),
        record(Ton, &[t(252), k(1_000)]),
        record(Ton, &[t(252), k(150)]),
        end(),
    ];
    run(&two, &mut memory, 100);
    assert_eq!((memory.t[252], bit(&memory.contacts, 252)), (150, true));
    // No unit in a whole loop where none is whole.
    let mut memory = with([0, 0]);
    run(&again(1_000, &[0, 210], FAR), &mut memory, 9);
    assert_eq!((memory.t[0], memory.t[210], &memory.rest[..]), (0, 0, &[9, 9][..]));
}

/// However a time is split, what a timer counted and what is left come to all of it.
#[test]
fn no_millisecond_is_lost() {
    let parts: [&[u32]; 6] = [
        &[1; 1_000],
        &[7; 143],
        &[999, 1, 0, 0, 1],
        &[9, 90, 900, 9_000],
        &[10_000, 10_000, 9_999],
        &[33, 67, 133, 3, 10_000, 1, 1],
    ];
    for rest in [[0, 0], [9, 99], [4, 56]] {
        for split in parts {
            let mut memory = with(rest);
            for &part in split {
                run(&on(&EDGES, FAR), &mut memory, part);
            }
            let total: u32 = split.iter().sum();
            let counted = EDGES.map(|timer| u32::try_from(memory.t[timer as usize]).unwrap());
            let tens = total + u32::from(rest[0]) - u32::from(memory.rest[0]);
            let hundreds = total + u32::from(rest[1]) - u32::from(memory.rest[1]);
            assert_eq!([counted[0] * 100, counted[1] * 100], [hundreds; 2], "{split:?}");
            assert_eq!([counted[2] * 10, counted[3] * 10], [tens; 2], "{split:?}");
            assert_eq!(counted[4..], [total; 2], "{split:?}");
        }
    }
}

#[test]
fn leftovers_advance_without_timers() {
    let mut memory = with([5, 95]);
    run(&[end()], &mut memory, 17);
    assert_eq!(memory.rest, [2, 12]);
    run(&by_sm1(&EDGES), &mut memory, 17);
    assert_eq!((values(&memory), &memory.rest[..]), ([0; 6], &[9, 29][..]));
    // A jump over the timer: it keeps its value, and gets no unit of that time later.
    let over = [
        record(Ld, &[m(0)]),
        record(Cj, &[label(1)]),
        record(Ld, &[sm(0)]),
        record(Ton, &[t(0), k(FAR)]),
        record(Lbl, &[label(1)]),
        end(),
    ];
    run(&over, &mut memory, 100);
    put_bit(&mut memory.m, 0, true);
    run(&over, &mut memory, 5_000);
    put_bit(&mut memory.m, 0, false);
    run(&over, &mut memory, 71);
    assert_eq!((memory.t[0], &memory.rest[..]), (2, &[0, 0][..]));
}

#[test]
fn any_budget_sets_the_leftovers() {
    let bytes = file(&on(&EDGES, FAR));
    for budget in 0..=8 {
        let mut memory = with([9, 99]);
        let answer = scan(&bytes, &mut memory, 101, budget).unwrap();
        assert_eq!(memory.rest, [0, 0]);
        let all = [2, 2, 11, 11, 101, 101];
        let due = budget.saturating_sub(1).min(6) as usize;
        assert_eq!(values(&memory)[..due], all[..due]);
        assert_eq!(values(&memory)[due..], [0; 6][due..]);
        assert_eq!(answer.ended, budget == 8);
    }
}

#[test]
fn refusal_9() {
    let nine = Err(Refusal::new(9, 0));
    let bytes = file(&on(&EDGES, FAR));
    let told = |rest: &[u8], elapsed: u32, budget: u32| {
        let before = Memory { rest: rest.to_vec(), ..Memory::zero() };
        let mut memory = before.clone();
        let answer = scan(&bytes, &mut memory, elapsed, budget);
        assert!(answer.is_ok() || memory == before);
        answer.map(|_| ())
    };
    for budget in [0, 100] {
        assert_eq!(told(&[9, 99], 10_000, budget), Ok(()));
        for elapsed in [10_001, 32_767, 65_536, u32::MAX] {
            assert_eq!(told(&[0, 0], elapsed, budget), nine);
        }
        for rest in [[10, 0], [0, 100], [10, 100], [255, 0], [0, 255], [99, 9]] {
            assert_eq!(told(&rest, 0, budget), nine, "{rest:?}");
        }
        for rest in [&[][..], &[0], &[0, 0, 0]] {
            assert_eq!(told(rest, 0, budget), nine, "{rest:?}");
        }
    }
    // 1 to 8 come first.
    let mut memory = with([255, 255]);
    assert_eq!(scan(&bytes[1..], &mut memory, u32::MAX, 0), Err(Refusal::new(1, 0)));
    let into_work = file(&[record(Ld, &[sm(0)]), record(Inc, &[d(7900)]), end()]);
    assert_eq!(scan(&into_work, &mut memory, 10_001, 0), Err(Refusal::new(4, 1)));
    assert_eq!(memory, with([255, 255]));
}

/// The exchange and the slave don't look at them, and leave them.
#[test]
fn others_leave_the_leftovers() {
    let mut memory = with([255, 255]);
    memory.d[5] = 7;
    assert_eq!(exchange(&mut memory.d, Block { start: 5, length: 1 }, 9), Ok(()));
    let frame = modbus::crc::sealed(vec![1, 6, 0, 5, 0x12, 0x34]);
    let mut reply = [0; 256];
    let told = modbus::answer(1, &frame, &mut memory.m, &mut memory.d, &mut reply);
    assert_eq!(told, Ok(modbus::Answer::Reply(8)));
    assert_eq!((memory.d[5], memory.d[9], &memory.rest[..]), (0x1234, 7, &[255, 255][..]));
}

//! Jobs and their texts with answers worked out by hand.

use ninhalto_reference::compose::{d, end, file, record, sm};
use ninhalto_reference::generate::specials::ddiv_into;
use ninhalto_reference::instruction::Instruction::{Ld, Mov};
use ninhalto_reference::jobs::text::{read, written};
use ninhalto_reference::jobs::{job, Task};
use ninhalto_reference::mover::Block;
use ninhalto_reference::refusal::Refusal;

fn task(start: u32, length: u32, place: u32) -> Task {
    Task { block: Block { start, length }, place }
}

/// LD SM0, MOV from one to other, MOV from one to other, END.
fn moving([a, b]: [u32; 2], [x, y]: [u32; 2]) -> Vec<u8> {
    file(&[record(Ld, &[sm(0)]), record(Mov, &[d(a), d(b)]), record(Mov, &[d(x), d(y)]), end()])
}

fn numbered() -> Vec<i16> {
    (0..8000).collect()
}

/// The refusal, its record, the lines; nothing may have changed.
fn told(bytes: &[u8], words: Option<usize>, tasks: &[Task]) -> (u32, u32, u32, u32) {
    let mut file = bytes.to_vec();
    let mut table: Option<Vec<i16>> = words.map(|words| vec![7; words]);
    let before = table.clone();
    let refused = job(&mut file, table.as_deref_mut(), tasks).unwrap_err();
    assert_eq!((&file[..], &table), (bytes, &before));
    (refused.refusal.number, refused.refusal.record, refused.line, refused.other)
}

#[test]
fn two_blocks() {
    let old = moving([10, 20], [21, 30]);
    let tasks = [task(10, 1, 500), task(20, 2, 600)];
    for order in [[0, 1], [1, 0]] {
        let (mut file, mut table) = (old.clone(), numbered());
        let lines = order.map(|line| tasks[line]);
        assert_eq!(job(&mut file, Some(&mut table), &lines), Ok(()));
        assert_eq!(file, moving([500, 600], [601, 30]));
        let mut wanted = numbered();
        for (at, word) in [(10, 500), (500, 10), (20, 600), (21, 601), (600, 20), (601, 21)] {
            wanted[at] = word;
        }
        assert_eq!(table, wanted);
        let back = lines.map(|line| line.back());
        assert_eq!(back[order[0]], task(500, 1, 10));
        assert_eq!(job(&mut file, Some(&mut table), &back), Ok(()));
        assert_eq!((file, table), (old.clone(), numbered()));
    }
}

#[test]
fn no_table_and_no_line() {
    let mut file = ddiv_into(106);
    assert_eq!(job(&mut file, None, &[task(100, 10, 300)]), Ok(()));
    assert_eq!(file, ddiv_into(306));
    let mut table = numbered();
    assert_eq!(job(&mut file, Some(&mut table), &[]), Ok(()));
    assert_eq!((file, table), (ddiv_into(306), numbered()));
}

#[test]
fn refusals_in_their_order() {
    let sound = ddiv_into(106);
    let over = vec![task(0, 0, 0); 65];
    assert_eq!(told(&[], Some(1), &over), (16, 0, 0, 0));
    assert_eq!(told(&[], Some(1), &over[1..]), (1, 0, 0, 0));
    for words in [0, 1, 7999, 8001] {
        assert_eq!(told(&sound, Some(words), &over[1..]), (9, 0, 0, 0));
    }
    assert_eq!(told(&sound, None, &over[1..]), (10, 0, 0, 0));
    let good = task(200, 5, 300);
    for (line, number, record) in [
        (task(7999, 2, 0), 10, 0),
        (task(0, u32::MAX, u32::MAX), 10, 0),
        (task(0, 1, 8000), 11, 0),
        (task(0, 10, 7991), 11, 0),
        (task(7900, 1, u32::MAX), 11, 0),
        (task(7900, 1, 0), 12, 0),
        (task(106, 3, 0), 13, 1),
        (task(106, 4, 109), 14, 0),
        (task(0, 1, 109), 14, 0),
        (task(0, 10, 7990), 14, 0),
        (task(0, 10, 7891), 14, 0),
    ] {
        assert_eq!(told(&sound, None, &[line, good]), (number, record, 0, 0), "{line:?}");
        assert_eq!(told(&sound, None, &[good, line]), (number, record, 1, 1), "{line:?}");
        // Lines that meet are told after every line, and the first line that is wrong.
        let all = [good, good, line, task(0, 0, 0)];
        assert_eq!(told(&sound, Some(8000), &all), (number, record, 2, 2), "{line:?}");
    }
}

#[test]
fn meetings() {
    let sound = ddiv_into(106);
    let first = task(100, 10, 300);
    for other in [
        first,
        task(109, 1, 400).back(),
        task(400, 10, 91).back(),
        task(400, 10, 300),
        task(400, 10, 309),
        task(400, 10, 291),
        task(400, 1, 305),
        task(300, 10, 400),
        task(309, 1, 400),
        task(291, 10, 400),
    ] {
        let both = (told(&sound, None, &[first, other]), told(&sound, None, &[other, first]));
        // The way back is to where the operand is.
        let alone = other.place >= 91 && other.place < 110;
        match alone {
            true => assert_eq!((both.0 .0, both.1 .0), (14, 14)),
            false => assert_eq!(both, ((14, 0, 1, 0), (14, 0, 1, 0)), "{other:?}"),
        }
    }
    for other in [task(110, 10, 310), task(90, 10, 290), task(310, 10, 400), task(400, 9, 291)] {
        for tasks in [[first, other], [other, first]] {
            assert_eq!(job(&mut sound.clone(), None, &tasks), Ok(()), "{other:?}");
        }
    }
    // The first line that meets an earlier one, and the first of these.
    let (one, two) = (task(0, 2, 10), task(20, 2, 30));
    assert_eq!(told(&sound, None, &[one, two, task(11, 20, 500), one]), (14, 0, 2, 0));
    assert_eq!(told(&sound, None, &[two, one, task(11, 20, 500), one]), (14, 0, 2, 0));
    assert_eq!(told(&sound, None, &[first, two, one, two]), (14, 0, 3, 1));
}

#[test]
fn texts() {
    let tasks = [task(100, 10, 300), task(0, 0, u32::MAX)];
    let text = b"100 10 300\n0 0 4294967295\n";
    assert_eq!(read(text).as_deref(), Ok(&tasks[..]));
    assert_eq!(written(&tasks), text);
    assert_eq!(read(b""), Ok(Vec::new()));
    for wrong in [
        "\n",
        "1 2 3",
        "1 2\n",
        "1 2 3 4\n",
        " 1 2 3\n",
        "1 2 3 \n",
        "1  2 3\n",
        "1\t2 3\n",
        "1 2 3\r\n",
        "01 2 3\n",
        "1 02 3\n",
        "1 2 00\n",
        "+1 2 3\n",
        "-1 2 3\n",
        "4294967296 2 3\n",
        "1 4294967296 3\n",
        "1 2 4294967296\n",
        "1 2 99999999999999999999999999\n",
        "x 2 3\n",
        "1 2 \n",
        "\0",
    ] {
        assert_eq!(read(wrong.as_bytes()), Err(Refusal::new(15, 0)), "{wrong}");
        let second = [text, wrong.as_bytes()].concat();
        assert_eq!(read(&second), Err(Refusal::new(15, 2)), "{wrong}");
    }
    let over = "1 2 3\n".repeat(70) + "x\n";
    assert_eq!(read(over.as_bytes()), Err(Refusal::new(15, 70)));
}

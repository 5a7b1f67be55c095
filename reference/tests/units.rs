//! Declarations, texts and unit lists with answers worked out by hand.

use ninhalto_reference::mover::Block;
use ninhalto_reference::refusal::Refusal;
use ninhalto_reference::units::listed::{read, whole};
use ninhalto_reference::units::text::{longer, Longer};
use ninhalto_reference::units::{clashes, Clash, Declaration, Pair};

fn declared(unit: u32, name: &[u8; 8], start: u32, length: u32) -> Declaration {
    Declaration { unit, name: *name, block: Block { start, length } }
}

const A: &[u8; 8] = b"MIXER  1";
const B: &[u8; 8] = b"MIXER  2";

fn told(list: &[Declaration], room: usize) -> Result<Vec<Pair>, u32> {
    let mut report = vec![[7, 9]; room];
    match clashes(list, &mut report) {
        Ok(count) => {
            assert!(report[count..].iter().all(|&pair| pair == [7, 9]));
            Ok(report[..count].to_vec())
        }
        Err(refusal) => {
            assert!(report.iter().all(|&pair| pair == [7, 9]) && refusal.record == 0);
            Err(refusal.number)
        }
    }
}

#[test]
fn relations() {
    let one = declared(1, A, 100, 6);
    let two_blocks = Some(Clash::TwoBlocks);
    let shared = Some(Clash::SharedWords);
    let wanted = [
        (A, 100, 6, None),
        (A, 100, 5, two_blocks),
        (A, 101, 6, two_blocks),
        (A, 500, 6, two_blocks),
        (B, 100, 6, shared),
        (B, 105, 3, shared),
        (B, 106, 3, None),
        (B, 94, 6, None),
        (B, 94, 7, shared),
        (B, 0, 8000, shared),
        (B, 102, 1, shared),
    ];
    for (name, start, length, clash) in wanted {
        for unit in [1, 2] {
            let other = declared(unit, name, start, length);
            assert_eq!(one.clash(other), clash, "{other:?}");
            assert_eq!(other.clash(one), clash, "{other:?}");
        }
    }
    let other = declared(1, b"\0IXER  1", 100, 6);
    assert_eq!(one.clash(other), shared);
}

#[test]
fn reports() {
    let list = [
        declared(1, A, 100, 6),
        declared(2, B, 200, 6),
        declared(3, A, 100, 6),
        declared(1, B, 105, 96),
        declared(4, b"        ", 7900, 100),
    ];
    let found = vec![[0, 3], [1, 3], [2, 3]];
    assert_eq!(told(&list, 2016), Ok(found.clone()));
    assert_eq!(told(&list, 2100), Ok(found));
    assert_eq!(told(&[], 2016), Ok(vec![]));
    assert_eq!(told(&list[..1], 2016), Ok(vec![]));
    let every: Vec<Declaration> = (1..=64).map(|length| declared(1, A, 0, length)).collect();
    let pairs = told(&every, 2016).unwrap();
    assert_eq!((pairs.len(), pairs[0], pairs[63], pairs[2015]), (2016, [0, 1], [1, 2], [62, 63]));
}

#[test]
fn refusals() {
    let good = declared(1, A, 7999, 1);
    assert_eq!(told(&[good; 64], 2016), Ok(vec![]));
    assert_eq!(told(&[good; 64], 2015), Err(16));
    assert_eq!(told(&[good; 65], 2016), Err(10));
    assert_eq!(told(&[good; 65], 0), Err(10));
    assert_eq!(told(&[], 0), Err(16));
    assert_eq!(told(&[], 2015), Err(16));
    assert_eq!(told(&[declared(0, A, 0, 8000)], 2016), Ok(vec![]));
    let far = u32::MAX;
    for (start, length) in
        [(5, 0), (8000, 0), (8000, 1), (7999, 2), (0, 8001), (far, 1), (1, far), (far, far)]
    {
        let wrong = declared(1, B, start, length);
        assert_eq!(told(&[good, wrong], 2016), Err(10), "{wrong:?}");
        assert_eq!(told(&[wrong, good], 0), Err(10), "{wrong:?}");
    }
}

fn line<'a>(first: &'a str, second: &'a str) -> Longer<'a> {
    longer(first.as_bytes(), second.as_bytes())
}

#[test]
fn longer_texts() {
    let (six, ten) = ("MIXER  1 100 6\n", "MIXER  2 0 10\nmore");
    assert_eq!(line(six, ten), Longer::Second(b"MIXER  2 0 10\n"));
    assert_eq!(line(ten, six), Longer::First(b"MIXER  2 0 10\n"));
    assert_eq!(line(six, "PUMP   A 99 6\n"), Longer::First(six.as_bytes()));
    assert_eq!(line("PUMP   A 99 6\n", six), Longer::First(b"PUMP   A 99 6\n"));
    assert_eq!(line(six, "1 2 3 4  8000 8000\n"), Longer::Second(b"1 2 3 4  8000 8000\n"));
    assert_eq!(line("         0 0\n\n", "         8000 0\n"), Longer::First(b"         0 0\n"));
    assert_eq!(longer(b"\0\xFF\r\t  \x80Z 1 2\n", six.as_bytes()), Longer::Second(six.as_bytes()));
}

#[test]
fn misspelt_texts() {
    let good = "MIXER  1 100 6\n";
    for end in 0..good.len() {
        assert_eq!(line(&good[..end], good), Longer::Nothing);
        assert_eq!(line(good, &good[..end]), Longer::Nothing);
    }
    for wrong in [
        "MIXER  1 100 06\n",
        "MIXER  1 0100 6\n",
        "MIXER  1 -0 6\n",
        "MIXER  1 100 -6\n",
        "MIXER  1 +100 6\n",
        "MIXER  1 100 8001\n",
        "MIXER  1 8001 6\n",
        "MIXER  1 4294967396 6\n",
        "MIXER  1 100 18446744073709551622\n",
        "MIXER  1  100 6\n",
        "MIXER  1 100  6\n",
        "MIXER  1 100 6 \n",
        "MIXER  1 100 6\r\n",
        "MIXER  1\t100 6\n",
        "MIXER  1 100 6 7\n",
        "MIXER 100 6\n",
        "MIX\nR  1 100 6\n",
        "MIXER  10 100 6\n",
    ] {
        assert_eq!(line(wrong, good), Longer::Nothing, "{wrong}");
        assert_eq!(line(good, wrong), Longer::Nothing, "{wrong}");
    }
}

#[test]
fn unit_lists() {
    let text = b"1 MIXER  1 100 6\n65535          0 4294967295\n0 1 2 3 \0\xFF 8001 0\n";
    let wanted = [
        declared(1, A, 100, 6),
        declared(65535, b"        ", 0, u32::MAX),
        declared(0, b"1 2 3 \0\xFF", 8001, 0),
    ];
    assert_eq!(whole(text), Ok(wanted.to_vec()));
    assert_eq!(whole(b""), Ok(vec![]));
    let unended = read(&text[..text.len() - 1]);
    assert_eq!(unended.declarations, wanted[..2]);
    assert_eq!(unended.refusal, Some(Refusal::new(15, 2)));
    let long = b"1 MIXER  1 100 6\n".repeat(80);
    assert_eq!(whole(&long).map(|list| list.len()), Ok(80));
}

#[test]
fn misspelt_unit_lists() {
    let good = "1 MIXER  1 100 6\n";
    for wrong in [
        "\n",
        "65536 MIXER  1 100 6\n",
        "01 MIXER  1 100 6\n",
        "-0 MIXER  1 100 6\n",
        " 1 MIXER  1 100 6\n",
        "1 MIXER  1 4294967296 6\n",
        "1 MIXER  1 100 4294967296\n",
        "1 MIXER  1 100 06\n",
        "1 MIXER  1 100 6\r\n",
        "1 MIXER  1 100 6 \n",
        "1 MIXER  1 100\n",
        "1 MIXER 100 6\n",
        "1  MIXER  1 100 6\n",
        "MIXER  1 100 6\n",
        "1 MIX\nR  1 100 6\n",
    ] {
        let refused = |text: String| whole(text.as_bytes()).err();
        assert_eq!(refused(format!("{wrong}{good}")), Some(Refusal::new(15, 0)), "{wrong}");
        assert_eq!(refused(format!("{good}{good}{wrong}")), Some(Refusal::new(15, 2)), "{wrong}");
        assert_eq!(refused(format!("{good}{wrong}{wrong}")), Some(Refusal::new(15, 1)), "{wrong}");
    }
}

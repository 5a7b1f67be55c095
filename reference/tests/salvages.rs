//! Salvages with answers worked out by hand.

use ninhalto_reference::check::check;
use ninhalto_reference::compose::{d, end, file, k, label, m, record, sm, y};
use ninhalto_reference::file::{encode, encode_records, trailer, Record};
use ninhalto_reference::generate::specials::three_passes;
use ninhalto_reference::instruction::Instruction::{
    Cj, Dmov, For, Inc, Lbl, Ld, Mov, Mpp, Next, Nop, Out,
};
use ninhalto_reference::refusal::Refusal;
use ninhalto_reference::salvage::{salvage, Salvaged, LONGEST};
use std::path::PathBuf;
use std::process::Command;

/// The file that is written and what is told. Bytes past the file are as they were.
fn done(torn: &[u8]) -> (Vec<u8>, usize, bool, usize) {
    let mut out = vec![0xA5; LONGEST + 40];
    let told = salvage(torn, &mut out).unwrap();
    let length = told.length();
    assert!(out[length..].iter().all(|&byte| byte == 0xA5));
    let mut exact = vec![0; length];
    assert_eq!(salvage(torn, &mut exact), Ok(told));
    assert_eq!(exact, out[..length]);
    assert_eq!(number(torn, length - 1), 16);
    (exact, told.kept, told.added, told.rest)
}

/// The number of a refusal, with record 0; nothing may be written.
fn number(torn: &[u8], size: usize) -> u32 {
    let mut out = vec![0xA5; size];
    let refusal = salvage(torn, &mut out).unwrap_err();
    assert_eq!(refusal, Refusal::new(refusal.number, 0));
    assert!(out.iter().all(|&byte| byte == 0xA5));
    refusal.number
}

/// A file of these records, and END if it has none.
fn ended(records: &[Record]) -> Vec<u8> {
    match records.last() == Some(&end()) {
        true => file(records),
        false => file(&[records, &[end()]].concat()),
    }
}

#[test]
fn nothing_and_the_shortest() {
    let mut shortest = vec![0x17];
    shortest.extend([0; 19]);
    shortest.extend([1, 0, 1, 0, 0x1C, 0, 0, 0]);
    assert_eq!(done(&[]), (shortest.clone(), 0, true, 0));
    for length in 0..20 {
        assert_eq!(done(&shortest[..length]), (shortest.clone(), 0, true, length));
    }
    for length in 20..=28 {
        assert_eq!(done(&shortest[..length]), (shortest.clone(), 1, false, length - 20));
    }
}

#[test]
fn accepted_files_stay_as_they_are() {
    let programs = [vec![end()], three_passes(), vec![Record::default(); 1999]];
    for records in programs {
        let whole = ended(&records);
        let count = (whole.len() - 8) / 20;
        assert!(check(&whole).is_ok());
        assert_eq!(done(&whole), (whole.clone(), count, false, 8));
    }
}

#[test]
fn cuts_keep_what_is_whole() {
    let records = three_passes();
    let whole = file(&records);
    for length in 0..=whole.len() {
        let kept = (length / 20).min(5);
        let wanted = ended(&records[..kept]);
        let told = done(&whole[..length]);
        assert_eq!(told, (wanted.clone(), kept, kept < 5, length - 20 * kept));
        // Once more changes no byte.
        let count = (wanted.len() - 8) / 20;
        assert_eq!(done(&wanted), (wanted.clone(), count, false, 8));
    }
}

#[test]
fn trailers_are_not_looked_at() {
    let records = encode_records(&three_passes());
    let whole = file(&three_passes());
    for other in [[0; 8], [255; 8], [2, 0, 5, 0, 108, 0, 0, 0], [1, 0, 5, 0, 109, 0, 0, 0]] {
        assert_eq!(done(&[&records[..], &other].concat()), (whole.clone(), 5, false, 8));
    }
    for garbage in [1, 7, 8, 19, 20, 21, 27, 28, 1000] {
        let torn = [records.clone(), vec![0xC3; garbage]].concat();
        assert_eq!(done(&torn), (whole.clone(), 5, false, garbage));
    }
}

#[test]
fn the_first_end_stops() {
    let nop = record(Nop, &[]);
    let one = file(&[end()]);
    assert_eq!(done(&file(&[end(), nop, end()])), (one.clone(), 1, false, 48));
    assert_eq!(done(&file(&[end(); 4])), (one.clone(), 1, false, 68));
    assert_eq!(done(&file(&[nop, end(), nop, nop])), (file(&[nop, end()]), 2, false, 48));
    // Not behind a record that is none.
    let stop = Record { number: 24, ..Record::default() };
    assert_eq!(done(&file(&[stop, end()])), (one, 0, true, 48));
    assert_eq!(done(&file(&[nop, stop, end()])), (file(&[nop, end()]), 1, true, 48));
}

#[test]
fn a_trailer_may_read_as_a_record() {
    // 01 00, then 04 00 58 00 00 00: LD M88.
    let nops = [Record::default(); 4];
    let torn = [file(&nops), vec![0; 12]].concat();
    let wanted = file(&[&nops[..], &[record(Ld, &[m(88)]), end()]].concat());
    assert_eq!(done(&torn), (wanted, 5, true, 0));
    assert_eq!(done(&torn[..99]), (ended(&nops), 4, true, 19));
}

#[test]
fn four_to_eight_are_left_to_the_check() {
    let load = record(Ld, &[sm(0)]);
    let (open, close) = (record(For, &[k(32767)]), record(Next, &[]));
    let set = record(Lbl, &[label(5)]);
    for (number, records) in [
        (4, vec![load, record(Dmov, &[d(0), d(7899)]), end()]),
        (4, vec![load, record(Mov, &[d(0), d(7999)]), record(Inc, &[d(1)]), end()]),
        (5, vec![record(Out, &[y(0)]), end()]),
        (5, vec![load, record(Mpp, &[]), end()]),
        (6, vec![close, end()]),
        (6, vec![open, load, record(Out, &[y(0)]), end()]),
        (7, vec![set, set, end()]),
        (7, vec![load, record(Cj, &[label(5)]), end()]),
        (8, vec![open, open, close, close, end()]),
    ] {
        let whole = file(&records);
        let count = records.len();
        assert_eq!(done(&whole), (whole.clone(), count, false, 8));
        let bare = &whole[..20 * (count - 1)];
        assert_eq!(done(bare), (whole.clone(), count - 1, true, 0));
        assert_eq!(check(&whole).unwrap_err().number, number);
    }
}

#[test]
fn two_and_three_stop() {
    let load = record(Ld, &[sm(0)]);
    let mut wrong: Vec<Record> = [24, 31, 41, 47, 56, 255]
        .map(|number| Record { number, ..Record::default() })
        .into_iter()
        .collect();
    wrong.extend([Record { spare: 1, ..load }, Record { spare: 255, ..end() }]);
    wrong.extend([record(Ld, &[m(2000)]), record(Ld, &[d(0)]), record(Ld, &[m(0), k(0)])]);
    wrong.extend([record(Dmov, &[d(0), d(7999)]), record(Nop, &[k(0)])]);
    for stop in wrong {
        assert!(matches!(check(&file(&[stop])).unwrap_err().number, 2 | 3));
        let torn = file(&[load, stop, load, end()]);
        assert_eq!(done(&torn), (file(&[load, end()]), 1, true, 68), "{stop:?}");
        assert_eq!(done(&torn[20..]), (file(&[end()]), 0, true, 68), "{stop:?}");
    }
    // END with any other byte set is none.
    for at in 1..20 {
        let mut torn = file(&[load, end(), end()]);
        torn[20 + at] = 1;
        assert_eq!(done(&torn), (file(&[load, end()]), 1, true, 48));
    }
}

#[test]
fn comments_are_read_as_records() {
    let records = three_passes();
    let text = encode(b"twenty bytes of text", &records);
    assert_eq!(done(&text), (file(&[end()]), 0, true, text.len()));
    let nops = [[Record::default(); 2].to_vec(), records.clone()].concat();
    assert_eq!(done(&encode(&[0; 40], &records)), (file(&nops), 7, false, 8));
    // Twenty-one zeros: one NOP, and what is behind it is shifted by one.
    let shifted = encode(&[0; 21], &records);
    assert_eq!(done(&shifted), (file(&[Record::default(), end()]), 1, true, 109));
}

#[test]
fn two_thousand_records() {
    let zeros = vec![0; 65536];
    let last = encode_records(&[end()]);
    let most = [&zeros[..39980], &last, &trailer(1, 2000, 40008)].concat();
    assert_eq!(done(&most), (most.clone(), 2000, false, 8));
    assert_eq!(done(&zeros[..39980]), (most.clone(), 1999, true, 0));
    assert_eq!(done(&zeros[..39999]), (most.clone(), 1999, true, 19));
    let more = [&zeros[..39980], &last, &zeros[40000..]].concat();
    assert_eq!(done(&more), (most, 2000, false, 25536));
    let late = [&zeros[..40000], &last].concat();
    let stopped = [&zeros[..40000], &[24; 20]].concat();
    // 1 goes before 16.
    for size in [LONGEST + 20, LONGEST, LONGEST - 1, 28, 0] {
        for torn in [&zeros[..40000], &zeros[..40019], &zeros, &late, &stopped] {
            assert_eq!(number(torn, size), 1);
        }
    }
    assert_eq!(number(&zeros[..39980], LONGEST - 1), 16);
}

fn path(name: &str) -> PathBuf {
    PathBuf::from(env!("CARGO_TARGET_TMPDIR")).join(name)
}

/// What the command says of a torn file.
fn said(torn: &[u8], out: &PathBuf) -> String {
    let from = path("torn.bin");
    std::fs::write(&from, torn).unwrap();
    let program = env!("CARGO_BIN_EXE_ninhalto-reference");
    let run = Command::new(program).arg("salvage").args([&from, out]).output().unwrap();
    assert!(run.status.success());
    String::from_utf8(run.stdout).unwrap()
}

#[test]
fn the_command() {
    let (out, none) = (path("out.bin"), path("none.bin"));
    let whole = file(&three_passes());
    let _ = std::fs::remove_file(&none);
    assert_eq!(said(&whole, &out), "kept 5 end found rest 8\n");
    assert_eq!(std::fs::read(&out).unwrap(), whole);
    assert_eq!(said(&whole[..79], &out), "kept 3 end added rest 19\n");
    assert_eq!(std::fs::read(&out).unwrap(), ended(&three_passes()[..3]));
    // A refusal neither makes nor changes the file.
    assert_eq!(said(&[0; 40000], &out), "refused 1 record 0\n");
    assert_eq!(said(&[0; 40000], &none), "refused 1 record 0\n");
    assert_eq!(std::fs::read(&out).unwrap(), ended(&three_passes()[..3]));
    assert!(!none.exists());
}

#[test]
fn what_is_told() {
    let told = Salvaged { kept: 2, added: true, rest: 7 };
    assert_eq!((told.length(), LONGEST), (68, 40008));
}

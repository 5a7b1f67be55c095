//! robustness SEED COUNT: the proved library and the reference on COUNT files, most of them damaged; every number, table and byte of the nine
//! functions is compared. A difference, or a write past a lent part, stops the run.

mod draw;
mod lent;
mod proved;

use draw::{draw, Drawn};
use ninhalto_reference::generate::rng::Rng;
use ninhalto_reference::memory::Memory;
use ninhalto_reference::modbus;
use ninhalto_reference::refusal::Refusal;
use ninhalto_reference::scan::Answer;
use ninhalto_reference::{check, clock, exchange, jobs, mover, salvage, scan, usemap};

/// How often each number was told, 0 for no refusal: by check, scan, move, exchange, answer, job. Then, of the scan without
/// a budget, how often it was refused (0), ended (1) and was stopped (2). Then, of the scans that were refused by 9, how often
/// for a size (0), a leftover (1), the time alone (2); and of those that were not refused, how often they left no leftover (3),
/// one (4), two (5). Then how often each number was told by the salvage; of what was salvaged, how often END was found (0) and
/// added (1), and last, how often each number was told by its check.
type Tally = [[u64; 17]; 11];

fn pair(refusal: Refusal) -> [usize; 2] {
    [refusal.number as usize, refusal.record as usize]
}

fn checked(drawn: &Drawn) -> [usize; 4] {
    let want = match check::check(&drawn.file) {
        Ok(accepted) => [0, 0, accepted.records.len(), accepted.steps as usize],
        Err(refusal) => [pair(refusal)[0], pair(refusal)[1], 0, 0],
    };
    assert_eq!(proved::check(&drawn.file), want, "check");
    want
}

fn seven(answer: Result<Answer, Refusal>) -> [usize; 7] {
    match answer {
        Ok(a) => {
            let kind = if a.ended { 1 } else { 2 };
            [
                0,
                0,
                kind,
                a.steps as usize,
                a.record as usize,
                a.error as usize,
                a.error_record as usize,
            ]
        }
        Err(refusal) => [pair(refusal)[0], pair(refusal)[1], 0, 0, 0, 0, 0],
    }
}

/// What was wrong of a scan that was refused by 9, or how many leftovers are left by one that was not refused.
fn timed(drawn: &Drawn, number: usize) -> Option<usize> {
    let rest = &drawn.memory.rest;
    match number {
        9 if !drawn.memory.sizes_right() => Some(0),
        9 if !clock::sound(rest) => Some(1),
        9 => Some(2),
        0 => {
            let left = |old: u8, base: u32| (u32::from(old) + drawn.elapsed) % base > 0;
            Some(3 + usize::from(left(rest[0], 10)) + usize::from(left(rest[1], 100)))
        }
        _ => None,
    }
}

fn scanned(drawn: &Drawn, budget: Option<u32>) -> [usize; 7] {
    let (mut ours, mut theirs): (Memory, Memory) = (drawn.memory.clone(), drawn.memory.clone());
    let told = proved::scan(&drawn.file, &mut ours, drawn.elapsed, budget);
    let answer = match budget {
        Some(budget) => scan::scan(&drawn.file, &mut theirs, drawn.elapsed, budget),
        None => scan::scan_default(&drawn.file, &mut theirs, drawn.elapsed),
    };
    assert_eq!(told, seven(answer), "scan");
    assert!(ours == theirs, "the memory after a scan");
    told
}

fn mapped(drawn: &Drawn) {
    let (told, read, written) = proved::use_map(&drawn.file);
    match usemap::use_map(&drawn.file) {
        Ok(map) => assert!(told == [0, 0] && read == map.read && written == map.written, "map"),
        Err(refusal) => assert!(
            told == pair(refusal) && read == [0; 1000] && written == [0; 1000],
            "refused map"
        ),
    }
}

fn moved(drawn: &Drawn) -> usize {
    let (told, file) = proved::move_block(&drawn.file, drawn.block, drawn.pool);
    let mut theirs = drawn.file.clone();
    let want = match mover::move_block(&mut theirs, drawn.block, drawn.pool) {
        Ok(place) => [0, 0, place as usize],
        Err(refusal) => [pair(refusal)[0], pair(refusal)[1], 0],
    };
    assert_eq!(told, want, "move");
    assert!(file == theirs, "the file after a move");
    told[0]
}

fn exchanged(drawn: &Drawn) -> usize {
    let (told, d) = proved::exchange(&drawn.memory.d, drawn.block, drawn.place);
    let mut theirs = drawn.memory.d.clone();
    let want = exchange::exchange(&mut theirs, drawn.block, drawn.place).err().map_or([0, 0], pair);
    assert_eq!(told, want, "exchange");
    assert!(d == theirs, "the table after an exchange");
    told[0]
}

fn answered(drawn: &Drawn) -> usize {
    let (m, d, before) = (&drawn.memory.m, &drawn.memory.d, vec![0xA5; drawn.buffer]);
    let ours = proved::answer(drawn.station, &drawn.frame, m, d, &before);
    let (mut m, mut d, mut reply) = (m.clone(), d.clone(), before);
    let want = match modbus::answer(drawn.station, &drawn.frame, &mut m, &mut d, &mut reply) {
        Err(refusal) => [refusal.number as usize, 0, 0],
        Ok(modbus::Answer::Silent) => [0, 1, 0],
        Ok(modbus::Answer::Reply(length)) => [0, 2, length],
    };
    assert_eq!(ours.0, want, "answer");
    assert!(ours.1 == m && ours.2 == d, "the tables after a request");
    assert!(ours.3 == reply, "the reply");
    want[0]
}

/// Every second job has a table.
fn jobbed(drawn: &Drawn, turn: u64) -> usize {
    let before: &[i16] = if turn % 2 == 0 { &drawn.memory.d } else { &[] };
    let lines: Vec<[u32; 3]> =
        drawn.tasks.iter().map(|t| [t.block.start, t.block.length, t.place]).collect();
    let (told, file, d) = proved::job(&drawn.file, before, &lines);
    let (mut theirs, mut table) = (drawn.file.clone(), before.to_vec());
    let lent = if before.is_empty() { None } else { Some(&mut table[..]) };
    let want = match jobs::job(&mut theirs, lent, &drawn.tasks) {
        Ok(()) => [0; 4],
        Err(r) => {
            let [number, record] = pair(r.refusal);
            [number, record, r.line as usize, r.other as usize]
        }
    };
    assert_eq!(told, want, "job");
    assert!(file == theirs && d == table, "the file and the table after a job");
    told[0]
}

/// The check does not refuse what was salvaged by 1, 2 or 3, and a second salvage changes nothing. What the check tells.
fn settled(file: &[u8]) -> usize {
    let number = proved::check(file)[0];
    assert!(![1, 2, 3].contains(&number), "the check of what was salvaged");
    let (told, again) = proved::salvage(file, &vec![0xA5; file.len()]);
    assert_eq!(told, [0, 0, file.len() / 20, 0, 8], "salvaged twice");
    assert!(again == file, "the file salvaged twice");
    number
}

fn salvaged(drawn: &Drawn, tally: &mut Tally) {
    let (told, output) = proved::salvage(&drawn.torn, &drawn.output);
    let mut theirs = drawn.output.clone();
    let want = match salvage::salvage(&drawn.torn, &mut theirs) {
        Ok(s) => [0, 0, s.kept, usize::from(s.added), s.rest],
        Err(refusal) => [pair(refusal)[0], pair(refusal)[1], 0, 0, 0],
    };
    assert_eq!(told, want, "salvage");
    assert!(output == theirs, "the output after a salvage");
    let [number, _, kept, added, _] = told;
    tally[8][number] += 1;
    if number == 0 {
        tally[9][added] += 1;
        tally[10][settled(&output[..20 * (kept + added) + 8])] += 1;
    }
}

fn turn(seed: u64, turn: u64, tally: &mut Tally) {
    let mut rng = Rng::new(seed.wrapping_mul(0x1_0000_0000).wrapping_add(turn));
    let drawn = draw(&mut rng, turn as usize);
    let [number, _, _, steps] = checked(&drawn);
    // A scan of all its steps only where that is quick; without a budget it makes 200,000 at most.
    let budget = if steps > 100_000 { drawn.budget.min(30_000) } else { drawn.budget };
    let told = scanned(&drawn, Some(budget));
    let plain = scanned(&drawn, None);
    mapped(&drawn);
    tally[0][number] += 1;
    tally[1][told[0]] += 1;
    tally[2][moved(&drawn)] += 1;
    tally[3][exchanged(&drawn)] += 1;
    tally[4][answered(&drawn)] += 1;
    tally[5][jobbed(&drawn, turn)] += 1;
    tally[6][plain[2]] += 1;
    timed(&drawn, told[0]).into_iter().for_each(|which| tally[7][which] += 1);
    salvaged(&drawn, tally);
}

fn main() {
    let word = |i: usize| std::env::args().nth(i).and_then(|word| word.parse::<u64>().ok());
    let (Some(seed), Some(count)) = (word(1), word(2)) else {
        eprintln!("robustness SEED COUNT");
        std::process::exit(2);
    };
    let mut tally: Tally = [[0; 17]; 11];
    for i in 0..count {
        if std::panic::catch_unwind(std::panic::AssertUnwindSafe(|| turn(seed, i, &mut tally)))
            .is_err()
        {
            eprintln!("turn {i} of seed {seed} differs");
            std::process::exit(1);
        }
    }
    let names = [
        "check",
        "scan",
        "move",
        "exchange",
        "answer",
        "job",
        "no budget",
        "time",
        "salvage",
        "END",
        "salvaged",
    ];
    for (name, row) in names.iter().zip(tally) {
        let told: Vec<String> = row
            .iter()
            .enumerate()
            .filter(|(_, &n)| n > 0)
            .map(|(i, n)| format!("{i}: {n}"))
            .collect();
        println!("{name:9} {}", told.join(", "));
    }
    println!("{count} files: all agree");
}

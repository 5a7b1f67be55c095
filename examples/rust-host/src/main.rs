//! A host in Rust: it checks a program, scans it, answers a Modbus request, prints which words of a block it uses, moves the block, exchanges its
//! words, and scans again. The two scans do the same. Then it moves the block's two halves at once, in either order, and back. Last it tells which
//! declarations of a list clash, and which of two declaration texts holds the longer block. The program stands in memory; a real host reads it from a file.

mod ninhalto;

use ninhalto::{Declaration, Memory, Refusal, Told, UseMap};

const BLOCK: u32 = 100;
const LENGTH: u32 = 10;
const POOL: u32 = 200;
const POOL_END: u32 = 300;

const CONSTANT: u8 = 1;
const Y: u8 = 3;
const SM: u8 = 5;
const D: u8 = 7;

/// A record: its instruction, then kind and value of its operands.
fn record(instruction: u8, operands: &[(u8, u32)]) -> Vec<u8> {
    let mut bytes = vec![instruction, 0];
    for &(kind, value) in operands {
        bytes.extend([kind, 0]);
        bytes.extend(value.to_le_bytes());
    }
    bytes.resize(20, 0);
    bytes
}

/// LD SM0, INC D100, ADD D100 1000 D104, DIV D104 7 D106, LD> D104 500, OUT Y3, END
fn compose() -> Vec<u8> {
    let records = [
        record(1, &[(SM, 0)]),
        record(37, &[(D, 100)]),
        record(33, &[(D, 100), (CONSTANT, 1000), (D, 104)]),
        record(35, &[(D, 104), (CONSTANT, 7), (D, 106)]),
        record(16, &[(D, 104), (CONSTANT, 500)]),
        record(12, &[(Y, 3)]),
        record(23, &[]),
    ];
    let mut file = records.concat();
    file.extend(1u16.to_le_bytes());
    file.extend((records.len() as u16).to_le_bytes());
    file.extend((20 * records.len() as u32 + 8).to_le_bytes());
    file
}

fn check(file: &[u8]) -> bool {
    match ninhalto::check(file) {
        Ok((records, steps)) => println!("accepted records {records} steps {steps}"),
        Err(Refusal { number, record }) => {
            println!("refused {number} record {record}");
            return false;
        }
    }
    true
}

/// 100 ms have gone by; the budget is 1000 steps.
fn scan(file: &[u8], memory: &mut Memory) -> Told {
    let told = ninhalto::scan(file, memory, 100, 1000);
    let [number, at, kind, steps, stop, error, error_at] = told;
    println!("refusal {number} at {at}, kind {kind}, steps {steps}, stopped at {stop}, error {error} at {error_at}");
    told
}

fn marks(map: &UseMap, word: u32) -> &'static str {
    let bit = |table: &[u8]| table[word as usize / 8] >> (word % 8) & 1 == 1;
    match (bit(&map.read), bit(&map.written)) {
        (false, false) => "",
        (true, false) => "read",
        (false, true) => "written",
        (true, true) => "read written",
    }
}

/// The longest runs of words of the block with the same marks.
fn print_runs(map: &UseMap) {
    let mut from = BLOCK;
    while from < BLOCK + LENGTH {
        let here = marks(map, from);
        let end =
            (from..BLOCK + LENGTH).find(|&word| marks(map, word) != here).unwrap_or(BLOCK + LENGTH);
        if !here.is_empty() {
            println!("D{from} to D{} {here}", end - 1);
        }
        from = end;
    }
}

fn exchange(memory: &mut Memory, place: u32) -> Result<(), Refusal> {
    ninhalto::exchange(&mut memory.d, BLOCK, LENGTH, place)?;
    println!("exchange: refusal 0 at 0");
    Ok(())
}

/// The block's two halves, each to a place of its own, and the same lines the other way round: both give the same file and the same table. Then every
/// place goes back to its block.
fn job(file: &[u8], memory: &Memory) -> Result<bool, Refusal> {
    let lines = [[100, 5, 400], [105, 5, 300]];
    let (mut first, mut one) = (file.to_vec(), memory.d);
    let (mut second, mut two) = (file.to_vec(), memory.d);
    ninhalto::job(&mut first, &mut one, &lines)?;
    println!("job: refusal 0 at 0, line 0, other 0");
    ninhalto::job(&mut second, &mut two, &[lines[1], lines[0]])?;
    let same = first == second && one == two && first != file;
    ninhalto::job(&mut first, &mut one, &[[400, 5, 100], [300, 5, 105]])?;
    let same = same && first == file && one == memory.d;
    println!("{}", if same { "in either order the same, and back again" } else { "the order shows" });
    Ok(same)
}

/// A master reads the first five words of the block: station 1, function 3, address, quantity, CRC.
fn answer(memory: &mut Memory) -> Result<(), Refusal> {
    let request = [0x01, 0x03, 0x00, 0x64, 0x00, 0x05, 0xc4, 0x16];
    let mut reply = [0; 256];
    match ninhalto::answer(1, &request, &mut memory.m, &mut memory.d, &mut reply)? {
        Some(bytes) => {
            println!(
                "reply {}",
                bytes.iter().map(|b| format!("{b:02x}")).collect::<Vec<_>>().join(" ")
            )
        }
        None => println!("silent"),
    }
    Ok(())
}

/// Three units declare blocks: the second gives the first one's block another length, and the third one's block overlaps both.
fn clashes() -> Result<(), Refusal> {
    let list = [
        Declaration { unit: 1, name: *b"MIXER\0\0\0", start: 100, length: 10 },
        Declaration { unit: 2, name: *b"MIXER\0\0\0", start: 100, length: 12 },
        Declaration { unit: 3, name: *b"FILLER\0\0", start: 108, length: 5 },
    ];
    let mut report = [[0; 2]; 2016];
    let pairs = ninhalto::clashes(&list, &mut report)?;
    println!("clashes: refusal 0, count {}", pairs.len());
    for [lower, higher] in pairs {
        println!("{lower} {higher}");
    }
    Ok(())
}

fn longer() {
    let (one, two) = (b"MIXER    100 10\n", b"MIXER    100 12\nFILLER   108 5\n");
    match ninhalto::longer(one, two) {
        Some((text, line)) => print!("longer: text {text}, {}", String::from_utf8_lossy(line)),
        None => println!("longer: misspelt"),
    }
}

fn print_words(memory: &Memory, from: u32) {
    let words = &memory.d[from as usize..(from + LENGTH) as usize];
    println!("{}", words.iter().map(i16::to_string).collect::<Vec<_>>().join(" "));
}

fn main() -> Result<(), Refusal> {
    let file = compose();
    check(&file[..file.len() - 1]);
    check(&file);
    let mut before = Memory {
        x: [0; 32],
        y: [0; 32],
        m: [0; 250],
        sm: [0; 32],
        t: [0; 32],
        d: [0; 8000],
        tv: [0; 256],
        rest: [0; 2],
    };
    before.d[BLOCK as usize] = 41;
    before.d[POOL as usize] = 77;
    let (mut moved, mut after) = (file.clone(), before.clone());
    let told = scan(&file, &mut before);
    print_words(&before, BLOCK);
    answer(&mut before)?;
    print_runs(&ninhalto::use_map(&file)?);
    let place = ninhalto::move_block(&mut moved, BLOCK, LENGTH, POOL, POOL_END)?;
    println!("move: refusal 0 at 0, place {place}");
    check(&moved);
    exchange(&mut after, place)?;
    let told_after = scan(&moved, &mut after);
    print_words(&after, place);
    exchange(&mut after, place)?;
    if told != told_after || before != after {
        println!("the moved program does otherwise");
        std::process::exit(1);
    }
    println!("the moved program does the same");
    if !job(&file, &before)? {
        std::process::exit(1);
    }
    clashes()?;
    longer();
    Ok(())
}

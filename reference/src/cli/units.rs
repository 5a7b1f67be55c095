//! The subcommands of units: clashes of a unit list, the longer of two declaration texts.

use super::answers::said;
use super::{load, Said};
use crate::check::check;
use crate::file::Record;
use crate::instruction::Instruction;
use crate::mover::{first_straddler, Block};
use crate::refusal::Refusal;
use crate::units::{self, listed, text, Clash, Declaration, Pair, ROOM};

/// Told as the product does: a block of one word by that word alone.
pub fn words(block: Block) -> String {
    match block.length {
        1 => format!("D{}", block.start),
        length => format!("D{}-D{}", block.start, block.start + length - 1),
    }
}

fn told(declaration: Declaration) -> Vec<u8> {
    let place = format!("\" {} of unit {}", words(declaration.block), declaration.unit);
    [b"\"", &declaration.name[..], place.as_bytes()].concat()
}

fn clash_line(list: &[Declaration], [low, high]: Pair) -> Vec<u8> {
    let (one, other) = (list[low as usize], list[high as usize]);
    let kind = match one.clash(other) {
        Some(Clash::TwoBlocks) => "one name, two blocks",
        Some(Clash::SharedWords) => "two names, shared words",
        None => "no clash",
    };
    let (start, end) = (format!("clash {low} {high} "), format!(": {kind}\n"));
    [start.as_bytes(), &told(one), b", ", &told(other), end.as_bytes()].concat()
}

/// A line if some operand lies partly in the block.
fn split_line(place: usize, declaration: Declaration, records: &[Record]) -> Option<Vec<u8>> {
    let record = first_straddler(records, declaration.block)?;
    let name = Instruction::from_number(records[record].number)?.name();
    let start = format!("split {place} record {record} ({name}): partly in ");
    Some([start.as_bytes(), &told(declaration), b"\n"].concat())
}

/// 15, then 1 to 8 of the file, then 10.
fn answered(units: &[u8], file: Option<&[u8]>) -> Result<Vec<u8>, Refusal> {
    let list = listed::whole(units)?;
    let records = file.map_or(Ok(Vec::new()), |file| check(file).map(|program| program.records))?;
    let mut report = vec![Pair::default(); ROOM];
    let count = units::clashes(&list, &mut report)?;
    let mut text: Vec<u8> = Vec::new();
    report[..count].iter().for_each(|&pair| text.extend(clash_line(&list, pair)));
    text.extend(format!("clashes {count}\n").into_bytes());
    for (place, &declaration) in list.iter().enumerate() {
        text.extend(split_line(place, declaration, &records).unwrap_or_default());
    }
    Ok(text)
}

pub fn clashes(units: &str, file: Option<&str>) -> Said {
    let file = file.map(load).transpose()?;
    match answered(&load(units)?, file.as_deref()) {
        Ok(text) => Ok((text, 0)),
        Err(refusal) => said(refusal.to_string()),
    }
}

pub fn longer(first: &str, second: &str) -> Said {
    let (first, second) = (load(first)?, load(second)?);
    Ok((text::longer(&first, &second).part().to_vec(), 0))
}

#[cfg(test)]
mod tests {
    use super::answered;
    use crate::compose::{d, file, k, with_flow};
    use crate::instruction::Instruction;

    const UNITS: &[u8] =
        b"1 MIXER  1 100 6\n2 MIXER  1 100 7\n3 PUMP\xFF\0 A 106 1\n4 FAN      50 2\n";

    fn told(units: &[u8], file: Option<&[u8]>) -> Vec<u8> {
        answered(units, file).unwrap_or_else(|refusal| refusal.to_string().into())
    }

    fn ddiv() -> Vec<u8> {
        file(&with_flow(Instruction::Ddiv, &[k(7), k(2), d(103)]))
    }

    #[test]
    fn clashes() {
        let wanted = b"clash 0 1 \"MIXER  1\" D100-D105 of unit 1, \
            \"MIXER  1\" D100-D106 of unit 2: one name, two blocks\n\
            clash 1 2 \"MIXER  1\" D100-D106 of unit 2, \
            \"PUMP\xFF\0 A\" D106 of unit 3: two names, shared words\n\
            clashes 2\n";
        assert_eq!(told(UNITS, None), wanted);
        let splits = b"split 0 record 1 (DDIV): partly in \"MIXER  1\" D100-D105 of unit 1\n\
            split 2 record 1 (DDIV): partly in \"PUMP\xFF\0 A\" D106 of unit 3\n";
        assert_eq!(told(UNITS, Some(&ddiv())), [&wanted[..], splits].concat());
        assert_eq!(told(b"", Some(&ddiv())), b"clashes 0\n");
    }

    #[test]
    fn refusals_in_their_order() {
        let (spelt, empty) = (b"1 MIXER  1 100 6\n1 MIXER  1 100 06\n", b"1 MIXER  1 100 0\n");
        assert_eq!(told(spelt, Some(b"")), b"refused 15 record 1");
        assert_eq!(told(empty, Some(b"")), b"refused 1 record 0");
        assert_eq!(told(empty, Some(&ddiv())), b"refused 10 record 0");
        assert_eq!(told(&UNITS.repeat(17), None), b"refused 10 record 0");
    }
}

//! Cases of the clashes of a list of declarations.

use super::bytes::{Reader, Writer};
use crate::mover::Block;
use crate::units::{clashes, Declaration, Pair};

/// The most that a case has of each.
const MOST_DECLARED: u32 = 70;
const MOST_ROOM: u32 = 2100;

/// What a case asks.
#[derive(Clone, PartialEq, Eq, Debug)]
pub struct Asked {
    pub list: Vec<Declaration>,
    /// Pairs that the report has room for.
    pub room: u32,
    pub seed: u32,
}

#[derive(Clone, PartialEq, Eq, Debug)]
pub struct ListCase {
    pub asked: Asked,
    pub refusal: u32,
    pub record: u32,
    pub clashes: Vec<Pair>,
    /// Is the report as it was behind the clashes? A file wants that of every case.
    pub kept: bool,
}

/// What a report holds before the call.
pub fn report(room: u32, seed: u32) -> Vec<Pair> {
    let first = |place: u32| seed.wrapping_add(2 * place);
    (0..room).map(|place| [first(place), first(place).wrapping_add(1)]).collect()
}

pub fn write_declaration(declaration: &Declaration, out: &mut Writer) {
    out.u32(declaration.unit);
    out.all(&declaration.name);
    out.u32(declaration.block.start);
    out.u32(declaration.block.length);
}

pub fn read_declaration(from: &mut Reader) -> Option<Declaration> {
    let unit = from.u32()?;
    let name = from.all(8)?.try_into().ok()?;
    let (start, length) = (from.u32()?, from.u32()?);
    Some(Declaration { unit, name, block: Block { start, length } })
}

impl ListCase {
    pub fn solve(asked: Asked) -> ListCase {
        let before = report(asked.room, asked.seed);
        let mut report = before.clone();
        let (refusal, record, count) = match clashes(&asked.list, &mut report) {
            Ok(count) => (0, 0, count),
            Err(refusal) => (refusal.number, refusal.record, 0),
        };
        let kept = report[count..] == before[count..];
        report.truncate(count);
        ListCase { asked, refusal, record, clashes: report, kept }
    }

    pub fn write(&self, out: &mut Writer) {
        out.u32(self.asked.list.len() as u32);
        self.asked.list.iter().for_each(|declaration| write_declaration(declaration, out));
        let count = self.clashes.len() as u32;
        for value in [self.asked.room, self.asked.seed, self.refusal, self.record, count] {
            out.u32(value);
        }
        // Places of a list of at most 64.
        self.clashes.iter().flatten().for_each(|&place| out.u16(place as u16));
    }

    pub fn read(from: &mut Reader) -> Option<ListCase> {
        let count = from.u32()?;
        if count > MOST_DECLARED {
            return None;
        }
        let list: Option<Vec<Declaration>> = (0..count).map(|_| read_declaration(from)).collect();
        let list = list?;
        let (room, seed, refusal, record) = (from.u32()?, from.u32()?, from.u32()?, from.u32()?);
        let count = from.u32()?;
        if count > room || room > MOST_ROOM {
            return None;
        }
        let mut clashes = Vec::new();
        for _ in 0..count {
            clashes.push([from.u16()?.into(), from.u16()?.into()]);
        }
        let asked = Asked { list, room, seed };
        Some(ListCase { asked, refusal, record, clashes, kept: true })
    }
}

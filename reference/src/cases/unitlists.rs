//! Cases of the unit list as text.

use super::bytes::{Reader, Writer};
use super::lists::{read_declaration, write_declaration};
use crate::units::listed::read;
use crate::units::{Declaration, MOST};

/// The longest text of a case.
const MOST_BYTES: u32 = 4000;

#[derive(Clone, PartialEq, Eq, Debug)]
pub struct UnitListCase {
    pub text: Vec<u8>,
    pub refusal: u32,
    pub record: u32,
    /// Lines that are well spelt, ahead of the first that is not.
    pub count: u32,
    /// What they declare, of 64 of them at most.
    pub declarations: Vec<Declaration>,
}

impl UnitListCase {
    pub fn solve(text: Vec<u8>) -> UnitListCase {
        let mut listed = read(&text);
        let (refusal, record) = listed.refusal.map_or((0, 0), |told| (told.number, told.record));
        let count = listed.declarations.len() as u32;
        listed.declarations.truncate(MOST);
        UnitListCase { text, refusal, record, count, declarations: listed.declarations }
    }

    pub fn write(&self, out: &mut Writer) {
        out.u32(self.text.len() as u32);
        out.all(&self.text);
        for value in [self.refusal, self.record, self.count] {
            out.u32(value);
        }
        self.declarations.iter().for_each(|declaration| write_declaration(declaration, out));
    }

    pub fn read(from: &mut Reader) -> Option<UnitListCase> {
        let length = from.u32().filter(|&length| length <= MOST_BYTES)?;
        let text = from.all(length as usize)?.to_vec();
        let (refusal, record, count) = (from.u32()?, from.u32()?, from.u32()?);
        let kept = count.min(MOST as u32);
        let declarations: Option<_> = (0..kept).map(|_| read_declaration(from)).collect();
        Some(UnitListCase { text, refusal, record, count, declarations: declarations? })
    }
}

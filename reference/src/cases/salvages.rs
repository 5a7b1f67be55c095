//! Cases of the salvage.

use super::bytes::{Reader, Writer};
use super::checksum::checksum;
use super::filefield::FileField;
use super::memories::{fill, EDGES};
use crate::salvage::salvage;

/// The most bytes of a torn file, and of an output buffer.
pub const MOST_BYTES: usize = 65536;

/// What a case asks.
#[derive(Clone, PartialEq, Eq, Debug)]
pub struct Asked {
    pub torn: Vec<u8>,
    pub rule: u8,
    pub seed: u32,
    /// Bytes of the output buffer.
    pub size: u32,
}

#[derive(Clone, PartialEq, Eq, Debug)]
pub struct SalvageCase {
    pub asked: Asked,
    pub refusal: u32,
    pub record: u32,
    pub kept: u32,
    pub added: u32,
    pub rest: u32,
    pub checksum: u32,
}

impl Asked {
    /// The output buffer before the call. One of an odd size ends with half a word.
    pub fn buffer(&self) -> Vec<u8> {
        let size = self.size as usize;
        let mut bytes = fill(self.rule.into(), self.seed, 0, size.div_ceil(2));
        bytes.truncate(size);
        bytes
    }

    fn read(files: &mut FileField, from: &mut Reader) -> Option<Asked> {
        let torn = files.read(from)?;
        let (rule, zero, zeros) = (from.u8()?, from.u8()?, from.u16()?);
        let (seed, size) = (from.u32()?, from.u32()?);
        let sizes = torn.len().max(size as usize) <= MOST_BYTES;
        let rules = u32::from(rule) <= EDGES && (zero, zeros) == (0, 0);
        (sizes && rules).then_some(Asked { torn, rule, seed, size })
    }
}

impl SalvageCase {
    pub fn solve(asked: Asked) -> SalvageCase {
        let mut out = asked.buffer();
        let (refusal, record, [kept, added, rest]) = match salvage(&asked.torn, &mut out) {
            Ok(told) => (0, 0, [told.kept, usize::from(told.added), told.rest]),
            Err(refusal) => (refusal.number, refusal.record, [0; 3]),
        };
        // A torn file has at most 65,536 bytes here.
        let [kept, added, rest] = [kept, added, rest].map(|number| number as u32);
        let checksum = checksum(&out);
        SalvageCase { asked, refusal, record, kept, added, rest, checksum }
    }

    pub fn write(&self, files: &mut FileField, out: &mut Writer) {
        files.write(&self.asked.torn, out);
        out.u8(self.asked.rule);
        out.u8(0);
        out.u16(0);
        for value in [self.asked.seed, self.asked.size, self.refusal, self.record] {
            out.u32(value);
        }
        for value in [self.kept, self.added, self.rest, self.checksum] {
            out.u32(value);
        }
    }

    pub fn read(files: &mut FileField, from: &mut Reader) -> Option<SalvageCase> {
        let asked = Asked::read(files, from)?;
        let (refusal, record, kept) = (from.u32()?, from.u32()?, from.u32()?);
        let (added, rest, checksum) = (from.u32()?, from.u32()?, from.u32()?);
        Some(SalvageCase { asked, refusal, record, kept, added, rest, checksum })
    }
}

//! Cases of two declaration texts.

use super::bytes::{Reader, Writer};
use crate::units::text::{longer, Longer};

/// Which text's first line is handed back.
pub const NOTHING: u32 = 0;
pub const FIRST: u32 = 1;
pub const SECOND: u32 = 2;

/// The longest text of a case.
const MOST_BYTES: u32 = 64;

#[derive(Clone, PartialEq, Eq, Debug)]
pub struct TextCase {
    pub texts: [Vec<u8>; 2],
    pub which: u32,
    /// Bytes of the line, its line feed included.
    pub length: u32,
}

fn read_text(from: &mut Reader) -> Option<Vec<u8>> {
    let length = from.u32().filter(|&length| length <= MOST_BYTES)?;
    Some(from.all(length as usize)?.to_vec())
}

impl TextCase {
    pub fn solve(texts: [Vec<u8>; 2]) -> TextCase {
        let found = longer(&texts[0], &texts[1]);
        let which = match found {
            Longer::Nothing => NOTHING,
            Longer::First(_) => FIRST,
            Longer::Second(_) => SECOND,
        };
        let length = found.part().len() as u32;
        TextCase { texts, which, length }
    }

    pub fn write(&self, out: &mut Writer) {
        for text in &self.texts {
            out.u32(text.len() as u32);
            out.all(text);
        }
        out.u32(self.which);
        out.u32(self.length);
    }

    pub fn read(from: &mut Reader) -> Option<TextCase> {
        let texts = [read_text(from)?, read_text(from)?];
        Some(TextCase { texts, which: from.u32()?, length: from.u32()? })
    }
}

//! The program file inside a case: its length and bytes, or a sign that it is the same
//! file as in the case before.

use super::bytes::{Reader, Writer};

pub const SAME: u32 = u32::MAX;

/// Remembers the file of the case before, for writing and for reading alike.
#[derive(Default)]
pub struct FileField {
    before: Option<Vec<u8>>,
}

impl FileField {
    pub fn write(&mut self, file: &[u8], out: &mut Writer) {
        if self.before.as_deref() == Some(file) {
            return out.u32(SAME);
        }
        out.u32(file.len() as u32);
        out.all(file);
        self.before = Some(file.to_vec());
    }

    pub fn read(&mut self, from: &mut Reader) -> Option<Vec<u8>> {
        let length = from.u32()?;
        if length != SAME {
            self.before = Some(from.all(length as usize)?.to_vec());
        }
        self.before.clone()
    }
}

//! Writing and reading of case files: little-endian, one forward pass.

pub const MAGIC: [u8; 4] = *b"NHV1";

#[derive(Default)]
pub struct Writer {
    pub bytes: Vec<u8>,
}

impl Writer {
    /// Starts a case file with its header.
    pub fn file(kind: u32, count: u32) -> Writer {
        let mut out = Writer { bytes: MAGIC.to_vec() };
        out.u32(kind);
        out.u32(count);
        out
    }

    pub fn u8(&mut self, value: u8) {
        self.bytes.push(value);
    }

    pub fn u16(&mut self, value: u16) {
        self.bytes.extend_from_slice(&value.to_le_bytes());
    }

    pub fn u32(&mut self, value: u32) {
        self.bytes.extend_from_slice(&value.to_le_bytes());
    }

    pub fn i32(&mut self, value: i32) {
        self.u32(value as u32);
    }

    pub fn all(&mut self, bytes: &[u8]) {
        self.bytes.extend_from_slice(bytes);
    }
}

/// Every read gives nothing once the file is at its end.
pub struct Reader<'a> {
    rest: &'a [u8],
}

impl<'a> Reader<'a> {
    pub fn new(bytes: &'a [u8]) -> Reader<'a> {
        Reader { rest: bytes }
    }

    pub fn all(&mut self, count: usize) -> Option<&'a [u8]> {
        if count > self.rest.len() {
            return None;
        }
        let (taken, rest) = self.rest.split_at(count);
        self.rest = rest;
        Some(taken)
    }

    pub fn u8(&mut self) -> Option<u8> {
        self.all(1).map(|b| b[0])
    }

    pub fn u16(&mut self) -> Option<u16> {
        self.all(2).map(|b| u16::from_le_bytes([b[0], b[1]]))
    }

    pub fn u32(&mut self) -> Option<u32> {
        self.all(4).map(|b| u32::from_le_bytes([b[0], b[1], b[2], b[3]]))
    }

    pub fn i32(&mut self) -> Option<i32> {
        self.u32().map(|value| value as i32)
    }

    pub fn at_end(&self) -> bool {
        self.rest.is_empty()
    }

    /// Kind and case count, if the magic bytes stand there.
    pub fn header(&mut self) -> Option<(u32, u32)> {
        if self.all(4)? != MAGIC {
            return None;
        }
        Some((self.u32()?, self.u32()?))
    }
}

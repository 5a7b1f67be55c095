//! The use map: which of the 8,000 D words the program reads and writes.

use crate::check::check;
use crate::file::Record;
use crate::memory::{bit, put_bit};
use crate::operand::extents;
use crate::refusal::Refusal;

/// One bit per D word, packed as memory's bits are.
#[derive(Clone, PartialEq, Eq, Debug)]
pub struct UseMap {
    pub read: [u8; 1000],
    pub written: [u8; 1000],
}

/// A longest run of words with the same marks, at least one of them set.
#[derive(Clone, Copy, PartialEq, Eq, Debug)]
pub struct Stretch {
    pub first: u32,
    pub last: u32,
    pub read: bool,
    pub written: bool,
}

pub fn of_records(records: &[Record]) -> UseMap {
    let mut map = UseMap { read: [0; 1000], written: [0; 1000] };
    for extent in records.iter().flat_map(extents) {
        for word in extent.start..extent.start + extent.length {
            if extent.read {
                put_bit(&mut map.read, word, true);
            }
            if extent.written {
                put_bit(&mut map.written, word, true);
            }
        }
    }
    map
}

pub fn use_map(bytes: &[u8]) -> Result<UseMap, Refusal> {
    Ok(of_records(&check(bytes)?.records))
}

impl UseMap {
    pub fn marks(&self, word: u32) -> (bool, bool) {
        (bit(&self.read, word), bit(&self.written, word))
    }

    pub fn stretches(&self) -> Vec<Stretch> {
        let mut found: Vec<Stretch> = Vec::new();
        for word in 0..8000 {
            let (read, written) = self.marks(word);
            match found.last_mut() {
                Some(run) if run.last + 1 == word && (run.read, run.written) == (read, written) => {
                    run.last = word;
                }
                _ => found.push(Stretch { first: word, last: word, read, written }),
            }
        }
        found.retain(|run| run.read || run.written);
        found
    }
}

impl std::fmt::Display for Stretch {
    fn fmt(&self, f: &mut std::fmt::Formatter<'_>) -> std::fmt::Result {
        write!(f, "D{}", self.first)?;
        if self.last > self.first {
            write!(f, "-D{}", self.last)?;
        }
        let read = if self.read { " read" } else { "" };
        let written = if self.written { " written" } else { "" };
        write!(f, "{read}{written}")
    }
}

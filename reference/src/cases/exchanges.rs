//! Cases of the exchange.

use super::bytes::{Reader, Writer};
use super::checksum::checksum_of_words;
use super::memories::fill;
use crate::exchange::exchange;
use crate::mover::Block;

/// The largest wrong size of a lent D table.
pub const MOST_WORDS: u32 = 8192;

#[derive(Clone, Copy, PartialEq, Eq, Debug)]
pub struct ExchangeCase {
    pub rule: u32,
    pub seed: u32,
    /// Words lent: 8,000, or a wrong number.
    pub words: u32,
    pub block: Block,
    pub place: u32,
    pub refusal: u32,
    pub checksum: u32,
}

/// The D table of a rule: `words` words and no bit tables before them.
pub fn table(rule: u32, seed: u32, words: u32) -> Vec<i16> {
    let bytes = fill(rule, seed, 0, words as usize);
    bytes.chunks_exact(2).map(|two| i16::from_le_bytes([two[0], two[1]])).collect()
}

impl ExchangeCase {
    pub fn solve(rule: u32, seed: u32, words: u32, block: Block, place: u32) -> ExchangeCase {
        let mut d = table(rule, seed, words);
        let refusal = exchange(&mut d, block, place).err().map_or(0, |refusal| refusal.number);
        let checksum = checksum_of_words(&d);
        ExchangeCase { rule, seed, words, block, place, refusal, checksum }
    }

    pub fn write(&self, out: &mut Writer) {
        for value in [self.rule, self.seed, self.words, self.block.start, self.block.length] {
            out.u32(value);
        }
        for value in [self.place, self.refusal, self.checksum] {
            out.u32(value);
        }
    }

    pub fn read(from: &mut Reader) -> Option<ExchangeCase> {
        let (rule, seed, words) = (from.u32()?, from.u32()?, from.u32()?);
        if words > MOST_WORDS {
            return None;
        }
        let block = Block { start: from.u32()?, length: from.u32()? };
        let (place, refusal, checksum) = (from.u32()?, from.u32()?, from.u32()?);
        Some(ExchangeCase { rule, seed, words, block, place, refusal, checksum })
    }
}

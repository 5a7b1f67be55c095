//! Two declaration texts, and the first line of the one that holds the longer block.

use super::spelling::{block, LINE_FEED};
use super::Name;
use crate::devices::D_WORDS;
use crate::mover::Block;

/// What is handed back: a part of one of the two texts, or nothing.
#[derive(Clone, Copy, PartialEq, Eq, Debug)]
pub enum Longer<'a> {
    Nothing,
    First(&'a [u8]),
    Second(&'a [u8]),
}

impl<'a> Longer<'a> {
    pub fn part(self) -> &'a [u8] {
        match self {
            Longer::Nothing => &[],
            Longer::First(part) | Longer::Second(part) => part,
        }
    }
}

/// The first line with its line feed, and what it declares; none if the text is misspelt.
pub fn read(text: &[u8]) -> Option<(&[u8], Name, Block)> {
    // A line feed among the name's bytes would end the line too soon for a name.
    let end = text.iter().position(|&byte| byte == LINE_FEED)?;
    let (name, block) = block(&text[..end], D_WORDS)?;
    Some((&text[..=end], name.try_into().ok()?, block))
}

/// Which block is longer is its length alone.
pub fn longer<'a>(first: &'a [u8], second: &'a [u8]) -> Longer<'a> {
    match (read(first), read(second)) {
        (Some((line, _, one)), Some((_, _, other))) if one.length >= other.length => {
            Longer::First(line)
        }
        (Some(_), Some((line, _, _))) => Longer::Second(line),
        _ => Longer::Nothing,
    }
}

//! The unit list of the command as text: a line `UNIT NAME START LENGTH` for each declaration.

use super::spelling::{block, lines, number, BLANK};
use super::{Declaration, Name};
use crate::refusal::Refusal;

const MOST_UNIT: u32 = 65535;

/// A list as far as it is well spelt: refusal 15 tells the first line that is not.
#[derive(Clone, PartialEq, Eq, Debug)]
pub struct Listed {
    pub declarations: Vec<Declaration>,
    pub refusal: Option<Refusal>,
}

/// A line without its line feed. What stands before the block ends in the eight bytes of the
/// name, whatever they are.
fn declaration(line: &[u8]) -> Option<Declaration> {
    let (before, block) = block(line, u32::MAX)?;
    let (unit, name) = before.split_at_checked(before.len().checked_sub(Name::default().len())?)?;
    let unit = number(unit.strip_suffix(&[BLANK])?, MOST_UNIT)?;
    Some(Declaration { unit, name: name.try_into().ok()?, block })
}

pub fn read(text: &[u8]) -> Listed {
    let (declarations, refusal) = lines(text, declaration);
    Listed { declarations, refusal }
}

/// The declarations of a list that is well spelt as a whole.
pub fn whole(text: &[u8]) -> Result<Vec<Declaration>, Refusal> {
    let listed = read(text);
    listed.refusal.map_or(Ok(listed.declarations), Err)
}

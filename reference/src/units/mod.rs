//! Units that disagree on a block: declarations, their clashes and the report. Written from
//! document 02.

pub mod listed;
pub mod spelling;
pub mod text;

use crate::mover::Block;
use crate::refusal::Refusal;

/// The longest list that is taken.
pub const MOST: usize = 64;
/// Pairs that a report has room for at least: as many as 64 declarations can have clashes.
pub const ROOM: usize = 2016;

pub type Name = [u8; 8];

#[derive(Clone, Copy, PartialEq, Eq, Debug)]
pub struct Declaration {
    pub unit: u32,
    pub name: Name,
    pub block: Block,
}

/// Two places of a list, the lower one first.
pub type Pair = [u32; 2];

/// Why two declarations clash.
#[derive(Clone, Copy, PartialEq, Eq, Debug)]
pub enum Clash {
    /// One name, and start or length differs.
    TwoBlocks,
    /// Two names, and the words overlap.
    SharedWords,
}

impl Declaration {
    /// The units play no part.
    pub fn clash(self, other: Declaration) -> Option<Clash> {
        if self.name == other.name {
            (self.block != other.block).then_some(Clash::TwoBlocks)
        } else {
            self.block.meets_block(other.block).then_some(Clash::SharedWords)
        }
    }
}

/// Every clash once, by lower place, then higher.
fn pairs(list: &[Declaration]) -> Vec<Pair> {
    let places = 0..list.len() as u32;
    let all = places.clone().flat_map(|low| places.clone().map(move |high| [low, high]));
    let clash = |low: u32, high: u32| list[low as usize].clash(list[high as usize]);
    all.filter(|&[low, high]| low < high && clash(low, high).is_some()).collect()
}

/// Refusal 10 when this does not hold.
fn is_sound(list: &[Declaration]) -> bool {
    list.len() <= MOST && list.iter().all(|declaration| declaration.block.is_sound())
}

/// Writes the clashes to the start of the report and tells how many they are.
pub fn clashes(list: &[Declaration], report: &mut [Pair]) -> Result<usize, Refusal> {
    if !is_sound(list) {
        return Err(Refusal::new(10, 0));
    }
    if report.len() < ROOM {
        return Err(Refusal::new(16, 0));
    }
    let found = pairs(list);
    report[..found.len()].copy_from_slice(&found);
    Ok(found.len())
}

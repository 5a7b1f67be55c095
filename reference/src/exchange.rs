//! The exchange of the D table: block and place of equal length change their words.

use crate::devices::{inside_d, meets_work, D_WORDS};
use crate::mover::Block;
use crate::refusal::Refusal;

pub fn exchange(d: &mut [i16], block: Block, place: u32) -> Result<(), Refusal> {
    let refused = |number: u32| Err(Refusal::new(number, 0));
    if d.len() != D_WORDS as usize {
        return refused(9);
    }
    if !block.is_sound() {
        return refused(10);
    }
    if meets_work(block.start, block.length) {
        return refused(12);
    }
    let other = Block { start: place, length: block.length };
    let in_d = inside_d(place, block.length);
    if !in_d || other.meets_block(block) || meets_work(place, block.length) {
        return refused(14);
    }
    for i in 0..block.length {
        d.swap((block.start + i) as usize, (place + i) as usize);
    }
    Ok(())
}

#[cfg(test)]
mod tests {
    use super::*;

    fn told(words: usize, start: u32, length: u32, place: u32) -> u32 {
        let mut d: Vec<i16> = (0..words).map(|i| i as i16).collect();
        let before = d.clone();
        match exchange(&mut d, Block { start, length }, place) {
            Ok(()) => 0,
            Err(refusal) => {
                assert_eq!(d, before);
                refusal.number
            }
        }
    }

    #[test]
    fn refusals() {
        assert_eq!(told(8000, 0, 3950, 3950), 0);
        assert_eq!(told(8000, 0, 3951, 3951), 14);
        assert_eq!(told(7999, 0, 0, 0), 9);
        assert_eq!(told(8000, 0, 0, 0), 10);
        assert_eq!(told(8000, 7999, 2, 0), 10);
        assert_eq!(told(8000, u32::MAX, u32::MAX, 0), 10);
        assert_eq!(told(8000, 7899, 2, 0), 12);
        assert_eq!(told(8000, 10, 2, 11), 14);
        assert_eq!(told(8000, 10, 2, u32::MAX), 14);
        assert_eq!(told(8000, 10, 2, 7899), 14);
        assert_eq!(told(8000, 10, 2, 7898), 0);
    }
}

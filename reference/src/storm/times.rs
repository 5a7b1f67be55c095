//! Times that are split over scans: however they are, no millisecond is lost.

use super::{hold, Held, Tally};
use crate::clock::{base, LONGEST_ELAPSED};
use crate::compose;
use crate::generate::memories::{elapsed, leftovers};
use crate::generate::rng::Rng;
use crate::generate::timers::{on, EDGES, FAR};
use crate::memory::Memory;
use crate::scan::scan_default;

/// No timer comes to its preset within this.
const LONGEST: u32 = 30_000;
const MOST_PARTS: usize = 40;

/// Parts that a scan may be given, and that come to this.
fn parts(rng: &mut Rng, total: u32) -> Vec<u32> {
    let mut found = Vec::new();
    let mut left = total;
    while left > 0 {
        let most = left.min(LONGEST_ELAPSED);
        let part = if found.len() < MOST_PARTS { elapsed(rng).min(most) } else { most };
        found.push(part);
        left -= part;
    }
    found
}

/// A timer with flow in each of the scans.
fn after(timer: u32, rest: [u8; 2], parts: &[u32]) -> Result<Memory, String> {
    let file = compose::file(&on(&[timer], FAR));
    let mut memory = Memory { rest: rest.to_vec(), ..Memory::zero() };
    for &part in parts {
        scan_default(&file, &mut memory, part).map_err(|refusal| refusal.to_string())?;
    }
    Ok(memory)
}

pub fn round(rng: &mut Rng, tally: &mut Tally) -> Held {
    let any = rng.below(256);
    let timer = if rng.once_in(2) { any } else { rng.pick(&EDGES) };
    let (rest, total) = (leftovers(rng), rng.between(1, LONGEST));
    let [one, other] = [0; 2].map(|_| parts(rng, total));
    tally.times += 1;
    tally.parts += (one.len() + other.len()) as u64;
    let memory = after(timer, rest, &one)?;
    hold(after(timer, rest, &other)? == memory, "a time split otherwise leaves the same")?;
    let counted = memory.t[timer as usize] as u32 * base(timer);
    let (found, left) = match base(timer) {
        100 => (rest[1], memory.rest[1]),
        10 => (rest[0], memory.rest[0]),
        _ => (0, 0),
    };
    hold(u32::from(found) + total == counted + u32::from(left), "no millisecond is lost")
}

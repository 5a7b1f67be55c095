//! Requests: edges of every rule, and random frames, whole and damaged.

use crate::cases::memories::{BYTES, EDGES, KEPT, ONES, PATTERN, SMALL, ZERO};
use crate::cases::requests::{Asked, RequestCase, Tables};
use crate::generate::request_edges as edges;
use crate::generate::requests::{any, damaged, frame, resealed, sound, KNOWN};
use crate::generate::rng::Rng;

const M_BYTES: u32 = 250;
const D_WORDS: u32 = 8000;
const BUFFER: u32 = 256;

/// So many cases in a row work on one memory.
const CHAIN: usize = 16;

/// A frame over tables and a buffer that are lent as they should be.
fn well_lent(rng: &mut Rng, own: u8, frame: Vec<u8>) -> Asked {
    let rule = rng.pick(&[ZERO, ONES, BYTES, BYTES, BYTES, SMALL, PATTERN, EDGES]);
    let (seed, own) = (rng.draw() as u32, u32::from(own));
    let buffer = if rng.once_in(4) { rng.pick(&[257, 300]) } else { BUFFER };
    Asked { rule, seed, m_bytes: M_BYTES, d_words: D_WORDS, own, buffer, frame }
}

fn station(rng: &mut Rng) -> u8 {
    let any = rng.between(1, 247) as u8;
    rng.pick(&[1, 17, 247, any])
}

/// The edges of the frames, each suite for a station of its own.
fn edge_frames(rng: &mut Rng) -> Vec<Asked> {
    type Suite = fn(&mut Rng, u8) -> Vec<Vec<u8>>;
    let suites: [Suite; 7] = [
        edges::limits,
        |_, own| edges::singles(own),
        edges::places,
        edges::counts,
        edges::lengths,
        edges::silences,
        |rng, _| edges::broadcasts(rng),
    ];
    let mut found = Vec::new();
    for suite in suites {
        let own = station(rng);
        for frame in suite(rng, own) {
            found.push(well_lent(rng, own, frame));
        }
    }
    found
}

/// Wrong stations and buffers (16), the right ones next to them, and wrong tables (9) with
/// all of these.
fn lent(rng: &mut Rng) -> Vec<Asked> {
    let mut found = Vec::new();
    let stations = [0, 1, 2, 246, 247, 248, 255, 256, 257, 65537, 1 << 31, u32::MAX];
    for own in stations {
        for buffer in [0, 1, 255, 256, 300] {
            let function = rng.pick(&KNOWN);
            // The station's low byte, so that a number cut to a byte would be answered.
            let frame = sound(rng, own as u8, function);
            found.push(Asked { own, buffer, ..well_lent(rng, 1, frame) });
        }
    }
    for (m_bytes, d_words) in [(249, 8000), (251, 8000), (0, 8000), (250, 7999), (250, 8001)] {
        for (own, buffer) in [(1, 256), (0, 256), (1, 255), (248, 0)] {
            let frame = match rng.below(3) {
                0 => damaged_whole(rng, 1),
                _ => whole(rng, 1),
            };
            found.push(Asked { m_bytes, d_words, own, buffer, ..well_lent(rng, 1, frame) });
        }
    }
    for (m_bytes, d_words) in [(250, 0), (0, 0), (32, 8000), (250, 7900), (250, 256), (249, 7999)] {
        let frame = whole(rng, 17);
        found.push(Asked { m_bytes, d_words, ..well_lent(rng, 17, frame) });
    }
    found
}

fn whole(rng: &mut Rng, station: u8) -> Vec<u8> {
    let function = rng.pick(&KNOWN);
    match rng.below(3) {
        0 => any(rng, station),
        _ => sound(rng, station, function),
    }
}

fn damaged_whole(rng: &mut Rng, station: u8) -> Vec<u8> {
    let whole = whole(rng, station);
    let wrong = damaged(rng, whole);
    // Else the CRC hides the damage from all that is judged after it.
    if rng.once_in(3) {
        wrong
    } else {
        resealed(&wrong)
    }
}

/// A frame, whole or damaged, over tables and a buffer that are lent as they should be.
pub fn random_request(rng: &mut Rng) -> Asked {
    let own = station(rng);
    let to = if rng.once_in(8) { 0 } else { own };
    let frame = match rng.below(8) {
        0..=4 => whole(rng, to),
        5 | 6 => damaged_whole(rng, to),
        _ => {
            let length = rng.below(40) as usize;
            let body = rng.bytes(length);
            match rng.once_in(2) {
                true => body,
                false => frame(to, rng.pick(&KNOWN), &body),
            }
        }
    };
    well_lent(rng, own, frame)
}

/// The edges first, as many of them as fit, then random ones.
pub fn request_cases(rng: &mut Rng, count: usize) -> Vec<RequestCase> {
    let mut asked = lent(rng);
    asked.extend(edge_frames(rng));
    asked.truncate(count);
    while asked.len() < count {
        asked.push(random_request(rng));
    }
    let mut kept = Tables::default();
    let mut cases = Vec::new();
    for (turn, mut one) in asked.into_iter().enumerate() {
        if !turn.is_multiple_of(CHAIN) {
            one.rule = KEPT;
        }
        cases.push(RequestCase::solve(one, &mut kept));
    }
    cases
}

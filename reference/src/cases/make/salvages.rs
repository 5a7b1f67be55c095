//! Torn files: edges of every rule with outputs of several sizes, and random ones.

use crate::cases::memories::{BYTES, EDGES, ONES, PATTERN, SMALL, ZERO};
use crate::cases::salvages::{Asked, SalvageCase, MOST_BYTES};
use crate::generate::rng::Rng;
use crate::generate::torn::{torn, untorn};
use crate::generate::{torn_edges as edges, torn_records};
use crate::salvage::{salvage, LONGEST};

/// Over zeros bytes that are cleared would not be seen, so these are seldom.
const RULES: [u32; 8] = [ONES, BYTES, SMALL, PATTERN, EDGES, BYTES, PATTERN, ZERO];

fn asked(rng: &mut Rng, torn: &[u8], size: usize) -> Asked {
    let rule = rng.pick(&RULES) as u8;
    let seed = rng.draw() as u32;
    Asked { torn: torn.to_vec(), rule, seed, size: size.min(MOST_BYTES) as u32 }
}

/// Bytes of the file that is salvaged; of the longest one where it is refused.
fn needed(torn: &[u8]) -> usize {
    salvage(torn, &mut vec![0; LONGEST]).map_or(LONGEST, |told| told.length())
}

/// A buffer that is large enough, often just so.
fn enough(rng: &mut Rng, needed: usize) -> usize {
    let more = rng.between(1, 120) as usize;
    needed + rng.pick(&[0, 0, 0, 1, 20, more, more])
}

/// One that is too small, often just so.
fn too_few(rng: &mut Rng, needed: usize) -> usize {
    let less = rng.between(1, 120) as usize;
    needed.saturating_sub(rng.pick(&[1, 1, 20, less]))
}

/// Mostly one that is large enough.
fn some_size(rng: &mut Rng, needed: usize) -> usize {
    match rng.once_in(4) {
        true => too_few(rng, needed),
        false => enough(rng, needed),
    }
}

/// Every cut of a short file with just enough room, and with one byte less.
fn cut_everywhere(rng: &mut Rng) -> Vec<Asked> {
    let mut found = Vec::new();
    for torn in edges::cuts() {
        let needed = needed(&torn);
        found.extend([needed, needed - 1].map(|size| asked(rng, &torn, size)));
    }
    found
}

/// Outputs of every size that matters, 16 beside 1 as well: 1 is told.
fn sizes(rng: &mut Rng) -> Vec<Asked> {
    let mut found = Vec::new();
    for torn in edges::for_sizes() {
        let needed = needed(&torn);
        for size in [needed, needed - 1, needed + 1, 0, 1, 8, 20, 27, 28, 29, 65535, 65536] {
            found.push(asked(rng, &torn, size));
        }
    }
    for torn in edges::long_done(rng) {
        let needed = needed(&torn);
        found.extend([needed, needed - 1, 65536].map(|size| asked(rng, &torn, size)));
    }
    for torn in edges::long_refused(rng) {
        for size in [65536, LONGEST + 20, LONGEST, LONGEST - 1, 28, 0] {
            found.push(asked(rng, &torn, size));
        }
    }
    found
}

fn edge_cases(rng: &mut Rng) -> Vec<Asked> {
    let mut found = cut_everywhere(rng);
    found.extend(sizes(rng));
    let mut files = [edges::trailers(), edges::behind_end(rng), edges::ends()].concat();
    files.extend([edges::endless(), edges::lengths(), edges::commented(rng)].concat());
    files.extend([torn_records::kept(rng), torn_records::stopping(rng)].concat());
    for torn in files {
        let size = enough(rng, needed(&torn));
        found.push(asked(rng, &torn, size));
        if rng.once_in(4) {
            let size = too_few(rng, needed(&torn));
            found.push(asked(rng, &torn, size));
        }
    }
    found
}

/// A torn file of any kind.
pub fn random_torn(rng: &mut Rng, turn: usize) -> Vec<u8> {
    let mut found = untorn(rng, turn);
    for _ in 0..rng.pick(&[1, 1, 1, 1, 1, 2]) {
        found = torn(rng, &found);
    }
    found
}

/// The edges first, as many of them as fit, then random ones.
pub fn salvage_cases(rng: &mut Rng, count: usize) -> Vec<SalvageCase> {
    let mut found = edge_cases(rng);
    let mut turn = 0;
    while found.len() < count {
        let torn = random_torn(rng, turn);
        for _ in 0..rng.pick(&[1, 2, 2]) {
            let size = some_size(rng, needed(&torn));
            found.push(asked(rng, &torn, size));
        }
        turn += 1;
    }
    found.truncate(count);
    found.into_iter().map(SalvageCase::solve).collect()
}

//! Case files: inputs with the reference's answers, in the formats of FORMAT.md.

pub mod bytes;
pub mod checks;
pub mod checksum;
pub mod exchanges;
pub mod filefield;
pub mod groups;
pub mod jobs;
pub mod leaves;
pub mod lists;
pub mod make;
pub mod maps;
pub mod memories;
pub mod moves;
pub mod reach;
pub mod requests;
pub mod salvages;
pub mod scans;
pub mod texts;
pub mod unitlists;
pub mod values;

use crate::generate::rng::Rng;
use bytes::Writer;
use filefield::FileField;

/// The kinds of case files, in the order of their numbers from 1.
pub const KINDS: [&str; 12] = [
    "leaves",
    "checks",
    "scans",
    "moves",
    "exchanges",
    "maps",
    "requests",
    "lists",
    "texts",
    "unitlists",
    "jobs",
    "salvages",
];

pub const LEAVES: u32 = 1;
pub const CHECKS: u32 = 2;
pub const SCANS: u32 = 3;
pub const MOVES: u32 = 4;
pub const EXCHANGES: u32 = 5;
pub const MAPS: u32 = 6;
pub const REQUESTS: u32 = 7;
pub const LISTS: u32 = 8;
pub const TEXTS: u32 = 9;
pub const UNIT_LISTS: u32 = 10;
pub const JOBS: u32 = 11;
pub const SALVAGES: u32 = 12;

/// The whole leaf file: word and pair leaves, then the section of groups.
fn leaf_file(rng: &mut Rng, count: u32) -> Vec<u8> {
    let leaves = leaves::generate(count, rng);
    let groups = groups::generate(count, rng);
    let mut out = Writer::file(LEAVES, leaves.len() as u32);
    leaves.iter().for_each(|leaf| leaf.write(&mut out));
    out.u32(groups.len() as u32);
    groups.iter().for_each(|group| group.write(&mut out));
    out.bytes
}

fn check_file(rng: &mut Rng, count: u32) -> Vec<u8> {
    let mut out = Writer::file(CHECKS, count);
    for case in make::check_cases(rng, count as usize) {
        case.write(&mut out);
    }
    out.bytes
}

fn scan_file(rng: &mut Rng, count: u32) -> Vec<u8> {
    let mut out = Writer::file(SCANS, count);
    let mut files = FileField::default();
    for case in make::scan_cases(rng, count as usize) {
        case.write(&mut files, &mut out);
    }
    out.bytes
}

fn move_file(rng: &mut Rng, count: u32) -> Vec<u8> {
    let mut out = Writer::file(MOVES, count);
    let mut files = FileField::default();
    for case in make::move_cases(rng, count as usize) {
        case.write(&mut files, &mut out);
    }
    out.bytes
}

fn exchange_file(rng: &mut Rng, count: u32) -> Vec<u8> {
    let mut out = Writer::file(EXCHANGES, count);
    for case in make::exchange_cases(rng, count as usize) {
        case.write(&mut out);
    }
    out.bytes
}

fn map_file(rng: &mut Rng, count: u32) -> Vec<u8> {
    let mut out = Writer::file(MAPS, count);
    let mut files = FileField::default();
    for case in make::map_cases(rng, count as usize) {
        case.write(&mut files, &mut out);
    }
    out.bytes
}

fn request_file(rng: &mut Rng, count: u32) -> Vec<u8> {
    let mut out = Writer::file(REQUESTS, count);
    for case in make::request_cases(rng, count as usize) {
        case.write(&mut out);
    }
    out.bytes
}

fn list_file(rng: &mut Rng, count: u32) -> Vec<u8> {
    let mut out = Writer::file(LISTS, count);
    for case in make::list_cases(rng, count as usize) {
        case.write(&mut out);
    }
    out.bytes
}

fn text_file(rng: &mut Rng, count: u32) -> Vec<u8> {
    let mut out = Writer::file(TEXTS, count);
    for case in make::text_cases(rng, count as usize) {
        case.write(&mut out);
    }
    out.bytes
}

fn unit_list_file(rng: &mut Rng, count: u32) -> Vec<u8> {
    let mut out = Writer::file(UNIT_LISTS, count);
    for case in make::unit_list_cases(rng, count as usize) {
        case.write(&mut out);
    }
    out.bytes
}

fn job_file(rng: &mut Rng, count: u32) -> Vec<u8> {
    let mut out = Writer::file(JOBS, count);
    let mut files = FileField::default();
    for case in make::job_cases(rng, count as usize) {
        case.write(&mut files, &mut out);
    }
    out.bytes
}

fn salvage_file(rng: &mut Rng, count: u32) -> Vec<u8> {
    let mut out = Writer::file(SALVAGES, count);
    let mut files = FileField::default();
    for case in make::salvage_cases(rng, count as usize) {
        case.write(&mut files, &mut out);
    }
    out.bytes
}

/// A whole case file by the name of its kind; none if there is no such kind.
pub fn case_file(kind: &str, seed: u64, count: u32) -> Option<Vec<u8>> {
    let rng = &mut Rng::new(seed);
    Some(match kind {
        "leaves" => leaf_file(rng, count),
        "checks" => check_file(rng, count),
        "scans" => scan_file(rng, count),
        "moves" => move_file(rng, count),
        "exchanges" => exchange_file(rng, count),
        "maps" => map_file(rng, count),
        "requests" => request_file(rng, count),
        "lists" => list_file(rng, count),
        "texts" => text_file(rng, count),
        "unitlists" => unit_list_file(rng, count),
        "jobs" => job_file(rng, count),
        "salvages" => salvage_file(rng, count),
        _ => return None,
    })
}

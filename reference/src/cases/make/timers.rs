//! Scans of timers: the three bases at their edges, leftovers, and the time that a scan is given.

use super::scans::{Batch, NAMED};
use crate::cases::memories::{MemorySpec, Misfit, KEPT, ZERO};
use crate::clock::base;
use crate::compose;
use crate::generate::faults::aimed;
use crate::generate::files::broken_frame;
use crate::generate::memories::{bad_leftovers, elapsed, leftovers, memory, too_long};
use crate::generate::program::small;
use crate::generate::rng::Rng;
use crate::generate::timers::{again, by_sm1, on, running, EDGES, FAR};
use crate::memory::REST;

const TIMES: [u32; 9] = [0, 1, 9, 10, 99, 100, 101, 9_999, 10_000];
const TOO_LONG: [u32; 8] = [10_001, 10_002, 32_767, 32_768, 65_536, 65_636, 1 << 31, u32::MAX];
const LEFT: [[u8; 2]; 6] = [[0, 0], [9, 99], [9, 0], [0, 99], [1, 1], [4, 56]];
const BAD: [[u8; 2]; 10] = [
    [10, 0],
    [10, 99],
    [11, 50],
    [255, 99],
    [0, 100],
    [9, 100],
    [5, 128],
    [9, 255],
    [99, 9],
    [255, 255],
];

fn zero(rest: [u8; 2]) -> MemorySpec {
    MemorySpec { rule: ZERO, ..MemorySpec::default() }.with_leftovers(rest)
}

fn kept() -> MemorySpec {
    MemorySpec { rule: KEPT, ..MemorySpec::default() }
}

/// Zeros but for the leftovers and one timer's value.
fn at(rest: [u8; 2], timer: u32, value: i16) -> MemorySpec {
    let mut spec = zero(rest);
    let place = REST as u32 - 2 * (256 - timer);
    spec.patches.extend((place as u16..).zip(value.to_le_bytes()));
    spec
}

/// The units of a timer, told by division.
fn units(timer: u32, [ten, hundred]: [u8; 2], time: u32) -> u32 {
    match base(timer) {
        100 => (u32::from(hundred) + time) / 100,
        10 => (u32::from(ten) + time) / 10,
        _ => time,
    }
}

impl Batch {
    /// The edges of the bases at every edge of time and leftovers; then all 256 timers.
    fn bases(&mut self) {
        let file = compose::file(&on(&EDGES, FAR));
        for time in TIMES {
            for rest in LEFT {
                self.add(&file, zero(rest), time, NAMED);
            }
        }
        let every: Vec<u32> = (0..256).collect();
        let file = compose::file(&on(&every, 1000));
        for (rest, time) in [([9, 99], 1), ([0, 0], 10_000), ([3, 77], 1_234), ([9, 99], 0)] {
            self.add(&file, zero(rest), time, NAMED);
        }
    }

    /// One TON executed several times in a scan, with a preset that it reaches on the way or not.
    fn in_loops(&mut self, rng: &mut Rng) {
        for timer in EDGES {
            for passes in [2, 3, 7, 1_000] {
                let (rest, time) = (leftovers(rng), elapsed(rng));
                let most = (units(timer, rest, time) as i32 * (passes - 1)).clamp(1, FAR);
                for preset in [FAR, most] {
                    let file = compose::file(&again(passes, &[timer], preset));
                    self.add(&file, zero(rest), time, NAMED);
                }
            }
        }
    }

    /// From a value that it has: a preset just reached, one short of it, passed by.
    fn presets(&mut self, rng: &mut Rng) {
        for timer in EDGES {
            for value in [-32768i16, -1, 0, 17] {
                let (rest, time) = (leftovers(rng), elapsed(rng));
                let reached = i32::from(value).max(0) + units(timer, rest, time) as i32;
                let preset = (reached + rng.pick(&[-1, 0, 0, 1])).clamp(1, FAR);
                self.add(
                    &compose::file(&on(&[timer], preset)),
                    at(rest, timer, value),
                    time,
                    NAMED,
                );
            }
            let (rest, time) = (leftovers(rng), elapsed(rng));
            self.add(&compose::file(&on(&[timer], FAR)), at(rest, timer, 32767), time, NAMED);
        }
    }

    /// Leftovers advance with no timer, with none that has flow, and with any budget.
    fn idle(&mut self, rng: &mut Rng) {
        let none = compose::file(&[compose::end()]);
        let off = compose::file(&by_sm1(&EDGES));
        for time in TIMES {
            self.add(&none, zero(leftovers(rng)), time, NAMED);
            self.add(&off, at(leftovers(rng), rng.pick(&EDGES), 500), time, NAMED);
        }
        let file = compose::file(&on(&EDGES, FAR));
        for time in TIMES {
            self.add(&file, zero([9, 99]), time, 0);
            self.add(&file, zero(leftovers(rng)), time, rng.between(1, 7));
        }
    }

    /// Refusal 9: by a leftover alone, by the time alone, by both, with a budget of 0 too.
    fn out_of_range(&mut self, rng: &mut Rng) {
        let file = compose::file(&on(&EDGES, FAR));
        for rest in BAD {
            self.add(&file, zero(rest), 100, NAMED);
            self.add(&file, zero(rest), elapsed(rng), 0);
        }
        for time in TOO_LONG {
            self.add(&file, zero(LEFT[1]), time, NAMED);
            self.add(&file, zero(leftovers(rng)), time, 0);
        }
        for _ in 0..4 {
            self.add(&file, zero(bad_leftovers(rng)), too_long(rng), NAMED);
        }
        for way in 0..3 {
            let misfit = Misfit { table: 8, way };
            for rest in [[0, 0], bad_leftovers(rng)] {
                self.add(&file, MemorySpec { misfit, ..zero(rest) }, elapsed(rng), NAMED);
            }
        }
    }

    /// Refusals 1 to 8 come first, whatever is wrong of leftovers and time.
    fn refused_first(&mut self, rng: &mut Rng) {
        for number in 1..=8 {
            let records = small(rng).records;
            let file = match number {
                1 => broken_frame(rng, &records, 0),
                _ => compose::file(&aimed(rng, number, 0).records),
            };
            let misfit = Misfit { table: 8, way: number % 3 };
            let wrong = memory(rng, &[]).with_leftovers(bad_leftovers(rng));
            self.add(&file, wrong.clone(), elapsed(rng), NAMED);
            self.add(&file, memory(rng, &[]), too_long(rng), NAMED);
            self.add(&file, MemorySpec { misfit, ..wrong }, too_long(rng), NAMED);
        }
    }

    /// Scans one after the other: leftovers and timers are carried, over watchdogs and refusals.
    fn chain(&mut self, rng: &mut Rng, length: usize) {
        let file = compose::file(&running());
        self.add(&file, zero(leftovers(rng)), elapsed(rng), NAMED);
        for turn in 1..length {
            let wrong_size = MemorySpec { misfit: Misfit { table: 8, way: 2 }, ..kept() };
            match turn % 12 {
                3 => self.add(&file, kept(), elapsed(rng), 0),
                5 => self.add(&file, kept(), elapsed(rng), rng.between(1, 8)),
                7 => self.add(&file, kept(), too_long(rng), NAMED),
                8 => self.add(&file, wrong_size, elapsed(rng), NAMED),
                _ => self.add(&file, kept(), elapsed(rng), NAMED),
            }
        }
    }

    /// A leftover that is out of its range stays so until it is written.
    fn stays_bad(&mut self, rng: &mut Rng) {
        let file = compose::file(&running());
        for rest in [[10, 50], [5, 100]] {
            self.add(&file, zero([7, 70]), 1_000, NAMED);
            self.add(&file, kept().with_leftovers(rest), elapsed(rng), NAMED);
            self.add(&file, kept(), elapsed(rng), 0);
            self.add(&file, kept().with_leftovers([7, 70]), elapsed(rng), NAMED);
        }
    }

    /// A time in parts of one length: after ten scans of 10 ms a 100 ms timer has one unit more.
    fn parts(&mut self, part: u32, count: usize) {
        let file = compose::file(&on(&EDGES, FAR));
        self.add(&file, zero([0, 0]), part, NAMED);
        for _ in 1..count {
            self.add(&file, kept(), part, NAMED);
        }
    }

    pub(super) fn timers(&mut self, rng: &mut Rng) {
        self.bases();
        self.in_loops(rng);
        self.presets(rng);
        self.idle(rng);
        self.out_of_range(rng);
        self.refused_first(rng);
        for length in [24, 36] {
            self.chain(rng, length);
        }
        self.stays_bad(rng);
        self.parts(7, 16);
        self.parts(33, 10);
    }
}

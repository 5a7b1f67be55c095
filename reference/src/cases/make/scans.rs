//! Scans: accepted programs over several memories and budgets, and refused calls. Those of timers
//! are in `timers`.

use crate::cases::memories::{MemorySpec, Misfit, KEPT, ONES, ZERO};
use crate::cases::scans::ScanCase;
use crate::compose;
use crate::file::Record;
use crate::generate::edge_programs;
use crate::generate::faults::aimed;
use crate::generate::files::{broken_frame, comment};
use crate::generate::memories::{bad_leftovers, elapsed, leftovers, memory, too_long};
use crate::generate::program::{medium, program, small, Plan};
use crate::generate::rng::Rng;
use crate::generate::specials;
use crate::memory::IMAGE;
use crate::scan::DEFAULT_BUDGET;

/// The budget of the cases that try no other. It was that of the entry that takes none.
pub(super) const NAMED: u32 = 1_000_000;

/// How many cases are of the budget of the entry that takes none. They stand last.
const DEFAULTS: usize = 100;

pub(super) struct Batch {
    cases: Vec<ScanCase>,
    kept: Vec<u8>,
}

fn ruled(rule: u32, rest: [u8; 2]) -> MemorySpec {
    MemorySpec { rule, ..MemorySpec::default() }.with_leftovers(rest)
}

impl Batch {
    pub(super) fn add(&mut self, file: &[u8], memory: MemorySpec, elapsed: u32, budget: u32) {
        let case = ScanCase::solve(file.to_vec(), memory, elapsed, budget, &mut self.kept);
        self.cases.push(case);
    }

    /// The steps of the last case.
    fn steps(&self) -> u32 {
        self.cases.last().map_or(0, |case| case.answer.steps)
    }

    /// The document's own scans, and budgets around a million.
    fn specials(&mut self, rng: &mut Rng) {
        let zero = MemorySpec { rule: ZERO, ..MemorySpec::default() };
        let passes = compose::file(&specials::three_passes());
        for budget in [0, 1, 4, 10, 11, 12, u32::MAX] {
            self.add(&passes, zero.clone(), 500, budget);
        }
        for steps in [u64::from(NAMED), u64::from(NAMED) + 1] {
            let file = specials::of_steps(rng, steps);
            self.add(&file, zero.clone(), 0, NAMED);
        }
    }

    /// The budget of the entry that takes none: programs that need just as many steps, one less, one more; a jump over
    /// too many; and programs that may need more, with that budget and with another.
    fn defaults(&mut self, rng: &mut Rng, count: usize) {
        let zero = MemorySpec { rule: ZERO, ..MemorySpec::default() };
        for steps in [199_999, 200_000, 200_001, 200_002, 1_000_000, 10_000_000] {
            let file = specials::of_steps(rng, steps);
            self.add(&file, zero.clone(), 0, DEFAULT_BUDGET);
        }
        for nops in 0..3 {
            let file = compose::file(&specials::counting_up(nops));
            self.add(&file, zero.clone(), 0, DEFAULT_BUDGET);
        }
        let file = compose::file(&specials::long_way_round());
        for rule in [ZERO, ONES] {
            self.add(&file, ruled(rule, [9, 99]), 0, DEFAULT_BUDGET);
        }
        while self.cases.len() < count {
            let records = specials::over_steps(rng, DEFAULT_BUDGET);
            let file = crate::file::encode(&comment(rng), &records);
            let (spec, time) = (memory(rng, &records), elapsed(rng));
            self.add(&file, spec.clone(), time, DEFAULT_BUDGET);
            self.add(&file, spec, time, NAMED);
        }
    }

    /// Each word instruction at its edges, over flags that are all off or all on.
    fn edges(&mut self, rng: &mut Rng) {
        for file in edge_programs::files(rng) {
            let rule = rng.pick(&[ZERO, ONES]);
            self.add(&file, ruled(rule, leftovers(rng)), 0, NAMED);
        }
    }

    /// One program: a scan, a second one on what it left, and others with tight budgets.
    fn accepted(&mut self, rng: &mut Rng, records: &[Record]) {
        let file = crate::file::encode(&comment(rng), records);
        self.add(&file, memory(rng, records), elapsed(rng), NAMED);
        let kept = MemorySpec { rule: KEPT, ..MemorySpec::default() };
        self.add(&file, kept, elapsed(rng), rng.pick(&[NAMED, u32::MAX]));
        self.add(&file, memory(rng, records), elapsed(rng), NAMED);
        let steps = self.steps();
        let again = self.cases.last().map(|case| (case.memory.clone(), case.elapsed));
        if let Some((same, time)) = again {
            let within = rng.below(steps);
            let budget = rng.pick(&[0, 1, steps, steps - 1, within, within]);
            self.add(&file, same, time, budget);
        }
    }

    /// Refusal 9: each table in each wrong size, a leftover and the time out of range.
    fn wrongly_lent(&mut self, rng: &mut Rng, turn: usize) {
        let records = small(rng).records;
        let file = compose::file(&records);
        let misfit = Misfit { table: turn as u32 % 8 + 1, way: turn as u32 / 8 % 3 };
        let spec = memory(rng, &records);
        self.add(&file, MemorySpec { misfit, ..spec.clone() }, elapsed(rng), NAMED);
        self.add(&file, spec.clone(), too_long(rng), rng.pick(&[0, NAMED]));
        let wrong = spec.with_leftovers(bad_leftovers(rng));
        self.add(&file, wrong, elapsed(rng), rng.pick(&[0, NAMED]));
    }

    /// Refusals 1 to 8, also where 9 holds as well.
    fn refused(&mut self, rng: &mut Rng, turn: usize) {
        let number = turn as u32 % 8 + 1;
        let file = if number == 1 {
            let records = small(rng).records;
            broken_frame(rng, &records, turn / 8)
        } else {
            compose::file(&aimed(rng, number, turn / 8).records)
        };
        let time = if rng.once_in(3) { too_long(rng) } else { elapsed(rng) };
        let rest = if rng.once_in(3) { bad_leftovers(rng) } else { leftovers(rng) };
        self.add(&file, memory(rng, &[]).with_leftovers(rest), time, NAMED);
    }
}

pub fn scan_cases(rng: &mut Rng, count: usize) -> Vec<ScanCase> {
    let mut batch = Batch { cases: Vec::new(), kept: vec![0; IMAGE] };
    batch.specials(rng);
    batch.edges(rng);
    batch.timers(rng);
    let mut turn = 0;
    let first = count.saturating_sub(DEFAULTS);
    while batch.cases.len() < first {
        match turn % 20 {
            7 | 16 => batch.wrongly_lent(rng, turn / 10),
            13 | 14 => batch.refused(rng, turn / 20 * 2 + turn % 2),
            17 => {
                let plan = Plan { records: 30, steps: 20_000, loops: 3 };
                let records = program(rng, plan).records;
                batch.accepted(rng, &records);
            }
            _ => {
                let records = medium(rng).records;
                batch.accepted(rng, &records);
            }
        }
        turn += 1;
    }
    batch.cases.truncate(first);
    batch.defaults(rng, count);
    batch.cases.truncate(count);
    batch.cases
}

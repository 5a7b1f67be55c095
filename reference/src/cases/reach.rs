//! Reach: how often each refusal and each instruction occurs in case files. Every case is
//! also solved again, so that a file which the reference no longer agrees with is found.

use super::bytes::Reader;
use super::checks::CheckCase;
use super::exchanges::ExchangeCase;
use super::filefield::FileField;
use super::groups::Group;
use super::jobs::JobCase;
use super::leaves::Leaf;
use super::lists::ListCase;
use super::maps::MapCase;
use super::moves::MoveCase;
use super::requests::{RequestCase, Tables, SILENT};
use super::salvages::SalvageCase;
use super::scans::{ScanCase, ENDED, WATCHDOG};
use super::texts::TextCase;
use super::unitlists::UnitListCase;
use crate::check::check;
use crate::clock::{self, LONGEST_ELAPSED};
use crate::file::Record;
use crate::instruction::Instruction;
use crate::jobs::MOST as MOST_LINES;
use crate::memory::{IMAGE, REST};
use crate::salvage::salvage;
use crate::scan::scan_watched;
use crate::units::{Clash, MOST, ROOM};

/// What the lists of declarations meet.
#[derive(Clone, Copy, Default)]
pub struct ListReach {
    /// Lists that are taken: without a clash, with some, with all that there can be.
    pub peaceful: u64,
    pub some: u64,
    pub full: u64,
    /// Lists that are refused for their length.
    pub over: u64,
    /// Clashes of each kind.
    pub two_blocks: u64,
    pub shared_words: u64,
}

/// What the jobs meet.
#[derive(Clone, Copy, Default)]
pub struct JobReach {
    /// Accepted jobs, those of two lines or more, and those that change the file.
    pub done: u64,
    pub several: u64,
    pub changing: u64,
    /// Moves of the accepted jobs.
    pub moves: u64,
    /// Refused since two lines meet.
    pub meetings: u64,
    /// Jobs of 64 lines that are not refused for it, and longer ones.
    pub full: u64,
    pub over: u64,
}

/// What the salvages meet.
#[derive(Clone, Copy, Default)]
pub struct SalvageReach {
    /// Salvages that are done: END was found, END was added.
    pub found: u64,
    pub added: u64,
    /// Those that are not: 1, 16.
    pub ones: u64,
    pub sixteens: u64,
    /// Written files, by what the check says of them; 0 counts the accepted.
    pub checked: [u64; 9],
}

/// What the scans meet of time.
#[derive(Clone, Copy, Default)]
pub struct TimeReach {
    /// TON executed with flow: on a timer of 100 ms, of 10 ms, of 1 ms.
    pub bases: [u64; 3],
    /// Scans that find leftovers other than 0 and 0, and scans that leave others than they found.
    pub found: u64,
    pub moved: u64,
    /// What is wrong where 9 is told: a size, a leftover, the time.
    pub nines: [u64; 3],
}

#[derive(Clone)]
pub struct Reach {
    pub cases: u64,
    pub agree: u64,
    /// By refusal number; 0 counts the accepted.
    pub refusals: [u64; 17],
    /// Records of accepted files, by instruction number.
    pub listed: [u64; 256],
    /// Records executed by the scans, and those among them with the flow on before them.
    pub executed: [u64; 256],
    pub with_flow: [u64; 256],
    pub errors: [u64; 3],
    pub ended: u64,
    pub watchdog: u64,
    pub time: TimeReach,
    pub groups: u64,
    pub silent: u64,
    /// Replies to requests: by exception code, and those without one by function.
    pub exceptions: [u64; 256],
    pub replies: [u64; 256],
    pub lists: ListReach,
    /// Pairs of texts: nothing, the first one's line, the second one's.
    pub texts: [u64; 3],
    /// Lines of unit lists that are well spelt, ahead of the first that is not.
    pub lines: u64,
    pub jobs: JobReach,
    pub salvages: SalvageReach,
}

impl Default for Reach {
    fn default() -> Reach {
        Reach {
            cases: 0,
            agree: 0,
            refusals: [0; 17],
            listed: [0; 256],
            executed: [0; 256],
            with_flow: [0; 256],
            errors: [0; 3],
            ended: 0,
            watchdog: 0,
            time: TimeReach::default(),
            groups: 0,
            silent: 0,
            exceptions: [0; 256],
            replies: [0; 256],
            lists: ListReach::default(),
            texts: [0; 3],
            lines: 0,
            jobs: JobReach::default(),
            salvages: SalvageReach::default(),
        }
    }
}

impl TimeReach {
    fn count_ton(&mut self, record: &Record) {
        let place = match clock::base(record.operands[0].value) {
            100 => 0,
            10 => 1,
            _ => 2,
        };
        self.bases[place] += 1;
    }

    fn add(&mut self, case: &ScanCase, before: &[u8], after: &[u8]) {
        let (old, new) = (&before[REST..], &after[REST..]);
        let lent = case.memory.lend(before);
        match case.refusal {
            0 => {
                self.found += u64::from(old != [0, 0]);
                self.moved += u64::from(old != new);
            }
            9 => {
                let sized = lent.sizes_right();
                self.nines[0] += u64::from(!sized);
                self.nines[1] += u64::from(sized && !clock::sound(&lent.rest));
                self.nines[2] += u64::from(case.elapsed > LONGEST_ELAPSED);
            }
            _ => {}
        }
    }
}

impl JobReach {
    fn add(&mut self, case: &JobCase) {
        let lines = case.asked.tasks.len();
        let done = case.refusal == 0;
        self.done += u64::from(done);
        self.several += u64::from(done && lines > 1);
        self.changing += u64::from(!case.changes.is_empty());
        self.moves += u64::from(case.moves);
        self.meetings += u64::from(case.is_meeting());
        self.full += u64::from(lines == MOST_LINES);
        self.over += u64::from(lines > MOST_LINES);
    }
}

impl SalvageReach {
    fn add(&mut self, case: &SalvageCase, written: Option<&[u8]>) {
        self.found += u64::from(case.refusal == 0 && case.added == 0);
        self.added += u64::from(case.refusal == 0 && case.added != 0);
        self.ones += u64::from(case.refusal == 1);
        self.sixteens += u64::from(case.refusal == 16);
        if let Some(file) = written {
            let number = check(file).err().map_or(0, |refusal| refusal.number);
            self.checked[number as usize] += 1;
        }
    }
}

impl ListReach {
    /// None if a clash is none, or not of two places of the list.
    fn add(&mut self, case: &ListCase) -> Option<()> {
        let list = &case.asked.list;
        self.over += u64::from(list.len() > MOST);
        if case.refusal == 0 {
            match case.clashes.len() {
                0 => self.peaceful += 1,
                ROOM => self.full += 1,
                _ => self.some += 1,
            }
        }
        for &[low, high] in &case.clashes {
            match list.get(low as usize)?.clash(*list.get(high as usize)?)? {
                Clash::TwoBlocks => self.two_blocks += 1,
                Clash::SharedWords => self.shared_words += 1,
            }
        }
        Some(())
    }
}

impl Reach {
    fn count(&mut self, refusal: u32, agrees: bool) {
        self.cases += 1;
        self.agree += u64::from(agrees);
        if let Some(counter) = self.refusals.get_mut(refusal as usize) {
            *counter += 1;
        }
    }

    /// Instructions of an accepted file.
    fn list(&mut self, file: &[u8]) {
        if let Ok(program) = check(file) {
            for record in &program.records {
                self.listed[usize::from(record.number)] += 1;
            }
        }
    }

    fn watch(&mut self, case: &ScanCase, before: &[u8]) {
        let Ok(program) = check(&case.file) else {
            return;
        };
        let mut memory = case.memory.lend(before);
        let (executed, with_flow) = (&mut self.executed, &mut self.with_flow);
        let time = &mut self.time;
        let mut watch = |at: usize, on: bool| {
            let record = &program.records[at];
            let number = usize::from(record.number);
            executed[number] += 1;
            with_flow[number] += u64::from(on);
            if on && record.number == Instruction::Ton.number() {
                time.count_ton(record);
            }
        };
        // A refusal was counted already.
        let _ = scan_watched(&case.file, &mut memory, case.elapsed, case.budget, &mut watch);
    }

    fn leaves(&mut self, from: &mut Reader, count: u32) -> Option<()> {
        for _ in 0..count {
            let leaf = Leaf::read(from)?;
            self.count(0, leaf.again() == Some(leaf));
            if let Some(number) = leaf.instruction() {
                self.listed[usize::from(number)] += 1;
            }
            self.errors[(leaf.error as usize).min(2)] += 1;
        }
        for _ in 0..from.u32()? {
            let group = Group::read(from)?;
            self.count(0, group.again() == group);
            self.groups += 1;
        }
        Some(())
    }

    fn checks(&mut self, from: &mut Reader, count: u32) -> Option<()> {
        for _ in 0..count {
            let case = CheckCase::read(from)?;
            self.count(case.refusal, CheckCase::solve(case.file.clone()) == case);
            self.list(&case.file);
        }
        Some(())
    }

    fn scans(&mut self, from: &mut Reader, count: u32) -> Option<()> {
        let mut files = FileField::default();
        let mut kept = vec![0; IMAGE];
        for _ in 0..count {
            let case = ScanCase::read(&mut files, from)?;
            let before = case.memory.image(&kept);
            let (file, memory) = (case.file.clone(), case.memory.clone());
            let again = ScanCase::solve(file, memory, case.elapsed, case.budget, &mut kept);
            self.count(case.refusal, again == case);
            self.list(&case.file);
            self.watch(&case, &before);
            self.time.add(&case, &before, &kept);
            self.ended += u64::from(case.kind == ENDED);
            self.watchdog += u64::from(case.kind == WATCHDOG);
            self.errors[(case.answer.error as usize).min(2)] += 1;
        }
        Some(())
    }

    fn moves(&mut self, from: &mut Reader, count: u32) -> Option<()> {
        let mut files = FileField::default();
        for _ in 0..count {
            let case = MoveCase::read(&mut files, from)?;
            let again = MoveCase::solve(case.file.clone(), case.block, case.pool);
            self.count(case.refusal, again == case);
            self.list(&case.file);
        }
        Some(())
    }

    fn exchanges(&mut self, from: &mut Reader, count: u32) -> Option<()> {
        for _ in 0..count {
            let case = ExchangeCase::read(from)?;
            let again =
                ExchangeCase::solve(case.rule, case.seed, case.words, case.block, case.place);
            self.count(case.refusal, again == case);
        }
        Some(())
    }

    fn maps(&mut self, from: &mut Reader, count: u32) -> Option<()> {
        let mut files = FileField::default();
        for _ in 0..count {
            let case = MapCase::read(&mut files, from)?;
            self.count(case.refusal, MapCase::solve(case.file.clone()) == case);
            self.list(&case.file);
        }
        Some(())
    }

    fn requests(&mut self, from: &mut Reader, count: u32) -> Option<()> {
        let mut kept = Tables::default();
        for _ in 0..count {
            let case = RequestCase::read(from)?;
            let again = RequestCase::solve(case.asked.clone(), &mut kept);
            self.count(case.refusal, case.with_reply(again.reply.clone()) == again);
            self.silent += u64::from(again.kind == SILENT);
            match again.told() {
                Some((function, 0)) => self.replies[usize::from(function)] += 1,
                Some((_, code)) => self.exceptions[usize::from(code)] += 1,
                None => {}
            }
        }
        Some(())
    }

    fn lists(&mut self, from: &mut Reader, count: u32) -> Option<()> {
        for _ in 0..count {
            let case = ListCase::read(from)?;
            self.count(case.refusal, ListCase::solve(case.asked.clone()) == case);
            self.lists.add(&case)?;
        }
        Some(())
    }

    fn texts(&mut self, from: &mut Reader, count: u32) -> Option<()> {
        for _ in 0..count {
            let case = TextCase::read(from)?;
            self.count(0, TextCase::solve(case.texts.clone()) == case);
            *self.texts.get_mut(case.which as usize)? += 1;
        }
        Some(())
    }

    fn unit_lists(&mut self, from: &mut Reader, count: u32) -> Option<()> {
        for _ in 0..count {
            let case = UnitListCase::read(from)?;
            self.count(case.refusal, UnitListCase::solve(case.text.clone()) == case);
            self.lines += u64::from(case.count);
        }
        Some(())
    }

    fn jobs(&mut self, from: &mut Reader, count: u32) -> Option<()> {
        let mut files = FileField::default();
        for _ in 0..count {
            let case = JobCase::read(&mut files, from)?;
            self.count(case.refusal, JobCase::solve(case.asked.clone()) == case);
            self.list(&case.asked.file);
            self.jobs.add(&case);
        }
        Some(())
    }

    fn salvages(&mut self, from: &mut Reader, count: u32) -> Option<()> {
        let mut files = FileField::default();
        for _ in 0..count {
            let case = SalvageCase::read(&mut files, from)?;
            self.count(case.refusal, SalvageCase::solve(case.asked.clone()) == case);
            let mut out = case.asked.buffer();
            let told = salvage(&case.asked.torn, &mut out).ok();
            let written = told.and_then(|told| out.get(..told.length()));
            self.list(written.unwrap_or_default());
            self.salvages.add(&case, written);
        }
        Some(())
    }

    /// Adds a whole case file; none if it is not one, or not exactly one.
    pub fn add(&mut self, bytes: &[u8]) -> Option<()> {
        let mut from = Reader::new(bytes);
        let (kind, count) = from.header()?;
        match kind {
            super::LEAVES => self.leaves(&mut from, count)?,
            super::CHECKS => self.checks(&mut from, count)?,
            super::SCANS => self.scans(&mut from, count)?,
            super::MOVES => self.moves(&mut from, count)?,
            super::EXCHANGES => self.exchanges(&mut from, count)?,
            super::MAPS => self.maps(&mut from, count)?,
            super::REQUESTS => self.requests(&mut from, count)?,
            super::LISTS => self.lists(&mut from, count)?,
            super::TEXTS => self.texts(&mut from, count)?,
            super::UNIT_LISTS => self.unit_lists(&mut from, count)?,
            super::JOBS => self.jobs(&mut from, count)?,
            super::SALVAGES => self.salvages(&mut from, count)?,
            _ => return None,
        }
        from.at_end().then_some(())
    }
}

#[cfg(test)]
mod tests {
    use super::Reach;
    use crate::cases::{case_file, KINDS};

    #[test]
    fn written_files_read_back_and_agree() {
        for kind in KINDS {
            let bytes = case_file(kind, 3, 150).unwrap();
            assert_eq!(bytes, case_file(kind, 3, 150).unwrap());
            let mut reach = Reach::default();
            assert!(reach.add(&bytes).is_some(), "{kind}");
            assert_eq!(reach.cases, reach.agree, "{kind}");
            assert!(Reach::default().add(&bytes[..bytes.len() - 1]).is_none(), "{kind}");
        }
    }
}

//! `storm`: many random inputs and what must hold of every answer.

use super::Said;
use crate::storm::Tally;

fn describe(t: &Tally) -> String {
    let files = format!("files {} refused {}", t.files, t.refused);
    let scans = format!("scans {} watchdogs {}", t.scans, t.watchdogs);
    let moves = format!("moves {} accepted {} twin scans {}", t.moves, t.moved, t.twin_scans);
    let requests = format!("requests {} replies {}", t.requests, t.replies);
    let units = format!("lists {} clashes {} lines {}", t.lists, t.clashes, t.lines);
    let times = format!("times {} in scans {}", t.times, t.parts);
    let jobs = format!("jobs {} done {}", t.jobs, t.jobs_done);
    let torn = format!("torn {} end added {}", t.torn, t.ends_added);
    format!("{files}, {scans}, {moves}, {requests}, {units}, {times}, {jobs}, {torn}\nall held\n")
}

pub fn storm(seed: u32, count: u32) -> Said {
    match crate::storm::storm(u64::from(seed), count) {
        Ok(tally) => Ok((describe(&tally).into(), 0)),
        Err(what) => Ok((format!("DID NOT HOLD: {what}\n").into(), 1)),
    }
}

//! The command line: one subcommand, its arguments, an exit status.

mod answers;
mod coverage;
mod jobs;
mod salvages;
mod storm;
mod units;
mod vectors;

use crate::selftest;
use std::io::Write;

const USAGE: &str = "usage: ninhalto-reference
  check FILE
  scan FILE MEMORY ELAPSED [BUDGET]
  map FILE
  move FILE START LENGTH POOLSTART POOLEND
  exchange MEMORY START LENGTH PLACE
  job FILE JOB [MEMORY]
  salvage TORN OUT
  answer MEMORY STATION REQUEST
  clashes UNITS [FILE]
  longer TEXT1 TEXT2
  leaves|checks|scans|moves|exchanges|maps|requests|lists|texts|unitlists|jobs|salvages
      PATH SEED COUNT
  coverage CASEFILE..
  storm SEED COUNT
  selftest";

/// What a subcommand says: its text, of any bytes, and the exit status.
/// 0: an answer, a refusal too. 1: something differs. 2: a call that makes no sense.
pub type Said = Result<(Vec<u8>, i32), String>;

pub fn run(arguments: &[String]) -> i32 {
    let words: Vec<&str> = arguments.iter().map(String::as_str).collect();
    let said = dispatch(&words).and_then(|(text, status)| print(&text).map(|()| status));
    match said {
        Ok(status) => status,
        Err(complaint) => {
            eprintln!("{complaint}");
            2
        }
    }
}

fn print(text: &[u8]) -> Result<(), String> {
    std::io::stdout().write_all(text).map_err(|error| error.to_string())
}

fn dispatch(words: &[&str]) -> Said {
    match words {
        ["check", file] => answers::check(file),
        ["scan", file, memory, elapsed] => answers::scan(file, memory, elapsed, None),
        ["scan", file, memory, elapsed, budget] => {
            answers::scan(file, memory, elapsed, Some(budget))
        }
        ["map", file] => answers::map(file),
        ["move", file, numbers @ ..] => answers::move_block(file, numbers),
        ["exchange", memory, numbers @ ..] => answers::exchange(memory, numbers),
        ["job", file, job] => jobs::job(file, job, None),
        ["job", file, job, memory] => jobs::job(file, job, Some(memory)),
        ["salvage", torn, out] => salvages::salvage(torn, out),
        ["answer", memory, station, request] => answers::answer(memory, number(station)?, request),
        ["clashes", units] => units::clashes(units, None),
        ["clashes", units, file] => units::clashes(units, Some(file)),
        ["longer", first, second] => units::longer(first, second),
        ["selftest"] => Ok(self_test()),
        ["coverage", paths @ ..] if !paths.is_empty() => coverage::coverage(paths),
        ["storm", seed, count] => storm::storm(number(seed)?, number(count)?),
        [kind, path, seed, count] => vectors::write(kind, path, number(seed)?, number(count)?),
        _ => Err(USAGE.to_string()),
    }
}

fn self_test() -> (Vec<u8>, i32) {
    let lines = selftest::lines();
    let agree = lines.iter().filter(|line| line.agrees()).count();
    let mut text = String::new();
    for line in &lines {
        text += &match line.agrees() {
            true => format!("agree   {}: {}\n", line.name, line.found),
            false => format!("DIFFER  {}: {} expected {}\n", line.name, line.found, line.expected),
        };
    }
    let differ = lines.len() - agree;
    text += &format!("{agree} agree, {differ} differ\n");
    (text.into(), i32::from(differ > 0))
}

/// An unsigned 32-bit number, as the entries take it.
fn number(word: &str) -> Result<u32, String> {
    word.parse().map_err(|_| format!("not an unsigned 32-bit number: {word}"))
}

fn numbers<const N: usize>(words: &[&str]) -> Result<[u32; N], String> {
    let found: Result<Vec<u32>, String> = words.iter().map(|word| number(word)).collect();
    found?.try_into().map_err(|_| USAGE.to_string())
}

fn load(path: &str) -> Result<Vec<u8>, String> {
    std::fs::read(path).map_err(|error| format!("{path}: {error}"))
}

fn store(path: &str, bytes: &[u8]) -> Result<(), String> {
    std::fs::write(path, bytes).map_err(|error| format!("{path}: {error}"))
}

//! Lists and texts of declarations of any kind: what the report holds, what does not matter,
//! and that what is written is read.

use super::{hold, Held, Tally};
use crate::cases::lists::report;
use crate::cases::make::{random_list, random_texts, random_unit_list};
use crate::generate::rng::Rng;
use crate::generate::spellings::unit_line;
use crate::refusal::Refusal;
use crate::units::listed::{read, whole};
use crate::units::text::{longer, Longer};
use crate::units::{clashes, Declaration, Pair, ROOM};

type Told = Result<Vec<Pair>, Refusal>;

/// The clashes told; whatever else the report holds must stay.
fn told(list: &[Declaration], room: usize) -> Result<Told, String> {
    let before = report(room as u32, 77);
    let mut after = before.clone();
    let answered = clashes(list, &mut after);
    let count = *answered.as_ref().unwrap_or(&0);
    hold(after[count..] == before[count..], "a report past the clashes stays")?;
    after.truncate(count);
    Ok(answered.map(|_| after))
}

/// Word by word, as the document has it.
fn clash(one: &Declaration, other: &Declaration) -> bool {
    let words = |d: &Declaration| d.block.start..d.block.start + d.block.length;
    match one.name == other.name {
        true => words(one) != words(other),
        false => words(one).any(|word| words(other).contains(&word)),
    }
}

fn all_pairs(list: &[Declaration]) -> Vec<Pair> {
    let mut found = Vec::new();
    for (high, other) in list.iter().enumerate() {
        for (low, one) in list[..high].iter().enumerate() {
            if clash(one, other) {
                found.push([low as u32, high as u32]);
            }
        }
    }
    found.sort();
    found
}

fn sound(list: &[Declaration]) -> bool {
    let end = |d: &Declaration| u64::from(d.block.start) + u64::from(d.block.length);
    list.len() <= 64 && list.iter().all(|d| d.block.length > 0 && end(d) <= 8000)
}

/// The list from its end to its start has the same clashes; so it has with other units.
fn turned(rng: &mut Rng, list: &[Declaration], found: &[Pair]) -> Held {
    let other = |d: &Declaration| Declaration { unit: rng.draw() as u32, ..*d };
    let backwards: Vec<Declaration> = list.iter().rev().map(other).collect();
    let last = list.len() as u32;
    let mut wanted: Vec<Pair> =
        found.iter().map(|[low, high]| [last - 1 - high, last - 1 - low]).collect();
    wanted.sort();
    hold(told(&backwards, ROOM)? == Ok(wanted), "neither order nor units make a clash")
}

fn lists(rng: &mut Rng, tally: &mut Tally) -> Held {
    let list = random_list(rng);
    tally.lists += 1;
    let small = rng.index(ROOM);
    if !sound(&list) {
        let ten = Err(Refusal::new(10, 0));
        return hold(told(&list, ROOM)? == ten && told(&list, small)? == ten, "10 before 16");
    }
    hold(told(&list, small)? == Err(Refusal::new(16, 0)), "16 by room")?;
    let room = ROOM + rng.index(80);
    let found = all_pairs(&list);
    tally.clashes += found.len() as u64;
    hold(told(&list, room)? == Ok(found.clone()), "every clash, once, in order")?;
    turned(rng, &list, &found)
}

/// The same two texts the other way round hand back the same line, but for equal lengths.
fn texts(rng: &mut Rng, tally: &mut Tally) -> Held {
    let [one, other] = random_texts(rng);
    let (found, back) = (longer(&one, &other), longer(&other, &one));
    tally.lines += u64::from(found != Longer::Nothing);
    let part = found.part();
    let starts = one.starts_with(part) || other.starts_with(part);
    let ends = part.iter().filter(|&&byte| byte == b'\n').count();
    hold(starts && ends == usize::from(!part.is_empty()), "a first line, or nothing")?;
    hold(longer(part, part).part() == part, "a line that is handed back is a text")?;
    let agrees = match (found, back) {
        (Longer::First(line), Longer::Second(same)) => line == same,
        (Longer::Second(line), Longer::First(same)) => line == same,
        (Longer::First(_), Longer::First(_)) => true,
        (found, back) => found == Longer::Nothing && back == Longer::Nothing,
    };
    hold(agrees, "the longer one, either way round")
}

fn written(list: &[Declaration]) -> Vec<u8> {
    let line = |d: &Declaration| {
        let [unit, start, length] =
            [d.unit, d.block.start, d.block.length].map(|number| number.to_string());
        unit_line(unit.as_bytes(), d.name, start.as_bytes(), length.as_bytes())
    };
    list.iter().flat_map(line).collect()
}

/// What is read, written again, is the text as far as it was read.
fn unit_lists(rng: &mut Rng) -> Held {
    let text = random_unit_list(rng);
    let listed = read(&text);
    let again = written(&listed.declarations);
    hold(text.starts_with(&again), "a list has one spelling")?;
    hold(whole(&again) == Ok(listed.declarations), "a list that is written is read")?;
    let fifteen = listed.refusal.is_none_or(|refusal| refusal.number == 15);
    hold(fifteen && listed.refusal.is_none() == (again == text), "15 unless all of it is read")
}

pub fn round(rng: &mut Rng, tally: &mut Tally) -> Held {
    lists(rng, tally)?;
    texts(rng, tally)?;
    unit_lists(rng)
}

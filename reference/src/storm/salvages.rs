//! Torn files of any kind: what is kept, what is written, and what is left as it was.

use super::{accepted_program, hold, Held, Tally};
use crate::cases::make::random_torn;
use crate::check::check;
use crate::compose;
use crate::file::{frame, trailer, Frame, RECORD, TRAILER};
use crate::generate::rng::Rng;
use crate::generate::torn::unended;
use crate::refusal::Refusal;
use crate::salvage::{salvage, Salvaged, LONGEST};

const END: [u8; RECORD] = [23, 0, 0, 0, 0, 0, 0, 0, 0, 0, 0, 0, 0, 0, 0, 0, 0, 0, 0, 0];

/// What the check says of a file that is this record alone.
fn alone(record: &[u8]) -> u32 {
    let file = [record, &trailer(1, 1, 28)].concat();
    check(&file).err().map_or(0, |refusal| refusal.number)
}

fn stops(record: &[u8]) -> bool {
    matches!(alone(record), 2 | 3)
}

/// What is told is a run of records that could not be longer.
fn longest_run(torn: &[u8], told: Salvaged) -> Held {
    let kept: Vec<&[u8]> = torn[..RECORD * told.kept].chunks(RECORD).collect();
    let ends = kept.iter().filter(|record| **record == END).count();
    hold(!kept.iter().any(|record| stops(record)), "every record that is kept passes 2 and 3")?;
    if !told.added {
        return hold(ends == 1 && kept.last() == Some(&&END[..]), "END is the last and only one");
    }
    let next = torn[RECORD * told.kept..].get(..RECORD);
    hold(ends == 0 && next.is_none_or(stops), "no longer run passes")
}

fn written(torn: &[u8], told: Salvaged, file: &[u8]) -> Held {
    let kept = RECORD * told.kept;
    let count = told.kept + usize::from(told.added);
    hold(kept + told.rest == torn.len(), "every byte is kept or told")?;
    hold(file[..kept] == torn[..kept], "the records are those of the input")?;
    hold(file[kept..file.len() - TRAILER] == END[..RECORD * (count - told.kept)], "END alone")?;
    hold(frame(file) == Ok(Frame { comment: 0, count }), "the file is a proper one")?;
    hold(check(file).err().is_none_or(|r| r.number >= 4), "the check refuses by 4 to 8 alone")?;
    let again = Salvaged { kept: count, added: false, rest: TRAILER };
    let mut out = vec![0; file.len()];
    hold(salvage(file, &mut out) == Ok(again) && out == file, "salvaged twice is salvaged once")
}

/// Refused, with nothing written.
fn refused(rng: &mut Rng, torn: &[u8], size: usize, number: u32) -> Held {
    let before = rng.bytes(size);
    let mut out = before.clone();
    let told = salvage(torn, &mut out);
    hold(told == Err(Refusal::new(number, 0)) && out == before, "refused, writing nothing")
}

fn any(rng: &mut Rng, torn: &[u8], tally: &mut Tally) -> Held {
    tally.torn += 1;
    let before = rng.bytes(torn.len() + RECORD + TRAILER);
    let mut out = before.clone();
    let Ok(told) = salvage(torn, &mut out) else {
        return hold(false, "there is room for all records, END and the trailer");
    };
    tally.ends_added += u64::from(told.added);
    let length = told.length();
    hold(out[length..] == before[length..], "the bytes past the file are as they were")?;
    longest_run(torn, told)?;
    written(torn, told, &out[..length])?;
    let mut exact = vec![0; length];
    hold(salvage(torn, &mut exact) == Ok(told) && exact == out[..length], "just enough room")?;
    let less = rng.index(length);
    refused(rng, torn, less, 16)?;
    refused(rng, torn, length - 1, 16)
}

/// An accepted file is salvaged as it is, and each cut of it keeps a part of its records.
fn sound(rng: &mut Rng, turn: usize) -> Held {
    let whole = compose::file(&accepted_program(rng, turn).records);
    let count = whole.len() / RECORD;
    let mut out = vec![0; whole.len()];
    let told = salvage(&whole, &mut out);
    let wanted = Salvaged { kept: count, added: false, rest: TRAILER };
    hold(told == Ok(wanted) && out == whole, "an accepted file stays as it is")?;
    let cut = &whole[..rng.index(whole.len())];
    let kept = cut.len() / RECORD;
    let wanted = Salvaged { kept, added: kept < count, rest: cut.len() - RECORD * kept };
    let told = salvage(cut, &mut out);
    hold(told == Ok(wanted) && out[..RECORD * kept] == cut[..RECORD * kept], "a cut keeps a part")
}

/// Too many records, whatever room there is; and as many as there may be.
fn long(rng: &mut Rng) -> Held {
    let size = rng.pick(&[0, 28, LONGEST, LONGEST + 20]);
    let more = rng.between(0, 3) as usize;
    let many = unended(rng, 2000 + more);
    refused(rng, &many, size, 1)?;
    let ended = [&many[..39980], &END].concat();
    for torn in [&many[..39980 + rng.index(RECORD)], &ended] {
        let mut out = rng.bytes(LONGEST);
        let done = salvage(torn, &mut out).map(|told| written(torn, told, &out));
        hold(done == Ok(Ok(())), "2,000 records")?;
        refused(rng, torn, LONGEST - 1, 16)?;
    }
    Ok(())
}

pub fn round(rng: &mut Rng, turn: usize, tally: &mut Tally) -> Held {
    for part in 0..3 {
        let torn = random_torn(rng, 3 * turn + part);
        any(rng, &torn, tally)?;
    }
    sound(rng, turn)?;
    match turn.is_multiple_of(100) {
        true => long(rng),
        false => Ok(()),
    }
}

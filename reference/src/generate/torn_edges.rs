//! Torn files at the edges: cuts, trailers, what stands behind END and ahead of the records,
//! and the longest ones.

use super::files::of_length;
use super::rng::Rng;
use super::specials::three_passes;
use super::torn::unended;
use crate::compose::{end, file, m, record, y};
use crate::file::{encode, encode_records, trailer, Record, RECORD, TRAILER};
use crate::instruction::Instruction::{Ld, Nop, Out};

type Bytes = Vec<u8>;

/// A short accepted file: five records and the trailer.
fn short() -> Bytes {
    file(&three_passes())
}

/// Cut at every byte from none to all.
pub fn cuts() -> Vec<Bytes> {
    let whole = short();
    (0..=whole.len()).map(|length| whole[..length].to_vec()).collect()
}

fn with_trailer(edition: u16, count: u16, distance: u32) -> Bytes {
    let mut found = encode_records(&three_passes());
    found.extend(trailer(edition, count, distance));
    found
}

pub fn trailers() -> Vec<Bytes> {
    let mut found = Vec::new();
    // Each byte of the trailer scrambled, by one bit and by all.
    for at in 1..=TRAILER {
        for mask in [1, 128, 255] {
            let mut bytes = short();
            let place = bytes.len() - at;
            bytes[place] ^= mask;
            found.push(bytes);
        }
    }
    // Trailer zeroed.
    found.push(with_trailer(0, 0, 0));
    // Trailer of ones.
    found.push(with_trailer(u16::MAX, u16::MAX, u32::MAX));
    // Trailers of other files: of one record, of one less and one more, of 2,000, of 2,001.
    for count in [1, 4, 6, 2000, 2001] {
        found.push(with_trailer(1, count, 20 * u32::from(count) + 8));
    }
    // Editions 0, 2 and 3.
    found.extend([0, 2, 3].map(|edition| with_trailer(edition, 5, 108)));
    // Wrong count, right distance; right count, wrong distance; its bytes the other way round.
    found.extend([(0, 108), (4, 108), (6, 108)].map(|(c, distance)| with_trailer(1, c, distance)));
    found.extend([0, 8, 88, 100, 107, 109, 128].map(|distance| with_trailer(1, 5, distance)));
    found.push(with_trailer(256, 5 << 8, 108 << 24));
    // The trailer alone.
    found.push(trailer(1, 5, 108));
    // The trailer twice.
    found.push([short(), trailer(1, 5, 108)].concat());
    found
}

/// Garbage of many lengths behind END, in the place of the trailer and behind it.
pub fn behind_end(rng: &mut Rng) -> Vec<Bytes> {
    let records = encode_records(&three_passes());
    let ends = encode_records(&[end(); 60]);
    let mut found = Vec::new();
    for length in [1, 7, 8, 9, 19, 20, 21, 27, 28, 29, 39, 40, 41, 100, 255, 256, 1000] {
        found.push([records.clone(), rng.bytes(length)].concat());
        found.push([short(), rng.bytes(length)].concat());
        // Zeros there are NOPs that are not kept.
        found.push([records.clone(), vec![0; length]].concat());
        // So are more ENDs.
        found.push([records.clone(), ends[..length].to_vec()].concat());
    }
    found
}

/// So many NOPs, END, so many NOPs, END or not, and the right trailer for all of them.
fn nops_and_end(ahead: usize, behind: usize, again: bool) -> Bytes {
    let nop = record(Nop, &[]);
    let mut records = vec![nop; ahead];
    records.push(end());
    records.extend(vec![nop; behind]);
    records.extend(again.then(end));
    file(&records)
}

pub fn ends() -> Vec<Bytes> {
    // END first, alone and with records behind it.
    let mut found = vec![nops_and_end(0, 0, false), nops_and_end(0, 3, false)];
    // END in the middle, nothing but NOPs behind it.
    found.push(nops_and_end(3, 3, false));
    // END twice: at once, with records between, and first.
    found.extend([nops_and_end(2, 0, true), nops_and_end(2, 3, true), nops_and_end(0, 1, true)]);
    // Nothing but ENDs.
    found.push(file(&[end(); 5]));
    // END in the middle, cut in the record behind it, and one byte behind END.
    found.extend([81, 80, 79, 99, 100].map(|length| nops_and_end(3, 3, true)[..length].to_vec()));
    found
}

/// No END at all: bare, with the right trailer, and with a trailer that zeros make a record of
/// (LD X48, LD Y68, LD M88, LD SM108 or LD T128 where there are two to six records).
pub fn endless() -> Vec<Bytes> {
    let mut found = Vec::new();
    for count in 1..=8 {
        let mut records = three_passes();
        records.pop();
        records.extend([record(Nop, &[]); 8]);
        let bare = encode_records(&records[..count]);
        let whole = file(&records[..count]);
        let one_less = [whole.clone(), vec![0; 11]].concat();
        let one_more = [whole.clone(), vec![0; 12]].concat();
        // The trailer is a record, and END stands behind it.
        let ended = [one_more.clone(), encode_records(&[end()])].concat();
        found.extend([bare, whole, one_less, one_more, ended]);
    }
    found
}

/// Inputs of 0 to 41 bytes: zeros, ones, END, a record that is none, text.
pub fn lengths() -> Vec<Bytes> {
    let mut found = vec![Vec::new()];
    let text = b"PUMP STATION 2, LINE 1. CHANGED AFTER THE FLOOD.";
    let ends = encode_records(&[end(), end(), end()]);
    let loads = encode_records(&[record(Ld, &[m(1999)]), record(Out, &[y(255)]), end()]);
    for length in [1, 2, 7, 8, 19, 20, 21, 27, 28, 39, 40, 41] {
        let bytes = [&[0; 48][..], &[0xFF; 48], text, &ends, &loads];
        found.extend(bytes.map(|bytes| bytes[..length].to_vec()));
    }
    found
}

/// Nothing but comment, and comments ahead of the records: their bytes are read as records.
pub fn commented(rng: &mut Rng) -> Vec<Bytes> {
    let text = b"Mixer 3. Twenty bits of X, four timers, no jumps.\r\n";
    let mut found = vec![text.to_vec(), text.repeat(40)];
    // Text of any length ahead: the first record is none, so none is kept.
    found.extend([1, 19, 20, 21, 40, 51].map(|length| encode(&text[..length], &three_passes())));
    // Zeros ahead: whole NOPs are kept, and what is shifted is none.
    for length in [1, 2, 6, 7, 8, 12, 14, 19, 20, 21, 40, 60, 61] {
        found.push(encode(&vec![0; length], &three_passes()));
    }
    // The comment is a record, or END.
    found.push(encode(&encode_records(&[record(Ld, &[m(7)])]), &three_passes()));
    found.push(encode(&encode_records(&[end()]), &three_passes()));
    // The longest comment, of any bytes, and one byte more.
    found.push(encode(&rng.bytes(4096), &[end()]));
    found.push(encode(&[0; 4097], &[end()]));
    // A whole file ahead of another.
    found.push(encode(&short(), &three_passes()));
    found
}

/// A record that stops the run: its spare byte is not 0.
fn stopper() -> Record {
    Record { spare: 1, ..end() }
}

/// The longest ones that are salvaged.
pub fn long_done(rng: &mut Rng) -> Vec<Bytes> {
    let last = encode_records(&[end()]);
    let stop = encode_records(&[stopper(), end()]);
    let many = unended(rng, 1999);
    vec![
        // 2,000 records, END the last of them, whole.
        [many.clone(), last.clone(), trailer(1, 2000, 40008)].concat(),
        // 1,999 records without END: one is added.
        many.clone(),
        // So too where a record that is none stands behind them, and END behind that.
        [many.clone(), stop].concat(),
        // END is record 2,000, and more records stand behind it, up to 65,536 bytes.
        [&many[..], &last, &vec![0; 65536 - 40000]].concat(),
        // 1,999 records, END the last of them, and torn in the trailer.
        [&many[..39960], &last, &[1, 0, 207, 7]].concat(),
        // 39,999 zeros: 1,999 NOPs and not quite one more.
        vec![0; 39999],
        // The first record is none: all 65,536 bytes are left, more than 16 bits can tell.
        [vec![24; 20], rng.bytes(65516)].concat(),
    ]
}

/// More than 2,000 records, an added END among them.
pub fn long_refused(rng: &mut Rng) -> Vec<Bytes> {
    let many = unended(rng, 2000);
    let stop = encode_records(&[stopper(), end()]);
    vec![
        // 2,000 records without END.
        many.clone(),
        // So too where a record that is none stands behind them, and END behind that.
        [many.clone(), stop].concat(),
        // END is record 2,001, with the trailer for them.
        file(&of_length(2001)),
        // Zeros: 2,000 NOPs, 2,000 and not quite one more, 2,001.
        vec![0; 40000],
        vec![0; 40019],
        vec![0; 40020],
        // 65,536 zeros: 3,276 NOPs.
        vec![0; 65536],
    ]
}

/// Where a whole file is as long as it must be.
pub fn for_sizes() -> Vec<Bytes> {
    let shortest = file(&[end()]);
    // The shortest file, no byte at all, a short file, and the same without END.
    vec![shortest, Vec::new(), short(), short()[..4 * RECORD].to_vec()]
}

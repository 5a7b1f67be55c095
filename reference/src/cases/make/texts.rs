//! Pairs of declaration texts: every misspelling at every place, lengths, and random ones.

use crate::cases::texts::TextCase;
use crate::generate::declarations::NAMES;
use crate::generate::rng::Rng;
use crate::generate::spellings::*;

type Texts = [Vec<u8>; 2];

/// Numbers of a block, close enough to each other that lengths are often equal.
fn few(rng: &mut Rng) -> u32 {
    let any = rng.below(8001);
    rng.pick(&[0, 1, 6, 9, 10, 100, 999, 1000, 7999, 8000, any, any])
}

/// A text that is well spelt.
fn sound(rng: &mut Rng) -> Vec<u8> {
    let name = name(rng);
    declaration(name, few(rng), few(rng))
}

/// The text as the first of two, and as the second.
fn either_way(rng: &mut Rng, text: Vec<u8>) -> [Texts; 2] {
    [[text.clone(), sound(rng)], [sound(rng), text]]
}

fn misspellings(rng: &mut Rng) -> Vec<Texts> {
    let text = declaration(NAMES[0], 100, 60);
    let mut found = Vec::new();
    for wrong in [cut(&text), narrowed(&text), swapped(&text)].concat() {
        found.extend(either_way(rng, wrong));
    }
    for wrong in [changed(&text, &WRONG), widened(&text, &WRONG)].concat() {
        // These are many: each stands first or second.
        let [first, second] = either_way(rng, wrong);
        found.push(if rng.once_in(2) { first } else { second });
    }
    found
}

fn of_numbers(rng: &mut Rng) -> Vec<Texts> {
    let mut found = Vec::new();
    for number in numbers() {
        for fields in [[number, b"5"], [b"5", number]] {
            let name = name(rng);
            found.extend(either_way(rng, line(name, &fields)));
        }
    }
    found
}

/// Every two of some lengths, with starts that say the contrary or run past the end of D.
fn lengths(rng: &mut Rng) -> Vec<Texts> {
    let lengths = [0, 1, 2, 9, 10, 99, 100, 999, 1000, 7999, 8000];
    let mut found = Vec::new();
    for one in lengths {
        for other in lengths {
            let starts = rng.pick(&[(0, 8000), (8000, 0), (10, 9), (8000, 8000)]);
            let (first, second) = (name(rng), name(rng));
            found.push([declaration(first, starts.0, one), declaration(second, starts.1, other)]);
        }
    }
    found
}

/// What may follow a line, and what may not stand in its place.
fn rests(rng: &mut Rng) -> Vec<Texts> {
    let rests: [&[u8]; 9] = [
        b"",
        b"\n",
        b"\n\n\n",
        b" ",
        b"PUMP   A 0 8000\n",
        b"PUMP   A 0 8000",
        b"\x00\xFF\r\n",
        b"not a declaration",
        b"MIXER  1 100 08\n\n",
    ];
    let mut found = Vec::new();
    for rest in rests {
        let [one, other] = [sound(rng), sound(rng)];
        found.extend(either_way(rng, [&one, rest].concat()));
        found.push([[&one, rest].concat(), [&other, rest].concat()]);
        found.extend(either_way(rng, [&one[..one.len() - 1], rest].concat()));
    }
    found
}

/// Names of all kinds, and fields that are too few, too many or elsewhere.
fn shapes(rng: &mut Rng) -> Vec<Texts> {
    let lines: [&[u8]; 18] = [
        b"MIXER 100 6\n",
        b"MIXER  10 100 6\n",
        b"MIXER  1\n",
        b"MIXER  1 \n",
        b"MIXER  1 100\n",
        b"MIXER  1 100 \n",
        b"MIXER  1  100 6\n",
        b"MIXER  1 100  6\n",
        b"MIXER  1 100 6 \n",
        b"MIXER  1 100 6 7\n",
        b" MIXER  1 100 6\n",
        b"MIXER  1\t100 6\n",
        b"MIXER  1 100\t6\n",
        b"MIXER  1 100 6\r\n",
        b"MIXER  1 100,6\n",
        b"\nMIXER  1 100 6\n",
        b"MIX\nR  1 100 6\n",
        b"1 MIXER  1 100 6\n",
    ];
    let mut found = Vec::new();
    for line in lines {
        found.extend(either_way(rng, line.to_vec()));
    }
    for name in NAMES {
        let (start, length) = (few(rng), few(rng));
        found.extend(either_way(rng, declaration(name, start, length)));
    }
    found
}

fn edge_texts(rng: &mut Rng) -> Vec<Texts> {
    let suites = [lengths, shapes, rests, of_numbers, misspellings];
    suites.into_iter().flat_map(|suite| suite(rng)).collect()
}

fn random_text(rng: &mut Rng) -> Vec<u8> {
    let mut text = sound(rng);
    if rng.once_in(6) {
        text = misspelt(rng, text);
    }
    if rng.once_in(4) {
        let more = rng.index(30);
        text.extend(rng.bytes(more));
    }
    text
}

/// Two texts, mostly well spelt, now and then the same one twice.
pub fn random_texts(rng: &mut Rng) -> Texts {
    let one = random_text(rng);
    match rng.once_in(12) {
        true => [one.clone(), one],
        false => [one, random_text(rng)],
    }
}

/// The edges first, as many of them as fit, then random ones.
pub fn text_cases(rng: &mut Rng, count: usize) -> Vec<TextCase> {
    let mut found = edge_texts(rng);
    found.truncate(count);
    while found.len() < count {
        found.push(random_texts(rng));
    }
    found.into_iter().map(TextCase::solve).collect()
}

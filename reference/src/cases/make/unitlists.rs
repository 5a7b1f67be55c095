//! Unit lists as text: every misspelling in every field and line, sizes, and random ones.

use crate::cases::unitlists::UnitListCase;
use crate::generate::declarations::NAMES;
use crate::generate::rng::Rng;
use crate::generate::spellings::*;

type Text = Vec<u8>;

/// A line that is well spelt; its block may be of any numbers.
fn sound(rng: &mut Rng) -> Text {
    let any = rng.draw() as u32;
    let unit = rng.pick(&[0, 1, 2, 10, 65534, 65535, any % 65536]).to_string();
    let mut number = || {
        let any = rng.draw() as u32;
        let near = rng.below(8000);
        rng.pick(&[0, 1, 6, near, near, 8000, 8001, u32::MAX, any]).to_string()
    };
    let (start, length) = (number(), number());
    unit_line(unit.as_bytes(), name(rng), start.as_bytes(), length.as_bytes())
}

fn lines(rng: &mut Rng, count: usize) -> Vec<Text> {
    (0..count).map(|_| sound(rng)).collect()
}

/// A line as the first of three, as the middle one and as the last.
fn each_place(rng: &mut Rng, line: &[u8]) -> Vec<Text> {
    let put = |at: usize| {
        let mut three = lines(rng, 3);
        three[at] = line.to_vec();
        three.concat()
    };
    (0..3).map(put).collect()
}

fn of_numbers(rng: &mut Rng) -> Vec<Text> {
    let mut found = Vec::new();
    for (turn, number) in numbers().into_iter().enumerate() {
        let name = name(rng);
        let fields = [(number, &b"7"[..], &b"7"[..]), (b"7", number, b"7"), (b"7", b"7", number)];
        for (field, (unit, start, length)) in fields.into_iter().enumerate() {
            let line = unit_line(unit, name, start, length);
            found.push(each_place(rng, &line).swap_remove((turn + field) % 3));
        }
    }
    found
}

fn shapes(rng: &mut Rng) -> Vec<Text> {
    let wrong: [&[u8]; 24] = [
        b"\n",
        b" \n",
        b"\r\n",
        b"1\n",
        b"1 \n",
        b"1 MIXER  1\n",
        b"1 MIXER  1 100\n",
        b"1 MIXER  1 100 \n",
        b"1 MIXER  1 100 6 \n",
        b"1 MIXER  1 100 6 7\n",
        b" 1 MIXER  1 100 6\n",
        b"1  MIXER  1 100 6\n",
        b"1 MIXER  1  100 6\n",
        b"1 MIXER  1 100  6\n",
        b"1\tMIXER  1 100 6\n",
        b"1 MIXER  1\t100 6\n",
        b"1 MIXER  1 100\t6\n",
        b"1 MIXER  1 100 6\r\n",
        b"1 MIXER 100 6\n",
        b"1 MIXER  10 100 6\n",
        b"MIXER  1 100 6\n",
        b"1 MIX\nR  1 100 6\n",
        b" MIXER  1 100 6\n",
        b"# 1 MIXER  1 100 6\n",
    ];
    let mut found: Vec<Text> = wrong.iter().flat_map(|line| each_place(rng, line)).collect();
    for name in NAMES {
        found.extend(each_place(rng, &unit_line(b"1", name, b"100", b"6")));
    }
    found
}

/// A whole list damaged at every byte.
fn misspellings() -> Vec<Text> {
    let text: &[u8] = b"1 MIXER  1 100 6\n20 PUMP \xC6 A 7900 100\n65535        4 0 4294967295\n";
    let mut found = cut(text);
    found.extend(narrowed(text));
    found.extend(swapped(text));
    found.extend(changed(text, b"\x00\n 09-"));
    found.extend(widened(text, b"\n 0"));
    found
}

/// Lists of every size that matters: well spelt, with a line misspelt, with the last unended.
fn sizes(rng: &mut Rng) -> Vec<Text> {
    let longest = unit_line(b"65535", NAMES[0], b"4294967295", b"4294967295");
    let mut found = Vec::new();
    for count in [0, 1, 2, 63, 64, 65, 66, 80] {
        found.push(lines(rng, count).concat());
        found.push(longest.repeat(count));
        for at in [0, count / 2, count.saturating_sub(2), count.saturating_sub(1)] {
            let mut all = lines(rng, count);
            if let Some(line) = all.get_mut(at) {
                line.insert(0, b'0');
                found.push(all.concat());
            }
        }
        let mut unended = lines(rng, count).concat();
        unended.pop();
        found.push(unended);
        let mut more = lines(rng, count).concat();
        more.push(b'\n');
        found.push(more);
    }
    found
}

fn edge_lists(rng: &mut Rng) -> Vec<Text> {
    [sizes(rng), shapes(rng), of_numbers(rng), misspellings()].concat()
}

/// A list of up to a dozen lines, mostly well spelt, or any bytes.
pub fn random_unit_list(rng: &mut Rng) -> Text {
    if rng.once_in(20) {
        let length = rng.index(80);
        return rng.bytes(length);
    }
    let count = rng.index(13);
    let mut text = lines(rng, count).concat();
    for _ in 0..rng.pick(&[0, 0, 0, 1, 1, 2]) {
        text = misspelt(rng, text);
    }
    text
}

/// The edges first, as many of them as fit, then random ones.
pub fn unit_list_cases(rng: &mut Rng, count: usize) -> Vec<UnitListCase> {
    let mut found = edge_lists(rng);
    found.truncate(count);
    while found.len() < count {
        found.push(random_unit_list(rng));
    }
    found.into_iter().map(UnitListCase::solve).collect()
}

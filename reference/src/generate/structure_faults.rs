//! Programs that break refusals 6, 7 and 8 and nothing ahead of them.

use super::program::{Made, Seam};
use super::rng::Rng;
use crate::compose::{end, k, label, record, sm};
use crate::file::Record;
use crate::instruction::Instruction::{self, *};

fn plain(instruction: Instruction) -> Record {
    record(instruction, &[])
}

fn a_for(passes: i32) -> Record {
    record(For, &[k(passes)])
}

fn any_seam(rng: &mut Rng, made: &Made) -> Seam {
    rng.pick(&made.seams)
}

fn outer_seam(rng: &mut Rng, made: &Made) -> Seam {
    let outer: Vec<Seam> = made.seams.iter().copied().filter(|seam| seam.depth == 0).collect();
    rng.pick(&outer)
}

/// Refusal 6; `turn` walks over its causes.
pub fn structure(rng: &mut Rng, made: &mut Made, turn: usize) {
    let seam = any_seam(rng, made);
    match turn % 6 {
        0 => {
            let outer = outer_seam(rng, made);
            made.insert(outer, &[plain(Next)]);
        }
        1 => {
            // Nine open loops, whatever stands around them.
            let mut snippet = vec![a_for(rng.below(3) as i32); 9];
            snippet.extend(vec![plain(Next); 9]);
            made.insert(seam, &snippet);
        }
        2 => made.insert(seam, &[end()]),
        3 => made.insert(seam, &[a_for(1)]),
        4 => {
            made.records.pop();
            let last = rng.pick(&[Nop, Lbl, For]);
            let operands = made.hot.record(rng, last);
            made.records.push(operands);
        }
        _ => made.records.push(plain(rng.pick(&[Nop, End, Next]))),
    }
}

/// LD SM0 and a CJ to the label.
fn jump(number: u32) -> [Record; 2] {
    [record(Ld, &[sm(0)]), record(Cj, &[label(number)])]
}

fn set(number: u32) -> Record {
    record(Lbl, &[label(number)])
}

/// The snippets of refusal 7 around a label that the program does not use.
fn label_snippet(number: u32, turn: usize) -> Vec<Record> {
    let [load, cj] = jump(number);
    let (open, close) = (a_for(1), plain(Next));
    match turn % 8 {
        0 => vec![set(number), set(number)],
        1 => vec![load, cj],
        2 => vec![set(number), load, cj],
        3 => vec![load, cj, open, set(number), close],
        4 => vec![open, load, cj, close, set(number)],
        5 => vec![open, load, cj, close, open, set(number), close],
        // The CJ is judged against the first LBL, though a later one would do.
        6 => vec![set(number), load, cj, set(number)],
        _ => vec![load, cj, set(number), open, set(number), close],
    }
}

/// Refusal 7; `turn` walks over its causes.
pub fn labels(rng: &mut Rng, made: &mut Made, turn: usize) {
    let number = made.free.pop().unwrap_or(0);
    let shallow: Vec<Seam> = made.seams.iter().copied().filter(|seam| seam.depth < 8).collect();
    let seam = rng.pick(&shallow);
    made.insert(seam, &label_snippet(number, turn));
}

/// Two nested loops and NOPs whose W is exactly `steps`; `steps` of at least 100,000.
pub fn exact_steps(rng: &mut Rng, steps: u64) -> Vec<Record> {
    // 1 + outer x (inner + 2) is the W of the loops; few NOPs make up the rest.
    let outer = (0..60)
        .map(|_| u64::from(rng.between(306, 5000)))
        .min_by_key(|outer| (steps - 1) % outer)
        .unwrap_or(306);
    let inner = (steps - 1) / outer - 2;
    let rest = (steps - 1) % outer;
    let mut found = vec![a_for(outer as i32), a_for(inner as i32), plain(Next), plain(Next)];
    found.extend(vec![plain(Nop); rest as usize]);
    found
}

/// W of so many nested loops of 32767 passes with nothing inside.
fn full_nest(depth: u32) -> u128 {
    (0..depth).fold(0, |inner, _| 1 + 32767 * (inner + 1))
}

/// A sequence whose W is exactly `steps`, for any number below 2^110: one nest of loops for
/// each depth, the outermost FOR of each taking what is left, like a digit.
pub fn any_steps(steps: u128) -> Vec<Record> {
    let mut found = Vec::new();
    let mut left = steps;
    for depth in (1..=8).rev() {
        let inner = full_nest(depth - 1) + 1;
        let passes = left.saturating_sub(1) / inner;
        if passes == 0 {
            continue;
        }
        found.push(a_for(passes as i32));
        found.extend(vec![a_for(32767); depth as usize - 1]);
        found.extend(vec![plain(Next); depth as usize]);
        left -= 1 + passes * inner;
    }
    found.extend(vec![plain(Nop); left as usize]);
    found
}

/// A little more than a power of two: where a sum of that many bits would look small.
fn just_past_a_power(rng: &mut Rng) -> Vec<Record> {
    let bits = rng.pick(&[24, 31, 32, 33, 63, 64, 65, 96]);
    let more = u128::from(rng.below(1000));
    if rng.once_in(2) {
        return any_steps((1u128 << bits) + more);
    }
    // The same inside FOR 2, so that the product passes the power: 1 + 2 x (W + 1).
    let mut found = vec![a_for(2)];
    found.extend(any_steps((1u128 << (bits - 1)) - 1 + more));
    found.push(plain(Next));
    found
}

/// Loops so deep and long that W passes 64 bits.
fn deep_loops(rng: &mut Rng) -> Vec<Record> {
    let depth = rng.between(2, 8) as usize;
    let mut found = vec![a_for(32767); depth];
    found.extend(vec![plain(Nop); rng.below(4) as usize]);
    found.extend(vec![plain(Next); depth]);
    found
}

/// Refusal 8; `turn` walks over its causes.
pub fn steps(rng: &mut Rng, made: &mut Made, turn: usize) {
    let seam = outer_seam(rng, made);
    let snippet = match turn % 4 {
        // With the program's own records, END at least, this is above 10,000,000.
        0 => exact_steps(rng, 10_000_000),
        1 => deep_loops(rng),
        2 => just_past_a_power(rng),
        // 1 + 32767 x (305 + 1).
        _ => [vec![a_for(32767), a_for(304)], vec![plain(Next); 2]].concat(),
    };
    made.insert(seam, &snippet);
}

/// Accepted, though the loops inside pass 64 bits: FOR 0 counts 1 whatever its body.
pub fn never_entered(rng: &mut Rng) -> Vec<Record> {
    let mut found = vec![a_for(0)];
    let mut inner = deep_loops(rng);
    if inner[..8.min(inner.len())].iter().all(|record| record.number == For.number()) {
        // Eight loops inside would make nine: drop the outermost of them.
        inner = inner[1..inner.len() - 1].to_vec();
    }
    found.extend(inner);
    found.extend([plain(Next), end()]);
    found
}

#[cfg(test)]
mod tests {
    use super::*;
    use crate::structure::most_steps;

    #[test]
    fn steps_are_exact() {
        let mut rng = Rng::new(4);
        for steps in [100_000, 999_999, 9_999_999, 10_000_000] {
            let found = most_steps(&exact_steps(&mut rng, steps));
            assert_eq!(found, u128::from(steps));
        }
        for bits in [1, 5, 15, 16, 24, 32, 64, 100] {
            for more in [0, 1, 2, 77, 32767, 32768] {
                let steps = (1u128 << bits) + more;
                assert_eq!(most_steps(&any_steps(steps)), steps);
            }
        }
    }
}

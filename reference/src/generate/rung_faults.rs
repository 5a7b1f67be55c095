//! Snippets that break the rung rule (refusal 5), each for one reason. They are put in at
//! a seam; LBL comes first where the flow must be absent.

use super::program::Made;
use super::rng::Rng;
use crate::file::Record;
use crate::instruction::Instruction::{self, *};

/// All instructions for which a test holds.
fn all(test: fn(Instruction) -> bool) -> Vec<Instruction> {
    Instruction::ALL.iter().copied().filter(|&i| test(i)).collect()
}

fn needs_flow(instruction: Instruction) -> bool {
    !instruction.is_load() && !matches!(instruction, Nop | For | Next | Lbl | End)
}

/// After LBL the flow is absent.
fn without_flow(rng: &mut Rng) -> Vec<Instruction> {
    let mut found = vec![rng.pick(&[Lbl, Lbl, End, For, Next])];
    found.push(rng.pick(&all(needs_flow)));
    found
}

fn underflow(rng: &mut Rng) -> Vec<Instruction> {
    let mut found = vec![Ld];
    if rng.once_in(2) {
        // One push, one pop, one pop too many.
        found.extend(rng.pick(&[[Ld, Anb], [Ld, Orb]]));
        found.push(rng.pick(&[Anb, Orb]));
        return found;
    }
    found.extend(rng.pick(&[[Mps, Mpp], [Nop, Nop]]));
    found.push(rng.pick(&[Mrd, Mpp, Anb, Orb]));
    found
}

/// The ninth entry of either stack. The first LD starts the rung, so it pushes nothing.
fn overflow(rng: &mut Rng) -> Vec<Instruction> {
    if rng.once_in(2) {
        return [vec![Ld], vec![Mps; 9]].concat();
    }
    let mut found = vec![rng.pick(&[Ld, Ldi]); 9];
    found.push(rng.pick(&all(Instruction::is_load)));
    found
}

/// An LD that starts a rung while the branch stack is not empty.
fn start_on_branch(rng: &mut Rng) -> Vec<Instruction> {
    let mut found = vec![Ld, Mps, rng.pick(&all(Instruction::is_action))];
    if rng.once_in(3) {
        found.push(Nop);
    }
    found.push(rng.pick(&all(Instruction::is_load)));
    found
}

/// 19 to 23 on a block stack or a branch stack that is not empty.
fn end_on_stack(rng: &mut Rng) -> Vec<Instruction> {
    let mut found = vec![Ld, rng.pick(&[Ld, Mps, LdAbove])];
    found.push(rng.pick(&[For, Next, Cj, Lbl, End]));
    found
}

/// An action, MPS, MRD or MPP on a block stack that is not empty.
fn act_on_block(rng: &mut Rng) -> Vec<Instruction> {
    let mut found = vec![Ld];
    if rng.once_in(2) {
        found.push(Mps);
    }
    found.extend([Ld, rng.pick(&[And, Nop, Or])]);
    let acting = all(Instruction::is_action);
    found.push(if rng.once_in(2) { rng.pick(&acting) } else { rng.pick(&[Mps, Mrd, Mpp]) });
    found
}

/// `turn` walks over the reasons.
pub fn snippet(rng: &mut Rng, made: &Made, turn: usize) -> Vec<Record> {
    let instructions = match turn % 6 {
        0 => without_flow(rng),
        1 => underflow(rng),
        2 => overflow(rng),
        3 => start_on_branch(rng),
        4 => end_on_stack(rng),
        _ => act_on_block(rng),
    };
    instructions.into_iter().map(|instruction| made.hot.record(rng, instruction)).collect()
}

//! The bytes of a block that are bad for each of codes 3 to 7 and 19.

use crate::layout::{count, is_set, preset_at, slot_at, CHECK, COUNTS, LENGTH, MASKS, MEMORY, TAIL};
use crate::{Instr, Reason, Refusal, INSTRUCTIONS, LOCATIONS, PROCESSORS, REGISTERS, STEPS};

type Block = [u8; LENGTH];

/// The first of codes 3 to 7 and 19 that applies, at the lowest of its bad bytes.
pub fn judge(block: &Block) -> Result<(), Refusal> {
    lowest(Reason::Sizes, sizes(block))?;
    lowest(Reason::Counts, counts(block))?;
    lowest(Reason::NotZero, zeros_of_8_to_91(block))?;
    lowest(Reason::Instruction, instructions(block))?;
    lowest(Reason::Unused, zeros_from_92(block))?;
    lowest(Reason::NobodySets, nobody_sets(block))
}

/// Refuses at the lowest of some positions, if there is one.
fn lowest(reason: Reason, positions: Vec<usize>) -> Result<(), Refusal> {
    let lowest = positions.into_iter().min();
    lowest.map_or(Ok(()), |position| Err(Refusal { reason, position: position as u32 }))
}

/// Those of some positions whose byte is not zero.
fn not_zero(block: &Block, positions: impl Iterator<Item = usize>) -> Vec<usize> {
    positions.filter(|&at| block[at] != 0).collect()
}

fn sizes(block: &Block) -> Vec<usize> {
    let [processors, locations, bound, zero] = [0, 1, 2, 3].map(|at| usize::from(block[at]));
    let sound = [(1..=PROCESSORS).contains(&processors), (1..=LOCATIONS).contains(&locations), bound <= STEPS, zero == 0];
    (0..4).filter(|&at| !sound[at]).collect()
}

/// Over 12, or set for an absent processor.
fn counts(block: &Block) -> Vec<usize> {
    let most = |p: usize| if p < block[0].into() { INSTRUCTIONS } else { 0 };
    (0..PROCESSORS).filter(|&p| count(block, p) > most(p)).map(|p| COUNTS + p).collect()
}

/// Masks and presets of absent processors, unset presets, and words of absent locations.
fn zeros_of_8_to_91(block: &Block) -> Vec<usize> {
    let masks = (block[0].into()..PROCESSORS).map(|p| MASKS + p);
    let registers = (0..PROCESSORS).flat_map(|p| (0..REGISTERS).map(move |k| (p, k)));
    let presets = registers.filter(|&(p, k)| !is_set(block, p, k)).map(|(p, k)| preset_at(p, k));
    let words = (block[1].into()..LOCATIONS).map(|location| MEMORY + 2 * location);
    not_zero(block, masks.chain(presets.chain(words).flat_map(|at| [at, at + 1])))
}

fn instructions(block: &Block) -> Vec<usize> {
    let bad = |(p, i)| Instr::bad_bytes(slot(block, p, i), block[COUNTS + p]).into_iter().map(move |j| slot_at(p, i) + j);
    used(block).flat_map(bad).collect()
}

/// The used instructions: processor and number.
fn used(block: &Block) -> impl Iterator<Item = (usize, usize)> + '_ {
    (0..block[0].into()).flat_map(|p| (0..count(block, p)).map(move |i| (p, i)))
}

fn slot(block: &Block, p: usize, i: usize) -> [u8; 6] {
    std::array::from_fn(|j| block[slot_at(p, i) + j])
}

/// Unused slots and 380..509.
fn zeros_from_92(block: &Block) -> Vec<usize> {
    let slots = (0..PROCESSORS).flat_map(|p| slot_at(p, count(block, p))..slot_at(p + 1, 0));
    not_zero(block, slots.chain(TAIL..CHECK))
}

/// Request 09: fields of used instructions that name a register to read which is never set in their processor. Code 6
/// has been judged before.
fn nobody_sets(block: &Block) -> Vec<usize> {
    let instr = |(p, i)| Instr::read(slot(block, p, i)).expect("a sound instruction");
    let assigned: Vec<(usize, u8)> = used(block).filter_map(|at| instr(at).output().map(|d| (at.0, d))).collect();
    let set = |p: usize, k: u8| is_set(block, p, k.into()) || assigned.contains(&(p, k));
    let unset =
        |(p, i)| instr((p, i)).inputs().zip([2, 3]).filter(move |&(k, _)| !set(p, k)).map(move |(_, j)| slot_at(p, i) + j);
    used(block).flat_map(unset).collect()
}

//! Wishes on one register.

use std::collections::BTreeSet;

use model::{clause, Case, Clause, Outcome, REGISTERS};

/// A value that no shape has.
const NEVER: u16 = 9_999;

/// For each register of each processor: every end that it has in some outcome, undefined, and one that it never has.
pub fn wishes(case: &Case, outcomes: &BTreeSet<Outcome>) -> Vec<Clause> {
    let registers = (0..case.processors().len()).flat_map(|p| (0..REGISTERS).map(move |k| (p, k)));
    let of = |(p, k): (usize, usize)| {
        let ends = outcomes.iter().map(|outcome| outcome.registers[p][k]).chain([None, Some(NEVER)]);
        let ends: BTreeSet<Option<u16>> = ends.collect();
        ends.into_iter().map(move |end| clause(p as u8, k as u8).ends_as(end))
    };
    registers.flat_map(of).collect()
}

//! Families of cases whose schedules explode although their outcomes are few.

use model::ops::*;
use model::{Case, CaseBuilder, Instr};

use crate::usual;

/// A case of a family, to be listed within 96 steps.
#[derive(Clone, Debug)]
pub struct Family {
    pub name: &'static str,
    pub case: Case,
}

/// The families: equal writes, reads that nothing looks at, a release that nobody holds, waits and locks.
pub fn families() -> Vec<Family> {
    let family = |name, case: CaseBuilder| Family { name, case: case.build().expect("a sound case") };
    vec![
        family("12 equal writes, 6 reads", equal_writes(12, 6)),
        family("12 equal writes, 12 reads", equal_writes(12, 12)),
        family("12 writes, 7 reads, then set", reads_then_set(12, 7)),
        family("7 writes, 12 reads of one", one_register(7, 12)),
        family("stuck, 7 writes, 11 reads", stuck(7, 11)),
        family("two spinning", spinning(2)),
        family("three spinning", spinning(3)),
        family("three taking turns", turns(3)),
        family("four taking turns", turns(4)),
        family("own locks, 4 by 6", own_locks(4, 6)),
        family("empty sections, 3 by 3", empty_sections(3, 3)),
        family("empty sections, 4 by 3", empty_sections(4, 3)),
    ]
}

/// Programs by value, with the usual presets.
fn programs(locations: u8, programs: &[Vec<Instr>]) -> CaseBuilder {
    usual(locations, &programs.iter().map(Vec::as_slice).collect::<Vec<_>>())
}

/// Writes of 1 by one processor, reads into different registers by another.
fn equal_writes(writes: usize, reads: usize) -> CaseBuilder {
    let read_on = |i: usize| read(2 + i as u8 % 6, 0);
    programs(1, &[vec![write(0, 1); writes], (0..reads).map(read_on).collect()])
}

/// Writes of up to seven values, by a processor that presets each.
fn different_writes(writes: usize, other: Vec<Instr>) -> CaseBuilder {
    let case = programs(2, &[(0..writes).map(|i| write(0, 1 + i as u8 % 7)).collect(), other]);
    (2..8).fold(case, |case, k| case.preset(0, k, k as u16))
}

/// Reads into one register, which is then set: one outcome.
fn reads_then_set(writes: usize, reads: usize) -> CaseBuilder {
    different_writes(writes, [vec![read(2, 0); reads], vec![set(2, 9)]].concat())
}

/// Reads into one register: only the last matters.
fn one_register(writes: usize, reads: usize) -> CaseBuilder {
    different_writes(writes, vec![read(2, 0); reads])
}

/// Reads, then a release of what nobody holds: no run ends.
fn stuck(writes: usize, reads: usize) -> CaseBuilder {
    let mut other: Vec<Instr> = (0..reads).map(|i| read(2 + i as u8 % 6, 0)).collect();
    other.push(release(1));
    different_writes(writes, other)
}

/// One writes a flag, the others wait for it.
fn spinning(waiting: usize) -> CaseBuilder {
    let wait = vec![read(2, 0), equal(3, 2, 0), branch(3, 0)];
    programs(1, &[vec![vec![write(0, 1)]], vec![wait; waiting]].concat())
}

/// Each waits for its turn and passes it on.
fn turns(processors: usize) -> CaseBuilder {
    let program = vec![read(2, 0), equal(3, 2, 4), equal(3, 3, 0), branch(3, 0), add(5, 4, 1), write(0, 5)];
    (0..processors).fold(programs(1, &vec![program; processors]), |case, p| case.preset(p, 4, p as u16))
}

/// Each takes and frees a lock of its own, over and over.
fn own_locks(processors: usize, sections: usize) -> CaseBuilder {
    let program = [acquire(4), release(4)].repeat(sections);
    (0..processors).fold(programs(4, &vec![program; processors]), |case, p| case.preset(p, 4, p as u16))
}

/// Each takes and frees one lock, over and over.
fn empty_sections(processors: usize, sections: usize) -> CaseBuilder {
    programs(1, &vec![[acquire(0), release(0)].repeat(sections); processors])
}

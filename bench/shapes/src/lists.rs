//! Shapes whose outcomes are listed.

use std::collections::BTreeSet;

use model::ops::*;
use model::{CaseBuilder, Instr};

use crate::{usual, Register, Shape};

/// Every combination of one value from each row.
fn product(rows: &[&[u16]]) -> BTreeSet<Vec<u16>> {
    rows.iter().fold(BTreeSet::from([vec![]]), |done, row| {
        let longer = |front: &Vec<u16>| row.iter().map(|&value| [front.as_slice(), &[value]].concat()).collect::<Vec<_>>();
        done.iter().flat_map(longer).collect()
    })
}

/// Each read sees 0 or 1, whatever the others see.
fn free(reads: usize) -> BTreeSet<Vec<u16>> {
    product(&vec![&[0, 1][..]; reads])
}

pub(crate) fn rows(rows: &[&[u16]]) -> BTreeSet<Vec<u16>> {
    rows.iter().map(|row| row.to_vec()).collect()
}

/// A shape without a loop: with this bound every run ends, so nothing is cut.
pub(crate) fn ends(name: &'static str, case: CaseBuilder, watched: &[Register], results: BTreeSet<Vec<u16>>) -> Shape {
    let case = case.build().expect("a sound case");
    let instructions: usize = case.processors().iter().map(|processor| processor.program.len()).sum();
    Shape { name, bound: 2 * instructions as u8, cut: false, watched: watched.to_vec(), results, case }
}

impl Shape {
    fn with(self, name: &'static str, bound: u8, cut: bool, results: BTreeSet<Vec<u16>>) -> Shape {
        Shape { name, bound, cut, results, ..self }
    }
}

/// Every shape, those of document 01 first.
pub fn lists() -> Vec<Shape> {
    [scope(), relaxed(), one_location(), wide(), dependent(), spinning(), behind_the_lock(), set_somewhere()].concat()
}

/// Document 01's list.
fn scope() -> Vec<Shape> {
    let h = || ends("H-8", message(), &[(1, 2), (1, 3)], free(2));
    let two_writes = usual(1, &[&[write(0, 1), write(0, 4)], &[read(2, 0), read(3, 0)]]).preset(0, 4, 2);
    let none = BTreeSet::new;
    let alone = |program: &[Instr]| usual(1, &[program]);
    let goto_0 = || ends("goto-0", alone(&[goto(0)]), &[], none());
    let release_0 = || ends("release", alone(&[release(0)]), &[], none());
    vec![
        h().with("H-7", 7, true, none()),
        h(),
        h().with("H-9", 9, false, free(2)),
        ends("H-locked", locked_message(), &[(1, 2), (1, 3)], rows(&[&[0, 0], &[1, 1]])),
        ends("two-writes", two_writes, &[(1, 2), (1, 3)], product(&[&[0, 1, 2], &[0, 1, 2]])),
        ends("write-read", alone(&[write(0, 1), read(2, 0)]), &[(0, 2)], rows(&[&[1]])),
        ends("read-write", alone(&[read(2, 0), write(0, 1)]), &[(0, 2)], rows(&[&[0]])),
        ends("nothing", alone(&[]), &[], rows(&[&[]])),
        goto_0().with("goto-0-1", 1, true, none()),
        release_0().with("release-1", 1, true, none()),
        release_0().with("release-2", 2, false, none()),
        ends("acquire-acquire-release", alone(&[acquire(0), acquire(0), release(0)]), &[], rows(&[&[]])),
        ends("wrapping-sum", alone(&[add(2, 4, 1)]).preset(0, 4, 65_535), &[(0, 2)], rows(&[&[0]])),
        ends("wrapping-difference", alone(&[sub(2, 0, 1)]), &[(0, 2)], rows(&[&[65_535]])),
    ]
}

/// H, which is MP: processor 0 writes x, then y; processor 1 reads y, then x.
pub fn message() -> CaseBuilder {
    usual(2, &[&[write(0, 1), write(1, 1)], &[read(2, 1), read(3, 0)]])
}

/// H with acquire before and release after, on location 2, at both sides.
pub fn locked_message() -> CaseBuilder {
    let sends = [acquire(4), write(0, 1), write(1, 1), release(4)];
    let receives = [acquire(4), read(2, 1), read(3, 0), release(4)];
    usual(3, &[&sends, &receives]).preset(0, 4, 2).preset(1, 4, 2)
}

/// Source 000, Figure 2: r1 to r4 are registers 2 and 3 of processors 1 and 2.
pub(crate) fn figure_2() -> CaseBuilder {
    let reads = [read(2, 0), write(0, 4), read(3, 0)];
    usual(1, &[&[write(0, 1), write(0, 4)], &reads, &reads]).preset(0, 4, 2).preset(1, 4, 3).preset(2, 4, 4)
}

/// Source 000, Figure 8, which is LB: r1 and r2 are register 2 of each processor.
pub(crate) fn figure_8() -> CaseBuilder {
    usual(2, &[&[read(2, 0), write(1, 1)], &[read(2, 1), write(0, 1)]])
}

/// Classic shapes over two and three locations. Where a classic asks for the last word in memory, a
/// further processor looks at it.
fn relaxed() -> Vec<Shape> {
    let look = |d: u8, a: u8| read(d, a);
    let s = usual(2, &[&[write(0, 4), write(1, 1)], &[read(2, 1), write(0, 1)], &[look(2, 0)]]).preset(0, 4, 2);
    let r = usual(2, &[&[write(0, 1), write(1, 1)], &[write(1, 4), read(2, 0)], &[look(2, 1)]]).preset(1, 4, 2);
    let two_two = [[write(0, 1), write(1, 4)], [write(1, 1), write(0, 4)], [look(2, 0), look(3, 1)]];
    let two_two = usual(2, &two_two.each_ref().map(|program| &program[..])).preset(0, 4, 2).preset(1, 4, 2);
    let wrc = usual(2, &[&[write(0, 1)], &[read(2, 0), write(1, 1)], &[read(2, 1), read(3, 0)]]);
    let rwc = usual(2, &[&[write(0, 1)], &[read(2, 0), read(3, 1)], &[write(1, 1), read(2, 0)]]);
    let isa2 = usual(3, &[&[write(0, 1), write(1, 1)], &[read(2, 1), write(4, 1)], &[read(2, 4), read(3, 0)]]);
    let isa2 = isa2.preset(1, 4, 2).preset(2, 4, 2);
    let iriw = usual(2, &[&[write(0, 1)], &[write(1, 1)], &[read(2, 0), read(3, 1)], &[read(2, 1), read(3, 0)]]);
    let buffering = usual(2, &[&[write(0, 1), read(2, 1)], &[write(1, 1), read(2, 0)]]);
    let any = &[0, 1, 2][..];
    vec![
        ends("MP", message(), &[(1, 2), (1, 3)], free(2)),
        ends("SB", buffering, &[(0, 2), (1, 2)], free(2)),
        ends("SB-locked", locked_buffering(), &[(0, 2), (1, 2)], rows(&[&[0, 1], &[1, 0]])),
        ends("SB-sections", buffering_in_sections(), &[(0, 2), (1, 2)], rows(&[&[0, 1], &[1, 0], &[1, 1]])),
        ends("LB", figure_8(), &[(0, 2), (1, 2)], free(2)),
        ends("S", s, &[(1, 2), (2, 2)], product(&[&[0, 1], any])),
        ends("R", r, &[(1, 2), (2, 2)], product(&[&[0, 1], any])),
        ends("2+2W", two_two, &[(2, 2), (2, 3)], product(&[any, any])),
        ends("WRC", wrc, &[(1, 2), (2, 2), (2, 3)], free(3)),
        ends("RWC", rwc, &[(1, 2), (1, 3), (2, 2)], free(3)),
        ends("ISA2", isa2, &[(1, 2), (2, 2), (2, 3)], free(3)),
        ends("IRIW", iriw, &[(2, 2), (2, 3), (3, 2), (3, 3)], free(4)),
    ]
}

fn locked_buffering() -> CaseBuilder {
    let program = |mine: u8, other: u8| [acquire(4), write(mine, 1), read(2, other), release(4)];
    usual(3, &[&program(0, 1), &program(1, 0)]).preset(0, 4, 2).preset(1, 4, 2)
}

/// SB with every access in a critical section of its own.
fn buffering_in_sections() -> CaseBuilder {
    let program = |mine: u8, other: u8| [acquire(4), write(mine, 1), release(4), acquire(4), read(2, other), release(4)];
    usual(3, &[&program(0, 1), &program(1, 0)]).preset(0, 4, 2).preset(1, 4, 2)
}

/// IRIW inside one lock, which is location 2: the two readers agree on which write came first.
fn locked_iriw() -> Shape {
    let writes = |a: u8| [acquire(4), write(a, 1), release(4)];
    let reads = |first: u8, second: u8| [acquire(4), read(2, first), read(3, second), release(4)];
    let mut case = usual(3, &[&writes(0), &writes(1), &reads(0, 1), &reads(1, 0)]);
    for p in 0..4 {
        case = case.preset(p, 4, 2);
    }
    let mut results = free(4);
    results.retain(|row| row[..] != [0, 1, 0, 1] && row[..] != [1, 0, 1, 0]);
    ends("IRIW-locked", case, &[(2, 2), (2, 3), (3, 2), (3, 3)], results)
}

/// What one location does: a processor sees its own writes in order, others do not.
fn one_location() -> Vec<Shape> {
    let corr = usual(1, &[&[write(0, 1)], &[read(2, 0), read(3, 0)]]);
    let coww = usual(1, &[&[write(0, 1), write(0, 4), read(2, 0)]]).preset(0, 4, 2);
    let corw1 = usual(1, &[&[read(2, 0), write(0, 1)]]);
    let cowr = usual(1, &[&[write(0, 1), read(2, 0)], &[write(0, 4)]]).preset(1, 4, 2);
    let figure_2_results = product(&[&[0, 1, 2, 4], &[1, 2, 3, 4], &[0, 1, 2, 3], &[1, 2, 3, 4]]);
    vec![
        ends("CoRR", corr, &[(1, 2), (1, 3)], free(2)),
        ends("CoWW", coww, &[(0, 2)], rows(&[&[2]])),
        ends("CoRW1", corw1, &[(0, 2)], rows(&[&[0]])),
        ends("CoWR", cowr, &[(0, 2)], rows(&[&[1], &[2]])),
        ends("000-figure-2", figure_2(), &[(1, 2), (1, 3), (2, 2), (2, 3)], figure_2_results),
    ]
}

/// Shapes with many processors or many reads.
fn wide() -> Vec<Shape> {
    let third = [read(2, 0), read(3, 1), write(4, 1)];
    let fourth = [read(2, 4), read(3, 0), read(5, 1)];
    let figure_3 = usual(3, &[&[write(0, 1)], &[write(1, 1)], &third, &fourth]).preset(2, 4, 2).preset(3, 4, 2);
    let program = [write(4, 1), read(2, 5)];
    let mut ring = usual(4, &[&program[..]; 4]);
    for p in 0..4 {
        ring = ring.preset(p, 4, p as u16).preset(p, 5, (p as u16 + 1) % 4);
    }
    let eight: Vec<Instr> = (1..8).chain([0]).map(|d| read(d, 0)).collect();
    let eight = usual(1, &[&[write(0, 1)], &eight]);
    let watched: Vec<Register> = (0..8).map(|k| (1, k)).collect();
    vec![
        ends("001-figure-3", figure_3, &[(2, 2), (2, 3), (3, 2), (3, 3), (3, 5)], free(5)),
        ends("SB-four", ring, &[(0, 2), (1, 2), (2, 2), (3, 2)], free(4)),
        ends("eight-reads", eight, &watched, free(8)),
        locked_iriw(),
    ]
}

/// Shapes where a register ties instructions together.
fn dependent() -> Vec<Shape> {
    let pointer = usual(3, &[&[write(0, 1), write(1, 0)], &[read(2, 1), read(3, 2)]]).memory(1, 2).memory(2, 7);
    let value = usual(2, &[&[write(0, 1), read(2, 0), write(1, 2)], &[read(2, 1), read(3, 0)]]);
    let circle = usual(2, &[&[read(2, 0), write(1, 2)], &[read(2, 1), write(0, 2)]]);
    let renamed = usual(1, &[&[write(0, 1), set(1, 5)], &[read(2, 0)]]);
    vec![
        ends("MP-address", pointer, &[(1, 2), (1, 3)], rows(&[&[0, 0], &[0, 1], &[2, 7]])),
        ends("MP-value", value, &[(0, 2), (1, 2), (1, 3)], product(&[&[1], &[0, 1], &[0, 1]])),
        ends("LB-values", circle, &[(0, 2), (1, 2)], rows(&[&[0, 0]])),
        ends("renamed", renamed, &[(1, 2)], free(1)),
    ]
}

/// Loops: longer runs always remain, so every list is cut.
fn spinning() -> Vec<Shape> {
    let wait = |a: u8| [read(2, a), equal(3, 2, 0), branch(3, 0)];
    let message = usual(2, &[&[write(0, 1), write(1, 1)], &[wait(1).as_slice(), &[read(5, 0)]].concat()]);
    let (none, sees, both) = (BTreeSet::new(), product(&[&[1], &[0], &[0, 1]]), rows(&[&[1, 1]]));
    let message = ends("spin-12", message, &[(1, 2), (1, 3), (1, 5)], sees.clone());
    let two = usual(1, &[&[write(0, 1)], &wait(0), &wait(0)]);
    let two = ends("two-spin-14", two, &[(1, 2), (2, 2)], both.clone());
    vec![
        message.clone().with("spin-11", 11, true, none),
        message.clone().with("spin-12", 12, true, sees.clone()),
        message.clone().with("spin-18", 18, true, sees.clone()),
        message.with("spin-96", 96, true, sees),
        two.clone().with("two-spin-14", 14, true, both.clone()),
        two.clone().with("two-spin-20", 20, true, both.clone()),
        two.with("two-spin-53", 53, true, both),
    ]
}

/// Request 03: behind an acquire that never commits, a branch waits at once, and gotos pile up until 48 actions
/// are issued. By document 01's first table both would go round for as long as the bound lets them.
fn behind_the_lock() -> Vec<Shape> {
    let none = BTreeSet::new;
    let branches = ends("lock-M-branch", usual(1, &[&[acquire(1), branch(1, 1)]]), &[], none());
    let gotos = ends("lock-M-goto", usual(1, &[&[acquire(1), goto(1)]]), &[], none());
    let looks = [acquire(0), read(2, 1), branch(2, 4), set(3, 7), release(0)];
    let flag = usual(2, &[&[acquire(0), write(1, 1), release(0)], &looks]).preset(1, 3, 0);
    vec![
        branches.clone().with("lock-M-branch-2", 2, true, none()),
        branches.with("lock-M-branch-10", 10, false, none()),
        gotos.clone().with("lock-M-goto-48", 48, true, none()),
        gotos.with("lock-M-goto-49", 49, false, none()),
        ends("lock-and-branch", flag, &[(1, 2), (1, 3)], rows(&[&[0, 7], &[1, 0]])),
    ]
}

/// Request 09: a register counts as set wherever its processor assigns it. Set by its own reader it is never defined;
/// set later, or where no run comes, it is not either when it is asked for.
fn set_somewhere() -> Vec<Shape> {
    let none = BTreeSet::new;
    let alone = |program: &[Instr]| usual(1, &[program]);
    vec![
        ends("sets-itself", alone(&[add(3, 3, 3)]), &[], none()),
        ends("set-later", alone(&[write(0, 2), set(2, 1)]), &[], none()),
        ends("set-out-of-reach", alone(&[goto(2), set(2, 1), write(0, 2)]), &[], none()),
        ends("set-and-skipped", alone(&[branch(1, 2), write(0, 2), set(2, 7)]), &[(0, 2)], rows(&[&[7]])),
    ]
}

//! Cases on which source 000's theorem on race-free programs fails, taken literally: no sequential run of them races, and
//! yet the WOMM has a result that is not sequential. A release fixes its location when it commits, and what stands after
//! it need not wait.

use std::collections::BTreeSet;

use model::ops::*;
use model::{CaseBuilder, Instr};

use crate::lists::{ends, rows};
use crate::{usual, Shape};

/// A shape, its results those of the WOMM, and the results on the machine for SC.
pub struct Escape {
    pub shape: Shape,
    pub sequential: BTreeSet<Vec<u16>>,
}

/// Two processors with registers 0 to 3 preset to 0 to 3.
fn numbered(locations: u8, programs: [&[Instr]; 2]) -> CaseBuilder {
    let case = usual(locations, &programs);
    (0..2).fold(case, |case, p| case.preset(p, 2, 2).preset(p, 3, 3))
}

pub fn escapes() -> Vec<Escape> {
    let released =
        usual(2, &[&[acquire(1), read(2, 0), release(2), write(1, 1)], &[read(2, 1), branch(2, 3), goto(4), write(0, 1)]]);
    let another = numbered(
        4,
        [
            &[acquire(3), acquire(2), read(4, 0), release(2), release(4), write(1, 1)],
            &[read(4, 1), branch(4, 6), acquire(2), write(0, 3), release(2), goto(7), write(0, 3)],
        ],
    );
    let crossed =
        numbered(3, [&[read(4, 0), acquire(4), write(1, 2)], &[acquire(2), read(4, 1), release(4), write(0, 0)]]).memory(0, 2);
    let escape = |shape, sequential: &[&[u16]]| Escape { shape, sequential: rows(sequential) };
    vec![
        escape(ends("released", released, &[(0, 2), (1, 2)], rows(&[&[1, 1]])), &[]),
        escape(ends("another", another, &[(0, 4), (1, 4)], rows(&[&[3, 0], &[3, 1]])), &[&[3, 0]]),
        escape(ends("crossed", crossed, &[(0, 4), (1, 4)], rows(&[&[0, 2]])), &[]),
    ]
}

//! Blocks with bad bytes, the code that they get and the position it names.

use model::block::{self, LENGTH};
use model::ops::*;

use crate::usual;

/// A block that is refused.
pub struct Damaged {
    pub name: &'static str,
    pub block: Vec<u8>,
    pub code: u32,
    pub position: u32,
}

/// Two processors and three locations. Processor 0's instructions stand at 92 and 98, processor 1's at 164; registers
/// 0 and 1 are preset.
fn sound() -> [u8; LENGTH] {
    usual(3, &[&[add(2, 0, 1), goto(2)], &[write(0, 1)]]).build().expect("a sound case").block()
}

/// The sound block with some bytes put and its check put right.
fn with(name: &'static str, bytes: &[(usize, u8)], code: u32, position: u32) -> Damaged {
    let mut block = sound();
    for &(at, byte) in bytes {
        block[at] = byte;
    }
    block::seal(&mut block);
    Damaged { name, block: block.to_vec(), code, position }
}

/// One block for each kind of bad byte of each code, and some with several.
pub fn damaged() -> Vec<Damaged> {
    [whole(), sizes(), zeros_of_8_to_91(), instructions(), unused(), nobody_sets(), several()].into_iter().flatten().collect()
}

/// Codes 1 and 2, which carry 0 whatever else is bad.
fn whole() -> Vec<Damaged> {
    let mut unsealed = sound();
    unsealed[510] ^= 1;
    let mut worse = unsealed;
    worse[0] = 0;
    let given = |name, block: &[u8], code| Damaged { name, block: block.to_vec(), code, position: 0 };
    vec![
        given("block-1-short", &sound()[..511], 1),
        given("block-2-check", &unsealed, 2),
        given("block-2-check-and-processors", &worse, 2),
    ]
}

fn sizes() -> Vec<Damaged> {
    vec![
        with("block-3-processors-0", &[(0, 0)], 3, 0),
        with("block-3-processors-5", &[(0, 5)], 3, 0),
        with("block-3-locations-0", &[(1, 0)], 3, 1),
        with("block-3-locations-9", &[(1, 9)], 3, 1),
        with("block-3-bound-97", &[(2, 97)], 3, 2),
        with("block-3-zero", &[(3, 1)], 3, 3),
        with("block-4-count-13", &[(4, 13)], 4, 4),
        with("block-4-count-of-absent", &[(6, 1)], 4, 6),
    ]
}

fn zeros_of_8_to_91() -> Vec<Damaged> {
    vec![
        with("block-5-mask-of-absent", &[(10, 1)], 5, 10),
        with("block-5-unset-low", &[(22, 7)], 5, 22),
        with("block-5-unset-high", &[(23, 7)], 5, 23),
        with("block-5-preset-of-absent-low", &[(44, 1)], 5, 44),
        with("block-5-preset-of-absent-high", &[(45, 1)], 5, 45),
        with("block-5-word-of-absent-low", &[(82, 1)], 5, 82),
        with("block-5-word-of-absent-high", &[(91, 1)], 5, 91),
    ]
}

fn instructions() -> Vec<Damaged> {
    vec![
        with("block-6-op-0", &[(92, 0)], 6, 92),
        with("block-6-op-11", &[(164, 11)], 6, 164),
        with("block-6-register-d", &[(93, 8)], 6, 93),
        with("block-6-register-a", &[(94, 8)], 6, 94),
        with("block-6-register-b", &[(95, 8)], 6, 95),
        with("block-6-unused-d", &[(99, 1)], 6, 99),
        with("block-6-unused-a", &[(100, 1)], 6, 100),
        with("block-6-unused-b", &[(101, 1)], 6, 101),
        with("block-6-unused-constant-low", &[(96, 1)], 6, 96),
        with("block-6-unused-constant-high", &[(169, 1)], 6, 169),
        with("block-6-label-low", &[(102, 3)], 6, 102),
        with("block-6-label-high", &[(102, 0), (103, 1)], 6, 102),
    ]
}

fn unused() -> Vec<Damaged> {
    vec![
        with("block-7-slot-op", &[(104, 1)], 7, 104),
        with("block-7-slot-d", &[(105, 1)], 7, 105),
        with("block-7-slot-a", &[(106, 1)], 7, 106),
        with("block-7-slot-b", &[(107, 1)], 7, 107),
        with("block-7-slot-constant-low", &[(108, 1)], 7, 108),
        with("block-7-slot-constant-high", &[(109, 1)], 7, 109),
        with("block-7-slot-of-absent", &[(236, 1)], 7, 236),
        with("block-7-tail-first", &[(380, 1)], 7, 380),
        with("block-7-tail-last", &[(509, 1)], 7, 509),
    ]
}

/// Request 09: every field that names a register to read. Processor 0 assigns register 2, which is nothing to
/// processor 1; neither has a register 3 or 5.
fn nobody_sets() -> Vec<Damaged> {
    let other = |name, op: u8, d: u8| with(name, &[(164, op), (165, d), (166, 3), (167, 0)], 19, 166);
    vec![
        with("block-19-add-a", &[(94, 5)], 19, 94),
        with("block-19-add-b", &[(95, 5)], 19, 95),
        with("block-19-sub-a", &[(92, 5), (94, 5)], 19, 94),
        with("block-19-sub-b", &[(92, 5), (95, 5)], 19, 95),
        with("block-19-eq-a", &[(92, 6), (94, 5)], 19, 94),
        with("block-19-eq-b", &[(92, 6), (95, 5)], 19, 95),
        with("block-19-write-a", &[(166, 3)], 19, 166),
        with("block-19-write-b", &[(167, 3)], 19, 167),
        other("block-19-read", 1, 2),
        other("block-19-branch", 7, 0),
        other("block-19-acquire", 9, 0),
        other("block-19-release", 10, 0),
        with("block-19-assigned-elsewhere", &[(167, 2)], 19, 167),
    ]
}

/// The code goes first, then the lowest of its bytes.
fn several() -> Vec<Damaged> {
    vec![
        with("block-3-lowest", &[(1, 9), (3, 1)], 3, 1),
        with("block-4-lowest", &[(5, 13), (7, 1)], 4, 5),
        with("block-5-lowest", &[(23, 1), (91, 1)], 5, 23),
        with("block-6-lowest", &[(101, 1), (164, 0)], 6, 101),
        with("block-7-lowest", &[(163, 1), (380, 1)], 7, 163),
        with("block-6-before-7", &[(110, 1), (165, 1)], 6, 165),
        with("block-19-lowest", &[(95, 5), (166, 3)], 19, 95),
        with("block-7-before-19", &[(94, 5), (509, 1)], 7, 509),
    ]
}

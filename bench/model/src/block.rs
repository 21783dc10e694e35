//! The case block: written by position, and judged byte by byte.

use crate::{faults, Case, Instr, Processor, Reason, Refusal};

pub use crate::layout::LENGTH;

use crate::layout::{count, is_set, preset_at, slot_at, word, BOUND, CHECK, COUNTS, MASKS, MEMORY};

/// The sum over bytes 0 to 509 of (position + 1) times byte, modulo 65,521.
pub fn check(block: &[u8]) -> u16 {
    let sum: u64 = (1..).zip(&block[..CHECK]).map(|(n, &byte)| n * u64::from(byte)).sum();
    (sum % 65_521) as u16
}

/// Puts the check that the other bytes ask for.
pub fn seal(block: &mut [u8; LENGTH]) {
    let check = check(block).to_le_bytes();
    block[CHECK..].copy_from_slice(&check);
}

impl Case {
    /// The 512 bytes of document 01.
    pub fn block(&self) -> [u8; LENGTH] {
        write(self)
    }
}

fn write(case: &Case) -> [u8; LENGTH] {
    let mut block = [0; LENGTH];
    block[..2].copy_from_slice(&[case.processors.len() as u8, case.locations]);
    for (p, processor) in case.processors.iter().enumerate() {
        write_processor(&mut block, p, processor);
    }
    for (location, word) in case.memory.iter().enumerate() {
        block[MEMORY + 2 * location..][..2].copy_from_slice(&word.to_le_bytes());
    }
    seal(&mut block);
    block
}

fn write_processor(block: &mut [u8; LENGTH], p: usize, processor: &Processor) {
    block[COUNTS + p] = processor.program.len() as u8;
    for (k, preset) in processor.presets.iter().enumerate() {
        if let Some(value) = preset {
            block[MASKS + p] |= 1 << k;
            block[preset_at(p, k)..][..2].copy_from_slice(&value.to_le_bytes());
        }
    }
    for (i, instr) in processor.program.iter().enumerate() {
        block[slot_at(p, i)..][..6].copy_from_slice(&instr.bytes());
    }
}

/// The case of a block, or the first of codes 1 to 7 and 19 that applies. A usual bound is dropped.
pub fn read(block: &[u8]) -> Result<Case, Refusal> {
    let block: &[u8; LENGTH] = block.try_into().map_err(|_| Reason::BlockLength)?;
    if word(block, CHECK) != check(block) {
        return Err(Reason::Check.into());
    }
    faults::judge(block)?;
    let memory = std::array::from_fn(|location| word(block, MEMORY + 2 * location));
    let processors = (0..block[0].into()).map(|p| read_processor(block, p)).collect();
    Ok(Case { processors, locations: block[1], memory })
}

fn read_processor(block: &[u8; LENGTH], p: usize) -> Processor {
    let instr = |i| Instr::read(std::array::from_fn(|j| block[slot_at(p, i) + j])).expect("a sound instruction");
    Processor {
        presets: std::array::from_fn(|k| is_set(block, p, k).then(|| word(block, preset_at(p, k)))),
        program: (0..count(block, p)).map(instr).collect(),
    }
}

/// Whether an accepted block held a usual bound.
pub fn held_bound(block: &[u8]) -> bool {
    block[BOUND] != 0
}

/// A block with a usual bound, as they were written before request 12.
pub fn with_bound(mut block: [u8; LENGTH], bound: u8) -> [u8; LENGTH] {
    block[BOUND] = bound;
    seal(&mut block);
    block
}

/// Puts no usual bound and the check into a buffer that holds a case; refused, the buffer is all zeros.
pub fn close(buffer: &mut [u8]) -> Result<(), Refusal> {
    let closed = closable(buffer).map(|block| *block = with_bound(*block, 0));
    if closed.is_err() {
        buffer.fill(0);
    }
    closed
}

/// A buffer as a block, if codes 1, 3 to 7 and 19 do not apply.
fn closable(buffer: &mut [u8]) -> Result<&mut [u8; LENGTH], Refusal> {
    let block: &mut [u8; LENGTH] = buffer.try_into().map_err(|_| Reason::BlockLength)?;
    faults::judge(block)?;
    Ok(block)
}

#[cfg(test)]
mod tests {
    use super::*;
    use crate::ops::{self, branch, goto};

    /// Two processors, three locations; processor 1's second instruction stands at 92 + 72 + 6 = 170.
    fn sample() -> Case {
        Case::builder(2, 3)
            .preset(0, 0, 0)
            .preset(0, 1, 0x0102)
            .preset(1, 7, 9)
            .memory(2, 0xBEEF)
            .program(0, &[ops::write(0, 1), goto(2)])
            .program(1, &[ops::read(2, 7), branch(2, 0)])
            .build()
            .unwrap()
    }

    #[test]
    fn bytes_stand_where_document_01_says() {
        let block = sample().block();
        assert_eq!(block[..12], [2, 3, 0, 0, 2, 2, 0, 0, 0b11, 0b1000_0000, 0, 0]);
        assert_eq!(block[14..16], [2, 1]);
        assert_eq!(block[42..44], [9, 0]);
        assert_eq!(block[80..82], [0xEF, 0xBE]);
        assert_eq!(block[92..104], [2, 0, 0, 1, 0, 0, 8, 0, 0, 0, 2, 0]);
        assert_eq!(block[164..176], [1, 2, 7, 0, 0, 0, 7, 0, 2, 0, 0, 0]);
        assert_eq!(read(&block), Ok(sample()));
    }

    #[test]
    fn the_check_by_hand() {
        // Bytes 0 and 1 are 1 and the rest 0: 1 × 1 + 2 × 1.
        let block = Case::builder(1, 1).build().unwrap().block();
        assert_eq!(block[510..], [3, 0]);
        // 255 everywhere: 255 × 510 × 511 ÷ 2 modulo 65,521.
        assert_eq!(u32::from(check(&[255; 512])), 255 * (510 * 511 / 2) % 65_521);
    }

    /// The code and the position after one byte is changed and the check put right.
    fn with(at: usize, byte: u8) -> (u32, u32) {
        let mut block = sample().block();
        block[at] = byte;
        seal(&mut block);
        read(&block).map_or_else(|refusal| (refusal.code(), refusal.position), |_| (0, 0))
    }

    #[test]
    fn refusals() {
        assert_eq!(read(&[]), Err(Reason::BlockLength.into()));
        assert_eq!(read(&[0; 513]), Err(Reason::BlockLength.into()));
        let mut block = sample().block();
        block[400] ^= 1;
        assert_eq!(read(&block), Err(Reason::Check.into()));
        for (at, byte) in [(0, 0), (0, 5), (1, 0), (1, 9), (2, 97), (3, 1)] {
            assert_eq!(with(at, byte), (3, at as u32));
        }
        for (at, byte, position) in [(4, 13, 4), (6, 1, 6), (0, 1, 5)] {
            assert_eq!(with(at, byte), (4, position), "byte {at}");
        }
        for (at, byte, position) in [(8, 0, 14), (10, 1, 10), (16, 1, 16), (17, 1, 17), (91, 1, 91), (1, 2, 80)] {
            assert_eq!(with(at, byte), (5, position), "byte {at}");
        }
        for (at, byte, position) in [(92, 0, 92), (92, 11, 92), (93, 1, 93), (95, 8, 95), (97, 1, 97), (102, 3, 102)] {
            assert_eq!(with(at, byte), (6, position), "byte {at}");
        }
        for (at, byte, position) in [(103, 1, 102), (4, 3, 104), (174, 3, 174), (175, 1, 174)] {
            assert_eq!(with(at, byte), (6, position), "byte {at}");
        }
        for (at, byte, position) in [(104, 1, 104), (4, 1, 98), (163, 1, 163), (236, 1, 236), (380, 1, 380), (509, 1, 509)] {
            assert_eq!(with(at, byte), (7, position), "byte {at}");
        }
        for (at, byte) in [(94, 2), (95, 7), (166, 0), (172, 6)] {
            assert_eq!(with(at, byte), (19, at as u32));
        }
        for (at, byte) in [(2, 96), (80, 1), (102, 0), (166, 2), (174, 2)] {
            assert_eq!(with(at, byte), (0, 0), "byte {at}");
        }
    }

    #[test]
    fn an_old_block_holds_the_same_case() {
        let sound = sample().block();
        for bound in 1..=96 {
            let old = with_bound(sound, bound);
            assert!(held_bound(&old) && read(&old) == Ok(sample()));
            let differ: Vec<usize> = (0..LENGTH).filter(|&at| old[at] != sound[at]).collect();
            assert!(differ[0] == 2 && differ[1..].iter().all(|&at| at >= 510), "{differ:?}");
        }
        assert!(!held_bound(&sound));
        assert_eq!(read(&with_bound(sound, 97)), Err(Refusal { reason: Reason::Sizes, position: 2 }));
    }

    #[test]
    fn a_buffer_is_closed_or_cleared() {
        let sound = sample().block();
        let mut open = with_bound(sound, 96);
        open[510..].fill(7);
        assert_eq!((close(&mut open), open), (Ok(()), sound));
        open[95] = 8;
        assert_eq!(close(&mut open), Err(Refusal { reason: Reason::Instruction, position: 95 }));
        assert_eq!(open, [0; LENGTH]);
        let mut short = [7; 511];
        assert_eq!((close(&mut short), short), (Err(Reason::BlockLength.into()), [0; 511]));
    }

    #[test]
    fn the_builder_refuses_what_no_block_holds() {
        let refused =
            |builder: crate::CaseBuilder| builder.build().map_or_else(|refusal| (refusal.code(), refusal.position), |_| (0, 0));
        assert_eq!(refused(Case::builder(5, 1)), (3, 0));
        assert_eq!(refused(Case::builder(0, 1)), (3, 0));
        assert_eq!(refused(Case::builder(1, 9)), (3, 1));
        assert_eq!(refused(Case::builder(1, 1).program(0, &[goto(0); 13])), (4, 4));
        assert_eq!(refused(Case::builder(1, 1).program(1, &[])), (4, 5));
        assert_eq!(refused(Case::builder(1, 1).memory(1, 0)), (5, 78));
        assert_eq!(refused(Case::builder(1, 1).preset(1, 0, 0)), (5, 9));
        assert_eq!(refused(Case::builder(1, 1).program(0, &[goto(2)])), (6, 96));
        assert_eq!(refused(Case::builder(4, 8).program(3, &[goto(12); 12])), (0, 0));
    }
}

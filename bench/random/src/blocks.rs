//! Random blocks: of sound cases, and damaged.

use std::ops::Range;

use model::{block, Case, STEPS};

use crate::{cases, Inputs};

impl Inputs {
    /// A case's block, once in three times an old one with a usual bound.
    pub(crate) fn block(&mut self, case: &Case) -> [u8; block::LENGTH] {
        let bound = if self.rng.once_in(3) { 1 + self.rng.below(STEPS) } else { 0 };
        block::with_bound(case.block(), bound as u8)
    }

    /// A block of a random case with a byte changed at each of some positions, and the check put right mostly.
    pub fn to_judge(&mut self, positions: &[usize]) -> Vec<u8> {
        let case = cases::to_replay(&mut self.rng);
        let mut bytes = self.block(&case);
        for &at in positions {
            bytes[at] = self.other_byte(bytes[at]);
        }
        self.closed(bytes)
    }

    /// A block with up to six bytes changed, one in each part.
    pub fn to_judge_any(&mut self) -> Vec<u8> {
        let parts = [0..4, 4..8, 8..92, 92..380, 92..380, 380..510];
        let changed: Vec<usize> = parts.into_iter().filter_map(|part| self.within(part)).collect();
        self.to_judge(&changed)
    }

    /// A block with a preset or two less, or another register in a field: mostly one that reads what nothing sets.
    pub fn to_judge_unset(&mut self) -> Vec<u8> {
        let case = cases::to_replay(&mut self.rng);
        let mut bytes = self.block(&case);
        for _ in 0..1 + self.rng.below(3) {
            let p = self.rng.below(bytes[0].into());
            if self.rng.once_in(2) {
                self.unset(&mut bytes, p);
            } else {
                let at = 92 + 72 * p + 6 * self.rng.below(bytes[4 + p].into()) + 1 + self.rng.below(3);
                bytes[at] = self.rng.below(8) as u8;
            }
        }
        self.closed(bytes)
    }

    /// Takes a preset of processor p away.
    fn unset(&mut self, bytes: &mut [u8; block::LENGTH], p: usize) {
        let k = self.rng.below(8);
        bytes[8 + p] &= !(1 << k);
        bytes[12 + 16 * p + 2 * k..][..2].fill(0);
    }

    /// Half the time one of some positions.
    fn within(&mut self, part: Range<usize>) -> Option<usize> {
        let at = part.start + self.rng.below(part.len());
        self.rng.once_in(2).then_some(at)
    }

    /// A block with one byte changed, or of another length.
    pub(crate) fn spoilt_block(&mut self, sound: &[u8]) -> Vec<u8> {
        let mut bytes: [u8; block::LENGTH] = sound.try_into().expect("a block");
        let at = match self.rng.below(8) {
            0 => return [sound, &[0]].concat()[..self.rng.pick(&[0, 1, 511, 513])].to_vec(),
            7 => {
                (0..3).for_each(|_| self.unset(&mut bytes, 0));
                return self.closed(bytes);
            }
            1 => self.rng.below(512),
            2 => self.rng.below(4),
            3 => 4 + self.rng.below(4),
            4 => 8 + self.rng.below(84),
            5 => 92 + 72 * self.rng.below(bytes[0].into()) + self.rng.below(12),
            _ => 104 + self.rng.below(406),
        };
        bytes[at] = self.other_byte(bytes[at]);
        self.closed(bytes)
    }

    /// Any byte, or one near.
    fn other_byte(&mut self, byte: u8) -> u8 {
        if self.rng.once_in(2) {
            self.rng.byte()
        } else {
            byte ^ 1
        }
    }

    /// A block with its check put right, once in eight times as it is.
    fn closed(&mut self, mut bytes: [u8; block::LENGTH]) -> Vec<u8> {
        if !self.rng.once_in(8) {
            block::seal(&mut bytes);
        }
        bytes.to_vec()
    }
}

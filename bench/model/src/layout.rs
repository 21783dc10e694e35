//! Where the fields of a block stand.

pub const LENGTH: usize = 512;

pub(crate) const BOUND: usize = 2;
pub(crate) const COUNTS: usize = 4;
pub(crate) const MASKS: usize = 8;
pub(crate) const PRESETS: usize = 12;
pub(crate) const MEMORY: usize = 76;
pub(crate) const PROGRAMS: usize = 92;
pub(crate) const TAIL: usize = 380;
pub(crate) const CHECK: usize = 510;

pub(crate) fn preset_at(p: usize, k: usize) -> usize {
    PRESETS + 16 * p + 2 * k
}

pub(crate) fn slot_at(p: usize, i: usize) -> usize {
    PROGRAMS + 72 * p + 6 * i
}

pub(crate) fn word(block: &[u8; LENGTH], at: usize) -> u16 {
    u16::from_le_bytes([block[at], block[at + 1]])
}

pub(crate) fn count(block: &[u8; LENGTH], p: usize) -> usize {
    block[COUNTS + p].into()
}

pub(crate) fn is_set(block: &[u8; LENGTH], p: usize, k: usize) -> bool {
    block[MASKS + p] >> k & 1 == 1
}

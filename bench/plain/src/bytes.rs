//! A block judged byte by byte: the code that each is bad for, if any.

use model::block::{self, LENGTH};
use model::{Case, Reason, Refusal};

/// The case of a block, or its refusal.
pub fn case(block: &[u8]) -> Result<Case, Refusal> {
    let bytes = sized(block)?;
    if bytes[510..] != block::check(bytes).to_le_bytes() {
        return Err(Reason::Check.into());
    }
    sound(bytes)?;
    Ok(block::read(block).expect("a block without a bad byte"))
}

/// Makes a block of a buffer that holds a case: byte 2 is 0 whatever was there.
pub fn close(buffer: &mut [u8]) -> Result<(), Refusal> {
    let judged = sized(buffer).and_then(sound);
    if judged.is_ok() {
        buffer[2] = 0;
        let check = block::check(buffer);
        buffer[510..].copy_from_slice(&check.to_le_bytes());
    } else {
        buffer.fill(0);
    }
    judged
}

fn sized(block: &[u8]) -> Result<&[u8; LENGTH], Refusal> {
    block.try_into().map_err(|_| Reason::BlockLength.into())
}

/// Of all bad bytes, the lowest of those with the first code.
fn sound(block: &[u8; LENGTH]) -> Result<(), Refusal> {
    let bad = |at: usize| fault(block, at).map(|reason| Refusal { reason, position: at as u32 });
    (0..510).filter_map(bad).min().map_or(Ok(()), Err)
}

/// The code that a byte is bad for.
fn fault(block: &[u8; LENGTH], at: usize) -> Option<Reason> {
    let byte = block[at];
    let [processors, locations] = [0, 1].map(|at| usize::from(block[at]));
    let (bad, reason) = match at {
        0 => (byte == 0 || byte > 4, Reason::Sizes),
        1 => (byte == 0 || byte > 8, Reason::Sizes),
        2 => (byte > 96, Reason::Sizes),
        3 => (byte != 0, Reason::Sizes),
        4..8 => (byte > if at - 4 < processors { 12 } else { 0 }, Reason::Counts),
        8..12 => (at - 8 >= processors && byte != 0, Reason::NotZero),
        12..76 => {
            let (mask, register) = (block[8 + (at - 12) / 16], (at - 12) % 16 / 2);
            (mask & 1 << register == 0 && byte != 0, Reason::NotZero)
        }
        76..92 => ((at - 76) / 2 >= locations && byte != 0, Reason::NotZero),
        92..380 if is_used(block, at - 92) && is_bad_field(block, at - 92) => (true, Reason::Instruction),
        92..380 if is_used(block, at - 92) => (reads_unset(block, at - 92), Reason::NobodySets),
        _ => (byte != 0, Reason::Unused),
    };
    bad.then_some(reason)
}

/// Whether a byte, counted from the first instruction, belongs to one that its processor's count takes in.
fn is_used(block: &[u8; LENGTH], at: usize) -> bool {
    at % 72 / 6 < block[4 + at / 72].into()
}

/// The fields that each op names: c for a constant, l for a label.
const NAMED: [&str; 11] = ["", "da", "ab", "dc", "dab", "dab", "dab", "al", "l", "a", "a"];

/// Whether a byte is an a or b that names a register with no preset and never the d of its processor.
fn reads_unset(block: &[u8; LENGTH], at: usize) -> bool {
    let (processor, slot, register) = (at / 72, 92 + at / 6 * 6, block[92 + at]);
    let named = |slot: usize, field: char| NAMED.get(usize::from(block[slot])).is_some_and(|fields| fields.contains(field));
    let slots = (0..12).map(|i| 72 * processor + 6 * i).filter(|&other| is_used(block, other));
    let mut assigned = slots.filter(|other| named(92 + other, 'd')).map(|other| block[92 + other + 1]);
    let reads = at % 6 == 2 && named(slot, 'a') || at % 6 == 3 && named(slot, 'b');
    reads && register < 8 && block[8 + processor] & 1 << register == 0 && !assigned.any(|d| d == register)
}

fn is_bad_field(block: &[u8; LENGTH], at: usize) -> bool {
    let bytes = &block[92 + at / 6 * 6..][..6];
    let (part, byte) = (at % 6, bytes[at % 6]);
    let named = NAMED.get(usize::from(bytes[0])).unwrap_or(&"");
    match part {
        0 => named.is_empty(),
        1..4 if named.contains(['d', 'a', 'b'][part - 1]) => byte > 7,
        4 if named.contains('l') => u16::from_le_bytes([bytes[4], bytes[5]]) > block[4 + at / 72].into(),
        5 if named.contains('l') => false,
        4 | 5 if named.contains('c') => false,
        _ => byte != 0,
    }
}

use std::fmt;

/// The refusals of documents 01 and 02, in the order they are tried; a hand-off tries `Plan` before `ScheduleRoom`.
#[derive(Clone, Copy, Debug, PartialEq, Eq, PartialOrd, Ord, Hash)]
pub enum Reason {
    BlockLength,
    Check,
    Sizes,
    Counts,
    NotZero,
    Instruction,
    Unused,
    NobodySets,
    ScheduleLength,
    ResultLength,
    Bound,
    Room,
    Clauses,
    ScheduleRoom,
    Queued,
    Plan,
    NoText,
    TextRoom,
    BadStep,
    PlaceUndefined,
    AtEnd,
    TooManyActions,
    AddressUndefined,
    AddressRange,
    NoSuchAction,
    SourceGiven,
    HeldBack,
    RegisterUndefined,
    LockRange,
    LockState,
    NotVisible,
}

use Reason::*;

/// Each refusal with its code and its document's words, in the order they are tried.
const TABLE: [(Reason, u32, &str); 31] = [
    (BlockLength, 1, "length is not 512"),
    (Check, 2, "check"),
    (Sizes, 3, "bytes 0 to 3"),
    (Counts, 4, "counts over 12, or set for an absent processor"),
    (NotZero, 5, "a byte of 8..91 that must be zero"),
    (Instruction, 6, "a used instruction with a bad op, register, label or unused field"),
    (Unused, 7, "a byte that must be zero in unused slots or 380..509"),
    (NobodySets, 19, "a used instruction reads a register that no preset gives and no instruction of its processor assigns"),
    (ScheduleLength, 8, "schedule length not a multiple of 4 or over 384"),
    (ResultLength, 9, "result buffer not 104 bytes"),
    (Bound, 10, "bound over 96"),
    (Room, 11, "more distinct outcomes than length ÷ 96, rounded down"),
    (Clauses, 12, "over 8 clauses, an absent processor or a register over 7"),
    (ScheduleRoom, 13, "schedule buffer not 384 bytes"),
    (Queued, 14, "a queue is not empty"),
    (Plan, 15, "a plan that is not one of a hand-off"),
    (NoText, 17, "not one case's text"),
    (TextRoom, 18, "the text buffer is shorter than the text"),
    (BadStep, 20, "kind over 1, processor not below P, or an issue with byte 2 or 3 not zero"),
    (PlaceUndefined, 21, "place counter undefined"),
    (AtEnd, 22, "at the end"),
    (TooManyActions, 23, "48 actions issued already"),
    (AddressUndefined, 24, "address register of a read or write undefined"),
    (AddressRange, 25, "its value not below M"),
    (NoSuchAction, 26, "no such action in this processor's queue"),
    (SourceGiven, 27, "byte 3 not zero and not a read"),
    (HeldBack, 28, "held back by the table"),
    (RegisterUndefined, 29, "a register it reads is undefined"),
    (LockRange, 30, "acquire or release of a location not below M"),
    (LockState, 31, "acquire while another holds it, or release while this processor does not"),
    (NotVisible, 32, "the named item is not visible"),
];

impl Reason {
    /// Every refusal, in the order they are tried.
    pub fn all() -> impl Iterator<Item = Reason> {
        TABLE.iter().map(|row| row.0)
    }

    /// Its number.
    pub fn code(self) -> u32 {
        TABLE[self as usize].1
    }

    /// The refusal of a code; none for 0 and for numbers that are no code.
    pub fn from_code(code: u32) -> Option<Reason> {
        TABLE.iter().find(|row| row.1 == code).map(|row| row.0)
    }

    /// A code of the block itself: 1 to 7 and 19.
    pub fn is_of_block(self) -> bool {
        self <= NobodySets
    }

    /// A code that belongs to a byte of the block: 3 to 7 and 19.
    pub fn has_position(self) -> bool {
        self.is_of_block() && self > Check
    }
}

impl fmt::Display for Reason {
    fn fmt(&self, f: &mut fmt::Formatter<'_>) -> fmt::Result {
        f.write_str(TABLE[*self as usize].2)
    }
}

impl std::error::Error for Reason {}

#[cfg(test)]
mod tests {
    use super::*;

    #[test]
    fn every_refusal_stands_in_its_own_row() {
        for (row, (refusal, code, _)) in TABLE.iter().enumerate() {
            assert_eq!(*refusal as usize, row);
            assert_eq!(Reason::from_code(*code), Some(*refusal));
        }
        let codes: Vec<u32> = Reason::all().map(Reason::code).collect();
        assert_eq!(codes, (1..=7).chain([19]).chain(8..=15).chain([17, 18]).chain(20..=32).collect::<Vec<u32>>());
        assert_eq!(Reason::from_code(0), None);
    }
}

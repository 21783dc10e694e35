//! The library's calls over plain bytes, and what they answer. With every code that names no byte of the block the
//! position is 0.

use crate::{Clause, Reason, Refusal};

/// The answer of reading a block.
#[derive(Clone, Copy, Debug, PartialEq, Eq)]
pub struct Read {
    pub code: u32,
    pub position: u32,
    /// Whether the block was accepted and held a usual bound, which is dropped.
    pub usual: bool,
}

/// The answer of writing a block.
#[derive(Clone, Copy, Debug, PartialEq, Eq)]
pub struct Written {
    pub code: u32,
    pub position: u32,
}

/// The answer of reading a text; the block stands in the lent buffer.
#[derive(Clone, Copy, Debug, PartialEq, Eq)]
pub struct ReadText {
    pub code: u32,
    /// The line that codes 17 and 19 name, from 1; else 0.
    pub line: u32,
    /// Whether an old text was read whose usual bound is not 0.
    pub usual: bool,
}

/// The answer of writing a block's text, which stands in the lent buffer.
#[derive(Clone, Copy, Debug, PartialEq, Eq)]
pub struct WrittenText {
    pub code: u32,
    /// The text's bytes; 0 with a refusal.
    pub length: u32,
    pub position: u32,
}

/// The answer of a listing; the records stand in the lent buffer.
#[derive(Clone, Copy, Debug, PartialEq, Eq)]
pub struct Listed {
    pub code: u32,
    pub count: u32,
    pub cut: bool,
    pub position: u32,
}

/// The answer of a replay; registers, counters and queues stand in the lent buffer.
#[derive(Clone, Copy, Debug, PartialEq, Eq)]
pub struct Replayed {
    pub code: u32,
    pub steps: u32,
    /// Where the refused step's instruction stands in its program, for codes 23 to 25 and 27 to 32.
    pub place: Option<u8>,
    pub position: u32,
}

/// The answer for the first race of a schedule: how its replay went, with code 14 where a queue is not empty.
#[derive(Clone, Copy, Debug, PartialEq, Eq)]
pub struct Raced {
    pub replayed: Replayed,
    /// The two actions by their numbers, the earlier first.
    pub pair: Option<[u8; 2]>,
}

/// The answer to a wanted result; with yes, its lowest schedule stands in the lent buffer.
#[derive(Clone, Copy, Debug, PartialEq, Eq)]
pub struct Asked {
    pub code: u32,
    pub yes: bool,
    /// The schedule's bytes.
    pub length: u32,
    pub cut: bool,
    pub position: u32,
}

/// What a hand-off can come to, by the number that stands for it.
#[derive(Clone, Copy, Debug, PartialEq, Eq, PartialOrd, Ord, Hash)]
pub enum Verdict {
    Safe,
    Stale,
    Stuck,
}

/// The answer for a pair of plans; with stale, its lowest schedule stands in the lent buffer.
#[derive(Clone, Copy, Debug, PartialEq, Eq)]
pub struct HandedOff {
    pub code: u32,
    pub verdict: Verdict,
    /// The schedule's bytes.
    pub length: u32,
}

/// The machines of request 07, by the number that stands for them; each has the results of those before it.
#[derive(Clone, Copy, Debug, PartialEq, Eq, PartialOrd, Ord, Hash)]
pub enum Board {
    /// Stores reach memory at once.
    Sc,
    /// One first-in first-out buffer a processor.
    Tso,
    /// One a processor and location.
    Pso,
}

impl Board {
    pub const ALL: [Board; 3] = [Board::Sc, Board::Tso, Board::Pso];

    pub fn number(self) -> u32 {
        self as u32
    }
}

impl HandedOff {
    /// Refused: the verdict is the first number, and says nothing.
    pub fn refused(reason: Reason) -> HandedOff {
        HandedOff { code: reason.code(), verdict: Verdict::Safe, length: 0 }
    }

    pub fn answered(verdict: Verdict, length: usize) -> HandedOff {
        HandedOff { code: 0, verdict, length: length as u32 }
    }
}

impl Read {
    /// The answer to a block that was accepted, with or without a usual bound, or refused.
    pub fn of(judged: Result<bool, Refusal>) -> Read {
        match judged {
            Ok(usual) => Read { code: 0, position: 0, usual },
            Err(refusal) => Read { code: refusal.code(), position: refusal.position, usual: false },
        }
    }
}

impl Written {
    /// The answer to a buffer that was closed or refused.
    pub fn of(judged: Result<(), Refusal>) -> Written {
        match judged {
            Ok(()) => Written { code: 0, position: 0 },
            Err(refusal) => Written { code: refusal.code(), position: refusal.position },
        }
    }
}

impl ReadText {
    pub fn refused(reason: Reason, line: u32) -> ReadText {
        ReadText { code: reason.code(), line, usual: false }
    }
}

impl Listed {
    pub fn refused(refusal: Refusal) -> Listed {
        Listed { code: refusal.code(), count: 0, cut: false, position: refusal.position }
    }
}

impl Replayed {
    /// Refused before the first step.
    pub fn refused(refusal: Refusal) -> Replayed {
        Replayed { code: refusal.code(), steps: 0, place: None, position: refusal.position }
    }
}

impl Asked {
    pub fn refused(refusal: Refusal) -> Asked {
        Asked { code: refusal.code(), yes: false, length: 0, cut: false, position: refusal.position }
    }

    /// Yes, with a schedule of so many bytes.
    pub fn yes(length: usize) -> Asked {
        Asked { code: 0, yes: true, length: length as u32, cut: false, position: 0 }
    }

    /// No, with the list's own cut mark.
    pub fn no(cut: bool) -> Asked {
        Asked { code: 0, yes: false, length: 0, cut, position: 0 }
    }
}

/// Judges a block, and makes one of a buffer that holds one but for its check.
pub trait Codec {
    fn read(&self, block: &[u8]) -> Read;
    fn write(&self, block: &mut [u8]) -> Written;
}

/// Lists outcomes.
pub trait Lister {
    fn outcomes(&self, block: &[u8], bound: u32, records: &mut [u8]) -> Listed;
}

/// Replays a schedule.
pub trait Replayer {
    fn replay(&self, block: &[u8], schedule: &[u8], result: &mut [u8]) -> Replayed;
}

/// Says whether a wanted result is possible.
pub trait Asker {
    fn ask(&self, block: &[u8], bound: u32, clauses: &[Clause], schedule: &mut [u8]) -> Asked;
}

/// Replays a schedule and says why each processor's oldest queued action waits then, a byte each.
pub trait Waiter {
    fn why(&self, block: &[u8], schedule: &[u8], causes: &mut [u8]) -> Replayed;
}

/// Replays a schedule and gives its first race.
pub trait Racer {
    fn race(&self, block: &[u8], schedule: &[u8]) -> Raced;
}

/// Judges a pair of plans.
pub trait Planner {
    fn handoff(&self, sending: &[u8], receiving: &[u8], schedule: &mut [u8]) -> HandedOff;
}

/// Lists outcomes on a store-buffer machine; the bound counts instructions.
pub trait BoardLister {
    fn board(&self, board: Board, block: &[u8], bound: u32, records: &mut [u8]) -> Listed;
}

/// Turns a text into a block, and a block into its text.
pub trait Typist {
    fn read_text(&self, text: &[u8], block: &mut [u8]) -> ReadText;
    fn write_text(&self, block: &[u8], text: &mut [u8]) -> WrittenText;
}

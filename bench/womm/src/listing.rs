//! Every result within a bound.

use model::{Board, BoardLister, Listed, Lister, Outcome, Reason, RECORD};

use crate::refusal::{accepted, Refusal};
use crate::stack::deep;
use crate::{Case, Library};

/// Records that a list first has room for, and how much more it gets where they are too few.
const ROOM: usize = 1024;
const GROWTH: usize = 8;

/// All results within a bound, in byte order.
#[derive(Clone, Debug, PartialEq, Eq)]
pub struct Listing {
    /// Each result of a finished run, once.
    pub outcomes: Vec<Outcome>,
    /// Whether longer runs remain, which may have further results. Without it no larger bound adds any.
    pub cut: bool,
}

impl Case {
    /// Lists every result of every finished run within a bound of steps, 0 to 96. Room grows as it must.
    ///
    /// ```
    /// # let text = "case 2 2\nreg 0 0 0\nreg 0 1 1\nreg 1 0 0\nreg 1 1 1\nop 0 write 0 1\nop 0 write 1 1\nop 1 read 2 1\nop 1 read 3 0\n";
    /// let case = womm::Case::from_text(text)?;    // 1 to x, then 1 to y; the other reads y, then x
    /// let listing = case.outcomes(8)?;
    /// assert!(!listing.cut);
    /// let seen: Vec<_> = listing.outcomes.iter().map(|outcome| (outcome.registers[1][2], outcome.registers[1][3])).collect();
    /// assert!(seen.contains(&(Some(1), Some(0))));
    /// # Ok::<(), womm::Refusal>(())
    /// ```
    pub fn outcomes(&self, bound: u32) -> Result<Listing, Refusal> {
        grown(|room| self.outcomes_up_to(bound, room))
    }

    /// As `outcomes`, with room for so many results; more are refused with 11.
    pub fn outcomes_up_to(&self, bound: u32, room: usize) -> Result<Listing, Refusal> {
        listing(room, |records| Library.outcomes(self.block(), bound, records))
    }

    /// Lists every result on a store-buffer machine within a bound of instructions, 0 to 48. Room grows as it must.
    pub fn outcomes_on(&self, board: Board, bound: u32) -> Result<Listing, Refusal> {
        grown(|room| self.outcomes_on_up_to(board, bound, room))
    }

    /// As `outcomes_on`, with room for so many results; more are refused with 11.
    pub fn outcomes_on_up_to(&self, board: Board, bound: u32, room: usize) -> Result<Listing, Refusal> {
        listing(room, |records| Library.board(board, self.block(), bound, records))
    }
}

/// A list with room enough.
fn grown(list: impl Fn(usize) -> Result<Listing, Refusal>) -> Result<Listing, Refusal> {
    let mut room = ROOM;
    loop {
        match list(room) {
            Err(refusal) if refusal.reason == Reason::Room => room *= GROWTH,
            answer => return answer,
        }
    }
}

fn listing(room: usize, list: impl FnOnce(&mut [u8]) -> Listed + Send) -> Result<Listing, Refusal> {
    let mut records = vec![0; room * RECORD];
    let listed = deep(|| list(&mut records));
    accepted(listed.code, listed.position)?;
    let records = records.chunks_exact(RECORD).take(listed.count as usize);
    let read = |record: &[u8]| Outcome::read(record.try_into().expect("96 bytes"));
    Ok(Listing { outcomes: records.map(read).collect(), cut: listed.cut })
}

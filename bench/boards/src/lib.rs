//! The store-buffer machines of request 07, written from document 02 alone: breadth first over states, a level an
//! instruction; drains stay within their level.
#![forbid(unsafe_code)]

mod state;

use std::collections::{BTreeSet, HashSet};

use model::{block, Board, BoardLister, Case, Listed, Outcome, Reason, Refusal, ACTIONS, RECORD};
use state::State;

/// All outcomes within a bound of instructions.
#[derive(Clone, Debug, Default, PartialEq, Eq)]
pub struct Listing {
    pub outcomes: BTreeSet<Outcome>,
    /// Some run of exactly the bound's instructions has a place counter that is not at its end.
    pub cut: bool,
}

/// Lists the outcomes of a case on a board.
pub fn list(board: Board, case: &Case, bound: u8) -> Listing {
    let mut listing = Listing::default();
    let mut level = drained(board, HashSet::from([State::start(case)]));
    for left in (0..=bound).rev() {
        let finished = level.iter().filter(|state| state.at_end(case) && state.is_empty());
        listing.outcomes.extend(finished.map(State::outcome));
        if left == 0 {
            listing.cut = level.iter().any(|state| !state.at_end(case));
        } else {
            let next = level.iter().flat_map(|state| state.runs(board, case)).collect();
            level = drained(board, next);
        }
    }
    listing
}

/// Some states and all that drains lead to from them.
fn drained(board: Board, states: HashSet<State>) -> HashSet<State> {
    let mut open: Vec<State> = states.iter().cloned().collect();
    let mut all = states;
    while let Some(state) = open.pop() {
        for next in state.drains(board) {
            if all.insert(next.clone()) {
                open.push(next);
            }
        }
    }
    all
}

/// The machines behind the bytes that the library takes.
pub struct Boards;

impl BoardLister for Boards {
    fn board(&self, board: Board, block: &[u8], bound: u32, records: &mut [u8]) -> Listed {
        records.fill(0);
        match listed(board, block, bound, records.len() / RECORD) {
            Ok(listing) => {
                for (record, outcome) in records.chunks_exact_mut(RECORD).zip(&listing.outcomes) {
                    record.copy_from_slice(&outcome.bytes());
                }
                Listed { code: 0, count: listing.outcomes.len() as u32, cut: listing.cut, position: 0 }
            }
            Err(refusal) => Listed::refused(refusal),
        }
    }
}

fn listed(board: Board, block: &[u8], bound: u32, room: usize) -> Result<Listing, Refusal> {
    let case = block::read(block)?;
    let bound = u8::try_from(bound).ok().filter(|&bound| usize::from(bound) <= ACTIONS).ok_or(Reason::Bound)?;
    let listing = list(board, &case, bound);
    if listing.outcomes.len() > room {
        return Err(Reason::Room.into());
    }
    Ok(listing)
}

//! Which outcomes there are.

use std::collections::{BTreeSet, HashMap};

use model::{Case, Outcome};

use crate::state::State;

/// All outcomes within a bound.
#[derive(Clone, Debug, Default)]
pub struct Listing {
    pub outcomes: BTreeSet<Outcome>,
    pub cut: bool,
    /// Distinct states seen.
    pub states: usize,
    /// Accepted schedules of at most the bound's steps: what a search without a memory walks through. A
    /// number that no `u128` holds is given as the greatest that one does.
    pub schedules: u128,
}

/// Lists the outcomes of a case.
pub fn list(case: &Case, bound: u8) -> Listing {
    list_within(case, bound, usize::MAX).expect("no case has so many states")
}

/// Lists the outcomes of a case unless it turns out to have more states than so many. Level n holds the
/// states after n steps, with the number of schedules to each.
pub fn list_within(case: &Case, bound: u8, most: usize) -> Option<Listing> {
    let mut listing = Listing::default();
    let mut level = HashMap::from([(State::start(case), 1)]);
    for left in (0..=bound).rev() {
        listing.states += level.len();
        if listing.states > most {
            return None;
        }
        listing.schedules = level.values().fold(listing.schedules, |sum, schedules| sum.saturating_add(*schedules));
        listing.cut = left == 0 && level.keys().any(|state| !state.finished(case));
        let finished = level.keys().filter(|state| state.finished(case));
        listing.outcomes.extend(finished.map(|state| state.ending(case).outcome));
        if left > 0 {
            level = following(case, &level);
        }
    }
    Some(listing)
}

fn following(case: &Case, level: &HashMap<State, u128>) -> HashMap<State, u128> {
    let mut next = HashMap::new();
    for (state, schedules) in level {
        for (_, after) in state.moves(case) {
            let reached: &mut u128 = next.entry(after).or_insert(0);
            *reached = reached.saturating_add(*schedules);
        }
    }
    next
}

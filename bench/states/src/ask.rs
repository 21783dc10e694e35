//! Whether a wanted result is possible, and the lowest schedule that reaches one.

use std::collections::HashSet;

use model::{Case, Outcome, Step};

use crate::replay::Run;
use crate::state::State;

/// The answer to a wanted result.
#[derive(Clone, Debug, PartialEq, Eq)]
pub enum Answer {
    /// The lowest schedule in byte order among those that reach it.
    Yes(Vec<Step>),
    No {
        cut: bool,
    },
}

/// Looks for a finished run within a bound whose outcome is wanted. Schedules are tried in byte order, so the first
/// found is the lowest: a finished state accepts no step, so none is the beginning of another.
pub fn ask(case: &Case, bound: u8, wanted: impl Fn(&Outcome) -> bool) -> Answer {
    let mut search = Search { wanted, failed: HashSet::new(), path: vec![], cut: false };
    if search.reaches(&Run::new(case), bound) {
        Answer::Yes(search.path)
    } else {
        Answer::No { cut: search.cut }
    }
}

struct Search<F> {
    wanted: F,
    /// States that reach nothing wanted. All ways to a state have the same length, and how its actions are numbered
    /// is nothing to what it reaches.
    failed: HashSet<State>,
    path: Vec<Step>,
    cut: bool,
}

impl<F: Fn(&Outcome) -> bool> Search<F> {
    fn reaches(&mut self, run: &Run, left: u8) -> bool {
        if run.finished() {
            return (self.wanted)(&run.ending().outcome);
        }
        if left == 0 {
            self.cut = true;
            return false;
        }
        if self.failed.contains(run.state()) {
            return false;
        }
        for (step, next) in run.moves() {
            self.path.push(step);
            if self.reaches(&next, left - 1) {
                return true;
            }
            self.path.pop();
        }
        self.failed.insert(run.state().clone());
        false
    }
}

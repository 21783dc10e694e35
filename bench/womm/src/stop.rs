use std::fmt;

use model::{Instr, Reason, Step};

use crate::Case;

/// The refused step that stopped a replay: why, and at which instruction.
#[derive(Clone, Copy, Debug, PartialEq, Eq)]
pub struct Stop {
    /// Why.
    pub reason: Reason,
    /// Where; none with codes 20 to 22 and 26.
    pub at: Option<Place>,
}

/// An instruction of a case.
#[derive(Clone, Copy, Debug, PartialEq, Eq)]
pub struct Place {
    /// Its processor.
    pub processor: u8,
    /// Its number in its processor's program.
    pub place: u8,
    /// What it is.
    pub instr: Instr,
}

impl Place {
    /// The place of a step's instruction in the program of the step's processor.
    pub(crate) fn of(case: &Case, step: Step, place: u8) -> Place {
        let (Step::Issue { processor } | Step::Commit { processor, .. }) = step;
        let instr = case.processors()[usize::from(processor)].program[usize::from(place)];
        Place { processor, place, instr }
    }
}

impl fmt::Display for Place {
    fn fmt(&self, f: &mut fmt::Formatter<'_>) -> fmt::Result {
        write!(f, "processor {}, instruction {}, {}", self.processor, self.place, self.instr.word())
    }
}

impl fmt::Display for Stop {
    fn fmt(&self, f: &mut fmt::Formatter<'_>) -> fmt::Result {
        match self.at {
            Some(place) => write!(f, "{}: {place}", self.reason),
            None => self.reason.fmt(f),
        }
    }
}

//! The four machines.

use womm::{Board, Case, Instr, Listing, Refusal};

/// A machine to list results on.
#[derive(Clone, Copy, PartialEq, Eq)]
pub enum Machine {
    Board(Board),
    Womm,
}

impl Machine {
    /// From the strongest to the weakest.
    pub const ALL: [Machine; 4] =
        [Machine::Board(Board::Sc), Machine::Board(Board::Tso), Machine::Board(Board::Pso), Machine::Womm];

    pub fn name(self) -> &'static str {
        match self {
            Machine::Board(Board::Sc) => "sc",
            Machine::Board(Board::Tso) => "tso",
            Machine::Board(Board::Pso) => "pso",
            Machine::Womm => "womm",
        }
    }

    pub fn named(name: &str) -> Option<Machine> {
        Machine::ALL.into_iter().find(|machine| machine.name() == name)
    }

    /// The largest bound that there is.
    pub fn most(self) -> u32 {
        match self {
            Machine::Board(_) => 48,
            Machine::Womm => 96,
        }
    }

    /// The bound where none is given: the largest; of a case that jumps back, and has ever longer runs, half of it.
    pub fn usual(self, case: &Case) -> u32 {
        let back = |(place, instr): (u16, &Instr)| match *instr {
            Instr::Branch { label, .. } | Instr::Goto { label } => label <= place,
            _ => false,
        };
        match case.processors().iter().any(|processor| (0..).zip(&processor.program).any(back)) {
            true => self.most() / 2,
            false => self.most(),
        }
    }

    /// What its bound counts.
    pub fn unit(self) -> &'static str {
        match self {
            Machine::Board(_) => "instructions",
            Machine::Womm => "steps",
        }
    }

    pub fn list(self, case: &Case, bound: u32) -> Result<Listing, Refusal> {
        match self {
            Machine::Board(board) => case.outcomes_on(board, bound),
            Machine::Womm => case.outcomes(bound),
        }
    }
}

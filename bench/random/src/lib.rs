//! Random inputs from a fixed seed, made to go deep, and a comparison of two implementations on them.
#![forbid(unsafe_code)]

mod blocks;
mod boards;
mod cases;
mod compare;
mod inputs;
mod plans;
mod races;
mod rng;
mod sequential;
mod tally;

pub use boards::{compare_boards, BoardMismatch, BoardTally};
pub use compare::{compare, run, Calls, Mismatch, Plan};
pub use inputs::{AskInput, Inputs, ListInput, Listable, ReplayInput};
pub use plans::{compare_plans, legal_plans, random_plans, PlanInput, PlanMismatch, PlanTally};
pub use races::{compare_races, RaceMismatch, RaceTally};
pub use rng::Rng;
pub use sequential::{sequential_runs, Escape, SequentialTally};
pub use tally::Tally;

//! Cases, schedules, outcomes and refusals of document 01 as plain types, and the bytes they stand for.
#![forbid(unsafe_code)]

pub mod block;
mod builder;
mod calls;
mod case;
mod clause;
mod faults;
mod field;
mod instr;
mod layout;
mod outcome;
mod plan;
mod reason;
mod refusal;
mod schedule;
mod wait;

pub use builder::CaseBuilder;
pub use calls::{Asked, Asker, Board, BoardLister, Codec, HandedOff, Listed, Lister, Planner, Raced, Racer, Read};
pub use calls::{ReadText, Replayed, Replayer, Typist, Verdict, Waiter, Written, WrittenText};
pub use case::{Case, Processor};
pub use clause::{clause, Clause, Named, CLAUSES};
pub use instr::{ops, Instr};
pub use outcome::{Ending, Outcome, ENDING, RECORD};
pub use plan::{Act, Plans, ACTS, READS, READY};
pub use reason::Reason;
pub use refusal::Refusal;
pub use schedule::{put_schedule, schedule, steps, Step, SCHEDULE};
pub use wait::{Wait, WAITS};

/// The sizes of document 01.
pub const PROCESSORS: usize = 4;
pub const LOCATIONS: usize = 8;
pub const REGISTERS: usize = 8;
pub const INSTRUCTIONS: usize = 12;
pub const ACTIONS: usize = 48;
pub const STEPS: usize = 96;

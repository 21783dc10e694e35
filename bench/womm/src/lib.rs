//! Which results a small hand-off between cores can really have on hardware that reorders, from a library that is proved
//! to say so. Std alone.
//!
//! A [`Case`] is up to four small programs over up to eight locations. [`Case::outcomes`] lists every result that it can
//! have, [`Case::ask`] says whether one is possible and by which schedule, [`Case::replay`] follows one schedule,
//! [`Case::why`] says who waits after it and [`Case::race`] which accesses race, [`Case::outcomes_on`] lists the results on
//! stronger machines, and [`handoff`] judges a boot hand-off.
//!
//! ```
//! use womm::{clause, Answer, Case};
//!
//! let text = "case 2 2
//! reg 0 0 0
//! reg 0 1 1
//! reg 1 0 0
//! reg 1 1 1
//! op 0 write 0 1
//! op 0 write 1 1
//! op 1 read 2 1
//! op 1 read 3 0
//! ";
//! let case = Case::from_text(text)?;
//! assert_eq!(case.outcomes(96)?.outcomes.len(), 4);
//! let lost = [clause(1, 2).is(1), clause(1, 3).is(0)];
//! assert!(matches!(case.ask(96, &lost)?, Answer::Yes(_)));
//! # Ok::<(), womm::Refusal>(())
//! ```
//!
//! [`Library`] and [`Guarded`] are the same calls over plain bytes.
//!
//! To link it from another workspace: `womm = { path = "PATH/bench/womm" }`. `tools/library` makes the library, for this machine, in
//! `target/staticlib` of the repository; the variable WOMM_LIB names another folder.
#![deny(missing_docs)]

mod asking;
mod case;
mod ffi;
mod guarded;
mod handoff;
mod library;
mod listing;
mod race;
mod refusal;
mod replaying;
mod stack;
mod stop;
mod texts;

pub use asking::Answer;
pub use case::{check_block, check_text, seal_block, Case, CaseBuilder};
pub use guarded::Guarded;
pub use handoff::{handoff, Handoff};
pub use library::Library;
pub use listing::Listing;
pub use model::{clause, ops, Act, Asked, Asker, Board, BoardLister, Clause, Codec, Ending, HandedOff, Instr, Listed, Lister};
pub use model::{Outcome, Planner, Processor, Raced, Racer, Read, ReadText, Reason, Replayed, Replayer, Step, Typist, Verdict};
pub use model::{Wait, Waiter, Written, WrittenText};
pub use race::{Access, Race, Racing};
pub use refusal::Refusal;
pub use replaying::{Replay, Waiting};
pub use stop::{Place, Stop};
pub use texts::TEXT;

//! The numbers over a shelf, a file of case blocks, counted from documents 01 and 02 alone; shelves to count, and the
//! proved program run on them.
#![forbid(unsafe_code)]

mod count;
mod made;
mod program;

pub use count::report;
pub use made::{all_accepted, every_code, random, stored};
pub use program::Program;

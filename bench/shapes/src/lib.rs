//! Litmus shapes as data: cases, bounds, and what is known of their outcomes or of one schedule's end.
//!
//! Unless said, memory starts at 0, registers 0 and 1 of each processor are preset to 0 and 1, and
//! another address or value stands in register 4. Location x is 0, y is 1, z is 2.
#![forbid(unsafe_code)]

mod damaged;
mod escapes;
mod families;
mod lists;
mod results;
mod runs;
mod stored;
mod wishes;

pub use damaged::{damaged, Damaged};
pub use escapes::{escapes, Escape};
pub use families::{families, Family};
pub use lists::{lists, locked_message, message};
pub use results::results;
pub use runs::runs;
pub use stored::{outcomes_prints, replay_prints, stored};
pub use wishes::wishes;

use std::collections::BTreeSet;
use std::path::{Path, PathBuf};
use std::{fs, io};

use model::{block, Case, CaseBuilder, Instr, Outcome, Replayed, Typist};
use texts::Texts;

/// A register of a processor.
pub type Register = (usize, usize);

/// A case whose outcomes are listed.
#[derive(Clone, Debug)]
pub struct Shape {
    pub name: &'static str,
    pub case: Case,
    pub bound: u8,
    pub cut: bool,
    /// The registers that tell outcomes apart.
    pub watched: Vec<Register>,
    /// Their values in each outcome.
    pub results: BTreeSet<Vec<u16>>,
}

impl Shape {
    /// The values of the watched registers.
    pub fn seen(&self, outcome: &Outcome) -> Vec<Option<u16>> {
        self.watched.iter().map(|&(p, k)| outcome.registers[p][k]).collect()
    }

    /// The bound of instructions that answers to its bound of steps.
    pub fn instructions(&self) -> u8 {
        self.bound / 2
    }

    /// Values of the watched registers, each behind its name: processor, then register.
    pub fn named(&self, values: &[Option<u16>]) -> String {
        let name = |(&(p, k), value): (&Register, &Option<u16>)| {
            format!("p{p} r{k} = {}", value.map_or("-".to_string(), |value| value.to_string()))
        };
        self.watched.iter().zip(values).map(name).collect::<Vec<_>>().join(", ")
    }

    /// Whether these are the outcomes expected.
    pub fn expects(&self, outcomes: &BTreeSet<Outcome>) -> bool {
        let seen: BTreeSet<_> = outcomes.iter().map(|outcome| self.seen(outcome)).collect();
        let expected: BTreeSet<_> = self.results.iter().map(|row| row.iter().copied().map(Some).collect()).collect();
        seen == expected && outcomes.len() == seen.len()
    }
}

/// A schedule with the code, the steps, the place and the position of its replay.
#[derive(Clone, Debug)]
pub struct Run {
    pub name: &'static str,
    pub block: Vec<u8>,
    pub schedule: Vec<u8>,
    pub code: u32,
    pub steps: u32,
    pub place: Option<u8>,
    pub position: u32,
}

impl Run {
    /// What a replay of it answers.
    pub fn replayed(&self) -> Replayed {
        Replayed { code: self.code, steps: self.steps, place: self.place, position: self.position }
    }
}

/// As many processors as programs, with the usual presets.
pub fn usual(locations: u8, programs: &[&[Instr]]) -> CaseBuilder {
    let mut builder = Case::builder(programs.len() as u8, locations);
    for (p, program) in programs.iter().enumerate() {
        builder = builder.preset(p, 0, 0).preset(p, 1, 1).program(p, program);
    }
    builder
}

/// The texts of a folder, in the order of their names.
pub fn folder(path: &Path) -> io::Result<Vec<PathBuf>> {
    let paths = fs::read_dir(path)?.map(|entry| entry.map(|entry| entry.path()));
    let mut paths: Vec<PathBuf> = paths.collect::<io::Result<_>>()?;
    paths.retain(|path| path.extension().is_some_and(|extension| extension == "case"));
    paths.sort();
    Ok(paths)
}

/// The case of a text without a usual bound; none if it is no case's.
pub fn typed(text: &[u8]) -> Option<Case> {
    let mut bytes = [0; block::LENGTH];
    let read = Texts.read_text(text, &mut bytes);
    block::read(&bytes).ok().filter(|_| read.code == 0 && !read.usual)
}

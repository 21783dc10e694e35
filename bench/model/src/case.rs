use crate::{Instr, LOCATIONS, REGISTERS};

/// One processor of a case: what its registers start with, and its instructions.
#[derive(Clone, Debug, Default, PartialEq, Eq)]
pub struct Processor {
    pub presets: [Option<u16>; REGISTERS],
    pub program: Vec<Instr>,
}

/// A sound case: made by a builder, or read from a block.
#[derive(Clone, Debug, PartialEq, Eq)]
pub struct Case {
    pub(crate) processors: Vec<Processor>,
    pub(crate) locations: u8,
    pub(crate) memory: [u16; LOCATIONS],
}

impl Case {
    pub fn processors(&self) -> &[Processor] {
        &self.processors
    }

    pub fn locations(&self) -> u8 {
        self.locations
    }

    /// The word that a location starts with.
    pub fn memory(&self, location: u8) -> u16 {
        self.memory[usize::from(location)]
    }
}

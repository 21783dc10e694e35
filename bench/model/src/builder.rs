use crate::layout::{COUNTS, MASKS, MEMORY};
use crate::{block, Case, Instr, Processor, Reason, Refusal, INSTRUCTIONS, LOCATIONS, PROCESSORS};

impl Case {
    /// Begins a case with as many processors and locations, nothing preset, memory at 0.
    pub fn builder(processors: u8, locations: u8) -> CaseBuilder {
        CaseBuilder {
            case: Case { processors: vec![Processor::default(); processors.into()], locations, memory: [0; LOCATIONS] },
            refused: None,
        }
    }
}

/// Gathers a case; `build` gives the first refusal that the case as a record deserves.
#[derive(Clone, Debug)]
pub struct CaseBuilder {
    case: Case,
    refused: Option<Refusal>,
}

impl CaseBuilder {
    /// Register k of processor p starts with a value.
    pub fn preset(mut self, p: usize, k: usize, value: u16) -> Self {
        match self.case.processors.get_mut(p).and_then(|held| held.presets.get_mut(k)) {
            Some(place) => *place = Some(value),
            None => self.refuse(Reason::NotZero, MASKS + p.min(PROCESSORS - 1)),
        }
        self
    }

    /// A location starts with a value.
    pub fn memory(mut self, location: usize, value: u16) -> Self {
        if location < self.case.locations.into() && location < LOCATIONS {
            self.case.memory[location] = value;
        } else {
            self.refuse(Reason::NotZero, MEMORY + 2 * location.min(LOCATIONS - 1));
        }
        self
    }

    /// Adds instructions at the end of processor p's program.
    pub fn program(mut self, p: usize, instrs: &[Instr]) -> Self {
        match self.case.processors.get_mut(p) {
            Some(held) => held.program.extend(instrs),
            None => self.refuse(Reason::Counts, COUNTS + p.min(PROCESSORS - 1)),
        }
        self
    }

    pub fn build(mut self) -> Result<Case, Refusal> {
        let processors = (1..=PROCESSORS).contains(&self.case.processors.len());
        let locations = (1..=LOCATIONS).contains(&self.case.locations.into());
        if let Some(position) = [processors, locations].iter().position(|sound| !sound) {
            self.refuse(Reason::Sizes, position);
        }
        if let Some(p) = self.case.processors.iter().position(|held| held.program.len() > INSTRUCTIONS) {
            self.refuse(Reason::Counts, COUNTS + p);
        }
        match self.refused {
            Some(refusal) => Err(refusal),
            None => block::read(&self.case.block()),
        }
    }

    /// Notes a refusal at a byte; the first code counts, then the lowest byte.
    fn refuse(&mut self, reason: Reason, position: usize) {
        let refusal = Refusal { reason, position: position as u32 };
        self.refused = Some(self.refused.map_or(refusal, |before| before.min(refusal)));
    }
}

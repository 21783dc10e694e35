//! The state of a board, and what an instruction or a drain does to it.

use model::{Board, Case, Instr, Outcome, LOCATIONS, PROCESSORS, REGISTERS};

/// A store that has not reached memory: location and value.
type Store = (usize, u16);

#[derive(Clone, PartialEq, Eq, Hash)]
struct Core {
    place: usize,
    registers: [Option<u16>; REGISTERS],
    /// Oldest first. On PSO, whose buffers know nothing of each other, by location and then oldest first.
    stores: Vec<Store>,
}

#[derive(Clone, PartialEq, Eq, Hash)]
pub struct State {
    cores: Vec<Core>,
    memory: [u16; LOCATIONS],
    holders: [Option<usize>; LOCATIONS],
}

impl State {
    pub fn start(case: &Case) -> State {
        let core = |presets| Core { place: 0, registers: presets, stores: vec![] };
        State {
            cores: case.processors().iter().map(|processor| core(processor.presets)).collect(),
            memory: std::array::from_fn(|location| case.memory(location as u8)),
            holders: [None; LOCATIONS],
        }
    }

    /// Whether every place counter is at its processor's count.
    pub fn at_end(&self, case: &Case) -> bool {
        self.cores.iter().zip(case.processors()).all(|(core, processor)| core.place == processor.program.len())
    }

    /// Whether every buffer is.
    pub fn is_empty(&self) -> bool {
        self.cores.iter().all(|core| core.stores.is_empty())
    }

    pub fn outcome(&self) -> Outcome {
        let registers = |p: usize| self.cores.get(p).map_or([None; REGISTERS], |core| core.registers);
        let mut outcome = Outcome::default();
        (0..PROCESSORS).for_each(|p| outcome.registers[p] = registers(p));
        outcome
    }

    /// The states after draining the oldest store of each buffer that holds one.
    pub fn drains(&self, board: Board) -> Vec<State> {
        let mut next = vec![];
        for (p, core) in self.cores.iter().enumerate() {
            for i in 0..core.stores.len() {
                let oldest = match board {
                    Board::Pso => core.stores[..i].iter().all(|store| store.0 != core.stores[i].0),
                    _ => i == 0,
                };
                if oldest {
                    let mut state = self.clone();
                    let (location, value) = state.cores[p].stores.remove(i);
                    state.memory[location] = value;
                    next.push(state);
                }
            }
        }
        next
    }

    /// The states after the next instruction of each processor that is not barred.
    pub fn runs(&self, board: Board, case: &Case) -> Vec<State> {
        (0..self.cores.len()).filter_map(|p| self.run(board, case, p)).collect()
    }

    fn run(&self, board: Board, case: &Case, p: usize) -> Option<State> {
        let instr = *case.processors()[p].program.get(self.cores[p].place)?;
        let value = |k: u8| self.cores[p].registers[usize::from(k)];
        let location = |k: u8| value(k).filter(|&at| at < case.locations().into()).map(usize::from);
        let mut next = self.clone();
        next.cores[p].place += 1;
        match instr {
            Instr::Read { d, a } => next.set(p, d, self.seen(p, location(a)?)),
            Instr::Write { a, b } => next.store(board, p, location(a)?, value(b)?),
            Instr::Set { d, constant } => next.set(p, d, constant),
            Instr::Add { d, a, b } => next.set(p, d, value(a)?.wrapping_add(value(b)?)),
            Instr::Sub { d, a, b } => next.set(p, d, value(a)?.wrapping_sub(value(b)?)),
            Instr::Equal { d, a, b } => next.set(p, d, u16::from(value(a)? == value(b)?)),
            Instr::Branch { a, label } => {
                if value(a)? != 0 {
                    next.cores[p].place = label.into();
                }
            }
            Instr::Goto { label } => next.cores[p].place = label.into(),
            Instr::Acquire { a } => next.holders[self.lock(p, location(a)?, [None, Some(p)])?] = Some(p),
            Instr::Release { a } => next.holders[self.lock(p, location(a)?, [Some(p), Some(p)])?] = None,
        }
        Some(next)
    }

    fn set(&mut self, p: usize, d: u8, value: u16) {
        self.cores[p].registers[usize::from(d)] = Some(value);
    }

    /// What a read takes: the processor's newest buffered store to the location, else memory.
    fn seen(&self, p: usize, location: usize) -> u16 {
        let newest = self.cores[p].stores.iter().rev().find(|store| store.0 == location);
        newest.map_or(self.memory[location], |store| store.1)
    }

    fn store(&mut self, board: Board, p: usize, location: usize, value: u16) {
        let stores = &mut self.cores[p].stores;
        match board {
            Board::Sc => self.memory[location] = value,
            Board::Tso => stores.push((location, value)),
            Board::Pso => {
                stores.push((location, value));
                stores.sort_by_key(|store| store.0);
            }
        }
    }

    /// The location of an acquire or release, if the processor's buffers are empty and the holder is one of two.
    fn lock(&self, p: usize, location: usize, holders: [Option<usize>; 2]) -> Option<usize> {
        let allowed = self.cores[p].stores.is_empty() && holders.contains(&self.holders[location]);
        allowed.then_some(location)
    }
}

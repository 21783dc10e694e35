//! A run, action by action: which instruction each one is of, what it took, gave and stood behind. The library says which
//! steps are taken and what they leave; what is told here is held against that.

use womm::{Case, Instr, Step};

use crate::results;
use crate::said::Trouble;

/// What a run does, up to its first refused step.
pub struct Trace {
    pub processors: usize,
    /// The first words of the locations.
    pub memory: Vec<u16>,
    pub actions: Vec<Action>,
    /// Each step taken: the action, and whether it is its commit.
    pub steps: Vec<(usize, bool)>,
    /// The result: the registers that the programs assign, as they end.
    pub result: String,
    /// The registers of each processor at the end.
    registers: Vec<[Option<u16>; 8]>,
    /// Each processor's place at the end.
    places: Vec<Option<u8>>,
}

/// One action of a run.
pub struct Action {
    pub processor: usize,
    pub place: usize,
    pub instr: Instr,
    /// The location of a read or write from its issue, of an acquire or release from its commit.
    pub location: Option<usize>,
    pub issued: usize,
    pub committed: Option<usize>,
    /// What it gives, once committed: a read's or local's register, a write's word; what any other looked at.
    pub value: Option<u16>,
    /// What a committed read took.
    pub source: Option<Source>,
    /// The write that stood in memory when a read took an older one.
    pub missed: Option<usize>,
    /// The releases that an acquire stands behind.
    pub behind: Vec<usize>,
    /// Whether an earlier action of its processor had not committed when it did.
    pub ahead: Option<usize>,
    /// The actions that assigned the registers it reads; none where preset.
    inputs: Vec<(usize, Option<usize>)>,
}

/// What a read takes.
#[derive(Clone, Copy, PartialEq, Eq)]
pub enum Source {
    /// The first word of its location.
    Start,
    /// What an action wrote.
    Write(usize),
}

impl Trace {
    /// Follows the steps of a schedule that are taken.
    pub fn of(case: &Case, steps: &[Step]) -> Result<Trace, Trouble> {
        let replay = case.replay(steps).map_err(|refusal| Trouble::usage(format!("{refusal} (code {})", refusal.code())))?;
        let mut run = Run::new(case);
        for step in &steps[..replay.steps as usize] {
            match *step {
                Step::Issue { processor } => run.issue(processor.into()),
                Step::Commit { action, source, .. } => run.commit(action.into(), source.into()),
            }
        }
        let trace = run.ended(results::words(case, &replay.ending.outcome));
        let agree =
            |p: usize| trace.registers[p] == replay.ending.outcome.registers[p] && trace.places[p] == replay.ending.places[p];
        match (0..trace.processors).all(agree) {
            true => Ok(trace),
            false => Err(Trouble::system("the run as told is not the library's; this is a fault of the tool")),
        }
    }

    /// Whether every program has run to its end and nothing is queued.
    pub fn finished(&self, case: &Case) -> bool {
        let at_end = |p: usize| self.places[p].map(usize::from) == Some(case.processors()[p].program.len());
        (0..self.processors).all(at_end) && self.actions.iter().all(|action| action.committed.is_some())
    }
}

/// A run that is being followed.
struct Run<'a> {
    case: &'a Case,
    places: Vec<Option<u8>>,
    /// The newest action that assigns each register.
    names: Vec<[Option<usize>; 8]>,
    actions: Vec<Action>,
    steps: Vec<(usize, bool)>,
}

impl Run<'_> {
    fn new(case: &Case) -> Run<'_> {
        let count = case.processors().len();
        Run { case, places: vec![Some(0); count], names: vec![[None; 8]; count], actions: vec![], steps: vec![] }
    }

    /// The value of a register under a name.
    fn value(&self, p: usize, k: usize, name: Option<usize>) -> Option<u16> {
        name.map_or(self.case.processors()[p].presets[k], |action| self.actions[action].value)
    }

    fn issue(&mut self, p: usize) {
        let place = usize::from(self.places[p].expect("an accepted issue has a place"));
        let instr = self.case.processors()[p].program[place];
        let inputs: Vec<_> = instr.inputs().map(usize::from).map(|k| (k, self.names[p][k])).collect();
        let address = instr.address().map(usize::from);
        let location = address.and_then(|k| self.value(p, k, self.names[p][k])).map(usize::from);
        if let Some(d) = instr.output() {
            self.names[p][usize::from(d)] = Some(self.actions.len());
        }
        self.places[p] = match instr {
            Instr::Goto { label } => Some(label as u8),
            Instr::Branch { .. } => None,
            _ => Some(place as u8 + 1),
        };
        self.steps.push((self.actions.len(), false));
        let issued = self.steps.len();
        let action = Action { processor: p, place, instr, location, issued, inputs, ..Action::unborn(instr) };
        self.actions.push(action);
    }

    fn commit(&mut self, action: usize, item: usize) {
        let p = self.actions[action].processor;
        let ahead = self.actions[..action].iter().rposition(|other| other.processor == p && other.committed.is_none());
        let value = self.result(action, item);
        match self.actions[action].instr {
            Instr::Read { .. } => {
                let source = if item < 8 { Source::Start } else { Source::Write(item - 8) };
                self.actions[action].missed = self.missed(action, source);
                self.actions[action].source = Some(source);
            }
            Instr::Branch { label, .. } => {
                let next = self.actions[action].place as u8 + 1;
                self.places[p] = Some(if value == 0 { next } else { label as u8 });
            }
            Instr::Acquire { .. } | Instr::Release { .. } => {
                self.actions[action].location = Some(value.into());
                self.actions[action].behind = self.released(action);
            }
            _ => (),
        }
        self.steps.push((action, true));
        let held = &mut self.actions[action];
        (held.value, held.committed, held.ahead) = (Some(value), Some(self.steps.len()), ahead);
    }

    /// What a commit gives, or looks at: a branch's register, the location of an acquire or release.
    fn result(&self, action: usize, item: usize) -> u16 {
        let held = &self.actions[action];
        let input = |at: usize| {
            let (k, name) = held.inputs[at];
            self.value(held.processor, k, name).expect("an accepted commit has its registers")
        };
        match held.instr {
            Instr::Read { .. } => self.word(item),
            Instr::Write { .. } => input(1),
            Instr::Set { constant, .. } => constant,
            Instr::Add { .. } => input(0).wrapping_add(input(1)),
            Instr::Sub { .. } => input(0).wrapping_sub(input(1)),
            Instr::Equal { .. } => (input(0) == input(1)).into(),
            Instr::Branch { .. } | Instr::Acquire { .. } | Instr::Release { .. } => input(0),
            Instr::Goto { .. } => 0,
        }
    }

    /// The word of an item.
    fn word(&self, item: usize) -> u16 {
        match item.checked_sub(8) {
            None => self.case.memory(item as u8),
            Some(action) => self.actions[action].value.expect("a visible write has its value"),
        }
    }

    /// The newest write in memory, if a read takes an older one.
    fn missed(&self, read: usize, source: Source) -> Option<usize> {
        let location = self.actions[read].location;
        let writes = (0..self.actions.len()).filter(|&other| {
            matches!(self.actions[other].instr, Instr::Write { .. }) && self.actions[other].location == location
        });
        let newest =
            writes.filter(|&other| self.actions[other].committed.is_some()).max_by_key(|&other| self.actions[other].committed);
        newest.filter(|&newest| source != Source::Write(newest))
    }

    /// The committed releases of an acquire's location.
    fn released(&self, action: usize) -> Vec<usize> {
        let held = &self.actions[action];
        let release = |other: &usize| {
            let other = &self.actions[*other];
            matches!(other.instr, Instr::Release { .. }) && other.committed.is_some() && other.location == held.location
        };
        let acquires = matches!(held.instr, Instr::Acquire { .. });
        if acquires {
            (0..self.actions.len()).filter(release).collect()
        } else {
            vec![]
        }
    }

    /// The trace, with the result in words.
    fn ended(self, result: String) -> Trace {
        let processors = self.places.len();
        let registers = (0..processors).map(|p| std::array::from_fn(|k| self.value(p, k, self.names[p][k]))).collect();
        let memory = (0..self.case.locations()).map(|location| self.case.memory(location)).collect();
        Trace { processors, memory, result, registers, actions: self.actions, steps: self.steps, places: self.places }
    }
}

impl Action {
    /// An action before its issue.
    fn unborn(instr: Instr) -> Action {
        Action {
            processor: 0,
            place: 0,
            instr,
            location: None,
            issued: 0,
            committed: None,
            value: None,
            source: None,
            missed: None,
            behind: vec![],
            ahead: None,
            inputs: vec![],
        }
    }
}

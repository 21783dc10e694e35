use model::{Case, Ending, Instr, Outcome, Reason, Step, Wait, ACTIONS, LOCATIONS, PROCESSORS, REGISTERS};

/// What a register name stands for.
#[derive(Clone, Copy)]
enum Name {
    Undefined,
    Preset(u16),
    GivenBy(usize),
}

#[derive(Clone)]
struct Action {
    processor: usize,
    place: u8,
    instr: Instr,
    /// The names of the registers it reads, in the order of `Instr::inputs`.
    inputs: [Name; 2],
    location: Option<usize>,
    /// Set by the commit: a value, or the location of an acquire or release.
    result: Option<u16>,
}

/// The machine of document 01, actions by number.
#[derive(Clone)]
pub struct Machine<'a> {
    case: &'a Case,
    places: [Option<u8>; PROCESSORS],
    names: [[Name; REGISTERS]; PROCESSORS],
    actions: Vec<Action>,
    holders: [Option<usize>; LOCATIONS],
    /// For each location and item, the items that stand before it, a bit each.
    before: Vec<Vec<u64>>,
}

impl<'a> Machine<'a> {
    pub fn new(case: &'a Case) -> Machine<'a> {
        let mut names = [[Name::Undefined; REGISTERS]; PROCESSORS];
        for (names, processor) in names.iter_mut().zip(case.processors()) {
            for (name, preset) in names.iter_mut().zip(processor.presets) {
                *name = preset.map_or(Name::Undefined, Name::Preset);
            }
        }
        Machine {
            case,
            places: [Some(0); PROCESSORS],
            names,
            actions: vec![],
            holders: [None; LOCATIONS],
            before: vec![vec![0; LOCATIONS]; case.locations().into()],
        }
    }

    fn value(&self, name: Name) -> Option<u16> {
        match name {
            Name::Undefined => None,
            Name::Preset(value) => Some(value),
            Name::GivenBy(action) => self.actions[action].result,
        }
    }

    fn program(&self, p: usize) -> &'a [Instr] {
        &self.case.processors()[p].program
    }

    fn queue(&self, p: usize) -> impl Iterator<Item = (usize, &Action)> {
        self.actions.iter().enumerate().filter(move |(_, action)| action.processor == p && action.result.is_none())
    }

    pub fn finished(&self) -> bool {
        self.actions.iter().all(|action| action.result.is_some())
            && (0..self.case.processors().len()).all(|p| self.places[p] == Some(self.program(p).len() as u8))
    }

    pub fn outcome(&self) -> Outcome {
        Outcome { registers: self.names.map(|names| names.map(|name| self.value(name))) }
    }

    pub fn ending(&self) -> Ending {
        let queues = std::array::from_fn(|p| self.queue(p).count() as u8);
        Ending { outcome: self.outcome(), places: self.places, queues }
    }

    /// Every accepted step.
    pub fn steps(&self) -> Vec<Step> {
        let mut steps = vec![];
        for processor in 0..self.case.processors().len() as u8 {
            steps.push(Step::Issue { processor });
            for (action, queued) in self.queue(processor.into()) {
                let read = matches!(queued.instr, Instr::Read { .. });
                let sources = if read { LOCATIONS + self.actions.len() } else { 1 };
                steps.extend((0..sources as u8).map(|source| Step::Commit { processor, action: action as u8, source }));
            }
        }
        steps.retain(|&step| self.check(step).is_ok());
        steps
    }

    /// Whether a step is accepted, or the first refusal that applies.
    pub fn check(&self, step: Step) -> Result<(), Reason> {
        let (Step::Issue { processor } | Step::Commit { processor, .. }) = step;
        if usize::from(processor) >= self.case.processors().len() {
            return Err(Reason::BadStep);
        }
        match step {
            Step::Issue { processor } => self.check_issue(processor.into()),
            Step::Commit { processor, action, source } => self.check_commit(processor.into(), action.into(), source.into()),
        }
    }

    /// Where the instruction stands that a refused step would issue, or whose action it would commit. A step with
    /// bad numbers, one past a branch or the end, and a commit of nothing have none.
    pub fn place(&self, step: Step, reason: Reason) -> Option<u8> {
        match (step, reason) {
            (_, Reason::BadStep | Reason::PlaceUndefined | Reason::AtEnd | Reason::NoSuchAction) => None,
            (Step::Issue { processor }, _) => self.places[usize::from(processor)],
            (Step::Commit { action, .. }, _) => Some(self.actions[usize::from(action)].place),
        }
    }

    /// Why processor p's oldest queued action waits: what bars its commits, tried with every source.
    pub fn wait(&self, p: usize) -> Wait {
        let Some((oldest, action)) = self.queue(p).next() else { return Wait::Nothing };
        let tried = |source| self.check_commit(p, oldest, source);
        if (0..LOCATIONS + ACTIONS).any(|source| tried(source).is_ok()) {
            return Wait::MayCommit;
        }
        match (tried(0), action.instr) {
            (Err(Reason::RegisterUndefined), _) => Wait::Undefined,
            (Err(Reason::LockRange), _) => Wait::NoLocation,
            (Err(Reason::LockState), Instr::Acquire { .. }) => Wait::HeldByAnother,
            (Err(Reason::LockState), Instr::Release { .. }) => Wait::NotHeld,
            (barred, instr) => panic!("{instr:?} waits without a cause of request 11: {barred:?}"),
        }
    }

    fn check_issue(&self, p: usize) -> Result<(), Reason> {
        let place = self.places[p].ok_or(Reason::PlaceUndefined)?;
        let instr = self.program(p).get(usize::from(place)).ok_or(Reason::AtEnd)?;
        if self.actions.len() == ACTIONS {
            return Err(Reason::TooManyActions);
        }
        if let Some(register) = instr.address() {
            let address = self.value(self.names[p][usize::from(register)]).ok_or(Reason::AddressUndefined)?;
            if address >= self.case.locations().into() {
                return Err(Reason::AddressRange);
            }
        }
        Ok(())
    }

    fn check_commit(&self, p: usize, k: usize, source: usize) -> Result<(), Reason> {
        let (_, action) = self.queue(p).find(|&(queued, _)| queued == k).ok_or(Reason::NoSuchAction)?;
        if source != 0 && !matches!(action.instr, Instr::Read { .. }) {
            return Err(Reason::SourceGiven);
        }
        if self.queue(p).take_while(|&(earlier, _)| earlier < k).any(|(_, earlier)| waits_for(action, earlier)) {
            return Err(Reason::HeldBack);
        }
        let registers = action.instr.inputs().count();
        if action.inputs[..registers].iter().any(|&name| self.value(name).is_none()) {
            return Err(Reason::RegisterUndefined);
        }
        match action.instr {
            Instr::Read { .. } if !self.visible(k, source) => Err(Reason::NotVisible),
            Instr::Acquire { .. } => self.check_lock(action, |holder| holder.is_none() || holder == Some(p)),
            Instr::Release { .. } => self.check_lock(action, |holder| holder == Some(p)),
            _ => Ok(()),
        }
    }

    fn check_lock(&self, action: &Action, allowed: impl Fn(Option<usize>) -> bool) -> Result<(), Reason> {
        let location = self.value(action.inputs[0]).map_or(LOCATIONS, usize::from);
        if location >= self.case.locations().into() {
            return Err(Reason::LockRange);
        }
        allowed(self.holders[location]).then_some(()).ok_or(Reason::LockState)
    }

    /// Whether the read k may take an item.
    fn visible(&self, k: usize, item: usize) -> bool {
        let Some(location) = self.actions[k].location else { return false };
        let before = &self.before[location];
        let read = LOCATIONS + k;
        let between = |w: usize| before[read] >> w & 1 == 1 && before[w] >> item & 1 == 1;
        self.is_write(item, location)
            && self.written(item).is_some()
            && before[item] >> read & 1 == 0
            && !(LOCATIONS..before.len()).any(|w| self.is_write(w, location) && between(w))
    }

    fn is_write(&self, item: usize, location: usize) -> bool {
        match item.checked_sub(LOCATIONS) {
            None => item == location,
            Some(k) => self
                .actions
                .get(k)
                .is_some_and(|action| matches!(action.instr, Instr::Write { .. }) && action.location == Some(location)),
        }
    }

    /// The value of a write item.
    fn written(&self, item: usize) -> Option<u16> {
        match item.checked_sub(LOCATIONS) {
            None => Some(self.case.memory(item as u8)),
            Some(k) => self.actions[k].result,
        }
    }

    /// Takes a step that `check` accepts.
    pub fn take(&mut self, step: Step) {
        match step {
            Step::Issue { processor } => self.issue(processor.into()),
            Step::Commit { action, source, .. } => self.commit(action.into(), source.into()),
        }
    }

    fn issue(&mut self, p: usize) {
        let Some(place) = self.places[p] else { return };
        let instr = self.program(p)[usize::from(place)];
        let mut inputs = [Name::Undefined; 2];
        for (input, register) in inputs.iter_mut().zip(instr.inputs()) {
            *input = self.names[p][usize::from(register)];
        }
        let location = instr.address().and_then(|_| self.value(inputs[0])).map(usize::from);
        if let Some(register) = instr.output() {
            self.names[p][usize::from(register)] = Name::GivenBy(self.actions.len());
        }
        self.places[p] = match instr {
            Instr::Goto { label } => Some(label as u8),
            Instr::Branch { .. } => None,
            _ => Some(place + 1),
        };
        self.actions.push(Action { processor: p, place, instr, inputs, location, result: None });
        self.join(p, instr, location);
    }

    /// Puts the newest item into its orders, after the initial write and its processor's earlier items.
    fn join(&mut self, p: usize, instr: Instr, location: Option<usize>) {
        let newest = self.actions.len() - 1;
        for (x, before) in self.before.iter_mut().enumerate() {
            let mut all = 0;
            if instr.is_sync() || location == Some(x) {
                all = 1 << x;
                for (k, action) in self.actions[..newest].iter().enumerate() {
                    if action.processor == p && (action.instr.is_sync() || action.location == Some(x)) {
                        all |= before[LOCATIONS + k] | 1 << (LOCATIONS + k);
                    }
                }
            }
            before.push(all);
        }
    }

    fn commit(&mut self, k: usize, source: usize) {
        let action = &self.actions[k];
        let [a, b] = action.inputs.map(|name| self.value(name).unwrap_or(0));
        let (p, place) = (action.processor, action.place);
        let result = match action.instr {
            Instr::Read { .. } => self.written(source).unwrap_or(0),
            Instr::Write { .. } => b,
            Instr::Set { constant, .. } => constant,
            Instr::Add { .. } => a.wrapping_add(b),
            Instr::Sub { .. } => a.wrapping_sub(b),
            Instr::Equal { .. } => u16::from(a == b),
            Instr::Branch { label, .. } => {
                self.places[p] = Some(if a != 0 { label as u8 } else { place + 1 });
                0
            }
            Instr::Goto { .. } => 0,
            Instr::Acquire { .. } => {
                self.holders[usize::from(a)] = Some(p);
                self.put_after_releases(k, a);
                a
            }
            Instr::Release { .. } => {
                self.holders[usize::from(a)] = None;
                a
            }
        };
        self.actions[k].result = Some(result);
    }

    /// Puts an acquire's item after every committed release of its location, in every order.
    fn put_after_releases(&mut self, k: usize, location: u16) {
        let acquire = LOCATIONS + k;
        let is_release = |action: &Action| matches!(action.instr, Instr::Release { .. }) && action.result == Some(location);
        let releases: Vec<usize> = (0..self.actions.len()).filter(|&r| is_release(&self.actions[r])).collect();
        for before in &mut self.before {
            let all = releases.iter().fold(0, |all, r| all | before[LOCATIONS + r] | 1 << (LOCATIONS + r));
            for (item, before) in before.iter_mut().enumerate() {
                if item == acquire || *before >> acquire & 1 == 1 {
                    *before |= all;
                }
            }
        }
    }
}

/// Whether an earlier uncommitted action of the same processor holds back this one. An acquire holds back
/// whatever comes after it: request 03.
fn waits_for(action: &Action, earlier: &Action) -> bool {
    use Instr::*;
    match (action.instr, earlier.instr) {
        (Release { .. }, _) | (_, Acquire { .. }) => true,
        (Acquire { .. }, Release { .. }) => true,
        (Read { .. }, Write { .. }) => action.location == earlier.location,
        _ => false,
    }
}

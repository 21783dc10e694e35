//! The state of a run, and what issue and commit do to it.

use model::{Case, Ending, Instr, Outcome, Reason, ACTIONS, LOCATIONS, REGISTERS};

use crate::order::Order;

/// An action: its processor and its index in that processor's issue order.
pub type Id = (u8, u8);

/// What stands in a location's order: an initial write, or an action's item.
#[derive(Clone, Copy, Debug, PartialEq, Eq, Hash)]
pub enum Item {
    Initial(u8),
    Of(Id),
}

/// Who last assigned a register: an action of the same processor, or none yet.
type Name = Option<u8>;

#[derive(Clone, PartialEq, Eq, Hash)]
pub struct Action {
    pub instr: Instr,
    pub place: u8,
    /// Who assigned the registers it reads, in the order of `Instr::inputs`.
    inputs: [Name; 2],
    /// The location of a read or write.
    pub location: Option<u8>,
    /// None while queued; then its value, an acquire's or release's location, or 0.
    pub result: Option<u16>,
    /// The releases committed before this acquire's commit, of its location.
    pub after: Vec<Id>,
}

#[derive(Clone, PartialEq, Eq, Hash)]
struct Local {
    place: Option<u8>,
    names: [Name; REGISTERS],
    actions: Vec<Action>,
}

/// Where a run stands. Runs that differ only in how they interleave have equal states.
#[derive(Clone, PartialEq, Eq, Hash)]
pub struct State {
    locals: Vec<Local>,
    holders: [Option<u8>; LOCATIONS],
}

/// A step, with actions and items named as in a state.
#[derive(Clone, Copy, Debug)]
pub enum Move {
    Issue(u8),
    Commit(Id, Item),
}

impl State {
    pub fn start(case: &Case) -> State {
        let local = Local { place: Some(0), names: [None; REGISTERS], actions: vec![] };
        State { locals: vec![local; case.processors().len()], holders: [None; LOCATIONS] }
    }

    pub fn processors(&self) -> u8 {
        self.locals.len() as u8
    }

    /// The actions of a processor in the order of their issue.
    pub fn actions(&self, p: u8) -> &[Action] {
        &self.locals[usize::from(p)].actions
    }

    /// The place counter of a processor.
    pub fn place(&self, p: u8) -> Option<u8> {
        self.locals[usize::from(p)].place
    }

    pub fn action(&self, (p, i): Id) -> &Action {
        &self.actions(p)[usize::from(i)]
    }

    fn action_mut(&mut self, (p, i): Id) -> &mut Action {
        &mut self.locals[usize::from(p)].actions[usize::from(i)]
    }

    /// The value of register k of processor p under a name; none if undefined.
    fn value(&self, case: &Case, p: u8, k: u8, name: Name) -> Option<u16> {
        match name {
            None => case.processors()[usize::from(p)].presets[usize::from(k)],
            Some(i) => self.action((p, i)).result,
        }
    }

    fn issued(&self) -> usize {
        self.locals.iter().map(|local| local.actions.len()).sum()
    }

    fn queue(&self, p: u8) -> impl Iterator<Item = &Action> {
        self.actions(p).iter().filter(|action| action.result.is_none())
    }

    pub fn finished(&self, case: &Case) -> bool {
        (0..self.processors()).all(|p| {
            let end = case.processors()[usize::from(p)].program.len() as u8;
            self.locals[usize::from(p)].place == Some(end) && self.queue(p).next().is_none()
        })
    }

    pub fn ending(&self, case: &Case) -> Ending {
        let mut ending = Ending { outcome: Outcome::default(), places: [Some(0); 4], queues: [0; 4] };
        for (p, local) in self.locals.iter().enumerate() {
            for k in 0..REGISTERS {
                ending.outcome.registers[p][k] = self.value(case, p as u8, k as u8, local.names[k]);
            }
            ending.places[p] = local.place;
            ending.queues[p] = self.queue(p as u8).count() as u8;
        }
        ending
    }

    /// The state after processor p's next issue.
    pub fn issue(&self, case: &Case, p: u8) -> Result<State, Reason> {
        let local = &self.locals[usize::from(p)];
        let place = local.place.ok_or(Reason::PlaceUndefined)?;
        let program = &case.processors()[usize::from(p)].program;
        let instr = *program.get(usize::from(place)).ok_or(Reason::AtEnd)?;
        if self.issued() == ACTIONS {
            return Err(Reason::TooManyActions);
        }
        let location = instr.address().map(|a| self.location(case, p, a)).transpose()?;
        let mut inputs = [None; 2];
        for (input, k) in inputs.iter_mut().zip(instr.inputs()) {
            *input = local.names[usize::from(k)];
        }
        let mut next = self.clone();
        let local = &mut next.locals[usize::from(p)];
        if let Some(d) = instr.output() {
            local.names[usize::from(d)] = Some(local.actions.len() as u8);
        }
        local.actions.push(Action { instr, place, inputs, location, result: None, after: vec![] });
        local.place = match instr {
            Instr::Goto { label } => Some(label as u8),
            Instr::Branch { .. } => None,
            _ => Some(place + 1),
        };
        Ok(next)
    }

    /// The location that a read or write through register a would have if issued now.
    fn location(&self, case: &Case, p: u8, a: u8) -> Result<u8, Reason> {
        let name = self.locals[usize::from(p)].names[usize::from(a)];
        let value = self.value(case, p, a, name).ok_or(Reason::AddressUndefined)?;
        if value >= case.locations().into() {
            return Err(Reason::AddressRange);
        }
        Ok(value as u8)
    }

    /// The state after a commit; `None` as a source is a number that names no item.
    pub fn commit(&self, case: &Case, id: Id, source: Option<Item>) -> Result<State, Reason> {
        let queued = self.actions(id.0).get(usize::from(id.1)).filter(|action| action.result.is_none());
        let action = queued.ok_or(Reason::NoSuchAction)?;
        if !matches!(action.instr, Instr::Read { .. }) {
            if source != Some(Item::Initial(0)) {
                return Err(Reason::SourceGiven);
            }
            return self.committed(case, id);
        }
        let visible = self.readable(case, id)?;
        let (_, value) = visible.into_iter().find(|&(item, _)| Some(item) == source).ok_or(Reason::NotVisible)?;
        Ok(self.with_result(id, value))
    }

    /// The items that a queued read may take, with their values.
    fn readable(&self, case: &Case, id: Id) -> Result<Vec<(Item, u16)>, Reason> {
        self.inputs_ready(case, id)?;
        let location = self.action(id).location.expect("a read has its location from its issue");
        Ok(Order::new(self, location).visible(self, case, Item::Of(id)))
    }

    /// The state after the commit of a queued action that is not a read.
    fn committed(&self, case: &Case, id: Id) -> Result<State, Reason> {
        let values = self.inputs_ready(case, id)?;
        let action = self.action(id);
        match action.instr {
            Instr::Read { .. } => unreachable!("a read's commit names its source"),
            Instr::Write { .. } => Ok(self.with_result(id, values[1])),
            Instr::Set { constant, .. } => Ok(self.with_result(id, constant)),
            Instr::Add { .. } => Ok(self.with_result(id, values[0].wrapping_add(values[1]))),
            Instr::Sub { .. } => Ok(self.with_result(id, values[0].wrapping_sub(values[1]))),
            Instr::Equal { .. } => Ok(self.with_result(id, (values[0] == values[1]).into())),
            Instr::Goto { .. } => Ok(self.with_result(id, 0)),
            Instr::Branch { label, .. } => {
                let mut next = self.with_result(id, 0);
                let place = if values[0] != 0 { label as u8 } else { action.place + 1 };
                next.locals[usize::from(id.0)].place = Some(place);
                Ok(next)
            }
            Instr::Acquire { .. } => self.acquired(case, id, values[0]),
            Instr::Release { .. } => self.released(case, id, values[0]),
        }
    }

    fn acquired(&self, case: &Case, id: Id, location: u16) -> Result<State, Reason> {
        let holder = self.lock(case, location)?;
        if holder.is_some_and(|p| p != id.0) {
            return Err(Reason::LockState);
        }
        let mut next = self.with_result(id, location);
        next.action_mut(id).after = self.releases(location);
        next.holders[usize::from(location)] = Some(id.0);
        Ok(next)
    }

    fn released(&self, case: &Case, id: Id, location: u16) -> Result<State, Reason> {
        if self.lock(case, location)? != Some(id.0) {
            return Err(Reason::LockState);
        }
        let mut next = self.with_result(id, location);
        next.holders[usize::from(location)] = None;
        Ok(next)
    }

    fn lock(&self, case: &Case, location: u16) -> Result<Option<u8>, Reason> {
        if location >= case.locations().into() {
            return Err(Reason::LockRange);
        }
        Ok(self.holder(location))
    }

    /// The processor that holds a location.
    pub fn holder(&self, location: u16) -> Option<u8> {
        self.holders[usize::from(location)]
    }

    /// The committed releases of a location.
    fn releases(&self, location: u16) -> Vec<Id> {
        let all = (0..self.processors()).flat_map(|p| (0..).zip(self.actions(p)).map(move |(i, action)| ((p, i), action)));
        all.filter(|(_, action)| matches!(action.instr, Instr::Release { .. }) && action.result == Some(location))
            .map(|(id, _)| id)
            .collect()
    }

    fn with_result(&self, id: Id, result: u16) -> State {
        let mut next = self.clone();
        next.action_mut(id).result = Some(result);
        next
    }

    /// The values of the registers that an action reads, if it is not held back.
    fn inputs_ready(&self, case: &Case, id: Id) -> Result<Vec<u16>, Reason> {
        let action = self.action(id);
        let mut earlier = self.actions(id.0)[..usize::from(id.1)].iter().filter(|earlier| earlier.result.is_none());
        if earlier.any(|earlier| holds_back(earlier, action)) {
            return Err(Reason::HeldBack);
        }
        self.inputs(case, id).map(|value| value.ok_or(Reason::RegisterUndefined)).collect()
    }

    /// The values of the registers that an action reads; none where undefined.
    pub fn inputs<'a>(&'a self, case: &'a Case, id: Id) -> impl Iterator<Item = Option<u16>> + 'a {
        let action = self.action(id);
        action.instr.inputs().zip(action.inputs).map(move |(k, name)| self.value(case, id.0, k, name))
    }

    /// Whether some commit of a queued action is accepted.
    pub fn may_commit(&self, case: &Case, id: Id) -> bool {
        match self.action(id).instr {
            Instr::Read { .. } => self.readable(case, id).is_ok_and(|items| !items.is_empty()),
            _ => self.committed(case, id).is_ok(),
        }
    }

    /// Every accepted step, with the state after it. A read has one for each item it may take.
    pub fn moves(&self, case: &Case) -> Vec<(Move, State)> {
        let mut moves = vec![];
        for p in 0..self.processors() {
            moves.extend(self.issue(case, p).ok().map(|next| (Move::Issue(p), next)));
            for (i, action) in (0..).zip(self.actions(p)).filter(|(_, action)| action.result.is_none()) {
                if matches!(action.instr, Instr::Read { .. }) {
                    let readable = self.readable(case, (p, i)).unwrap_or_default();
                    let taken = |(item, value)| (Move::Commit((p, i), item), self.with_result((p, i), value));
                    moves.extend(readable.into_iter().map(taken));
                } else {
                    let next = self.committed(case, (p, i)).ok();
                    moves.extend(next.map(|next| (Move::Commit((p, i), Item::Initial(0)), next)));
                }
            }
        }
        moves
    }
}

/// The table of what holds back a commit, as request 03 mends it: `earlier` is uncommitted and of the same processor.
fn holds_back(earlier: &Action, action: &Action) -> bool {
    let acquire = matches!(earlier.instr, Instr::Acquire { .. });
    match action.instr {
        Instr::Read { .. } => {
            let write = matches!(earlier.instr, Instr::Write { .. });
            acquire || write && earlier.location == action.location
        }
        Instr::Write { .. } | Instr::Set { .. } => acquire,
        Instr::Add { .. } | Instr::Sub { .. } | Instr::Equal { .. } => acquire,
        Instr::Branch { .. } | Instr::Goto { .. } => acquire,
        Instr::Acquire { .. } => earlier.instr.is_sync(),
        Instr::Release { .. } => true,
    }
}

//! One schedule, step by step, with actions and items by document 01's numbers.

use model::{Case, Ending, Reason, Step, LOCATIONS};

use crate::state::{Id, Item, Move, State};

/// A run of a case under a schedule.
#[derive(Clone)]
pub struct Run<'a> {
    case: &'a Case,
    state: State,
    /// The actions by their numbers.
    issued: Vec<Id>,
    steps: u32,
}

impl<'a> Run<'a> {
    pub fn new(case: &'a Case) -> Run<'a> {
        Run { case, state: State::start(case), issued: vec![], steps: 0 }
    }

    /// The steps taken.
    pub fn steps(&self) -> u32 {
        self.steps
    }

    /// The actions issued.
    pub fn actions(&self) -> usize {
        self.issued.len()
    }

    pub fn finished(&self) -> bool {
        self.state.finished(self.case)
    }

    pub fn ending(&self) -> Ending {
        self.state.ending(self.case)
    }

    /// Takes a step, or says why not and stays.
    pub fn take(&mut self, step: [u8; 4]) -> Result<(), Reason> {
        let [kind, p, action, source] = step;
        if kind > 1 || p >= self.state.processors() || kind == 0 && (action, source) != (0, 0) {
            return Err(Reason::BadStep);
        }
        if kind == 0 {
            let next = self.state.issue(self.case, p)?;
            self.issued.push((p, self.state.actions(p).len() as u8));
            self.state = next;
        } else {
            let id = *self.issued.get(usize::from(action)).filter(|id| id.0 == p).ok_or(Reason::NoSuchAction)?;
            self.state = self.state.commit(self.case, id, self.item(source))?;
        }
        self.steps += 1;
        Ok(())
    }

    /// Request 06: the place of the instruction that a step refused now is of, where its code has one.
    pub fn place(&self, step: [u8; 4], reason: Reason) -> Option<u8> {
        let [_, p, action, _] = step;
        match reason.code() {
            23..=25 => self.state.place(p),
            27..=32 => Some(self.state.action(self.issued[usize::from(action)]).place),
            _ => None,
        }
    }

    /// Every step that would be accepted next.
    pub fn accepted(&self) -> Vec<Step> {
        self.moves().into_iter().map(|(step, _)| step).collect()
    }

    /// Every accepted step with the run after it, in byte order.
    pub fn moves(&self) -> Vec<(Step, Run<'a>)> {
        let moves = self.state.moves(self.case).into_iter();
        let mut moves: Vec<_> = moves.map(|(taken, state)| (self.step(taken), self.after(taken, state))).collect();
        moves.sort_by_key(|(step, _)| step.bytes());
        moves
    }

    fn after(&self, taken: Move, state: State) -> Run<'a> {
        let mut issued = self.issued.clone();
        if let Move::Issue(p) = taken {
            issued.push((p, self.state.actions(p).len() as u8));
        }
        Run { case: self.case, state, issued, steps: self.steps + 1 }
    }

    pub(crate) fn state(&self) -> &State {
        &self.state
    }

    /// The actions by their numbers.
    pub(crate) fn issued(&self) -> &[Id] {
        &self.issued
    }

    pub(crate) fn case(&self) -> &Case {
        self.case
    }

    fn item(&self, number: u8) -> Option<Item> {
        match usize::from(number).checked_sub(LOCATIONS) {
            None => Some(Item::Initial(number)),
            Some(action) => self.issued.get(action).map(|&id| Item::Of(id)),
        }
    }

    /// A move in document 01's numbers.
    fn step(&self, taken: Move) -> Step {
        let number = |id: Id| self.issued.iter().position(|&issued| issued == id).expect("an issued action") as u8;
        match taken {
            Move::Issue(processor) => Step::Issue { processor },
            Move::Commit(id, Item::Initial(source)) => Step::Commit { processor: id.0, action: number(id), source },
            Move::Commit(id, Item::Of(source)) => {
                Step::Commit { processor: id.0, action: number(id), source: LOCATIONS as u8 + number(source) }
            }
        }
    }
}

//! Request 11: why the oldest queued action of a processor waits.

use model::{Case, Instr, Wait};

use crate::replay::Run;
use crate::state::{Action, Id, State};

impl Run<'_> {
    /// Why each present processor's oldest queued action waits.
    ///
    /// # Panics
    /// If an action waits without a cause, or has one and may commit: request 11 says that there is none such.
    pub fn waits(&self) -> Vec<Wait> {
        (0..self.state().processors()).map(|p| wait(self.state(), self.case(), p)).collect()
    }
}

fn wait(state: &State, case: &Case, p: u8) -> Wait {
    let Some(oldest) = state.actions(p).iter().position(|action| action.result.is_none()) else {
        return Wait::Nothing;
    };
    let id = (p, oldest as u8);
    let cause = cause(state, case, id);
    assert_eq!(cause.is_none(), state.may_commit(case, id), "processor {p} has cause {cause:?}");
    cause.unwrap_or(Wait::MayCommit)
}

/// The first of request 11's causes that an action has, in its words and their order.
fn cause(state: &State, case: &Case, id: Id) -> Option<Wait> {
    let action: &Action = state.action(id);
    let values: Vec<Option<u16>> = state.inputs(case, id).collect();
    if values.contains(&None) {
        return Some(Wait::Undefined);
    }
    let location = values.first().copied().flatten().unwrap_or(0);
    if action.instr.is_sync() && location >= case.locations().into() {
        return Some(Wait::NoLocation);
    }
    match action.instr {
        Instr::Acquire { .. } => state.holder(location).filter(|&holder| holder != id.0).map(|_| Wait::HeldByAnother),
        Instr::Release { .. } => (state.holder(location) != Some(id.0)).then_some(Wait::NotHeld),
        _ => None,
    }
}

//! One wanted result, sought through every schedule in byte order.

use model::{Clause, Step};

use crate::Machine;

pub struct Seeking<'a> {
    clauses: &'a [Clause],
    pub path: Vec<Step>,
    /// Whether a run of the bound's length was not finished.
    pub cut: bool,
}

impl<'a> Seeking<'a> {
    pub fn new(clauses: &'a [Clause]) -> Seeking<'a> {
        Seeking { clauses, path: vec![], cut: false }
    }

    /// Whether a run goes on to a finished state that meets every clause; then its steps are the path's last.
    pub fn finds(&mut self, machine: &Machine, left: u8) -> bool {
        if machine.finished() {
            return self.clauses.iter().all(|clause| clause.met(&machine.outcome()));
        }
        if left == 0 {
            self.cut = true;
            return false;
        }
        let mut steps = machine.steps();
        steps.sort_by_key(|step| step.bytes());
        steps.into_iter().any(|step| {
            let mut next = machine.clone();
            next.take(step);
            self.path.push(step);
            let found = self.finds(&next, left - 1);
            if !found {
                self.path.pop();
            }
            found
        })
    }
}

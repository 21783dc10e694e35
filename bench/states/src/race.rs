//! Request 10: happens-before by closure over a schedule's events, and the pairs that race.

use model::Instr;

use crate::replay::Run;
use crate::state::Action;

impl Run<'_> {
    /// Whether a queue is not empty.
    pub fn queued(&self) -> bool {
        self.named().any(|action| action.result.is_none())
    }

    /// The pairs that race after a schedule which this run has taken: they conflict, and neither happens before the other.
    pub fn races(&self, schedule: &[u8]) -> Vec<[u8; 2]> {
        let before = self.happens_before(schedule);
        self.conflicts()
            .into_iter()
            .filter(|&[j, k]| !before[j as usize][k as usize] && !before[k as usize][j as usize])
            .collect()
    }

    /// The pairs of reads or writes of one location, at least one a write, that are not of one processor.
    pub fn conflicts(&self) -> Vec<[u8; 2]> {
        let actions: Vec<&Action> = self.named().collect();
        let pairs = (0..actions.len()).flat_map(|k| (0..k).map(move |j| [j, k]));
        let conflict = |&[j, k]: &[usize; 2]| {
            let (a, b) = (actions[j], actions[k]);
            a.location.is_some()
                && a.location == b.location
                && (writes(a) || writes(b))
                && self.issued()[j].0 != self.issued()[k].0
        };
        pairs.filter(conflict).map(|pair| pair.map(|action| action as u8)).collect()
    }

    /// The actions by their numbers.
    fn named(&self) -> impl Iterator<Item = &Action> {
        self.issued().iter().map(|&id| self.state().action(id))
    }

    /// Program order, and each committed release before a later committed acquire of its location, closed transitively.
    fn happens_before(&self, schedule: &[u8]) -> Vec<Vec<bool>> {
        let actions: Vec<&Action> = self.named().collect();
        let mut before = vec![vec![false; actions.len()]; actions.len()];
        for k in 0..actions.len() {
            for j in 0..k {
                before[j][k] = self.issued()[j].0 == self.issued()[k].0;
            }
        }
        let commits: Vec<usize> = schedule.chunks_exact(4).filter(|step| step[0] == 1).map(|step| step[2].into()).collect();
        for (turn, &j) in commits.iter().enumerate() {
            for &k in &commits[turn + 1..] {
                before[j][k] |= hands_over(actions[j], actions[k]);
            }
        }
        for via in 0..actions.len() {
            for j in 0..actions.len() {
                for k in 0..actions.len() {
                    before[j][k] |= before[j][via] && before[via][k];
                }
            }
        }
        before
    }
}

fn writes(action: &Action) -> bool {
    matches!(action.instr, Instr::Write { .. })
}

/// A release and an acquire of one location.
fn hands_over(release: &Action, acquire: &Action) -> bool {
    matches!((&release.instr, &acquire.instr), (Instr::Release { .. }, Instr::Acquire { .. })) && release.result == acquire.result
}

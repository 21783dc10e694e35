//! Schedules to look for a race in, and a comparison on them.

use std::collections::{BTreeMap, BTreeSet};
use std::fmt;

use model::{block, Case, Raced, Racer, Reason, Step, STEPS};
use states::Run;

use crate::{cases, Inputs, ReplayInput};

/// A schedule on which the two differ.
#[derive(Debug)]
pub struct RaceMismatch {
    pub input: ReplayInput,
    pub reference: Raced,
    pub other: Raced,
}

/// What the schedules reached.
#[derive(Clone, Debug, Default, PartialEq, Eq)]
pub struct RaceTally {
    /// How many ended with each code.
    codes: BTreeMap<u32, u32>,
    /// Of those with code 0: finished; with a race; with none although two processors have accesses that could.
    finished: u32,
    raced: u32,
    ordered: u32,
    /// The pairs named.
    pairs: BTreeSet<[u8; 2]>,
}

/// Hands so many random schedules to both.
pub fn compare_races(
    seed: u64,
    schedules: u32,
    reference: &dyn Racer,
    other: &dyn Racer,
) -> Result<RaceTally, Box<RaceMismatch>> {
    let mut tally = RaceTally::default();
    let mut inputs = Inputs::new(seed);
    for _ in 0..schedules {
        let input = inputs.to_race();
        let (said, answer) = (reference.race(&input.block, &input.schedule), other.race(&input.block, &input.schedule));
        if said != answer {
            return Err(Box::new(RaceMismatch { input, reference: said, other: answer }));
        }
        tally.raced(&input, said);
    }
    Ok(tally)
}

impl Inputs {
    /// A schedule, mostly one after which every queue is empty.
    pub fn to_race(&mut self) -> ReplayInput {
        let cases = [cases::to_list, cases::to_race, cases::to_replay, cases::to_order, cases::to_order];
        let case = self.rng.pick(&cases)(&mut self.rng);
        let mut run = Run::new(&case);
        let mut steps = self.walk(&mut run);
        if !self.rng.once_in(12) {
            self.drain(&mut run, &mut steps);
        }
        if self.rng.once_in(12) {
            steps.push(self.any_step(&case, &run));
        }
        let block = self.block(&case).to_vec();
        self.spoilt_replay(ReplayInput { block, schedule: steps.concat(), room: 0 })
    }

    /// Commits what is queued, as far as it goes.
    fn drain(&mut self, run: &mut Run, steps: &mut Vec<[u8; 4]>) {
        while steps.len() < STEPS && run.queued() {
            let commits = run.accepted().into_iter().filter(|step| matches!(step, Step::Commit { .. }));
            let commits: Vec<Step> = commits.collect();
            if commits.is_empty() {
                return;
            }
            let step = self.rng.pick(&commits).bytes();
            run.take(step).expect("an accepted step");
            steps.push(step);
        }
    }
}

impl RaceTally {
    fn raced(&mut self, input: &ReplayInput, raced: Raced) {
        *self.codes.entry(raced.replayed.code).or_default() += 1;
        self.pairs.extend(raced.pair);
        self.raced += u32::from(raced.pair.is_some());
        if raced.replayed.code == 0 {
            let case: Case = block::read(&input.block).expect("an accepted block");
            let mut run = Run::new(&case);
            for step in input.schedule.chunks_exact(4) {
                run.take(step.try_into().expect("four bytes")).expect("an accepted step");
            }
            self.finished += u32::from(run.finished());
            self.ordered += u32::from(raced.pair.is_none() && !run.conflicts().is_empty());
        }
    }

    /// The finished schedules.
    pub fn finished(&self) -> u32 {
        self.finished
    }

    /// The schedules after which every queue was empty.
    fn answered(&self) -> u32 {
        self.codes.get(&0).copied().unwrap_or(0)
    }

    /// Half are answered; of these a tenth at least race, finish, and are ordered although they could race; some are
    /// refused in each way; many pairs.
    pub fn deep(&self) -> bool {
        let codes =
            [Reason::Check, Reason::NobodySets, Reason::ScheduleLength, Reason::AtEnd, Reason::NoSuchAction, Reason::Queued];
        let share = |part: u32| 10 * part >= self.answered();
        2 * self.answered() >= self.codes.values().sum()
            && [self.raced, self.finished, self.ordered].into_iter().all(share)
            && codes.into_iter().all(|reason| self.codes.contains_key(&reason.code()))
            && self.pairs.len() >= 80
    }
}

impl fmt::Display for RaceTally {
    fn fmt(&self, f: &mut fmt::Formatter<'_>) -> fmt::Result {
        let codes = self.codes.iter().map(|(code, n)| format!(" {code}:{n}")).collect::<String>();
        writeln!(f, "schedules asked for a race by code{codes}")?;
        let (answered, finished, raced) = (self.answered(), self.finished, self.raced);
        write!(f, "answered {answered}, finished {finished}, with a race {raced}, ")?;
        write!(f, "ordered although they could {}, pairs named {}", self.ordered, self.pairs.len())
    }
}

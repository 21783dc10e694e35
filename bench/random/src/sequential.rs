//! Finished runs without a race: each must have a result of the machine for SC.

use std::collections::HashMap;
use std::fmt;

use model::{Board, Case, Outcome, STEPS};
use states::Run;

use crate::{cases, Inputs};

/// The runs of one case.
const RUNS: usize = 8;

/// A finished run without a race whose result is not sequential.
#[derive(Debug)]
pub struct Escape {
    pub case: Case,
    pub schedule: Vec<u8>,
    pub outcome: Outcome,
}

/// What the runs reached.
#[derive(Clone, Debug, Default, PartialEq, Eq)]
pub struct SequentialTally {
    /// Finished without a race; of these, with two accesses that could race; on a case of which another run does.
    free: u32,
    ordered: u32,
    beside: u32,
    /// Finished with a race; of these, with a result that is not sequential.
    raced: u32,
    beyond: u32,
    /// The most actions of a run without a race.
    longest: usize,
}

/// Looks at so many finished runs without a race.
pub fn sequential_runs(seed: u64, wanted: u32) -> Result<SequentialTally, Box<Escape>> {
    let mut tally = SequentialTally::default();
    let mut inputs = Inputs::new(seed);
    while tally.free < wanted {
        let cases = [cases::to_list, cases::to_race, cases::to_replay, cases::to_order, cases::to_order, cases::to_order];
        let case = inputs.rng.pick(&cases)(&mut inputs.rng);
        tally.look(&mut inputs, &case)?;
    }
    Ok(tally)
}

impl SequentialTally {
    /// Some runs of a case.
    fn look(&mut self, inputs: &mut Inputs, case: &Case) -> Result<(), Box<Escape>> {
        let (mut free, raced) = (0, self.raced);
        let mut lists = HashMap::new();
        for _ in 0..RUNS {
            let mut run = Run::new(case);
            let eager = inputs.rng.below(4);
            let schedule = inputs.steps(&mut run, STEPS, eager).concat();
            if !run.finished() {
                continue;
            }
            let outcome = run.ending().outcome;
            let actions = run.actions();
            let list = lists.entry(actions).or_insert_with(|| boards::list(Board::Sc, case, actions as u8).outcomes);
            let sequential = list.contains(&outcome);
            if run.races(&schedule).is_empty() {
                if !sequential {
                    return Err(Box::new(Escape { case: case.clone(), schedule, outcome }));
                }
                free += 1;
                self.ordered += u32::from(!run.conflicts().is_empty());
                self.longest = self.longest.max(actions);
            } else {
                self.raced += 1;
                self.beyond += u32::from(!sequential);
            }
        }
        self.free += free;
        self.beside += if self.raced > raced { free } else { 0 };
        Ok(())
    }

    /// A third could race and are ordered, one in fifty stands beside a run that races, as many that race have another
    /// result, and some are long.
    pub fn deep(&self) -> bool {
        let shares = [50 * self.beside >= self.free, 50 * self.beyond >= self.raced];
        3 * self.ordered >= self.free && shares.into_iter().all(|share| share) && self.longest >= 20
    }
}

impl fmt::Display for SequentialTally {
    fn fmt(&self, f: &mut fmt::Formatter<'_>) -> fmt::Result {
        let SequentialTally { free, ordered, beside, raced, beyond, longest } = self;
        writeln!(f, "finished runs without a race {free}, all sequential: ordered although they could race {ordered},")?;
        writeln!(f, "  beside a run that races {beside}, at most {longest} actions")?;
        write!(f, "finished runs with a race {raced}, of these not sequential {beyond}")
    }
}

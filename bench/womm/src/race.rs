//! Two accesses of one location that nothing orders.

use std::fmt;

use model::{schedule, Racer, Step};

use crate::refusal::Refusal;
use crate::replaying::stop;
use crate::stop::{Place, Stop};
use crate::{Case, Library};

/// The first race of a schedule, and how the schedule went.
#[derive(Clone, Debug, PartialEq, Eq)]
pub struct Racing {
    /// The steps taken.
    pub steps: u32,
    /// What stopped it, if not all were taken.
    pub stopped: Option<Stop>,
    /// None where every two accesses are ordered, and where a step stopped the schedule.
    pub race: Option<Race>,
}

/// Two accesses of one location, at least one a write, neither of which happens before the other.
#[derive(Clone, Copy, Debug, PartialEq, Eq)]
pub struct Race {
    /// The one with the lower action number.
    pub first: Access,
    /// The other.
    pub second: Access,
}

/// A read or a write of a run.
#[derive(Clone, Copy, Debug, PartialEq, Eq)]
pub struct Access {
    /// Its number among the actions.
    pub action: u8,
    /// Its instruction.
    pub at: Place,
    /// The step, counted from 1, that issued it.
    pub issued: u32,
    /// The step, counted from 1, that committed it.
    pub committed: u32,
}

impl Case {
    /// Gives the first race of a schedule after which every queue is empty: the lowest earlier action, then the lowest later one.
    ///
    /// ```
    /// use womm::{clause, Answer, Case};
    /// # let text = "case 2 2\nreg 0 0 0\nreg 0 1 1\nreg 1 0 0\nreg 1 1 1\nop 0 write 0 1\nop 0 write 1 1\nop 1 read 2 1\nop 1 read 3 0\n";
    /// let case = Case::from_text(text)?;    // 1 to x, then 1 to y; the other reads y, then x
    /// let Answer::Yes(schedule) = case.ask(8, &[clause(1, 2).is(1), clause(1, 3).is(0)])? else { panic!() };
    /// let race = case.race(&schedule)?.race.unwrap();
    /// assert_eq!((race.first.action, race.second.action), (0, 3));
    /// # Ok::<(), womm::Refusal>(())
    /// ```
    pub fn race(&self, steps: &[Step]) -> Result<Racing, Refusal> {
        let raced = Library.race(self.block(), &schedule(steps));
        let stopped = stop(self, steps, raced.replayed)?;
        let accesses = raced.pair.map(|pair| pair.map(|action| access(self, steps, action)));
        let race = accesses.map(|[first, second]| Race { first, second });
        Ok(Racing { steps: raced.replayed.steps, stopped, race })
    }
}

/// An action of an accepted schedule: its instruction stands where its processor was when it was issued.
fn access(case: &Case, steps: &[Step], action: u8) -> Access {
    let issues = steps.iter().enumerate().filter(|(_, step)| matches!(step, Step::Issue { .. }));
    let (issued, &step) = issues.into_iter().nth(action.into()).expect("an issued action");
    let commits = |step: &Step| matches!(step, Step::Commit { action: committed, .. } if *committed == action);
    let committed = steps.iter().position(commits).expect("a committed action");
    let Step::Issue { processor } = step else { unreachable!("an issue") };
    let before = case.replay(&steps[..issued]).expect("a shorter schedule of the same case");
    let place = before.ending.places[usize::from(processor)].expect("a place from which it was issued");
    Access { action, at: Place::of(case, step, place), issued: issued as u32 + 1, committed: committed as u32 + 1 }
}

impl fmt::Display for Access {
    fn fmt(&self, f: &mut fmt::Formatter<'_>) -> fmt::Result {
        write!(f, "{}, committed in step {}", self.at, self.committed)
    }
}

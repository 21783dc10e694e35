//! One schedule: how it goes, and who waits after it.

use model::{schedule, Ending, Reason, Replayed, Replayer, Step, Wait, Waiter, ENDING, WAITS};

use crate::refusal::{accepted, reason, Refusal};
use crate::stop::{Place, Stop};
use crate::{Case, Library};

/// How a schedule went.
#[derive(Clone, Debug, PartialEq, Eq)]
pub struct Replay {
    /// The steps taken.
    pub steps: u32,
    /// What stopped it, if not all were taken.
    pub stopped: Option<Stop>,
    /// The state then.
    pub ending: Ending,
}

/// What each processor waits for after a schedule, and how the schedule went.
#[derive(Clone, Debug, PartialEq, Eq)]
pub struct Waiting {
    /// The steps taken.
    pub steps: u32,
    /// What stopped it, if not all were taken.
    pub stopped: Option<Stop>,
    /// For each present processor why its oldest queued action waits.
    pub waits: Vec<Wait>,
}

impl Case {
    /// Replays a schedule. A step that is refused stops it; codes 1 to 9 and 19 refuse it whole.
    ///
    /// ```
    /// use womm::{Case, Reason, Step};
    /// let case = Case::from_text("case 1 1\nreg 0 0 0\nop 0 read 2 0\n")?;
    /// let steps = [Step::Issue { processor: 0 }, Step::Commit { processor: 0, action: 0, source: 0 }];
    /// let replay = case.replay(&steps)?;
    /// assert_eq!((replay.stopped, replay.ending.outcome.registers[0][2]), (None, Some(0)));
    /// let stopped = case.replay(&[steps[0], steps[0]])?.stopped.unwrap();
    /// assert_eq!(stopped.reason, Reason::AtEnd);
    /// # Ok::<(), womm::Refusal>(())
    /// ```
    pub fn replay(&self, steps: &[Step]) -> Result<Replay, Refusal> {
        let mut result = [0; ENDING];
        let replayed = Library.replay(self.block(), &schedule(steps), &mut result);
        let stopped = stop(self, steps, replayed)?;
        Ok(Replay { steps: replayed.steps, stopped, ending: Ending::read(&result) })
    }

    /// Says why each processor waits after a schedule, or after its steps before a refused one.
    ///
    /// ```
    /// use womm::{Case, Step, Wait};
    /// let case = Case::from_text("case 1 1\nreg 0 0 0\nop 0 release 0\n")?;
    /// assert_eq!(case.why(&[Step::Issue { processor: 0 }])?.waits, [Wait::NotHeld]);
    /// # Ok::<(), womm::Refusal>(())
    /// ```
    pub fn why(&self, steps: &[Step]) -> Result<Waiting, Refusal> {
        let mut causes = [0; WAITS];
        let replayed = Library.why(self.block(), &schedule(steps), &mut causes);
        let stopped = stop(self, steps, replayed)?;
        let wait = |&byte: &u8| Wait::from_byte(byte).expect("a cause of request 11");
        let waits = causes[..self.processors().len()].iter().map(wait).collect();
        Ok(Waiting { steps: replayed.steps, stopped, waits })
    }
}

/// The step that stopped a replay, if one did; or the refusal of the whole.
pub(crate) fn stop(case: &Case, steps: &[Step], replayed: Replayed) -> Result<Option<Stop>, Refusal> {
    let stopped = reason(replayed.code);
    if stopped.is_some_and(|reason| reason < Reason::BadStep) {
        accepted(replayed.code, replayed.position)?;
    }
    let at = replayed.place.map(|place| Place::of(case, steps[replayed.steps as usize], place));
    Ok(stopped.map(|reason| Stop { reason, at }))
}

//! The boot hand-off.

use model::{steps, Act, Planner, Step, Verdict, SCHEDULE};

use crate::refusal::{accepted, Refusal};
use crate::stack::deep;
use crate::Library;

/// What a hand-off can come to.
#[derive(Clone, Debug, PartialEq, Eq)]
pub enum Handoff {
    /// No finished run sees the flag and an old word; some run finishes.
    Safe,
    /// Some finished run does; the lowest schedule in byte order that shows it.
    Stale(Vec<Step>),
    /// No run finishes.
    Stuck,
}

/// Judges a hand-off: what its sender and its receiver do.
///
/// ```
/// use womm::{handoff, Act::*, Handoff};
/// assert!(matches!(handoff(&[Touch(0), Touch(3)], &[Touch(3), Touch(0)])?, Handoff::Stale(_)));
/// assert_eq!(handoff(&[Take, Touch(0), Touch(3), Free], &[Take, Touch(3), Touch(0), Free])?, Handoff::Safe);
/// # Ok::<(), womm::Refusal>(())
/// ```
pub fn handoff(sending: &[Act], receiving: &[Act]) -> Result<Handoff, Refusal> {
    let bytes = |plan: &[Act]| plan.iter().map(|act| act.byte()).collect::<Vec<u8>>();
    let mut schedule = [0; SCHEDULE];
    let answer = deep(|| Library.handoff(&bytes(sending), &bytes(receiving), &mut schedule));
    accepted(answer.code, 0)?;
    Ok(match answer.verdict {
        Verdict::Safe => Handoff::Safe,
        Verdict::Stale => Handoff::Stale(steps(&schedule[..answer.length as usize])),
        Verdict::Stuck => Handoff::Stuck,
    })
}

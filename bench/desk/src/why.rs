//! `why`: what each processor waits for after a schedule.

use womm::Wait;

use crate::arguments::Arguments;
use crate::said::{Said, Trouble, NO, YES};
use crate::trace::Trace;
use crate::{draw, input, schedule};

pub fn run(given: Arguments) -> Result<Said, Trouble> {
    let [path, words] = given.exactly(["FILE", "SCHEDULE"])?;
    let case = input::case(&path)?;
    let steps = schedule::of(&case, &words, given.bound)?;
    let waiting = case.why(&steps).map_err(|refusal| Trouble::usage(format!("{refusal} (code {})", refusal.code())))?;
    if let Some(stop) = waiting.stopped {
        return Err(schedule::stopped(&steps, waiting.steps, &stop));
    }
    let trace = Trace::of(&case, &steps)?;
    let mut text = String::new();
    for (p, wait) in waiting.waits.iter().enumerate() {
        let oldest = trace.actions.iter().position(|action| action.processor == p && action.committed.is_none());
        let action = oldest.map_or(String::new(), |number| format!("action {number}, {}, ", draw::named(&trace.actions[number])));
        text += &format!("p{p}: {action}{wait}\n");
    }
    let stuck = waiting.waits.iter().any(|wait| !matches!(wait, Wait::Nothing | Wait::MayCommit));
    Ok(Said::new(text, if stuck { NO } else { YES }))
}

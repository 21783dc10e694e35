//! `replay`: how one schedule goes.

use crate::arguments::Arguments;
use crate::said::{Said, Trouble, NO, YES};
use crate::trace::Trace;
use crate::{draw, input, schedule};

pub fn run(given: Arguments) -> Result<Said, Trouble> {
    let [path, words] = given.exactly(["FILE", "SCHEDULE"])?;
    let case = input::case(&path)?;
    let steps = schedule::of(&case, &words, given.bound)?;
    let replay = case.replay(&steps).map_err(|refusal| Trouble::usage(format!("{refusal} (code {})", refusal.code())))?;
    let trace = Trace::of(&case, &steps)?;
    let drawn = draw::text(&trace);
    Ok(match replay.stopped {
        None if trace.finished(&case) => Said::new(format!("FINISHED: all {} steps were taken.\n\n{drawn}", steps.len()), YES),
        None => Said::new(format!("TAKEN: all {} steps; the run is not finished.\n\n{drawn}", steps.len()), YES),
        Some(stop) => {
            let taken = replay.steps as usize;
            let step = schedule::typed(&steps[taken..=taken]);
            let head =
                format!("STOPPED at step {} of {}, `{step}`: {stop} (code {}).", taken + 1, steps.len(), stop.reason.code());
            Said::new(format!("{head}\n\n{drawn}"), NO)
        }
    })
}

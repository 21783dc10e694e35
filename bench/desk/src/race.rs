//! `race`: two accesses of one location that nothing orders.

use womm::{Access, Reason};

use crate::arguments::Arguments;
use crate::said::{Said, Trouble, NO, YES};
use crate::{input, schedule};

pub fn run(given: Arguments) -> Result<Said, Trouble> {
    let [path, words] = given.exactly(["FILE", "a SCHEDULE or RESULT"])?;
    let case = input::case(&path)?;
    let steps = schedule::of(&case, &words, given.bound)?;
    let racing = case.race(&steps).map_err(|refusal| match refusal.reason {
        Reason::Queued => {
            Trouble::usage("the schedule leaves actions queued; a race is asked for when every queue is empty (code 14)")
        }
        _ => Trouble::usage(format!("{refusal} (code {})", refusal.code())),
    })?;
    if let Some(stop) = racing.stopped {
        return Err(schedule::stopped(&steps, racing.steps, &stop));
    }
    Ok(match racing.race {
        None => Said::new(
            "NO RACE: whatever touches one location is ordered, or only reads it.\n\
             So this run ends as a sequential one does: with as many instructions, one at a time, on one memory (proved).\n",
            YES,
        ),
        Some(race) => {
            let line = |access: Access| format!("    action {}: {access}\n", access.action);
            let head = "RACE: nothing orders these two accesses of one location.\n";
            Said::new(format!("{head}{}{}", line(race.first), line(race.second)), NO)
        }
    })
}

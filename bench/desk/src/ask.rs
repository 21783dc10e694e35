//! `ask`: is this one result possible?

use womm::Answer;

use crate::arguments::Arguments;
use crate::machine::Machine;
use crate::said::{Said, Trouble, CUT, NO, YES};
use crate::trace::Trace;
use crate::{draw, input, schedule};

pub fn run(given: Arguments) -> Result<Said, Trouble> {
    let [path, result] = given.exactly(["FILE", "RESULT"])?;
    let case = input::case(&path)?;
    let bound = given.bound.unwrap_or(Machine::Womm.usual(&case));
    let result = if result.trim().is_empty() { "any result".to_string() } else { result };
    let wanted = if result == "any result" { "" } else { &result };
    Ok(match schedule::ask(&case, wanted, bound)? {
        Answer::Yes(steps) => {
            let trace = Trace::of(&case, &steps)?;
            let head = format!(
                "YES: {result} is possible. In {} steps, of all such schedules the lowest in byte order:\n\n",
                steps.len()
            );
            Said::new(format!("{head}{}\nschedule: {}\n", draw::text(&trace), schedule::typed(&steps)), YES)
        }
        Answer::No { cut: false } => Said::new(format!("NO: {result} is not possible, in any run of any length.\n"), NO),
        Answer::No { cut: true } => {
            let remain = "longer runs remain, and may reach it";
            Said::new(format!("NOT WITHIN {bound} steps: no such run reaches {result}; {remain}.\n"), CUT)
        }
    })
}

//! `list`: every result of a case.

use crate::arguments::Arguments;
use crate::machine::Machine;
use crate::said::{Said, Trouble, CUT, YES};
use crate::{input, results};

pub fn run(given: Arguments) -> Result<Said, Trouble> {
    let [path] = given.exactly(["FILE"])?;
    let machine = given.machine.unwrap_or(Machine::Womm);
    let case = input::case(&path)?;
    let bound = given.bound.unwrap_or(machine.usual(&case));
    let listing = machine.list(&case, bound).map_err(|refusal| refused(machine, bound, &refusal))?;
    let count = results::count(listing.outcomes.len(), "result");
    let within = format!("{path} on {}, within {bound} {}", machine.name(), machine.unit());
    let mut text = match listing.cut {
        true => format!("{within}: {count}; LONGER RUNS REMAIN, which may have others.\n"),
        false => format!("{within}: {count}, and no others: no run is longer.\n"),
    };
    for outcome in &listing.outcomes {
        text += &format!("    {}\n", results::words(&case, outcome));
    }
    Ok(Said::new(text, if listing.cut { CUT } else { YES }))
}

/// A refused list, which is about the bound.
pub fn refused(machine: Machine, bound: u32, refusal: &womm::Refusal) -> Trouble {
    let most = machine.most();
    Trouble::usage(format!("--bound {bound}: {} takes 0 to {most} {} (code {})", machine.name(), machine.unit(), refusal.code()))
}

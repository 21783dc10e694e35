//! `boards`: the results of a case on all four machines, one table.

use std::collections::BTreeSet;

use womm::{Listing, Outcome};

use crate::arguments::Arguments;
use crate::machine::Machine;
use crate::said::{Said, Trouble, CUT, YES};
use crate::{input, list, results};

pub fn run(given: Arguments) -> Result<Said, Trouble> {
    let [path] = given.exactly(["FILE"])?;
    let case = input::case(&path)?;
    let on = |machine: Machine| {
        let bound = machine.usual(&case);
        machine.list(&case, bound).map_err(|refusal| list::refused(machine, bound, &refusal))
    };
    let lists: Vec<Listing> = Machine::ALL.into_iter().map(on).collect::<Result<_, _>>()?;
    let all: BTreeSet<&Outcome> = lists.iter().flat_map(|listing| &listing.outcomes).collect();
    let rows: Vec<(String, [String; 4])> =
        all.into_iter().map(|outcome| (results::words(&case, outcome), marks(&lists, outcome))).collect();
    let width = rows.iter().map(|(words, _)| words.len()).max().unwrap_or(0).max("longer runs remain".len()) + 2;
    let row = |(words, cells): &(String, [String; 4])| {
        let cells: String = cells.iter().map(|cell| format!("{cell:6}")).collect();
        format!("{words:width$}{}\n", cells.trim_end())
    };
    let cell = |of: fn(&Listing) -> String| std::array::from_fn(|machine| of(&lists[machine]));
    let bound = Machine::Womm.usual(&case);
    let mut text = format!("{path} on four machines, within {} instructions ({bound} steps on womm)\n\n", bound / 2);
    text += &row(&("result".to_string(), Machine::ALL.map(|machine| machine.name().to_string())));
    text += &rows.iter().map(row).collect::<String>();
    text += &row(&("results".to_string(), cell(|listing| listing.outcomes.len().to_string())));
    text += &row(&("longer runs remain".to_string(), cell(|listing| if listing.cut { "yes" } else { "no" }.to_string())));
    Ok(Said::new(text, if lists.iter().any(|listing| listing.cut) { CUT } else { YES }))
}

/// On which machines an outcome is possible.
fn marks(lists: &[Listing], outcome: &Outcome) -> [String; 4] {
    std::array::from_fn(|machine| if lists[machine].outcomes.contains(outcome) { "yes" } else { "-" }.to_string())
}

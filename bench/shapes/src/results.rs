//! The results of a shape on every machine, by the models alone, as the files in `shapes/` hold them.

use std::collections::BTreeSet;

use model::{Board, Case, Outcome, ACTIONS, STEPS};

/// What stands in `NAME.results` for a case: for each machine a line with its name, the bound, the number of results and
/// the cut mark, then a line for each result. The bounds are the largest there are.
pub fn results(case: &Case) -> String {
    let womm = states::list(case, STEPS as u8);
    let boards = Board::ALL.map(|board| boards::list(board, case, ACTIONS as u8));
    let on = |(name, listing): (&str, &boards::Listing)| part(case, name, ACTIONS, &listing.outcomes, listing.cut);
    ["sc", "tso", "pso"].into_iter().zip(&boards).map(on).collect::<String>()
        + &part(case, "womm", STEPS, &womm.outcomes, womm.cut)
}

fn part(case: &Case, name: &str, bound: usize, outcomes: &BTreeSet<Outcome>, cut: bool) -> String {
    let cut = if cut { "yes" } else { "no" };
    let head = format!("{name} bound {bound} results {} cut {cut}\n", outcomes.len());
    outcomes.iter().fold(head, |text, outcome| text + &outcome.line(case.processors().len()) + "\n")
}

//! `machines` prints, for the standard shapes, which results each of SC, TSO, PSO and WOMM has: a row for each result that
//! not all of them have.

use std::collections::BTreeSet;

use model::Board;
use shapes::{lists, Shape};

const SHAPES: [&str; 8] = ["H-8", "H-locked", "SB", "SB-locked", "LB", "CoRR", "2+2W", "IRIW"];

fn main() {
    println!("| shape | result | SC | TSO | PSO | WOMM |\n|---|---|---|---|---|---|");
    for shape in SHAPES.iter().filter_map(|name| lists().into_iter().find(|shape| shape.name == *name)) {
        let [sc, tso, pso] = Board::ALL.map(|board| boards::list(board, &shape.case, shape.instructions()).outcomes);
        let machines = [sc, tso, pso, states::list(&shape.case, shape.bound).outcomes];
        let results: [BTreeSet<Vec<Option<u16>>>; 4] =
            machines.map(|outcomes| outcomes.iter().map(|outcome| shape.seen(outcome)).collect());
        rows(&shape, &results);
    }
}

/// A row with the numbers of results, then one for each result that some machine lacks.
fn rows(shape: &Shape, results: &[BTreeSet<Vec<Option<u16>>>; 4]) {
    let counts = results.each_ref().map(|results| results.len().to_string()).join(" | ");
    println!("| {} | number of results | {counts} |", shape.name);
    for result in &results[3] {
        let has = results.each_ref().map(|results| if results.contains(result) { "yes" } else { "-" });
        if has.contains(&"-") {
            println!("| | {} | {} |", shape.named(result), has.join(" | "));
        }
    }
}

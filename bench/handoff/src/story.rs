//! The story of the lost baseline: document 01's hand-off, its results, the bad one step by step, and the lock.

use model::Plans;
use womm::{Act, Case, Handoff, Listing, Outcome};

use crate::words::{self, Names};

const NAMES: Names = ["the length", "word 1", "word 2", "the flag"];

/// The sender writes the length and raises the flag; the receiver reads the flag, then the length.
const SENDING: [Act; 2] = [Act::Touch(0), Act::Touch(3)];
const RECEIVING: [Act; 2] = [Act::Touch(3), Act::Touch(0)];

/// What the receiver reads as flag and as length when the baseline is lost.
const LOST: [u16; 2] = [1, 0];

/// Tells it, or says which answer is not document 01's.
pub fn tell() -> Result<(), String> {
    println!("The boot hand-off, on hardware that reorders. Both words start empty.\n");
    for line in words::table(&SENDING, &RECEIVING, &NAMES) {
        println!("    {line}");
    }
    println!("\nWithout a lock it can end in these ways and no others (the proved list; no run is left out):");
    list(&shapes::message().build().map_err(refused)?.into(), 8, &[[0, 0], [0, 1], LOST, [1, 1]])?;
    println!();
    lost_baseline()?;
    println!("\nWith a lock, taken before and freed after by both cores (the proved list; no run is left out):");
    list(&shapes::locked_message().build().map_err(refused)?.into(), 16, &[[0, 0], [1, 1]])?;
    if womm::handoff(&locked(SENDING), &locked(RECEIVING)).map_err(refused)? != Handoff::Safe {
        return Err("the hand-off inside the lock is not safe".to_string());
    }
    println!("The lost baseline cannot happen.");
    Ok(())
}

fn refused(refusal: impl std::fmt::Display) -> String {
    format!("refused: {refusal}")
}

fn locked(plan: [Act; 2]) -> [Act; 4] {
    [Act::Take, plan[0], plan[1], Act::Free]
}

/// Prints a case's results, which must be the expected ones with nothing cut.
fn list(case: &Case, bound: u32, expected: &[[u16; 2]]) -> Result<(), String> {
    let Listing { outcomes, cut } = case.outcomes(bound).map_err(refused)?;
    for outcome in &outcomes {
        println!("    {}", result(seen(outcome)));
    }
    if cut || !outcomes.iter().map(seen).eq(expected.iter().map(|row| row.map(Some))) {
        return Err(format!("these are not document 01's results for bound {bound}"));
    }
    Ok(())
}

/// What the receiver saw: the flag in register 2, the length in register 3.
fn seen(outcome: &Outcome) -> [Option<u16>; 2] {
    [outcome.registers[1][2], outcome.registers[1][3]]
}

fn result(seen: [Option<u16>; 2]) -> &'static str {
    match seen {
        [Some(0), Some(0)] => "flag not seen, length empty",
        [Some(0), Some(1)] => "flag not seen, length there",
        [Some(1), Some(0)] => "flag seen, LENGTH EMPTY  <- the lost baseline",
        [Some(1), Some(1)] => "flag seen, length there",
        _ => "a result that this hand-off should not have",
    }
}

/// Prints the lowest schedule that loses the baseline.
fn lost_baseline() -> Result<(), String> {
    let Handoff::Stale(schedule) = womm::handoff(&SENDING, &RECEIVING).map_err(refused)? else {
        return Err("no schedule loses the baseline".to_string());
    };
    println!("One way to the lost baseline, step by step (of all such schedules the lowest in byte order):");
    for (number, line) in (1..).zip(words::steps([&SENDING, &RECEIVING], &schedule, &NAMES)) {
        println!("    {number}. {line}");
    }
    let plans = Plans { sending: SENDING.to_vec(), receiving: RECEIVING.to_vec() };
    let race = womm::Case::from(plans.case())
        .race(&schedule)
        .map_err(refused)?
        .race
        .ok_or("nothing races where the baseline is lost")?;
    println!("How it is lost: {}", words::race([&SENDING, &RECEIVING], race, &NAMES));
    Ok(())
}

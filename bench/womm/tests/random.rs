//! The library against the enumerator of states, and against the plain search, on random inputs from fixed seeds.

use random::{compare, Plan};

#[test]
fn the_library_and_states_agree_on_deep_inputs() {
    let plan = Plan { seed: 7, lists: 2_000, replays: 24_000, schedules: u128::MAX };
    let tally = compare(plan, &states::States, &womm::Guarded).unwrap_or_else(|mismatch| panic!("{mismatch:?}"));
    println!("{tally}");
    assert!(tally.deep() && tally.asked_why() >= 20_000, "{tally}");
}

/// The plain search leaves out nothing.
#[test]
fn the_library_and_the_plain_search_agree_on_small_lists() {
    let plan = Plan { seed: 8, lists: 1_000, replays: 100, schedules: 20_000 };
    let tally = compare(plan, &plain::Plain, &womm::Guarded).unwrap_or_else(|mismatch| panic!("{mismatch:?}"));
    println!("{tally}");
}

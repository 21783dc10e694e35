//! A finished run without a race has a result of the machine for SC.

use random::sequential_runs;

#[test]
fn race_free_runs_are_sequential() {
    let tally = sequential_runs(1, 5_000).unwrap_or_else(|escape| panic!("{escape:?}"));
    println!("{tally}");
    assert!(tally.deep(), "{tally}");
}

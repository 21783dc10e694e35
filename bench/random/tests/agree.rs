//! Two implementations that share no machine agree, on inputs that go deep.

use random::{compare, Inputs, Plan, Tally};

#[test]
fn states_and_plain_agree_on_deep_inputs() {
    let plan = Plan { seed: 1, lists: 500, replays: 10_000, schedules: 20_000 };
    let tally = compare(plan, &states::States, &plain::Plain).unwrap_or_else(|mismatch| panic!("{mismatch:?}"));
    println!("{tally}");
    assert!(tally.deep(), "{tally}");
}

#[test]
fn a_seed_gives_the_same_inputs_again() {
    let (mut first, mut second) = (Inputs::new(3), Inputs::new(3));
    for _ in 0..20 {
        let (held, again) = (first.listable(20_000), second.listable(20_000));
        assert_eq!(held, again);
        assert_eq!(first.to_list(&held), second.to_list(&again));
        assert_eq!(first.to_ask(&held), second.to_ask(&again));
        assert_eq!(first.to_replay(&Tally::default()), second.to_replay(&Tally::default()));
    }
}

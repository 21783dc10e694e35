//! The library's answers for hand-offs, beside those of the enumerator of states.

use random::{compare_plans, legal_plans, random_plans};
use states::States;
use womm::{Act, Guarded, Handoff, Reason};

/// A fixed sample: every tenth of the legal pairs up to three actions, and random ones up to four.
#[test]
fn the_library_and_states_agree_on_plans() {
    let inputs = legal_plans(3).step_by(10).chain(random_plans(7, 1_000));
    let tally = compare_plans(inputs, &States, &Guarded).unwrap_or_else(|mismatch| panic!("{mismatch:?}"));
    println!("{tally}");
    assert!(tally.deep() && tally.pairs() >= 3_000, "{tally}");
}

#[test]
fn a_typed_handoff() {
    let (plain, asks) = ([Act::Touch(0), Act::Touch(3)], [Act::Touch(3), Act::Touch(0)]);
    let locked = |plan: [Act; 2]| [Act::Take, plan[0], plan[1], Act::Free];
    assert!(matches!(womm::handoff(&plain, &asks), Ok(Handoff::Stale(steps)) if steps.len() == 8));
    assert!(matches!(womm::handoff(&locked(plain), &asks), Ok(Handoff::Stale(_))));
    assert_eq!(womm::handoff(&locked(plain), &locked(asks)), Ok(Handoff::Safe));
    assert_eq!(womm::handoff(&[Act::Free], &asks), Ok(Handoff::Stuck));
    assert_eq!(womm::handoff(&plain, &[Act::Touch(3); 2]), Err(Reason::Plan.into()));
}

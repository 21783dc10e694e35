//! The plans that are handed over, and what document 02 says of some of them.

use model::{HandedOff, Planner, Verdict, SCHEDULE};
use random::{compare_plans, legal_plans, random_plans};
use states::States;

fn answer(sending: &[u8], receiving: &[u8], room: usize) -> HandedOff {
    let mut schedule = vec![7; room];
    let answer = States.handoff(sending, receiving, &mut schedule);
    assert!(schedule[answer.length as usize..].iter().all(|&byte| byte == 0));
    answer
}

fn verdict(sending: &[u8], receiving: &[u8]) -> Verdict {
    let answer = answer(sending, receiving, SCHEDULE);
    assert_eq!(answer.code, 0);
    assert_eq!(answer.length > 0, answer.verdict == Verdict::Stale);
    answer.verdict
}

/// Readings 30 to 33 of request 13, and the classic hand-offs.
#[test]
fn plans_of_the_readings() {
    assert_eq!(verdict(&[0, 3], &[0, 3, 0]), Verdict::Stale);
    assert_eq!(verdict(&[0, 3], &[3, 1]), Verdict::Safe);
    assert_eq!(verdict(&[0, 1], &[3, 0]), Verdict::Safe);
    assert_eq!(verdict(&[], &[3]), Verdict::Safe);
    assert_eq!(verdict(&[4], &[4, 3]), Verdict::Stuck);
    assert_eq!(verdict(&[4], &[4, 3, 5]), Verdict::Safe);
    assert_eq!(verdict(&[5], &[3]), Verdict::Stuck);
    assert_eq!(verdict(&[4, 4, 5], &[3]), Verdict::Safe);
    assert_eq!(verdict(&[0, 3], &[3, 0]), Verdict::Stale);
    assert_eq!(verdict(&[4, 0, 3, 5], &[3, 0]), Verdict::Stale);
    assert_eq!(verdict(&[0, 3], &[4, 3, 0, 5]), Verdict::Stale);
    assert_eq!(verdict(&[4, 0, 3, 5], &[4, 3, 0, 5]), Verdict::Safe);
}

#[test]
fn other_plans_are_refused_first() {
    let plans: [[&[u8]; 2]; 7] = [
        [&[0, 3], &[3, 0, 3]],
        [&[0], &[]],
        [&[0], &[0]],
        [&[0], &[3, 0, 1, 2]],
        [&[0, 0, 0, 0, 0], &[3]],
        [&[0], &[3, 4, 5, 4, 5]],
        [&[6], &[3]],
    ];
    for [sending, receiving] in plans {
        assert_eq!(answer(sending, receiving, SCHEDULE).code, 15, "{sending:?} {receiving:?}");
        assert_eq!(answer(sending, receiving, 1).code, 15, "{sending:?} {receiving:?}");
    }
    for room in [0, 1, 383, 385] {
        assert_eq!(answer(&[0], &[3], room).code, 13);
    }
}

#[test]
fn plans_go_deep() {
    assert_eq!(legal_plans(3).count(), 22_274);
    let inputs = legal_plans(3).step_by(40).chain(random_plans(1, 600));
    let tally = compare_plans(inputs, &States, &States).unwrap();
    println!("{tally}");
    assert!(tally.deep(), "{tally}");
}

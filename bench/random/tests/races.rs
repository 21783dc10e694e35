//! The schedules that are looked at for a race, and what document 02 says of some of them.

use model::ops::{acquire, read, release, write};
use model::{schedule, Case, Instr, Raced, Racer, Reason, Step};
use random::compare_races;
use states::States;

const fn issue(processor: u8) -> Step {
    Step::Issue { processor }
}

const fn commit(processor: u8, action: u8, source: u8) -> Step {
    Step::Commit { processor, action, source }
}

fn case(programs: [&[Instr]; 2]) -> Case {
    let mut case = Case::builder(2, 2);
    for (p, program) in programs.into_iter().enumerate() {
        case = case.preset(p, 0, 0).preset(p, 1, 1).program(p, program);
    }
    case.build().expect("a sound case")
}

fn race(programs: [&[Instr]; 2], steps: &[Step]) -> Raced {
    States.race(&case(programs).block(), &schedule(steps))
}

fn pair(programs: [&[Instr]; 2], steps: &[Step]) -> Option<[u8; 2]> {
    let raced = race(programs, steps);
    assert_eq!(raced.replayed.code, 0);
    raced.pair
}

#[test]
fn races_go_deep() {
    let tally = compare_races(1, 4_000, &States, &States).unwrap_or_else(|mismatch| panic!("{mismatch:?}"));
    println!("{tally}");
    assert!(tally.deep(), "{tally}");
}

/// Readings 26 to 28 of request 10.
#[test]
fn races_of_the_readings() {
    let both = [issue(0), issue(1), commit(0, 0, 0), commit(1, 1, 0)];
    assert_eq!(pair([&[write(0, 1)], &[read(2, 0)]], &both), Some([0, 1]));
    assert_eq!(pair([&[read(2, 0)], &[read(2, 0)]], &both), None);
    assert_eq!(pair([&[write(0, 1)], &[read(2, 1)]], &[both[0], both[1], both[2], commit(1, 1, 1)]), None);
    assert_eq!(pair([&[write(0, 1)], &[]], &[]), None);
    let own = [issue(0), issue(0), commit(0, 1, 0), commit(0, 0, 0)];
    assert_eq!(pair([&[write(0, 1), write(0, 0)], &[]], &own), None);
    let waits = race([&[write(0, 1)], &[]], &[issue(0)]).replayed;
    assert_eq!((waits.code, waits.steps, waits.place), (Reason::Queued.code(), 1, None));
    let stopped = race([&[write(0, 1)], &[]], &[issue(0), issue(0)]).replayed;
    assert_eq!((stopped.code, stopped.steps), (Reason::AtEnd.code(), 1));
}

#[test]
fn a_lock_orders_its_own_sections_alone() {
    let one: [&[Instr]; 2] = [&[acquire(1), write(0, 1), release(1)], &[acquire(1), read(2, 0), release(1)]];
    let two: [&[Instr]; 2] = [one[0], &[acquire(0), read(2, 0), release(0)]];
    let mut steps = [0, 0, 0, 1, 1, 1].map(issue).to_vec();
    steps.extend([(0, 0), (0, 1), (0, 2), (1, 3)].map(|(processor, action)| commit(processor, action, 0)));
    steps.extend([commit(1, 4, 9), commit(1, 5, 0)]);
    assert_eq!(pair(one, &steps), None);
    assert_eq!(pair(two, &steps), Some([1, 4]));
}

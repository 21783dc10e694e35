//! The first race: the library against the closure over a schedule's events, and the boot hand-off.

use std::collections::BTreeSet;

use random::{compare_races, Rng};
use states::Run;
use womm::{clause, ops, Answer, Case, Reason, Step};

#[test]
fn the_library_and_states_agree_on_races() {
    let tally = compare_races(10, 10_000, &states::States, &womm::Guarded).unwrap_or_else(|mismatch| panic!("{mismatch:?}"));
    println!("{tally}");
    assert!(tally.deep() && tally.finished() >= 5_000, "{tally}");
}

/// The schedule that loses the baseline races on x: the sender's write of it and the receiver's read.
#[test]
fn the_race_that_loses_the_baseline() {
    let case = Case::from(shapes::message().build().unwrap());
    let Answer::Yes(schedule) = case.ask(8, &[clause(1, 2).is(1), clause(1, 3).is(0)]).unwrap() else {
        panic!("the baseline can be lost")
    };
    let race = case.race(&schedule).unwrap().race.unwrap();
    let instr = |access: womm::Access| (access.at.processor, access.at.place, access.at.instr);
    let mut told = [instr(race.first), instr(race.second)];
    told.sort_by_key(|&(processor, place, _)| (processor, place));
    assert_eq!(told, [(0, 0, ops::write(0, 1)), (1, 1, ops::read(3, 0))]);
}

/// Of the hand-off's finished runs each races outside a lock, and none inside, whichever result it has.
#[test]
fn no_race_inside_a_lock() {
    let mut rng = Rng::new(4);
    let [plain, locked] = [shapes::message(), shapes::locked_message()].map(|case| case.build().unwrap());
    let mut seen = BTreeSet::new();
    for _ in 0..500 {
        let racing =
            |case: &model::Case, rng: &mut Rng| Case::from(case.clone()).race(&finished(case, rng)).unwrap().race.is_some();
        assert!(racing(&plain, &mut rng));
        assert!(!racing(&locked, &mut rng));
        let replay = Case::from(locked.clone()).replay(&finished(&locked, &mut rng)).unwrap();
        seen.insert(replay.ending.outcome.registers[1][2]);
    }
    assert_eq!(seen.len(), 2);
}

/// A finished run, step by step as it comes.
fn finished(case: &model::Case, rng: &mut Rng) -> Vec<Step> {
    let mut run = Run::new(case);
    let mut steps = vec![];
    while !run.finished() {
        let step = rng.pick(&run.accepted());
        run.take(step.bytes()).unwrap();
        steps.push(step);
    }
    steps
}

#[test]
fn a_typed_race() {
    let issue = |processor| Step::Issue { processor };
    let commit = |processor, action| Step::Commit { processor, action, source: 0 };
    let case = shapes::usual(1, &[&[ops::goto(1), ops::write(0, 1)], &[ops::read(2, 0)]]);
    let case = Case::from(case.build().unwrap());
    let steps = [issue(1), issue(0), issue(0), commit(0, 2), commit(1, 0), commit(0, 1)];
    let racing = case.race(&steps).unwrap();
    assert_eq!((racing.steps, racing.stopped), (6, None));
    let race = racing.race.unwrap();
    assert_eq!((race.first.action, race.first.issued, race.second.action, race.second.issued), (0, 1, 2, 3));
    assert_eq!(race.first.to_string(), "processor 1, instruction 0, read, committed in step 5");
    assert_eq!(race.second.to_string(), "processor 0, instruction 1, write, committed in step 4");
    assert_eq!(case.race(&steps[..5]), Err(Reason::Queued.into()));
    let stopped = case.race(&[steps[0], issue(1)]).unwrap();
    assert_eq!((stopped.steps, stopped.stopped.map(|stop| stop.reason), stopped.race), (1, Some(Reason::AtEnd), None));
    assert_eq!(case.race(&[]).unwrap().race, None);
    assert_eq!(case.race(&[steps[0]; 97]), Err(Reason::ScheduleLength.into()));
}

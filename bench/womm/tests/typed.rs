//! The typed calls.

use womm::{clause, Answer, Case, Reason, Step, Stop, Wait};

#[test]
fn a_typed_replay() {
    let case = Case::from(shapes::usual(1, &[&[womm::ops::read(2, 0)]]).build().unwrap());
    let steps = [Step::Issue { processor: 0 }, Step::Commit { processor: 0, action: 0, source: 0 }];
    let replay = case.replay(&[steps[0], steps[1], steps[0]]).unwrap();
    assert_eq!((replay.steps, replay.stopped), (2, Some(Stop { reason: Reason::AtEnd, at: None })));
    assert_eq!(replay.ending.outcome.registers[0][..3], [Some(0), Some(1), Some(0)]);
    assert_eq!((replay.ending.places[0], replay.ending.queues[0]), (Some(1), 0));
    assert_eq!(case.replay(&[steps[0]; 97]), Err(Reason::ScheduleLength.into()));
}

#[test]
fn a_stop_names_its_instruction() {
    let case = Case::from(shapes::locked_message().build().unwrap());
    let issue = Step::Issue { processor: 1 };
    let early = Step::Commit { processor: 1, action: 2, source: 0 };
    let replay = case.replay(&[issue, issue, issue, early]).unwrap();
    let stop = replay.stopped.unwrap();
    assert_eq!((replay.steps, stop.reason), (3, Reason::HeldBack));
    assert_eq!(stop.to_string(), "held back by the table: processor 1, instruction 2, read");
}

#[test]
fn why_a_processor_waits() {
    let issue = |processor| Step::Issue { processor };
    let commit = |processor, action| Step::Commit { processor, action, source: 0 };
    let case = Case::from(shapes::locked_message().build().unwrap());
    let waiting = case.why(&[issue(0), commit(0, 0), issue(1)]).unwrap();
    assert_eq!(waiting.waits, [Wait::Nothing, Wait::HeldByAnother]);
    assert_eq!(waiting.waits[1].to_string(), "acquire of a location held by another");
    let waiting = case.why(&[issue(0), issue(1), commit(1, 0)]).unwrap();
    assert_eq!((waiting.steps, waiting.stopped.map(|stop| stop.reason)), (2, Some(Reason::NoSuchAction)));
    assert_eq!(waiting.waits, [Wait::MayCommit; 2]);
    let alone = |program: &[womm::Instr]| Case::from(shapes::usual(1, &[program]).build().unwrap());
    let wait = |program: &[womm::Instr]| alone(program).why(&[issue(0)]).unwrap().waits;
    assert_eq!(wait(&[womm::ops::acquire(1)]), [Wait::NoLocation]);
    assert_eq!(wait(&[womm::ops::release(0)]), [Wait::NotHeld]);
    assert_eq!(wait(&[womm::ops::add(2, 2, 2)]), [Wait::Undefined]);
    assert_eq!(case.why(&[issue(0); 97]), Err(Reason::ScheduleLength.into()));
}

#[test]
fn a_typed_list() {
    let case = Case::from(shapes::message().build().unwrap());
    let listing = case.outcomes(8).unwrap();
    let seen: Vec<_> = listing.outcomes.iter().map(|outcome| outcome.registers[1][2..4].to_vec()).collect();
    assert_eq!(seen, [[0, 0], [0, 1], [1, 0], [1, 1]].map(|row| row.map(Some).to_vec()));
    assert!(!listing.cut);
    assert_eq!(case.outcomes_up_to(8, 3), Err(Reason::Room.into()));
    assert_eq!(case.outcomes(97), Err(Reason::Bound.into()));
}

#[test]
fn a_typed_question() {
    let case = Case::from(shapes::message().build().unwrap());
    let lost = [clause(1, 2).is(1), clause(1, 3).is(0), clause(1, 4).undefined()];
    let Answer::Yes(schedule) = case.ask(8, &lost).unwrap() else { panic!("the bad result is possible") };
    let replay = case.replay(&schedule).unwrap();
    assert_eq!((replay.steps, replay.stopped), (8, None));
    assert!(lost.iter().all(|clause| clause.met(&replay.ending.outcome)));
    assert_eq!(case.ask(7, &lost), Ok(Answer::No { cut: true }));
    assert_eq!(case.ask(8, &[clause(1, 3).undefined()]), Ok(Answer::No { cut: false }));
    assert_eq!(case.ask(97, &[clause(2, 0).is(0)]), Err(Reason::Bound.into()));
    for refused in [[clause(2, 0).is(0)].as_slice(), &[clause(0, 8).undefined()], &[clause(0, 0).is(0); 9]] {
        assert_eq!(case.ask(8, refused), Err(Reason::Clauses.into()));
    }
    assert!(matches!(case.ask(8, &[clause(0, 0).is(0); 8]), Ok(Answer::Yes(_))));
}

#[test]
fn a_block_read_and_written() {
    let block = shapes::message().build().unwrap().block();
    assert_eq!(womm::check_block(&block), Ok(false));
    let mut open = block;
    open[510..].fill(0xC7);
    assert_eq!(womm::check_block(&open), Err(Reason::Check.into()));
    assert_eq!((womm::seal_block(&mut open), open), (Ok(()), block));
    for bound in 1..=96 {
        let mut old = model::block::with_bound(block, bound);
        assert_eq!(womm::check_block(&old), Ok(true));
        assert_eq!((womm::seal_block(&mut old), old), (Ok(()), block));
    }
    let mut bad = block;
    bad[381] = 1;
    let refusal = womm::seal_block(&mut bad).unwrap_err();
    assert_eq!((refusal.reason, refusal.position, bad), (Reason::Unused, Some(381), [0; 512]));
    let mut slip = block;
    slip[173] = 9;
    let refusal = womm::seal_block(&mut slip).unwrap_err();
    assert!(refusal.to_string().ends_with(": byte 173, processor 1, instruction 1, b"), "{refusal}");
    for length in (0..600).filter(|&length| length != 512) {
        let mut other = vec![0xC7; length];
        assert_eq!(womm::check_block(&other), Err(Reason::BlockLength.into()));
        assert_eq!((womm::seal_block(&mut other), other), (Err(Reason::BlockLength.into()), vec![0; length]));
    }
}

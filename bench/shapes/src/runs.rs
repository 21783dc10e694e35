//! Shapes of one schedule.

use model::ops::*;
use model::{block, clause, schedule, CaseBuilder, Clause, Instr, Outcome, Step};
use states::Answer;

use crate::lists::{figure_2, figure_8};
use crate::{damaged, usual, Damaged, Run};

fn issue(processor: u8) -> Step {
    Step::Issue { processor }
}

/// A commit that is not a read's.
fn commit(processor: u8, action: u8) -> Step {
    Step::Commit { processor, action, source: 0 }
}

/// A read's commit, taking the value of an item.
fn take(processor: u8, action: u8, source: u8) -> Step {
    Step::Commit { processor, action, source }
}

fn run(name: &'static str, case: CaseBuilder, steps: &[Step], code: u32) -> Run {
    let case = case.build().expect("a sound case");
    let taken = steps.len() as u32 - u32::from(code != 0);
    Run { name, block: case.block().to_vec(), schedule: schedule(steps), code, steps: taken, place: None, position: 0 }
}

impl Run {
    /// With the place of the refused step's instruction.
    fn at(self, place: u8) -> Run {
        Run { place: Some(place), ..self }
    }
}

/// The lowest run that ends with these registers.
fn lowest(name: &'static str, case: CaseBuilder, wanted: &[Clause]) -> Run {
    let sound = case.clone().build().expect("a sound case");
    let instructions: usize = sound.processors().iter().map(|processor| processor.program.len()).sum();
    let meets = |outcome: &Outcome| wanted.iter().all(|clause| clause.met(outcome));
    match states::ask(&sound, 2 * instructions as u8, meets) {
        Answer::Yes(steps) => run(name, case, &steps, 0),
        Answer::No { .. } => panic!("no schedule reaches the result of {name}"),
    }
}

/// One processor and one location.
fn alone(program: &[Instr]) -> CaseBuilder {
    usual(1, &[program])
}

/// Every run, those of document 01 and source 000 first.
pub fn runs() -> Vec<Run> {
    let steps = [scope(), bad_steps(), refused_issues(), refused_commits(), behind_the_lock(), hidden(), second_round()];
    [steps.concat(), old_blocks(), refused_inputs()].concat()
}

fn scope() -> Vec<Run> {
    let second_first = [issue(0), issue(0), commit(0, 1)];
    let finishes = [issue(0), commit(0, 0), issue(0), commit(0, 1), issue(0), commit(0, 2)];
    // The trace that source 000 gives in section 4.
    let trace = [issue(0), issue(1), issue(0), issue(1), commit(0, 2), commit(1, 3), take(0, 0, 11), take(1, 1, 10)];
    vec![
        lowest("000-figure-2", figure_2(), &[clause(1, 2).is(1), clause(1, 3).is(2), clause(2, 2).is(2), clause(2, 3).is(1)]),
        lowest("000-figure-8", figure_8(), &[clause(0, 2).is(1), clause(1, 2).is(1)]),
        run("000-figure-8-trace", figure_8(), &trace, 0),
        run("goto-0-49th", alone(&[goto(0)]), &[issue(0); 49], 23).at(0),
        run("acquire-acquire-release", alone(&[acquire(0), acquire(0), release(0)]), &finishes, 0),
        run("acquire-out-of-turn", alone(&[acquire(0), acquire(0)]), &second_first, 28).at(1),
        run("acquire-M", alone(&[acquire(1)]), &[issue(0), commit(0, 0)], 30).at(0),
    ]
}

fn bad_steps() -> Vec<Run> {
    let raw = |name, step: [u8; 4]| Run { schedule: step.to_vec(), steps: 0, code: 20, ..run(name, alone(&[]), &[], 0) };
    vec![
        raw("kind-2", [2, 0, 0, 0]),
        raw("processor-P", [1, 1, 0, 0]),
        raw("issue-byte-2", [0, 0, 1, 0]),
        raw("issue-byte-3", [0, 0, 0, 1]),
    ]
}

fn refused_issues() -> Vec<Run> {
    vec![
        run("issue-after-branch", alone(&[branch(0, 0)]), &[issue(0), issue(0)], 21),
        run("issue-at-end", alone(&[]), &[issue(0)], 22),
        run("address-undefined", alone(&[read(2, 3), set(3, 0)]), &[issue(0)], 24).at(0),
        run("address-queued", alone(&[set(3, 0), write(3, 1)]), &[issue(0), issue(0)], 24).at(1),
        run("address-M", alone(&[write(1, 1)]), &[issue(0)], 25).at(0),
    ]
}

fn refused_commits() -> Vec<Run> {
    let two = |a: &[Instr], b: &[Instr]| usual(1, &[a, b]);
    let held = [issue(0), commit(0, 0), issue(1), commit(1, 1)];
    vec![
        run("commit-not-issued", alone(&[goto(1)]), &[commit(0, 0)], 26),
        run("commit-of-another", two(&[goto(1)], &[]), &[issue(0), commit(1, 0)], 26),
        run("commit-twice", alone(&[goto(1)]), &[issue(0), commit(0, 0), commit(0, 0)], 26),
        run("source-of-a-write", alone(&[write(0, 1)]), &[issue(0), take(0, 0, 1)], 27).at(0),
        run("read-past-write", alone(&[write(0, 1), read(2, 0)]), &[issue(0), issue(0), take(0, 1, 0)], 28).at(1),
        run("read-past-acquire", alone(&[acquire(0), read(2, 0)]), &[issue(0), issue(0), take(0, 1, 0)], 28).at(1),
        run("release-past-goto", alone(&[goto(1), release(0)]), &[issue(0), issue(0), commit(0, 1)], 28).at(1),
        run("write-past-read", alone(&[read(2, 0), write(0, 1)]), &[issue(0), issue(0), commit(0, 1)], 0),
        run("value-undefined", alone(&[write(0, 2), set(2, 1)]), &[issue(0), commit(0, 0)], 29).at(0),
        run("release-of-free", alone(&[release(0)]), &[issue(0), commit(0, 0)], 31).at(0),
        run("acquire-of-held", two(&[acquire(0)], &[acquire(0)]), &held, 31).at(0),
    ]
}

/// Request 03: a branch or goto waits for every acquire issued before it, of whatever location, and for nothing else.
fn behind_the_lock() -> Vec<Run> {
    let past = [issue(0), issue(0), commit(0, 1)];
    let past_the_second = [issue(0), commit(0, 0), issue(0), issue(0), commit(0, 2)];
    let after = [issue(0), issue(0), commit(0, 0), commit(0, 1)];
    let (branches, gotos) = (alone(&[acquire(0), branch(1, 0)]), alone(&[acquire(0), goto(2)]));
    let two = usual(2, &[&[acquire(0), acquire(1), branch(1, 3)]]);
    let undefined = alone(&[acquire(0), branch(2, 0), set(2, 1)]);
    vec![
        run("branch-past-acquire", branches.clone(), &past, 28).at(1),
        run("goto-past-acquire", gotos.clone(), &past, 28).at(1),
        run("branch-past-second-acquire", two, &past_the_second, 28).at(2),
        run("goto-past-release", alone(&[acquire(0), release(0), goto(3)]), &past_the_second, 0),
        run("branch-after-acquire", branches.clone(), &after, 0),
        run("goto-after-acquire", gotos, &after, 0),
        run("branch-source-past-acquire", branches, &[issue(0), issue(0), take(0, 1, 1)], 27).at(1),
        run("branch-undefined-past-acquire", undefined, &past, 28).at(1),
    ]
}

/// What a read may not take: document 01's wrong readings among them.
fn hidden() -> Vec<Run> {
    let pair = usual(2, &[&[write(0, 1)], &[read(2, 0)]]);
    let late = [issue(0), issue(1), issue(0), commit(0, 0), issue(0), commit(0, 2), commit(0, 3), commit(1, 1)];
    let late = [&late[..], &[issue(1), take(1, 4, 0)]].concat();
    let locked = usual(2, &[&[acquire(1), write(0, 1), release(1)], &[acquire(1), read(2, 0)]]);
    let own = alone(&[write(0, 1), read(2, 0)]);
    vec![
        run("source-without-value", pair.clone(), &[issue(0), issue(1), take(1, 1, 8)], 32).at(0),
        run("source-not-issued", pair.clone(), &[issue(1), take(1, 0, 9)], 32).at(0),
        run("source-a-read", pair.clone(), &[issue(1), take(1, 0, 8)], 32).at(0),
        run("source-elsewhere", pair.clone(), &[issue(1), take(1, 0, 1)], 32).at(0),
        run("source-old", pair, &[issue(0), commit(0, 0), issue(1), take(1, 1, 0)], 0),
        run("source-own-later", alone(&[read(2, 0), write(0, 1)]), &[issue(0), issue(0), commit(0, 1), take(0, 0, 9)], 32).at(0),
        run("source-overwritten", own, &[issue(0), commit(0, 0), issue(0), take(0, 1, 0)], 32).at(1),
        run("acquire-issued-early", locked, &late, 32).at(1),
    ]
}

/// Request 06: in the second round of a loop, place and action number differ.
fn second_round() -> Vec<Run> {
    let round = |rest: &[Step]| [&[issue(0), issue(0), issue(0)], rest].concat();
    let (writes, reads) = (alone(&[write(0, 1), goto(0)]), alone(&[read(2, 0), goto(0)]));
    let moves = alone(&[goto(1), write(2, 1), set(2, 1), goto(1)]).preset(0, 2, 0);
    let addressed = [issue(0), issue(0), issue(0), commit(0, 2), issue(0), issue(0)];
    vec![
        run("place-27", writes, &round(&[take(0, 2, 1)]), 27).at(0),
        run("place-28", alone(&[acquire(0), goto(0)]), &round(&[commit(0, 2)]), 28).at(0),
        run("place-32", reads.clone(), &round(&[take(0, 2, 9)]), 32).at(0),
        run("place-26", reads, &round(&[commit(0, 3)]), 26),
        run("place-25", moves, &addressed, 25).at(1),
    ]
}

/// Request 12: a block with a usual bound is replayed as one without.
fn old_blocks() -> Vec<Run> {
    let old = |run: Run, name, bound| {
        let block = run.block[..].try_into().expect("a block");
        Run { name, block: block::with_bound(block, bound).to_vec(), ..run }
    };
    let steps = [issue(0), issue(0), commit(0, 1)];
    let (whole, held) = (alone(&[goto(1), goto(2)]), alone(&[acquire(0), goto(2)]));
    vec![old(run("", whole, &steps, 0), "old-bound-1", 1), old(run("", held, &steps, 28).at(1), "old-bound-96", 96)]
}

/// Refusals before the first step: a block's whatever the schedule is, then the schedule's.
fn refused_inputs() -> Vec<Run> {
    let sound = alone(&[goto(1)]).build().expect("a sound case").block();
    let given = |name, schedule| Run { name, block: sound.to_vec(), schedule, code: 8, steps: 0, place: None, position: 0 };
    let refused = damaged().into_iter().map(|damaged| {
        let Damaged { name, block, code, position } = damaged;
        // Bytes that follow a short block would be taken as its own.
        let schedule = if code == 1 { vec![] } else { vec![9] };
        Run { name, block, schedule, code, steps: 0, place: None, position }
    });
    refused.chain([given("schedule-piece", vec![0, 0, 0, 0, 1]), given("schedule-long", vec![0; 388])]).collect()
}

//! Where the literal theorem on race-free programs fails, by the models.

use std::collections::BTreeSet;

use model::{Board, Step};
use shapes::{escapes, Escape};
use states::Run;

#[test]
fn results_on_both_machines() {
    for Escape { shape, sequential } in escapes() {
        let womm = states::list(&shape.case, shape.bound);
        assert!(shape.expects(&womm.outcomes) && !womm.cut, "{}: {:?}", shape.name, womm.outcomes);
        let sc = boards::list(Board::Sc, &shape.case, shape.instructions());
        let seen: BTreeSet<Vec<u16>> =
            sc.outcomes.iter().map(|outcome| shape.seen(outcome).into_iter().flatten().collect()).collect();
        assert!(seen == sequential && !sc.cut, "{}: {seen:?}", shape.name);
        assert!(sc.outcomes.len() < womm.outcomes.len(), "{}", shape.name);
    }
}

/// The next instruction of a processor, issued and committed at once; a read takes the newest write.
fn instruction<'a>(run: &Run<'a>, processor: u8) -> Option<(Run<'a>, [[u8; 4]; 2])> {
    let issue = Step::Issue { processor }.bytes();
    let mut run = run.clone();
    run.take(issue).ok()?;
    let newest = run.actions() as u8 - 1;
    let commits = run.accepted().into_iter().map(|step| step.bytes());
    let commit = commits.filter(|step| step[0] == 1 && step[2] == newest).max_by_key(|step| step[3])?;
    run.take(commit).expect("an accepted step");
    Some((run, [issue, commit]))
}

/// Every sequential run from here on; how many end, and none of them has a race.
fn look(run: &Run, schedule: &[u8]) -> usize {
    assert!(run.races(schedule).is_empty(), "{schedule:?}");
    let nexts: Vec<_> = (0..2).filter_map(|p| instruction(run, p)).collect();
    let more = |(next, steps): &(Run, [[u8; 4]; 2])| look(next, &[schedule, &steps.concat()].concat());
    if nexts.is_empty() {
        1
    } else {
        nexts.iter().map(more).sum()
    }
}

#[test]
fn no_sequential_run_of_them_races() {
    for Escape { shape, .. } in escapes() {
        let runs = look(&Run::new(&shape.case), &[]);
        println!("{}: {runs} sequential runs", shape.name);
        assert!(runs > 1, "{}", shape.name);
    }
}

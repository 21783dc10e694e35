//! The shapes' numbers, by both enumerators.

use std::fs;
use std::path::Path;

use model::{clause, Asked, Asker, Codec, Lister, Read, Replayed, Replayer, RECORD, SCHEDULE};
use plain::Plain;
use shapes::{damaged, lists, runs, wishes, Shape};
use states::States;

/// Schedules beyond which the search without a memory takes too long for a test.
const PLAIN: u128 = 3_000_000;

fn shape(name: &str) -> Shape {
    lists().into_iter().find(|shape| shape.name == name).unwrap()
}

#[test]
fn states_finds_what_is_expected() {
    for shape in lists() {
        let listing = states::list(&shape.case, shape.bound);
        assert!(shape.expects(&listing.outcomes), "{}: {:?}", shape.name, listing.outcomes);
        assert_eq!(listing.cut, shape.cut, "{}", shape.name);
    }
}

#[test]
fn plain_finds_the_same() {
    let mut agreed = 0;
    for shape in lists() {
        let listing = states::list(&shape.case, shape.bound);
        if listing.schedules <= PLAIN {
            let plain = plain::list(&shape.case, shape.bound);
            assert_eq!((plain.outcomes, plain.cut), (listing.outcomes, listing.cut), "{}", shape.name);
            assert_eq!(u128::from(plain.nodes), listing.schedules, "{}", shape.name);
            agreed += 1;
        }
    }
    assert!(agreed >= 25, "{agreed}");
}

#[test]
fn runs_end_as_expected() {
    for run in runs() {
        let expected = run.replayed();
        let (mut result, mut other) = ([7; 104], [9; 104]);
        assert_eq!(States.replay(&run.block, &run.schedule, &mut result), expected, "{}", run.name);
        assert_eq!(Plain.replay(&run.block, &run.schedule, &mut other), expected, "{}", run.name);
        assert_eq!(result, other, "{}", run.name);
    }
}

/// Document 01 prints H's list in full.
#[test]
fn h_is_printed() {
    let h = shape("H-8");
    let lines: Vec<String> = states::list(&h.case, 8).outcomes.iter().map(|outcome| outcome.line(2)).collect();
    let expected = [
        "p0 0 1 - - - - - - p1 0 1 0 0 - - - -",
        "p0 0 1 - - - - - - p1 0 1 0 1 - - - -",
        "p0 0 1 - - - - - - p1 0 1 1 0 - - - -",
        "p0 0 1 - - - - - - p1 0 1 1 1 - - - -",
    ];
    assert_eq!(lines, expected);
}

#[test]
fn h_needs_room_for_four() {
    let block = shape("H-8").case.block();
    let listers: [&dyn Lister; 2] = [&States, &Plain];
    for lister in listers {
        let mut short = [7; 4 * RECORD - 1];
        let refused = lister.outcomes(&block, 8, &mut short);
        assert_eq!((refused.code, refused.count, refused.cut), (11, 0, false));
        assert!(short.iter().all(|&byte| byte == 0));
        let mut enough = [7; 4 * RECORD];
        let listed = lister.outcomes(&block, 8, &mut enough);
        assert_eq!((listed.code, listed.count, listed.cut), (0, 4, false));
        let mut more = [7; 5 * RECORD + 5];
        assert_eq!(lister.outcomes(&block, 8, &mut more), listed);
        assert_eq!(more[..4 * RECORD], enough);
        assert!(more[4 * RECORD..].iter().all(|&byte| byte == 0));
        let refused = lister.outcomes(&block, 97, &mut more);
        assert_eq!((refused.code, refused.count, more), (10, 0, [0; 5 * RECORD + 5]));
    }
}

/// Reading 1 of request 05: H's bad result takes 32 bytes, and the lowest schedule issues everything first.
#[test]
fn the_lowest_schedule_of_h() {
    let block = shapes::message().build().unwrap().block();
    let wanted = [clause(1, 2).is(1), clause(1, 3).is(0)];
    let expected = [0, 0, 0, 0, 0, 0, 0, 0, 0, 1, 0, 0, 0, 1, 0, 0, 1, 0, 0, 0, 1, 0, 1, 0, 1, 1, 2, 9, 1, 1, 3, 0];
    let askers: [&dyn Asker; 2] = [&States, &Plain];
    for asker in askers {
        let mut schedule = [7; SCHEDULE];
        assert_eq!(asker.ask(&block, 8, &wanted, &mut schedule), Asked::yes(32));
        assert_eq!((&schedule[..32], &schedule[32..]), (&expected[..], &[0; 352][..]));
        assert_eq!(asker.ask(&block, 7, &wanted, &mut schedule), Asked::no(true));
        assert_eq!(schedule, [0; SCHEDULE]);
        assert_eq!(asker.ask(&block, 8, &[clause(1, 2).undefined()], &mut schedule), Asked::no(false));
        assert_eq!(asker.ask(&block, 8, &[clause(1, 2).is(1), clause(1, 2).is(0)], &mut schedule), Asked::no(false));
        assert_eq!(asker.ask(&block, 8, &[], &mut schedule), Asked::yes(32));
    }
}

/// Reading 18: nothing to do is done at once.
#[test]
fn any_outcome_of_nothing() {
    let block = shapes::usual(1, &[&[]]).build().unwrap().block();
    assert_eq!(States.ask(&block, 0, &[], &mut [7; SCHEDULE]), Asked::yes(0));
    assert_eq!(Plain.ask(&block, 0, &[], &mut [7; SCHEDULE]), Asked::yes(0));
}

/// Both answer every wish on one register of the smaller shapes alike, and yes exactly if the list holds it.
#[test]
fn wishes_are_answered_alike() {
    for shape in lists() {
        let listing = states::list(&shape.case, shape.bound);
        if listing.schedules > 5_000 {
            continue;
        }
        let block = shape.case.block();
        for wish in wishes(&shape.case, &listing.outcomes) {
            let (mut schedule, mut other) = ([7; SCHEDULE], [9; SCHEDULE]);
            let asked = States.ask(&block, shape.bound.into(), &[wish], &mut schedule);
            assert_eq!(Plain.ask(&block, shape.bound.into(), &[wish], &mut other), asked, "{} {wish:?}", shape.name);
            assert_eq!(schedule, other, "{} {wish:?}", shape.name);
            assert_eq!(asked.yes, listing.outcomes.iter().any(|outcome| wish.met(outcome)), "{} {wish:?}", shape.name);
            assert_eq!(asked.cut, !asked.yes && listing.cut, "{} {wish:?}", shape.name);
        }
    }
}

/// Source 000's shown results, read from the result buffer of the stored schedules.
#[test]
fn figures_show_their_results() {
    for (name, registers) in [
        ("000-figure-2", vec![(1, 2, 1), (1, 3, 2), (2, 2, 2), (2, 3, 1)]),
        ("000-figure-8", vec![(0, 2, 1), (1, 2, 1)]),
        ("000-figure-8-trace", vec![(0, 2, 1), (1, 2, 1)]),
    ] {
        let run = runs().into_iter().find(|run| run.name == name).unwrap();
        let mut result = [0; 104];
        States.replay(&run.block, &run.schedule, &mut result);
        for (p, k, value) in registers {
            assert_eq!(result[24 * p + 3 * k..][..3], [1, 0, value], "{name}");
        }
        assert_eq!(result[100..], [0; 4], "{name}");
    }
}

/// A replay stopped by a step leaves the state before it; one refused before leaves zeros.
#[test]
fn what_a_refusal_leaves() {
    let run = runs().into_iter().find(|run| run.name == "issue-after-branch").unwrap();
    let mut result = [7; 104];
    States.replay(&run.block, &run.schedule, &mut result);
    assert_eq!(result[..9], [1, 0, 0, 1, 0, 1, 0, 0, 0]);
    assert_eq!(result[96..], [255, 0, 0, 0, 1, 0, 0, 0]);
    for length in [0, 103, 105] {
        let mut result = vec![7; length];
        assert_eq!(
            States.replay(&run.block, &run.schedule, &mut result),
            Replayed { code: 9, steps: 0, place: None, position: 0 }
        );
        assert_eq!(result, vec![0; length]);
    }
}

/// The files in `inputs/` are those that `write-inputs` makes, and no others.
#[test]
fn stored_inputs_are_up_to_date() {
    let dir = Path::new(env!("CARGO_MANIFEST_DIR")).join("../inputs");
    let made = shapes::stored();
    for (path, bytes) in &made {
        assert_eq!(&fs::read(dir.join(path)).unwrap(), bytes, "{path}");
    }
    let held = |folder: &str| fs::read_dir(dir.join(folder)).unwrap().count();
    assert_eq!(held("replay") + held("outcomes"), made.len());
}

/// By both judges, and where a list is asked for.
#[test]
fn damaged_blocks_name_their_byte() {
    for damaged in damaged() {
        let expected = Read { code: damaged.code, position: damaged.position, usual: false };
        assert_eq!(States.read(&damaged.block), expected, "{}", damaged.name);
        assert_eq!(Plain.read(&damaged.block), expected, "{}", damaged.name);
        let listed = States.outcomes(&damaged.block, 97, &mut []);
        assert_eq!((listed.code, listed.position), (damaged.code, damaged.position), "{}", damaged.name);
    }
}

#[test]
fn replay_prints_what_is_expected() {
    for run in runs() {
        let at = if (1..=7).contains(&run.code) || run.code == 19 { format!(" at {}", run.position) } else { String::new() };
        let expected = format!("code {} after {} steps{at}\n", run.code, run.steps);
        assert_eq!(shapes::replay_prints(&[run.block, run.schedule].concat()), expected, "{}", run.name);
    }
}

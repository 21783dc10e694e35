//! The library against the shapes: what is expected of them, and what the enumerator of states says.

use model::{Codec, Listed, Lister, Read, Replayer, RECORD};
use shapes::{damaged, lists, runs, Shape};
use states::States;
use womm::{Guarded, Outcome};

/// The records that the program `outcomes` has room for.
const ROOM: usize = 682;

fn shape(name: &str) -> Shape {
    lists().into_iter().find(|shape| shape.name == name).unwrap()
}

/// The library's answer and the buffer after it.
fn listed(shape: &Shape, bound: u8, room: usize) -> (Listed, Vec<u8>) {
    let mut records = vec![7; room];
    (Guarded.outcomes(&shape.case.block(), bound.into(), &mut records), records)
}

/// What a listing means for a buffer: the answer and every byte.
fn expected(listing: &states::Listing, room: usize) -> (Listed, Vec<u8>) {
    let count = listing.outcomes.len();
    if count > room / RECORD {
        return (Listed { code: 11, count: 0, cut: false, position: 0 }, vec![0; room]);
    }
    let mut records: Vec<u8> = listing.outcomes.iter().flat_map(|outcome| outcome.bytes()).collect();
    records.resize(room, 0);
    (Listed { code: 0, count: count as u32, cut: listing.cut, position: 0 }, records)
}

#[test]
fn shapes_have_the_outcomes_expected() {
    for shape in lists() {
        let (answer, records) = listed(&shape, shape.bound, ROOM * RECORD);
        assert_eq!((answer.code, answer.cut), (0, shape.cut), "{}", shape.name);
        let records = records.chunks_exact(RECORD).take(answer.count as usize);
        let outcomes: Vec<Outcome> = records.map(|record| Outcome::read(record.try_into().unwrap())).collect();
        assert!(outcomes.is_sorted(), "{}", shape.name);
        assert_eq!(outcomes.len(), shape.results.len(), "{}", shape.name);
        assert!(shape.expects(&outcomes.into_iter().collect()), "{}", shape.name);
    }
}

/// Also with one step less and one more, and with room for one record less.
#[test]
fn shapes_have_the_bytes_of_states() {
    for shape in lists() {
        for bound in [shape.bound.saturating_sub(1), shape.bound, 96.min(shape.bound + 1)] {
            let listing = states::list(&shape.case, bound);
            let exact = listing.outcomes.len() * RECORD;
            for room in [ROOM * RECORD, exact + 1, exact, exact.saturating_sub(1), 0] {
                assert_eq!(listed(&shape, bound, room), expected(&listing, room), "{} {bound} {room}", shape.name);
            }
        }
    }
}

/// Every length to 400 and around every multiple of 96 that the program has room for.
#[test]
fn h_in_every_room() {
    let h = shape("H-8");
    let listing = states::list(&h.case, 8);
    let around = (1..=ROOM).flat_map(|n| [n * RECORD - 1, n * RECORD, n * RECORD + 1]);
    for room in (0..=400).chain(around) {
        assert_eq!(listed(&h, 8, room), expected(&listing, room), "{room}");
    }
}

/// 256 outcomes, in buffers around every multiple of 96 up to one more.
#[test]
fn figure_2_in_many_rooms() {
    let figure = shape("000-figure-2");
    let listing = states::list(&figure.case, figure.bound);
    assert_eq!(listing.outcomes.len(), 256);
    for n in (1..=257).rev().step_by(16).chain([256]) {
        for room in [n * RECORD - 1, n * RECORD, n * RECORD + 1] {
            assert_eq!(listed(&figure, figure.bound, room), expected(&listing, room), "{room}");
        }
    }
}

/// Document 01's numbers for H.
#[test]
fn h_as_document_01_says() {
    let h = shape("H-8");
    let answer = |bound, room| listed(&h, bound, room).0;
    assert_eq!(answer(7, 384), Listed { code: 0, count: 0, cut: true, position: 0 });
    assert_eq!(answer(8, 384), Listed { code: 0, count: 4, cut: false, position: 0 });
    assert_eq!(answer(9, 384), Listed { code: 0, count: 4, cut: false, position: 0 });
    assert_eq!(listed(&h, 8, 383), (Listed { code: 11, count: 0, cut: false, position: 0 }, vec![0; 383]));
    assert_eq!(listed(&h, 97, 384), (Listed { code: 10, count: 0, cut: false, position: 0 }, vec![0; 384]));
    let (_, records) = listed(&h, 8, 384);
    let lines: Vec<String> =
        records.chunks_exact(RECORD).map(|record| Outcome::read(record.try_into().unwrap()).line(2)).collect();
    let printed = [
        "p0 0 1 - - - - - - p1 0 1 0 0 - - - -",
        "p0 0 1 - - - - - - p1 0 1 0 1 - - - -",
        "p0 0 1 - - - - - - p1 0 1 1 0 - - - -",
        "p0 0 1 - - - - - - p1 0 1 1 1 - - - -",
    ];
    assert_eq!(lines, printed);
}

/// `goto 0` alone: issue and commit in turn go on for 96 steps and never finish.
#[test]
fn a_loop_is_cut_at_every_bound() {
    let endless = shape("goto-0-1");
    for bound in 0..=96 {
        assert_eq!(listed(&endless, bound, 96), (Listed { code: 0, count: 0, cut: true, position: 0 }, vec![0; 96]), "{bound}");
    }
}

#[test]
fn runs_end_as_expected() {
    for run in runs() {
        let (mut result, mut expected) = ([7; 104], [9; 104]);
        let replayed = Guarded.replay(&run.block, &run.schedule, &mut result);
        assert_eq!(replayed, run.replayed(), "{}", run.name);
        States.replay(&run.block, &run.schedule, &mut expected);
        assert_eq!(result, expected, "{}", run.name);
    }
}

/// Each kind of bad byte of each code, where a block is read, written, listed and (above) replayed.
#[test]
fn damaged_blocks_name_their_byte() {
    for damaged in damaged() {
        let (code, position) = (damaged.code, damaged.position);
        assert_eq!(Guarded.read(&damaged.block), Read { code, position, usual: false }, "{}", damaged.name);
        let mut records = [7; 200];
        let expected = Listed { code, count: 0, cut: false, position };
        assert_eq!(Guarded.outcomes(&damaged.block, 97, &mut records), expected, "{}", damaged.name);
        assert_eq!(records, [0; 200], "{}", damaged.name);
        let (mut written, mut closed) = (damaged.block.clone(), damaged.block.clone());
        assert_eq!((Guarded.write(&mut written), written), (States.write(&mut closed), closed), "{}", damaged.name);
    }
}

/// Refusals in the order they are tried: a block's before a bound's or a schedule's, those before a buffer's.
#[test]
fn the_first_refusal_is_given() {
    let sound = shape("H-8").case.block();
    let mut unsealed = sound;
    unsealed[511] ^= 1;
    assert_eq!(Guarded.outcomes(&unsealed, 97, &mut []).code, 2);
    assert_eq!(Guarded.outcomes(&sound, 97, &mut []).code, 10);
    assert_eq!(Guarded.outcomes(&sound, 8, &mut []).code, 11);
    assert_eq!(Guarded.replay(&unsealed, &[0; 5], &mut []).code, 2);
    assert_eq!(Guarded.replay(&sound, &[0; 5], &mut []).code, 8);
    assert_eq!(Guarded.replay(&sound, &[9; 4], &mut []).code, 9);
    assert_eq!(Guarded.replay(&sound, &[9; 4], &mut [7; 104]).code, 20);
}

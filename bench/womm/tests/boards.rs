//! The library's store-buffer machines, beside those of the bench.

use boards::{list, Boards, Listing};
use model::{Board, BoardLister, Listed, RECORD};
use shapes::lists;
use womm::{Guarded, Reason};

/// What a listing means for a buffer: the answer and every byte.
fn expected(listing: &Listing, room: usize) -> (Listed, Vec<u8>) {
    let count = listing.outcomes.len();
    if count > room / RECORD {
        return (Listed::refused(Reason::Room.into()), vec![0; room]);
    }
    let mut records: Vec<u8> = listing.outcomes.iter().flat_map(|outcome| outcome.bytes()).collect();
    records.resize(room, 0);
    (Listed { code: 0, count: count as u32, cut: listing.cut, position: 0 }, records)
}

/// Every shape on every machine, also with one instruction less and one more, and with room for one record less.
#[test]
fn shapes_have_the_bytes_of_the_bench() {
    for shape in lists() {
        let bound = shape.instructions();
        for (board, bound) in
            Board::ALL.iter().flat_map(|&board| [bound.saturating_sub(1), bound, 48.min(bound + 1)].map(|bound| (board, bound)))
        {
            let listing = list(board, &shape.case, bound);
            let exact = listing.outcomes.len() * RECORD;
            for room in [exact + 2 * RECORD, exact, exact.saturating_sub(1)] {
                let mut records = vec![7; room];
                let listed = Guarded.board(board, &shape.case.block(), bound.into(), &mut records);
                assert_eq!((listed, records), expected(&listing, room), "{} {board:?} {bound} {room}", shape.name);
            }
        }
    }
}

#[test]
fn the_library_and_the_bench_agree_on_random_cases() {
    let tally = random::compare_boards(7, 1_000, &Boards, &Guarded).unwrap_or_else(|mismatch| panic!("{mismatch:?}"));
    println!("{tally}");
    assert!(tally.deep(), "{tally}");
}

#[test]
fn damaged_blocks_name_their_byte() {
    for damaged in shapes::damaged() {
        let (listed, mut records) = (Listed { code: damaged.code, count: 0, cut: false, position: damaged.position }, [7; 100]);
        for board in Board::ALL {
            assert_eq!(Guarded.board(board, &damaged.block, 49, &mut records), listed, "{}", damaged.name);
            assert_eq!(records, [0; 100]);
        }
    }
}

#[test]
fn a_typed_board() {
    let case = womm::Case::from(shapes::message().build().unwrap());
    let on = |board| case.outcomes_on(board, 4).unwrap().outcomes.len();
    assert_eq!(Board::ALL.map(on), [3, 3, 4]);
    assert_eq!(case.outcomes_on(Board::Sc, 49), Err(Reason::Bound.into()));
    assert!(case.outcomes_on(Board::Tso, 3).unwrap().cut);
}

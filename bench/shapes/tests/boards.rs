//! The store-buffer machines on the shapes.

use boards::list;
use model::{Board, BoardLister, Case, RECORD};
use shapes::{lists, usual, Shape};

fn shape(name: &str) -> Shape {
    lists().into_iter().find(|shape| shape.name == name).unwrap()
}

/// How many outcomes a shape has on each machine, WOMM last; nothing is cut.
fn counts(name: &str) -> [usize; 4] {
    let shape = shape(name);
    let on = |board| {
        let listing = list(board, &shape.case, shape.instructions());
        assert!(!listing.cut, "{name}");
        listing.outcomes.len()
    };
    let [sc, tso, pso] = Board::ALL.map(on);
    [sc, tso, pso, shape.results.len()]
}

/// What is known of the classics: SB needs a buffer, MP two, LB and CoRR more than buffers.
#[test]
fn classics_by_machine() {
    for (name, expected) in [
        ("H-8", [3, 3, 4, 4]),
        ("SB", [3, 4, 4, 4]),
        ("LB", [3, 3, 3, 4]),
        ("CoRR", [3, 3, 3, 4]),
        ("IRIW", [15, 15, 15, 16]),
        ("WRC", [7, 7, 7, 8]),
        ("H-locked", [2, 2, 2, 2]),
        ("SB-locked", [2, 2, 2, 2]),
        ("write-read", [1, 1, 1, 1]),
        ("read-write", [1, 1, 1, 1]),
    ] {
        assert_eq!(counts(name), expected, "{name}");
    }
}

/// Reading 22 of request 07: cut looks at place counters alone.
#[test]
fn cut_is_of_place_counters() {
    let h = shape("H-8").case;
    for board in Board::ALL {
        let listing = list(board, &h, 3);
        assert_eq!((listing.outcomes.len(), listing.cut), (0, true));
        assert!(!list(board, &h, 4).cut);
        let release = shape("release-1").case;
        assert!(list(board, &release, 0).cut && !list(board, &release, 1).cut);
        let endless = shape("goto-0-1").case;
        assert!((0..=48).all(|bound| list(board, &endless, bound).cut));
        let nothing = shape("nothing").case;
        assert_eq!((list(board, &nothing, 0).outcomes.len(), list(board, &nothing, 0).cut), (1, false));
    }
}

/// Reading 21: an acquire with a store still buffered is barred until it has drained.
#[test]
fn a_lock_waits_for_the_buffer() {
    use model::ops::*;
    let other = [read(2, 1), read(3, 0)];
    let case = |locked: bool| -> Case {
        let between: &[_] = if locked { &[acquire(4), release(4)] } else { &[] };
        let writes = [&[write(0, 1)], between, &[write(1, 1)]].concat();
        usual(3, &[&writes, &other]).preset(0, 4, 2).build().unwrap()
    };
    let sees = |case: &Case| list(Board::Pso, case, 6).outcomes.len();
    assert_eq!((sees(&case(false)), sees(&case(true))), (4, 3));
}

/// Each machine's outcomes are among the next one's, and PSO's among WOMM's for twice the bound.
#[test]
fn machines_lie_in_each_other() {
    for shape in lists() {
        let bound = shape.instructions();
        let [sc, tso, pso] = Board::ALL.map(|board| list(board, &shape.case, bound).outcomes);
        let womm = states::list(&shape.case, 2 * bound).outcomes;
        assert!(sc.is_subset(&tso) && tso.is_subset(&pso) && pso.is_subset(&womm), "{}", shape.name);
    }
}

#[test]
fn refusals_of_a_board() {
    let block = shape("H-8").case.block();
    let code = |block: &[u8], bound, room| {
        let mut records = vec![7; room];
        let listed = boards::Boards.board(Board::Pso, block, bound, &mut records);
        assert!(listed.code == 0 || records.iter().all(|&byte| byte == 0));
        listed.code
    };
    assert_eq!(code(&block[1..], 49, 0), 1);
    assert_eq!(code(&block, 49, 0), 10);
    assert_eq!(code(&block, 4, 4 * RECORD - 1), 11);
    assert_eq!(code(&block, 4, 4 * RECORD), 0);
}

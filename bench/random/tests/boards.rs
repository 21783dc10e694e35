//! The inputs of the store-buffer machines go deep, and no machine has an outcome that the next one lacks.

use boards::Boards;
use random::compare_boards;

#[test]
fn boards_go_deep() {
    let tally = compare_boards(1, 1_000, &Boards, &Boards).unwrap_or_else(|mismatch| panic!("{mismatch:?}"));
    println!("{tally}");
    assert!(tally.deep(), "{tally}");
}

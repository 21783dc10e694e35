//! `one SHAPE [TIMES]` lists one shape of the bench at its bound, so that `valgrind --tool=callgrind` can count what a list takes:
//! with TIMES and one more, the difference is one list's.

use std::env;

use model::{Lister, RECORD};
use womm::Library;

/// The records that the program `outcomes` has room for.
const ROOM: usize = 682;

fn main() {
    let words: Vec<String> = env::args().skip(1).collect();
    let (name, times) = match &words[..] {
        [name] => (name, 1),
        [name, times] => (name, times.parse().expect("a number of times")),
        _ => panic!("the name of a shape, then how many times"),
    };
    let shape = shapes::lists().into_iter().find(|shape| shape.name == name).expect("a shape of that name");
    let block = shape.case.block();
    let mut records = vec![0; ROOM * RECORD];
    for _ in 0..times {
        let listed = Library.outcomes(&block, shape.bound.into(), &mut records);
        assert_eq!(listed.code, 0);
    }
}

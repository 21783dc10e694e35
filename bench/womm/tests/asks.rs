//! The library's answers to wanted results, beside those of the enumerator of states.

use model::{Asked, Asker, Clause, SCHEDULE};
use shapes::{lists, wishes, Shape};
use states::{Answer, Listing};
use womm::{clause, Guarded};

fn shape(name: &str) -> Shape {
    lists().into_iter().find(|shape| shape.name == name).unwrap()
}

/// What the list, and for yes a search for the lowest schedule, say of a wish.
fn expected(shape: &Shape, listing: &Listing, wish: Clause) -> (Asked, Vec<u8>) {
    let mut schedule = vec![0; SCHEDULE];
    if !listing.outcomes.iter().any(|outcome| wish.met(outcome)) {
        return (Asked::no(listing.cut), schedule);
    }
    match states::ask(&shape.case, shape.bound, |outcome| wish.met(outcome)) {
        Answer::Yes(steps) => (Asked::yes(model::put_schedule(&mut schedule, &steps)), schedule),
        Answer::No { .. } => panic!("{}: the list holds {wish:?}", shape.name),
    }
}

/// Every shape with every wish on one register: yes or no, cut, and every byte of the schedule.
#[test]
fn shapes_with_every_wish_on_one_register() {
    let mut yes = 0;
    for shape in lists() {
        let listing = states::list(&shape.case, shape.bound);
        let block = shape.case.block();
        for wish in wishes(&shape.case, &listing.outcomes) {
            let mut schedule = vec![7; SCHEDULE];
            let asked = Guarded.ask(&block, shape.bound.into(), &[wish], &mut schedule);
            yes += usize::from(asked.yes);
            assert_eq!((asked, schedule), expected(&shape, &listing, wish), "{} {wish:?}", shape.name);
        }
    }
    println!("wishes met: {yes}");
    assert!(yes > 500, "{yes}");
}

/// A block's codes come first, then the bound's, the clauses', and the buffer's.
#[test]
fn the_first_refusal_is_given() {
    let sound = shape("H-8").case.block();
    let mut bad = sound;
    bad[3] = 1;
    model::block::seal(&mut bad);
    let absent = [clause(2, 0).is(0)];
    let code = |block: &[u8], bound, clauses: &[Clause], room: usize| {
        let mut schedule = vec![7; room];
        let asked = Guarded.ask(block, bound, clauses, &mut schedule);
        assert_eq!((asked.yes, asked.length, asked.cut, schedule), (false, 0, false, vec![0; room]));
        (asked.code, asked.position)
    };
    assert_eq!(code(&bad, 97, &absent, 0), (3, 3));
    assert_eq!(code(&sound, 97, &absent, 0), (10, 0));
    assert_eq!(code(&sound, 8, &absent, 0), (12, 0));
    assert_eq!(code(&sound, 8, &[clause(0, 0).is(0); 9], 0), (12, 0));
    for room in (0..400).filter(|&room| room != SCHEDULE) {
        assert_eq!(code(&sound, 8, &[clause(0, 0).is(0)], room), (13, 0));
    }
}

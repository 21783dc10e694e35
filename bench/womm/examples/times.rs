//! `times [MOST]` times the library beside the plain depth-first search, where that has at most so many
//! schedules to walk (by default 30,000,000), and beside the breadth-first enumerator; then questions beside lists; then
//! store-buffer machines; then replays; then texts.

use std::env;
use std::time::Instant;

use model::{clause, ops, Asker, Board, BoardLister, Case, Clause, Lister, Replayer, Typist, ENDING, RECORD, SCHEDULE};
use plain::Plain;
use random::{Inputs, ReplayInput};
use shapes::Shape;
use states::States;
use womm::{Library, TEXT};

/// The records that the program `outcomes` has room for.
const ROOM: usize = 682;

fn main() {
    let most = env::args().nth(1).map_or(30_000_000, |most| most.parse().expect("a number of schedules"));
    println!("Milliseconds a list, the best of five (of one, where one takes over a second). The buffer of {ROOM} records is");
    println!("allocated outside the timing, once for all five; every call clears all of it, inside the timing.\n");
    println!(
        "{:24}{:>5}{:>9}{:>11}{:>11}{:>11}{:>9}{:>9}  schedules",
        "shape", "bound", "outcomes", "library", "depth", "breadth", "depth÷", "breadth÷"
    );
    for shape in shapes::lists() {
        println!("{}", row(&shape, most));
    }
    println!();
    asks();
    println!();
    boards();
    println!();
    replays();
    println!();
    texts();
}

/// A text of 60 lines read, and its block written as a text again.
fn texts() {
    let program =
        [ops::read(2, 0), ops::write(0, 1), ops::set(3, 65_535), ops::add(4, 2, 3), ops::branch(4, 12), ops::acquire(1)];
    let mut case = Case::builder(4, 3).memory(0, 1).memory(1, 20_000).memory(2, 65_535);
    for p in 0..4 {
        case = case.preset(p, 0, 0).preset(p, 1, 1).program(p, &[program, program].concat());
    }
    let case = womm::Case::from(case.build().expect("a sound case"));
    let (mut block, text) = (*case.block(), case.text());
    let lines = text.lines().count();
    let mut room = [0; TEXT];
    let read = best(|| (0..1_000).for_each(|_| assert_eq!(Library.read_text(text.as_bytes(), &mut block).code, 0))) * 1e3;
    let written = best(|| (0..1_000).for_each(|_| assert_eq!(Library.write_text(&block, &mut room).code, 0))) * 1e3;
    println!("A text of {lines} lines, microseconds, the best of five over 1,000: read {read:.2}, written {written:.2}");
}

/// Each shape on each store-buffer machine, and on WOMM.
fn boards() {
    println!("Milliseconds a list on each machine, with a bound of instructions, and on WOMM with twice as many steps.\n");
    println!("{:24}{:>5}{:>11}{:>11}{:>11}{:>11}", "shape", "bound", "SC", "TSO", "PSO", "WOMM");
    for shape in shapes::lists() {
        let [sc, tso, pso] = Board::ALL.map(|board| board_time(board, &shape) * 1e3);
        let (name, bound, womm) = (shape.name, shape.instructions(), list_time(&Library, &shape) * 1e3);
        println!("{name:24}{bound:>5}{sc:>11.3}{tso:>11.3}{pso:>11.3}{womm:>11.3}");
    }
}

fn board_time(board: Board, shape: &Shape) -> f64 {
    let block = shape.case.block();
    let mut records = vec![0; ROOM * RECORD];
    best(|| {
        let listed = Library.board(board, &block, shape.instructions().into(), &mut records);
        assert_eq!(listed.code, 0);
    })
}

/// For each shape the slowest of its results, each asked for with its lowest schedule, beside the whole list.
fn asks() {
    println!(
        "Milliseconds to ask for a result and its lowest schedule: the slowest of the shape's results, and the whole list.\n"
    );
    println!("{:24}{:>5}{:>9}{:>11}{:>11}", "shape", "bound", "results", "ask", "list");
    for shape in shapes::lists().iter().filter(|shape| !shape.results.is_empty()) {
        let slowest = shape.results.iter().map(|result| ask_time(shape, result)).fold(0.0, f64::max);
        let list = list_time(&Library, shape);
        let (name, bound, results) = (shape.name, shape.bound, shape.results.len());
        println!("{name:24}{bound:>5}{results:>9}{:>11.3}{:>11.3}", slowest * 1e3, list * 1e3);
    }
}

fn ask_time(shape: &Shape, result: &[u16]) -> f64 {
    let block = shape.case.block();
    let clauses: Vec<Clause> =
        shape.watched.iter().zip(result).map(|(&(p, k), &value)| clause(p as u8, k as u8).is(value)).collect();
    let mut schedule = [0; SCHEDULE];
    best(|| {
        let asked = Library.ask(&block, shape.bound.into(), &clauses, &mut schedule);
        assert!(asked.yes);
    })
}

/// A shape's line: times, and those of the two others divided by the library's.
fn row(shape: &Shape, most: u128) -> String {
    let listing = states::list(&shape.case, shape.bound);
    let library = list_time(&Library, shape);
    let depth = (listing.schedules <= most).then(|| list_time(&Plain, shape));
    let breadth = list_time(&States, shape);
    let time = |time: Option<f64>| time.map_or("-".to_string(), |time| format!("{:.3}", time * 1e3));
    let ratio = |time: Option<f64>| time.map_or("-".to_string(), |time| format!("{:.1}", time / library));
    format!(
        "{:24}{:>5}{:>9}{:>11}{:>11}{:>11}{:>9}{:>9}  {}",
        shape.name,
        shape.bound,
        listing.outcomes.len(),
        time(Some(library)),
        time(depth),
        time(Some(breadth)),
        ratio(depth),
        ratio(Some(breadth)),
        listing.schedules
    )
}

fn list_time(lister: &dyn Lister, shape: &Shape) -> f64 {
    let block = shape.case.block();
    let mut records = vec![0; ROOM * RECORD];
    best(|| {
        lister.outcomes(&block, shape.bound.into(), &mut records);
    })
}

/// Steps a second over random schedules of 96 accepted steps.
fn replays() {
    let mut random = Inputs::new(1);
    let inputs: Vec<ReplayInput> = (0..1_000).map(|_| random.to_replay_whole()).collect();
    println!("Replays of {} random schedules of 96 accepted steps, the best of five over all of them:", inputs.len());
    for (name, replayer) in [("library", &Library as &dyn Replayer), ("plain Rust", &Plain)] {
        let seconds = replay_time(replayer, &inputs);
        let steps = 96.0 * inputs.len() as f64;
        println!("{name:12}{:>12.0} steps a second, {:.3} ms a replay", steps / seconds, seconds * 1e3 / inputs.len() as f64);
    }
}

fn replay_time(replayer: &dyn Replayer, inputs: &[ReplayInput]) -> f64 {
    let mut result = [0; ENDING];
    best(|| {
        for input in inputs {
            let replayed = replayer.replay(&input.block, &input.schedule, &mut result);
            assert_eq!((replayed.code, replayed.steps), (0, 96));
        }
    })
}

/// The seconds of one call: the best of five, or of one if that took over a second.
fn best(mut call: impl FnMut()) -> f64 {
    let mut once = || {
        let start = Instant::now();
        call();
        start.elapsed().as_secs_f64()
    };
    let first = once();
    let more = if first > 1.0 { 0 } else { 4 };
    (0..more).map(|_| once()).fold(first, f64::min)
}

//! `searches [SECONDS]` lists what explodes where a search leaves out too little: families of cases, then 200 random
//! full-size ones, all within 96 steps. Each list is made in a process of its own, which is ended after so many seconds
//! (by default 1); those that were ended are counted and named.

use std::env;
use std::io::Read;
use std::process::{Child, Command, Stdio};
use std::thread::sleep;
use std::time::{Duration, Instant};

use model::{Case, Lister, RECORD};
use random::Inputs;
use womm::Library;

/// The records that the program `outcomes` has room for.
const ROOM: usize = 682;
const BOUND: u32 = 96;
const CASES: usize = 200;
const SEED: u64 = 18;

fn main() {
    let words: Vec<String> = env::args().skip(1).collect();
    match &words[..] {
        [part, number] => list(&case(part, number.parse().expect("a number"))),
        [seconds] => tell(Duration::from_secs_f64(seconds.parse().expect("a number of seconds"))),
        _ => tell(Duration::from_secs(1)),
    }
}

/// The case of a number: a family's, or a random one.
fn case(part: &str, number: usize) -> Case {
    match part {
        "family" => shapes::families().swap_remove(number).case,
        _ => {
            let mut inputs = Inputs::new(SEED);
            (0..number).for_each(|_| drop(inputs.full_size()));
            inputs.full_size()
        }
    }
}

/// Lists the case and prints how that went: the best of five, or of one if that took over a tenth of a second.
fn list(case: &Case) {
    let block = case.block();
    let mut records = vec![0; ROOM * RECORD];
    let mut once = || {
        let start = Instant::now();
        let listed = Library.outcomes(&block, BOUND, &mut records);
        (start.elapsed().as_secs_f64() * 1e3, listed)
    };
    let (first, listed) = once();
    let more = if first > 100.0 { 0 } else { 4 };
    let best = (0..more).map(|_| once().0).fold(first, f64::min);
    let count = if listed.code == 0 { listed.count.to_string() } else { format!("code {}", listed.code) };
    println!("{best:.3} {count} {}", if listed.cut { "cut" } else { "whole" });
}

fn tell(limit: Duration) {
    println!("Milliseconds a list within {BOUND} steps, room for {ROOM}; a list that takes over {limit:?} is ended.\n");
    println!("{:32}{:>12}  outcomes", "family", "ms");
    for (number, family) in shapes::families().iter().enumerate() {
        let (ms, rest) = made("family", number, limit).unwrap_or((f64::INFINITY, "-".to_string()));
        println!("{:32}{ms:>12.3}  {rest}", family.name);
    }
    println!();
    full_size(limit);
}

/// How many of the random cases answer within each time, and which do not answer.
fn full_size(limit: Duration) {
    let answers: Vec<Option<(f64, String)>> = (0..CASES).map(|number| made("random", number, limit)).collect();
    let within = |ms: f64| answers.iter().flatten().filter(|answer| answer.0 <= ms).count();
    let ended: Vec<usize> = (0..CASES).filter(|&number| answers[number].is_none()).collect();
    println!("{CASES} random cases of 4 by 12 instructions of every op over 8 locations, seed {SEED}:");
    println!("within 1 ms {}, 10 ms {}, 100 ms {}, {limit:?} {}", within(1.0), within(10.0), within(100.0), CASES - ended.len());
    println!("ended: {} {ended:?}", ended.len());
}

/// What a process of its own says of a list: milliseconds, and outcomes and mark; nothing if it was ended.
fn made(part: &str, number: usize, limit: Duration) -> Option<(f64, String)> {
    let own = env::current_exe().expect("this program");
    let mut child =
        Command::new(own).args([part, &number.to_string()]).stdout(Stdio::piped()).spawn().expect("this program again");
    if !ends(&mut child, limit) {
        child.kill().and_then(|()| child.wait()).expect("a process that can be ended");
        return None;
    }
    let mut said = String::new();
    child.stdout.take().expect("a pipe").read_to_string(&mut said).expect("text");
    let (ms, rest) = said.trim_end().split_once(' ').expect("milliseconds and the rest");
    Some((ms.parse().expect("milliseconds"), rest.to_string()))
}

/// Whether the process ends by itself in time.
fn ends(child: &mut Child, limit: Duration) -> bool {
    let start = Instant::now();
    while child.try_wait().expect("a process").is_none() {
        if start.elapsed() > limit {
            return false;
        }
        sleep(Duration::from_millis(1));
    }
    true
}

//! `stack` tells the stack that a list at bound 96 needs: the least on which a spinning case is listed, less what an empty one needs.
//! Each list is made in a process of its own, whose shell sets the limit; a list without stack enough ends its process.

use std::env;
use std::process::{Command, Stdio};

use model::{Lister, RECORD};
use womm::Library;

const BOUND: u32 = 96;
/// The records that the program `outcomes` has room for.
const ROOM: usize = 682;
/// In kilobytes: too little, and enough.
const NONE: u32 = 0;
const ENOUGH: u32 = 8192;
const SPINNING: &str = "spin-96";
const EMPTY: &str = "nothing";

fn main() {
    match env::args().nth(1) {
        Some(name) => list(&name),
        None => tell(),
    }
}

/// Lists the shape of a name at the bound.
fn list(name: &str) {
    let shape = shapes::lists().into_iter().find(|shape| shape.name == name).expect("a shape of that name");
    let listed = Library.outcomes(&shape.case.block(), BOUND, &mut vec![0; ROOM * RECORD]);
    assert_eq!(listed.code, 0);
}

fn tell() {
    let (spinning, empty) = (needed(SPINNING), needed(EMPTY));
    let more = spinning - empty;
    println!(
        "{SPINNING} at bound {BOUND}: {spinning} KB of stack, {EMPTY} {empty} KB; {more} KB more, {} bytes a step",
        more * 1024 / BOUND
    );
}

/// The least stack, in kilobytes, on which a shape is listed.
fn needed(name: &str) -> u32 {
    let (mut short, mut enough) = (NONE, ENOUGH);
    while short + 1 < enough {
        let half = (short + enough) / 2;
        if lists(name, half) {
            enough = half;
        } else {
            short = half;
        }
    }
    enough
}

/// Whether a process with so much stack lists a shape.
fn lists(name: &str, kilobytes: u32) -> bool {
    let own = env::current_exe().expect("this program");
    let limited = format!("ulimit -c 0; ulimit -s {kilobytes} && exec \"$0\" \"$1\"");
    let mut shell = Command::new("sh");
    shell.arg("-c").arg(limited).arg(own).arg(name).env_clear().stdout(Stdio::null()).stderr(Stdio::null());
    shell.status().expect("a shell").success()
}

//! The time of a shelf of 65,535 blocks that comes through a pipe: the proved program beside `wc -c` and the plain
//! count, best of five each. `times PROGRAM COUNT`, where COUNT is the built `count-shelf`.

use std::io::{self, Write};
use std::process::{self, Command, Stdio};
use std::time::Instant;
use std::{env, iter};

fn main() -> io::Result<()> {
    let mut args = env::args().skip(1);
    let (Some(program), Some(count)) = (args.next(), args.next()) else {
        eprintln!("usage: times PROGRAM COUNT");
        process::exit(2);
    };
    let shelf = shelf::all_accepted(65_535);
    for (name, command) in [("wc -c", vec!["wc", "-c"]), ("plain count", vec![&count]), ("shelf", vec![&program])] {
        let runs: io::Result<Vec<f64>> = iter::repeat_with(|| run(&command, &shelf)).take(5).collect();
        let best = runs?.into_iter().fold(f64::MAX, f64::min);
        println!("{name}: {best:.3} s, {:.0} million bytes a second", shelf.len() as f64 / best / 1e6);
    }
    Ok(())
}

/// The seconds that a command takes to read a shelf and to end.
fn run(command: &[&str], shelf: &[u8]) -> io::Result<f64> {
    let start = Instant::now();
    let mut child = Command::new(command[0]).args(&command[1..]).stdin(Stdio::piped()).stdout(Stdio::null()).spawn()?;
    child.stdin.take().expect("a pipe").write_all(shelf)?;
    child.wait()?;
    Ok(start.elapsed().as_secs_f64())
}

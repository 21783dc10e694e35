//! `try-shelves COMMAND` runs the proved program on shelves that are made here, through files, pipes and pieces of any
//! length, and compares all that it prints with the plain count.

use std::fs::{self, File};
use std::{env, io, process};

use random::Rng;
use shelf::{all_accepted, every_code, random, report, Program};

/// The most whole blocks that are reported.
const MOST: usize = 65_535;

fn main() -> io::Result<()> {
    let command: Vec<String> = env::args().skip(1).collect();
    if command.is_empty() {
        eprintln!("usage: try-shelves COMMAND [WORD ...]");
        process::exit(2);
    }
    let program = Program::new(command);
    let tried = long_files(&program)? + pipes(&program)? + pieces(&program)?;
    println!("shelves: {tried} tried, all printed as counted");
    Ok(())
}

/// Ends the run where the program prints something else.
fn hold(what: &str, printed: String, shelf: &[u8]) -> usize {
    let counted = report(shelf);
    if printed != counted {
        eprintln!("{what}: it prints\n{printed}and should print\n{counted}");
        process::exit(1);
    }
    1
}

/// Shelves with as many blocks as are reported, and with one more.
fn long_files(program: &Program) -> io::Result<usize> {
    let path = env::temp_dir().join(format!("shelf-{}", process::id()));
    let mut tried = 0;
    for (blocks, over) in [(MOST, 0), (MOST, 511), (MOST + 1, 0), (MOST + 1, 1), (2 * MOST, 7)] {
        let mut shelf = all_accepted(blocks);
        shelf.extend(vec![1; over]);
        fs::write(&path, &shelf)?;
        let printed = program.of_file(File::open(&path)?);
        fs::remove_file(&path)?;
        tried += hold(&format!("a file of {blocks} blocks and {over} bytes"), printed?, &shelf);
    }
    Ok(tried)
}

/// Every code, written into a pipe a little at a time; and the longest shelves.
fn pipes(program: &Program) -> io::Result<usize> {
    let shelf = every_code();
    let mut tried = 0;
    for bytes in [1, 511, 512, 513, 700, 4_096, 100_000] {
        tried += hold(&format!("a pipe with {bytes} bytes at a time"), program.of_pipe(&shelf, bytes)?, &shelf);
    }
    for blocks in [MOST, MOST + 1] {
        let shelf = all_accepted(blocks);
        tried += hold(&format!("a pipe with {blocks} blocks"), program.of_pipe(&shelf, 65_536)?, &shelf);
    }
    Ok(tried)
}

/// Every code and random shelves, in pieces that end where this says.
fn pieces(program: &Program) -> io::Result<usize> {
    let shelf = every_code();
    let mut tried = 0;
    for bytes in [1, 511, 512, 513, 700, 1_024] {
        tried += hold(&format!("pieces of {bytes} bytes"), program.of_pieces(&shelf, || bytes)?, &shelf);
    }
    for seed in 0..100 {
        let (shelf, mut rng) = (random(seed), Rng::new(seed));
        let printed = program.of_pieces(&shelf, || 1 + rng.below(1_500))?;
        tried += hold(&format!("random shelf {seed}"), printed, &shelf);
    }
    Ok(tried)
}

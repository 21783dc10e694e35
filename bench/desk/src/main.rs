//! `rjupholt`: what a small hand-off between cores can come to, asked at a desk. Every answer is the proved library's.
//!
//! It ends with 0 if the answer is yes or nothing is wrong, 1 if it is no, 2 if the command or its input is refused, 3 if
//! the bound cut off longer runs and the answer may change with a larger one, and 4 if a file could not be read or the
//! answer not be written.
#![forbid(unsafe_code)]

mod arguments;
mod ask;
mod boards;
mod check;
mod clauses;
mod convert;
mod draw;
mod help;
mod input;
mod list;
mod machine;
mod race;
mod replay;
mod results;
mod said;
mod schedule;
mod shelf;
mod trace;
mod why;

use std::ffi::OsString;
use std::io::{self, Write};
use std::process::ExitCode;

use arguments::Arguments;
use said::{Said, Trouble};

fn main() -> ExitCode {
    let told = words(std::env::args_os().skip(1)).and_then(|words| run(&words));
    let status = told.and_then(|said| print(&said)).unwrap_or_else(|trouble| {
        // Nobody is left to tell if this fails too.
        let _ = writeln!(io::stderr(), "rjupholt: {}", trouble.words);
        trouble.status
    });
    ExitCode::from(status)
}

fn words(arguments: impl Iterator<Item = OsString>) -> Result<Vec<String>, Trouble> {
    let word = |given: OsString| given.into_string().map_err(|given| Trouble::usage(format!("{given:?} is not in UTF-8")));
    arguments.map(word).collect()
}

/// Runs a command.
fn run(words: &[String]) -> Result<Said, Trouble> {
    let Some((command, rest)) = words.split_first() else {
        return Err(Trouble::usage("no command; `./rjupholt --help` lists them"));
    };
    if rest.iter().any(|word| word == "--help" || word == "-h") || command == "help" {
        return help::of(if command == "help" { rest.first() } else { Some(command) });
    }
    let given = || Arguments::read(command, rest);
    match command.as_str() {
        "--help" | "-h" => help::of(None),
        "list" => list::run(given()?),
        "ask" => ask::run(given()?),
        "replay" => replay::run(given()?),
        "race" => race::run(given()?),
        "why" => why::run(given()?),
        "boards" => boards::run(given()?),
        "shelf" => shelf::run(given()?),
        "block" => convert::block(given()?),
        "text" => convert::text(given()?),
        "draw" => draw::run(given()?),
        "check" => check::run(given()?),
        _ => Err(Trouble::usage(format!("`{command}` is no command; `./rjupholt --help` lists them"))),
    }
}

/// Writes an answer; the status to end with.
fn print(said: &Said) -> Result<u8, Trouble> {
    let mut out = io::stdout().lock();
    let written = out.write_all(&said.bytes).and_then(|()| out.flush());
    written.map_err(|wrong| Trouble::system(format!("the answer could not be written: {}", said::cause(&wrong))))?;
    Ok(said.status)
}

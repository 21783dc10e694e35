//! The words of a command line.

use crate::machine::Machine;
use crate::said::Trouble;

/// What follows a command: its words in order, and its options.
pub struct Arguments {
    command: String,
    words: Vec<String>,
    pub bound: Option<u32>,
    pub machine: Option<Machine>,
    pub svg: bool,
}

/// The options that each command takes.
const OPTIONS: [(&str, &[&str]); 11] = [
    ("list", &["--bound", "--board"]),
    ("ask", &["--bound"]),
    ("replay", &["--bound"]),
    ("race", &["--bound"]),
    ("why", &["--bound"]),
    ("boards", &[]),
    ("shelf", &[]),
    ("block", &[]),
    ("text", &[]),
    ("draw", &["--bound", "--svg"]),
    ("check", &[]),
];

impl Arguments {
    pub fn read(command: &str, given: &[String]) -> Result<Arguments, Trouble> {
        let mut read = Arguments { command: command.to_string(), words: vec![], bound: None, machine: None, svg: false };
        let mut given = given.iter();
        while let Some(word) = given.next() {
            if !word.starts_with("--") {
                read.words.push(word.clone());
                continue;
            }
            read.takes(word)?;
            match word.as_str() {
                "--svg" => read.svg = true,
                "--bound" => read.bound = Some(read.number(given.next())?),
                _ => read.machine = Some(read.board(given.next())?),
            }
        }
        Ok(read)
    }

    /// Whether the command takes an option.
    fn takes(&self, option: &str) -> Result<(), Trouble> {
        let taken = OPTIONS.iter().any(|(name, options)| *name == self.command && options.contains(&option));
        taken.then_some(()).ok_or_else(|| self.wrong(format!("takes no {option}")))
    }

    fn number(&self, word: Option<&String>) -> Result<u32, Trouble> {
        let word = word.ok_or_else(|| self.wrong("--bound needs a number"))?;
        word.parse().map_err(|_| self.wrong(format!("--bound {word}: that is no number")))
    }

    fn board(&self, word: Option<&String>) -> Result<Machine, Trouble> {
        let word = word.ok_or_else(|| self.wrong("--board needs a name: sc, tso, pso or womm"))?;
        Machine::named(word).ok_or_else(|| self.wrong(format!("--board {word}: the machines are sc, tso, pso and womm")))
    }

    /// The words, if there are as many as the command takes.
    pub fn exactly<const N: usize>(&self, names: [&str; N]) -> Result<[String; N], Trouble> {
        let count = self.words.len();
        self.words.clone().try_into().map_err(|_| self.wrong(format!("takes {}, and was given {count}", names.join(" and "))))
    }

    fn wrong(&self, words: impl std::fmt::Display) -> Trouble {
        Trouble::usage(format!("{} {words}; `./rjupholt {0} --help` has an example", self.command))
    }
}

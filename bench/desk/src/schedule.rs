//! Schedules as they are typed: `i0` issues at processor 0, `c1:2` commits action 2 of processor 1, and `c1:2<9` commits a
//! read that takes item 9. Items 0 to 7 are the first words of the locations; item 8 + k is what action k wrote.

use std::io::Read;

use womm::{Answer, Case, Step, Stop};

use crate::clauses;
use crate::machine::Machine;
use crate::said::{cause, Trouble};
use crate::{input, list};

/// The schedule that some words name: typed, the bytes of `@FILE`, or the lowest one to a wanted result.
pub fn of(case: &Case, words: &str, bound: Option<u32>) -> Result<Vec<Step>, Trouble> {
    if let Some(path) = words.strip_prefix('@') {
        return stored(path);
    }
    if !clauses::is_result(words) {
        return words.split([' ', ',']).filter(|word| !word.is_empty()).map(step).collect();
    }
    match ask(case, words, bound.unwrap_or(Machine::Womm.usual(case)))? {
        Answer::Yes(steps) => Ok(steps),
        Answer::No { .. } => Err(Trouble::usage(format!("`{words}`: there is no such run; `./rjupholt ask` says more"))),
    }
}

/// Asks for a result as it is typed.
pub fn ask(case: &Case, words: &str, bound: u32) -> Result<Answer, Trouble> {
    case.ask(bound, &clauses::parse(words)?).map_err(|refusal| match refusal.reason {
        womm::Reason::Bound => list::refused(Machine::Womm, bound, &refusal),
        _ => Trouble::usage(format!("`{words}`: {refusal} (code {})", refusal.code())),
    })
}

fn step(word: &str) -> Result<Step, Trouble> {
    let wrong = || Trouble::usage(format!("`{word}` is no step: `i0` issues, `c1:2` commits, `c1:2<9` commits a read of item 9"));
    let number = |word: &str| word.parse::<u8>().map_err(|_| wrong());
    if let Some(p) = word.strip_prefix('i') {
        return Ok(Step::Issue { processor: number(p)? });
    }
    let (p, rest) = word.strip_prefix('c').and_then(|rest| rest.split_once(':')).ok_or_else(wrong)?;
    let (action, source) = rest.split_once('<').unwrap_or((rest, "0"));
    Ok(Step::Commit { processor: number(p)?, action: number(action)?, source: number(source)? })
}

/// The steps of a file, four bytes each.
fn stored(path: &str) -> Result<Vec<Step>, Trouble> {
    let mut bytes = vec![];
    let read = input::open(path).and_then(|file| file.take(385).read_to_end(&mut bytes));
    read.map_err(|wrong| Trouble::system(format!("{path}: {}", cause(&wrong))))?;
    if bytes.len() > 384 || !bytes.len().is_multiple_of(4) {
        return Err(Trouble::refused(path, "a schedule has four bytes a step and at most 96 steps (code 8)"));
    }
    bytes.chunks_exact(4).enumerate().map(|(number, step)| stored_step(path, number, step)).collect()
}

fn stored_step(path: &str, number: usize, step: &[u8]) -> Result<Step, Trouble> {
    match *step {
        [0, processor, 0, 0] => Ok(Step::Issue { processor }),
        [1, processor, action, source] => Ok(Step::Commit { processor, action, source }),
        _ => Err(Trouble::refused(path, format!("step {} is neither an issue nor a commit (code 20)", number + 1))),
    }
}

/// A schedule that goes no further.
pub fn stopped(steps: &[Step], taken: u32, stop: &Stop) -> Trouble {
    let step = taken as usize;
    let typed = typed(&steps[step..=step]);
    Trouble::usage(format!("step {}, `{typed}`, is refused: {stop} (code {})", step + 1, stop.reason.code()))
}

/// A schedule as it is typed.
pub fn typed(steps: &[Step]) -> String {
    let word = |step: &Step| match *step {
        Step::Issue { processor } => format!("i{processor}"),
        Step::Commit { processor, action, source: 0 } => format!("c{processor}:{action}"),
        Step::Commit { processor, action, source } => format!("c{processor}:{action}<{source}"),
    };
    steps.iter().map(word).collect::<Vec<_>>().join(" ")
}

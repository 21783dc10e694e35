//! `check`: every shape of a folder against its stored results.

use std::fs;
use std::path::{Path, PathBuf};

use womm::Case;

use crate::arguments::Arguments;
use crate::machine::Machine;
use crate::said::{cause, Said, Trouble, NO, YES};
use crate::{input, list};

pub fn run(given: Arguments) -> Result<Said, Trouble> {
    let [folder] = given.exactly(["FOLDER"])?;
    let shapes = shapes(&folder)?;
    if shapes.is_empty() {
        return Err(Trouble::refused(&folder, "there is no NAME.case in it"));
    }
    let mut text = String::new();
    for shape in &shapes {
        text += &difference(shape)?;
    }
    let wrong = text.lines().count();
    let count = shapes.len();
    text += &format!("{count} shapes on four machines each, {wrong} differ from their results\n");
    Ok(Said::new(text, if wrong == 0 { YES } else { NO }))
}

/// The texts of a folder, in the order of their names.
fn shapes(folder: &str) -> Result<Vec<PathBuf>, Trouble> {
    let read = fs::read_dir(folder).and_then(|entries| entries.map(|entry| entry.map(|entry| entry.path())).collect());
    let mut paths: Vec<PathBuf> = read.map_err(|wrong| Trouble::system(format!("{folder}: {}", cause(&wrong))))?;
    paths.retain(|path| path.extension().is_some_and(|extension| extension == "case"));
    paths.sort();
    Ok(paths)
}

/// A line if a shape's results are not the stored ones.
fn difference(shape: &Path) -> Result<String, Trouble> {
    let (name, stored) = (shape.display().to_string(), shape.with_extension("results"));
    let case = input::case(&name)?;
    let expected =
        fs::read_to_string(&stored).map_err(|wrong| Trouble::system(format!("{}: {}", stored.display(), cause(&wrong))))?;
    let found = results(&case)?;
    let at = (1..).zip(found.lines().zip(expected.lines())).find(|(_, (found, expected))| found != expected);
    Ok(match at {
        _ if found == expected => String::new(),
        Some((line, (found, expected))) => format!("{name}: at line {line} of its results `{expected}`, and found `{found}`\n"),
        None => {
            format!("{name}: its results have {} lines, and found were {}\n", expected.lines().count(), found.lines().count())
        }
    })
}

/// What stands in a shape's file of results.
fn results(case: &Case) -> Result<String, Trouble> {
    let mut text = String::new();
    for machine in Machine::ALL {
        let (name, most) = (machine.name(), machine.most());
        let listing = machine.list(case, most).map_err(|refusal| list::refused(machine, most, &refusal))?;
        let cut = if listing.cut { "yes" } else { "no" };
        text += &format!("{name} bound {most} results {} cut {cut}\n", listing.outcomes.len());
        text += &listing.outcomes.iter().map(|outcome| outcome.line(case.processors().len()) + "\n").collect::<String>();
    }
    Ok(text)
}

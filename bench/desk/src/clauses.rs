//! A wanted result as it is typed: `p1:r2=1 p1:r3=0`, `-` for undefined.

use womm::{clause, Clause};

use crate::said::Trouble;

/// Whether some words are a wanted result, and not a schedule.
pub fn is_result(words: &str) -> bool {
    words.contains('=') || words.trim().is_empty()
}

pub fn parse(words: &str) -> Result<Vec<Clause>, Trouble> {
    words.split([' ', ',']).filter(|word| !word.is_empty()).map(one).collect()
}

fn one(word: &str) -> Result<Clause, Trouble> {
    let wrong = || Trouble::usage(format!("`{word}` is no part of a result: `p1:r2=1`, or `p1:r2=-` for undefined"));
    let (register, value) = word.split_once('=').ok_or_else(wrong)?;
    let (p, k) = register.split_once(':').ok_or_else(wrong)?;
    let number = |word: &str, letter: char| word.strip_prefix(letter).and_then(|digits| digits.parse().ok());
    let named = clause(number(p, 'p').ok_or_else(wrong)?, number(k, 'r').ok_or_else(wrong)?);
    match value {
        "-" => Ok(named.undefined()),
        _ => value.parse().map(|value| named.is(value)).map_err(|_| wrong()),
    }
}

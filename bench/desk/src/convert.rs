//! `block` and `text`: one form of a case from the other.

use crate::arguments::Arguments;
use crate::input;
use crate::said::{Said, Trouble, YES};

/// The 512 bytes of a case.
pub fn block(given: Arguments) -> Result<Said, Trouble> {
    let [path] = given.exactly(["FILE"])?;
    Ok(Said::new(*input::case(&path)?.block(), YES))
}

/// The text of a case.
pub fn text(given: Arguments) -> Result<Said, Trouble> {
    let [path] = given.exactly(["FILE"])?;
    Ok(Said::new(input::case(&path)?.text(), YES))
}

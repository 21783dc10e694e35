//! `draw`: a run as a picture, in a terminal or as SVG.

mod labels;
mod svg;
mod text;

pub use labels::issue as named;
pub use text::text;

use crate::arguments::Arguments;
use crate::said::{Said, Trouble, YES};
use crate::trace::Trace;
use crate::{clauses, input, schedule};

pub fn run(given: Arguments) -> Result<Said, Trouble> {
    let [path, words] = given.exactly(["FILE", "a SCHEDULE or RESULT"])?;
    let case = input::case(&path)?;
    let trace = Trace::of(&case, &schedule::of(&case, &words, given.bound)?)?;
    let title = path.rsplit('/').next().unwrap_or(&path).trim_end_matches(".case");
    let wanted = if clauses::is_result(&words) { words.trim() } else { "" };
    let drawn = match given.svg {
        true => svg::picture(&trace, title, wanted),
        false => text(&trace),
    };
    Ok(Said::new(drawn, YES))
}

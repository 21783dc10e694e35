//! A run in a terminal: a column a processor, a line a step.

use super::labels;
use crate::trace::Trace;

/// The whole picture.
pub fn text(trace: &Trace) -> String {
    let cells: Vec<(usize, String)> = trace.steps.iter().map(|&(action, commits)| cell(trace, action, commits)).collect();
    let longest = |p: usize| cells.iter().filter(|(column, _)| *column == p).map(|(_, words)| words.len()).max();
    let widths: Vec<usize> = (0..trace.processors).map(|p| longest(p).unwrap_or(0).max(12) + 3).collect();
    let heads: String = (0..trace.processors).map(|p| format!("{:width$}", format!("p{p}"), width = widths[p])).collect();
    let mut text = format!("step  {}\n", heads.trim_end());
    for (number, (column, words)) in (1..).zip(&cells) {
        let indent: usize = widths[..*column].iter().sum();
        text += &format!("{number:4}  {:indent$}{words}\n", "");
    }
    text += &format!("\nends with {}\n", trace.result);
    text + "ordered:\n" + &labels::ordered(trace).iter().map(|line| format!("    {line}\n")).collect::<String>()
}

/// What a step does, in its processor's column.
fn cell(trace: &Trace, number: usize, commits: bool) -> (usize, String) {
    let action = &trace.actions[number];
    let words = match commits {
        false => format!("issue  {number}: {}", labels::issue(action)),
        true => {
            let ahead = action.ahead.map_or(String::new(), |_| ", ahead of its turn".to_string());
            let old = labels::old(trace, action).map_or(String::new(), |old| format!("  <== {old}"));
            format!("commit {number}: {}{ahead}{old}", labels::commit(action))
        }
    };
    (action.processor, words)
}

//! Results in words.

use womm::{Case, Outcome};

/// The registers that some instruction assigns: no other differs between results.
pub fn assigned(case: &Case) -> Vec<(usize, usize)> {
    let set = |(p, k): &(usize, usize)| {
        let mut outputs = case.processors()[*p].program.iter().filter_map(|instr| instr.output());
        outputs.any(|d| usize::from(d) == *k)
    };
    (0..case.processors().len()).flat_map(|p| (0..8).map(move |k| (p, k))).filter(set).collect()
}

/// A result: every register that is assigned, as it is typed in a question.
pub fn words(case: &Case, outcome: &Outcome) -> String {
    let value = |(p, k): (usize, usize)| {
        let value = outcome.registers[p][k].map_or("-".to_string(), |value| value.to_string());
        format!("p{p}:r{k}={value}")
    };
    let words: Vec<String> = assigned(case).into_iter().map(value).collect();
    match words.is_empty() {
        true => "finished; no register is assigned".to_string(),
        false => words.join(" "),
    }
}

/// A number of things.
pub fn count(number: usize, one: &str) -> String {
    match number {
        1 => format!("1 {one}"),
        _ => format!("{number} {one}s"),
    }
}

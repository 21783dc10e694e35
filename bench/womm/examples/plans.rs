//! `plans [PAIRS [SEED]]` compares the library with `states` on every legal pair of plans of up to three actions and on
//! so many random pairs of up to four (by default 28,000), and prints a tally.

use std::env;
use std::process::ExitCode;

fn main() -> ExitCode {
    let given: Vec<u64> = env::args().skip(1).map(|word| word.parse().expect("a number")).collect();
    let (pairs, seed) = (given.first().copied().unwrap_or(28_000), given.get(1).copied().unwrap_or(1));
    let inputs = random::legal_plans(3).chain(random::random_plans(seed, pairs as usize));
    match random::compare_plans(inputs, &states::States, &womm::Guarded) {
        Ok(tally) => {
            println!("{tally}");
            ExitCode::SUCCESS
        }
        Err(mismatch) => {
            println!("{mismatch:?}");
            ExitCode::FAILURE
        }
    }
}

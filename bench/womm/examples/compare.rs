//! `compare [SEED [LISTS [REPLAYS [SCHEDULES]]]]` compares the library with `states` and prints a tally.

fn main() -> std::process::ExitCode {
    let usual = random::Plan { seed: 1, lists: 2_000, replays: 20_000, schedules: u128::MAX };
    random::run(usual, &states::States, &womm::Guarded)
}

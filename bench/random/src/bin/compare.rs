//! `compare [SEED [LISTS [REPLAYS [SCHEDULES]]]]` compares `states` with `plain` and prints a tally.

fn main() -> std::process::ExitCode {
    let usual = random::Plan { seed: 1, lists: 500, replays: 10_000, schedules: 20_000 };
    random::run(usual, &states::States, &plain::Plain)
}

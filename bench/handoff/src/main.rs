//! `handoff` tells the story of the lost baseline. `handoff SENDING RECEIVING` judges a pair of plans, such as
//! `"write 0, write 3"` and `"take, read 3, read 0, free"`, or `"0 3"` and `"4 3 0 5"`: it ends with 0 if the hand-off is
//! safe, 1 if the receiver can find an old word, 3 if no run finishes, and 2 if a plan is none.
#![forbid(unsafe_code)]

mod plan;
mod story;
mod words;

use std::env;
use std::process::ExitCode;

use womm::{Act, Handoff, Step};
use words::{Side, NUMBERED};

/// How it ends, beside success.
const STALE: u8 = 1;
const BAD_PLAN: u8 = 2;
const STUCK: u8 = 3;

fn main() -> ExitCode {
    let arguments: Vec<String> = env::args().skip(1).collect();
    let (told, failed) = match arguments.as_slice() {
        [] => (story::tell().map(|()| 0), 1),
        [sending, receiving] => (judge(sending, receiving), BAD_PLAN),
        _ => (Err("give no plan, or two: what the sender does, and what the receiver does".to_string()), BAD_PLAN),
    };
    let status = told.unwrap_or_else(|wrong| {
        eprintln!("handoff: {wrong}");
        failed
    });
    ExitCode::from(status)
}

/// Prints what a pair of plans can come to; the status to end with.
fn judge(sending: &str, receiving: &str) -> Result<u8, String> {
    let sends = plan::parse(Side::Sender, sending).map_err(|wrong| format!("sending plan: {wrong}"))?;
    let receives = plan::parse(Side::Receiver, receiving).map_err(|wrong| format!("receiving plan: {wrong}"))?;
    let answer = womm::handoff(&sends, &receives).map_err(|_| plan::complaint(&sends, &receives))?;
    for line in words::table(&sends, &receives, &NUMBERED) {
        println!("    {line}");
    }
    println!();
    Ok(match answer {
        Handoff::Safe => {
            println!("SAFE: no finished run sees the flag raised and finds a word that the sender writes as it was before.");
            0
        }
        Handoff::Stale(schedule) => {
            stale([&sends, &receives], &schedule);
            STALE
        }
        Handoff::Stuck => {
            println!("STUCK: no run finishes. A core waits for the lock for ever, or frees one that it does not hold.");
            STUCK
        }
    })
}

/// Prints the run that finds an old word.
fn stale(plans: [&[Act]; 2], schedule: &[Step]) {
    println!("STALE: the receiver can see the flag raised and still find a word as it was before. Step by step (of all such");
    println!("schedules the lowest in byte order):");
    for (number, line) in (1..).zip(words::steps(plans, schedule, &NUMBERED)) {
        println!("    {number}. {line}");
    }
}

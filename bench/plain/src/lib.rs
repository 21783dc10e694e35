//! A plain depth-first search: the machine is cloned at each fork, every accepted step is tried, and
//! the outcomes gather in an ordered set. The baseline for times.
#![forbid(unsafe_code)]

mod bytes;
mod machine;
mod seek;

pub use machine::Machine;

use std::collections::BTreeSet;

use model::{put_schedule, Asked, Asker, Case, Clause, Codec, Listed, Lister, Outcome, Read, Reason};
use model::{Refusal, Replayed, Replayer, Step, Waiter, Written, CLAUSES, ENDING, RECORD, SCHEDULE, STEPS, WAITS};

/// All outcomes within a bound.
#[derive(Clone, Debug, Default)]
pub struct Listing {
    pub outcomes: BTreeSet<Outcome>,
    pub cut: bool,
    /// Machines visited.
    pub nodes: u64,
}

/// Lists the outcomes of a case.
pub fn list(case: &Case, bound: u8) -> Listing {
    let mut listing = Listing::default();
    explore(&Machine::new(case), bound, &mut listing);
    listing
}

fn explore(machine: &Machine, left: u8, listing: &mut Listing) {
    listing.nodes += 1;
    if machine.finished() {
        listing.outcomes.insert(machine.outcome());
    } else if left == 0 {
        listing.cut = true;
    } else {
        for step in machine.steps() {
            let mut next = machine.clone();
            next.take(step);
            explore(&next, left - 1, listing);
        }
    }
}

/// The search behind the bytes that the library takes.
pub struct Plain;

impl Codec for Plain {
    fn read(&self, block: &[u8]) -> Read {
        Read::of(bytes::case(block).map(|_| block[2] > 0))
    }

    fn write(&self, block: &mut [u8]) -> Written {
        Written::of(bytes::close(block))
    }
}

impl Lister for Plain {
    fn outcomes(&self, block: &[u8], bound: u32, records: &mut [u8]) -> Listed {
        records.fill(0);
        match listed(block, bound, records) {
            Ok(listing) => Listed { code: 0, count: listing.outcomes.len() as u32, cut: listing.cut, position: 0 },
            Err(refusal) => Listed::refused(refusal),
        }
    }
}

fn listed(block: &[u8], bound: u32, records: &mut [u8]) -> Result<Listing, Refusal> {
    let case = bytes::case(block)?;
    if bound > STEPS as u32 {
        return Err(Reason::Bound.into());
    }
    let listing = list(&case, bound as u8);
    if listing.outcomes.len() * RECORD > records.len() {
        return Err(Reason::Room.into());
    }
    for (i, outcome) in listing.outcomes.iter().enumerate() {
        records[i * RECORD..(i + 1) * RECORD].copy_from_slice(&outcome.bytes());
    }
    Ok(listing)
}

impl Asker for Plain {
    fn ask(&self, block: &[u8], bound: u32, clauses: &[Clause], schedule: &mut [u8]) -> Asked {
        schedule.fill(0);
        asked(block, bound, clauses, schedule).unwrap_or_else(Asked::refused)
    }
}

fn asked(block: &[u8], bound: u32, clauses: &[Clause], schedule: &mut [u8]) -> Result<Asked, Refusal> {
    let case = bytes::case(block)?;
    if bound > STEPS as u32 {
        return Err(Reason::Bound.into());
    }
    let absent = |clause: &Clause| clause.processor >= case.processors().len() as u8 || clause.register > 7;
    if clauses.len() > CLAUSES || clauses.iter().any(absent) {
        return Err(Reason::Clauses.into());
    }
    if schedule.len() != SCHEDULE {
        return Err(Reason::ScheduleRoom.into());
    }
    let mut seeking = seek::Seeking::new(clauses);
    Ok(match seeking.finds(&Machine::new(&case), bound as u8) {
        true => Asked::yes(put_schedule(schedule, &seeking.path)),
        false => Asked::no(seeking.cut),
    })
}

impl Replayer for Plain {
    fn replay(&self, block: &[u8], schedule: &[u8], result: &mut [u8]) -> Replayed {
        result.fill(0);
        let case = match replayable(block, schedule, result.len() == ENDING) {
            Ok(case) => case,
            Err(refusal) => return Replayed::refused(refusal),
        };
        let mut machine = Machine::new(&case);
        let replayed = run(&mut machine, schedule);
        result.copy_from_slice(&machine.ending().bytes());
        replayed
    }
}

impl Waiter for Plain {
    fn why(&self, block: &[u8], schedule: &[u8], causes: &mut [u8]) -> Replayed {
        causes.fill(0);
        let case = match replayable(block, schedule, causes.len() == WAITS) {
            Ok(case) => case,
            Err(refusal) => return Replayed::refused(refusal),
        };
        let mut machine = Machine::new(&case);
        let replayed = run(&mut machine, schedule);
        for (p, cause) in causes.iter_mut().enumerate() {
            *cause = machine.wait(p).byte();
        }
        replayed
    }
}

fn replayable(block: &[u8], schedule: &[u8], room: bool) -> Result<Case, Refusal> {
    let case = bytes::case(block)?;
    if !schedule.len().is_multiple_of(4) || schedule.len() / 4 > STEPS {
        return Err(Reason::ScheduleLength.into());
    }
    if !room {
        return Err(Reason::ResultLength.into());
    }
    Ok(case)
}

/// Takes steps up to the first refused one.
fn run(machine: &mut Machine, schedule: &[u8]) -> Replayed {
    let mut steps = 0;
    for bytes in schedule.chunks(4) {
        let stopped = |reason: Reason, place| Replayed { code: reason.code(), steps, place, position: 0 };
        let step = match *bytes {
            [0, processor, 0, 0] => Step::Issue { processor },
            [1, processor, action, source] => Step::Commit { processor, action, source },
            _ => return stopped(Reason::BadStep, None),
        };
        if let Err(reason) = machine.check(step) {
            return stopped(reason, machine.place(step, reason));
        }
        machine.take(step);
        steps += 1;
    }
    Replayed { code: 0, steps, place: None, position: 0 }
}

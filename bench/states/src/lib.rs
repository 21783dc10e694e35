//! An enumerator of WOMM's states, written from documents 01 and 02 and source 000 alone.
//!
//! Breadth first, a level a step. An action is named by its processor and its index in that
//! processor's issue order, so that runs which differ only in how they interleave meet in one state.
#![forbid(unsafe_code)]

mod ask;
mod handoff;
mod order;
mod race;
mod replay;
mod search;
mod state;
mod wait;

pub use ask::{ask, Answer};
pub use replay::Run;
pub use search::{list, list_within, Listing};

use model::{block, put_schedule, Asked, Asker, Case, Clause, Codec, Listed, Lister, Read, Reason, Refusal};
use model::{Raced, Racer, Replayed, Replayer, Waiter, Written, ENDING, RECORD, SCHEDULE, STEPS, WAITS};

/// The enumerator behind the bytes that the library takes.
pub struct States;

impl Codec for States {
    fn read(&self, block: &[u8]) -> Read {
        Read::of(block::read(block).map(|_| block::held_bound(block)))
    }

    fn write(&self, block: &mut [u8]) -> Written {
        Written::of(block::close(block))
    }
}

impl Lister for States {
    fn outcomes(&self, block: &[u8], bound: u32, records: &mut [u8]) -> Listed {
        records.fill(0);
        match outcomes(block, bound, records.len() / RECORD) {
            Ok(listing) => {
                for (record, outcome) in records.chunks_exact_mut(RECORD).zip(&listing.outcomes) {
                    record.copy_from_slice(&outcome.bytes());
                }
                Listed { code: 0, count: listing.outcomes.len() as u32, cut: listing.cut, position: 0 }
            }
            Err(refusal) => Listed::refused(refusal),
        }
    }
}

fn outcomes(block: &[u8], bound: u32, room: usize) -> Result<Listing, Refusal> {
    let (case, bound) = bounded(block, bound)?;
    let listing = list(&case, bound);
    if listing.outcomes.len() > room {
        return Err(Reason::Room.into());
    }
    Ok(listing)
}

fn bounded(block: &[u8], bound: u32) -> Result<(Case, u8), Refusal> {
    let case = block::read(block)?;
    let bound = u8::try_from(bound).ok().filter(|&bound| usize::from(bound) <= STEPS).ok_or(Reason::Bound)?;
    Ok((case, bound))
}

impl Asker for States {
    fn ask(&self, block: &[u8], bound: u32, clauses: &[Clause], schedule: &mut [u8]) -> Asked {
        schedule.fill(0);
        match asked(block, bound, clauses, schedule.len()) {
            Ok(Answer::Yes(steps)) => Asked::yes(put_schedule(schedule, &steps)),
            Ok(Answer::No { cut }) => Asked::no(cut),
            Err(refusal) => Asked::refused(refusal),
        }
    }
}

fn asked(block: &[u8], bound: u32, clauses: &[Clause], room: usize) -> Result<Answer, Refusal> {
    let (case, bound) = bounded(block, bound)?;
    Clause::judge(clauses, &case)?;
    if room != SCHEDULE {
        return Err(Reason::ScheduleRoom.into());
    }
    Ok(ask(&case, bound, |outcome| clauses.iter().all(|clause| clause.met(outcome))))
}

impl Replayer for States {
    fn replay(&self, block: &[u8], schedule: &[u8], result: &mut [u8]) -> Replayed {
        result.fill(0);
        let case = match replayable(block, schedule, result.len() == ENDING) {
            Ok(case) => case,
            Err(refusal) => return Replayed::refused(refusal),
        };
        let (run, replayed) = replayed(&case, schedule);
        result.copy_from_slice(&run.ending().bytes());
        replayed
    }
}

impl Waiter for States {
    fn why(&self, block: &[u8], schedule: &[u8], causes: &mut [u8]) -> Replayed {
        causes.fill(0);
        let case = match replayable(block, schedule, causes.len() == WAITS) {
            Ok(case) => case,
            Err(refusal) => return Replayed::refused(refusal),
        };
        let (run, replayed) = replayed(&case, schedule);
        for (cause, wait) in causes.iter_mut().zip(run.waits()) {
            *cause = wait.byte();
        }
        replayed
    }
}

impl Racer for States {
    fn race(&self, block: &[u8], schedule: &[u8]) -> Raced {
        let case = match replayable(block, schedule, true) {
            Ok(case) => case,
            Err(refusal) => return Raced { replayed: Replayed::refused(refusal), pair: None },
        };
        let (run, replayed) = replayed(&case, schedule);
        if replayed.code != 0 {
            return Raced { replayed, pair: None };
        }
        if run.queued() {
            return Raced { replayed: Replayed { code: Reason::Queued.code(), ..replayed }, pair: None };
        }
        Raced { replayed, pair: run.races(schedule).into_iter().min() }
    }
}

fn replayable(block: &[u8], schedule: &[u8], room: bool) -> Result<Case, Refusal> {
    let case = block::read(block)?;
    if !schedule.len().is_multiple_of(4) || schedule.len() > 4 * STEPS {
        return Err(Reason::ScheduleLength.into());
    }
    if !room {
        return Err(Reason::ResultLength.into());
    }
    Ok(case)
}

/// Takes steps up to the first refused one.
fn replayed<'a>(case: &'a Case, schedule: &[u8]) -> (Run<'a>, Replayed) {
    let mut run = Run::new(case);
    let mut steps = schedule.chunks_exact(4).map(|step| [step[0], step[1], step[2], step[3]]);
    let stopped = steps.find_map(|step| run.take(step).err().map(|reason| (reason, step)));
    let place = stopped.and_then(|(reason, step)| run.place(step, reason));
    let code = stopped.map_or(0, |(reason, _)| reason.code());
    let replayed = Replayed { code, steps: run.steps(), place, position: 0 };
    (run, replayed)
}

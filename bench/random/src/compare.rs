use std::env;
use std::process::ExitCode;

use model::{block, Asked, Asker, Codec, Listed, Lister, Read, Replayed, Replayer, Waiter, Written, RECORD, WAITS};

use crate::{AskInput, Inputs, ListInput, ReplayInput, Tally};

/// An implementation of every call that is compared.
pub trait Calls: Asker + Codec + Lister + Replayer + Waiter {}

impl<T: Asker + Codec + Lister + Replayer + Waiter> Calls for T {}

/// Every length of a schedule or a buffer up to this is handed over.
pub(crate) const LENGTHS: usize = 400;
/// A record buffer's length is also every multiple of 96 up to so many, with one byte less and one more.
pub(crate) const RECORDS: usize = 40;

/// How often a block is damaged at each of its bytes, how many are damaged at several, and how many lose what sets
/// their registers.
const SWEEPS: usize = 40;
const DAMAGED: usize = 10_000;

/// How much to compare, beside the lengths and the damaged blocks.
#[derive(Clone, Copy, Debug)]
pub struct Plan {
    pub seed: u64,
    /// Lists, with a question about each.
    pub lists: u32,
    pub replays: u32,
    /// The most schedules that a listing may have.
    pub schedules: u128,
}

/// An input on which the two differ, in the answer or in a byte of the buffer.
#[derive(Debug)]
pub enum Mismatch {
    Read { block: Vec<u8>, reference: Read, other: Read },
    Write { block: Vec<u8>, reference: Written, other: Written },
    List { input: ListInput, reference: Listed, other: Listed },
    Ask { input: AskInput, reference: Asked, other: Asked },
    Replay { input: ReplayInput, reference: Replayed, other: Replayed },
    Why { input: ReplayInput, reference: Replayed, other: Replayed },
}

/// Hands the same random inputs to both, in buffers that are not zero before.
pub fn compare(plan: Plan, reference: &dyn Calls, other: &dyn Calls) -> Result<Tally, Box<Mismatch>> {
    let mut comparison = Comparison { tally: Tally::default(), reference, other };
    let mut inputs = Inputs::new(plan.seed);
    for _ in 0..plan.lists {
        let held = inputs.listable(plan.schedules);
        comparison.list(inputs.to_list(&held))?;
        comparison.ask(inputs.to_ask(&held))?;
    }
    for room in rooms() {
        let held = inputs.listable(plan.schedules);
        comparison.list(inputs.to_list_into(room, &held))?;
    }
    for _ in 0..plan.replays {
        let input = inputs.to_replay(&comparison.tally);
        comparison.why(&input, WAITS)?;
        comparison.replay(input)?;
    }
    for length in 0..=LENGTHS {
        comparison.replay(inputs.to_replay_of(length, &comparison.tally))?;
        let input = inputs.to_replay_into(length, &comparison.tally);
        comparison.why(&input, length)?;
        comparison.replay(input)?;
    }
    for at in (0..SWEEPS).flat_map(|_| 0..block::LENGTH) {
        comparison.block(inputs.to_judge(&[at]))?;
    }
    for _ in 0..DAMAGED {
        comparison.block(inputs.to_judge_any())?;
        comparison.block(inputs.to_judge_unset())?;
    }
    Ok(comparison.tally)
}

/// The lengths of record buffers that are all handed over.
pub(crate) fn rooms() -> impl Iterator<Item = usize> {
    let around = |n: usize| [n * RECORD - 1, n * RECORD, n * RECORD + 1];
    (0..=LENGTHS).chain((LENGTHS / RECORD + 1..=RECORDS).flat_map(around))
}

struct Comparison<'a> {
    tally: Tally,
    reference: &'a dyn Calls,
    other: &'a dyn Calls,
}

impl Comparison<'_> {
    /// Reads a block, and closes a buffer that holds it.
    fn block(&mut self, block: Vec<u8>) -> Result<(), Box<Mismatch>> {
        let (reference, other) = (self.reference.read(&block), self.other.read(&block));
        if reference != other {
            return Err(Box::new(Mismatch::Read { block, reference, other }));
        }
        self.tally.read(&block, reference);
        let (mut ours, mut theirs) = (block.clone(), block.clone());
        let (reference, other) = (self.reference.write(&mut ours), self.other.write(&mut theirs));
        if (reference, ours) != (other, theirs) {
            return Err(Box::new(Mismatch::Write { block, reference, other }));
        }
        Ok(())
    }

    fn list(&mut self, input: ListInput) -> Result<(), Box<Mismatch>> {
        let (mut ours, mut theirs) = (vec![0xA5; input.room], vec![0x5A; input.room]);
        let reference = self.reference.outcomes(&input.block, input.bound, &mut ours);
        let other = self.other.outcomes(&input.block, input.bound, &mut theirs);
        if (reference, ours) != (other, theirs) {
            return Err(Box::new(Mismatch::List { input, reference, other }));
        }
        self.tally.listed(&input, reference);
        Ok(())
    }

    fn ask(&mut self, input: AskInput) -> Result<(), Box<Mismatch>> {
        let (mut ours, mut theirs) = (vec![0xA5; input.room], vec![0x5A; input.room]);
        let reference = self.reference.ask(&input.block, input.bound, &input.clauses, &mut ours);
        let other = self.other.ask(&input.block, input.bound, &input.clauses, &mut theirs);
        if (reference, ours) != (other, theirs) {
            return Err(Box::new(Mismatch::Ask { input, reference, other }));
        }
        self.tally.asked(reference);
        Ok(())
    }

    fn replay(&mut self, input: ReplayInput) -> Result<(), Box<Mismatch>> {
        let (mut ours, mut theirs) = (vec![0xA5; input.room], vec![0x5A; input.room]);
        let reference = self.reference.replay(&input.block, &input.schedule, &mut ours);
        let other = self.other.replay(&input.block, &input.schedule, &mut theirs);
        if (reference, ours) != (other, theirs) {
            return Err(Box::new(Mismatch::Replay { input, reference, other }));
        }
        self.tally.replayed(&input, reference);
        Ok(())
    }

    /// Asks why after the same schedule, in a buffer of a given length.
    fn why(&mut self, input: &ReplayInput, room: usize) -> Result<(), Box<Mismatch>> {
        let (mut ours, mut theirs) = (vec![0xA5; room], vec![0x5A; room]);
        let reference = self.reference.why(&input.block, &input.schedule, &mut ours);
        let other = self.other.why(&input.block, &input.schedule, &mut theirs);
        if (reference, &ours) != (other, &theirs) {
            let input = ReplayInput { room, ..input.clone() };
            return Err(Box::new(Mismatch::Why { input, reference, other }));
        }
        self.tally.waited(&input.block, reference, &ours);
        Ok(())
    }
}

/// Compares two implementations as the arguments say, and prints what was reached or where they differ.
pub fn run(usual: Plan, reference: &dyn Calls, other: &dyn Calls) -> ExitCode {
    let given: Vec<u64> = env::args().skip(1).map(|word| word.parse().expect("a number")).collect();
    let plan = Plan {
        seed: given.first().copied().unwrap_or(usual.seed),
        lists: given.get(1).map_or(usual.lists, |&lists| lists as u32),
        replays: given.get(2).map_or(usual.replays, |&replays| replays as u32),
        schedules: given.get(3).map_or(usual.schedules, |&schedules| schedules.into()),
    };
    match compare(plan, reference, other) {
        Ok(tally) => {
            println!("{tally}");
            ExitCode::SUCCESS
        }
        Err(mismatch) => {
            println!("{mismatch:?}");
            ExitCode::FAILURE
        }
    }
}

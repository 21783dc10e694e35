//! Random inputs of the calls: schedule or bound, clauses, and a buffer's length.

use model::{clause, schedule, Case, Clause, Outcome, Step};
use model::{ACTIONS, CLAUSES, ENDING, RECORD, REGISTERS, SCHEDULE, STEPS};
use states::Run;

use crate::{cases, Rng, Tally};

/// The most states of a listing, so that the enumerator takes some milliseconds.
const STATES: usize = 2_000;

/// What a listing is handed.
#[derive(Clone, Debug, PartialEq, Eq)]
pub struct ListInput {
    pub block: Vec<u8>,
    pub bound: u32,
    pub room: usize,
}

/// A case that can be listed within a bound, and its outcomes.
#[derive(Clone, Debug, PartialEq, Eq)]
pub struct Listable {
    pub case: Case,
    pub bound: u8,
    pub outcomes: Vec<Outcome>,
}

/// What a question is handed.
#[derive(Clone, Debug, PartialEq, Eq)]
pub struct AskInput {
    pub block: Vec<u8>,
    pub bound: u32,
    pub clauses: Vec<Clause>,
    pub room: usize,
}

/// What a replay is handed.
#[derive(Clone, Debug, PartialEq, Eq)]
pub struct ReplayInput {
    pub block: Vec<u8>,
    pub schedule: Vec<u8>,
    pub room: usize,
}

/// A source of inputs, the same for the same seed.
pub struct Inputs {
    pub(crate) rng: Rng,
}

impl Inputs {
    pub fn new(seed: u64) -> Inputs {
        Inputs { rng: Rng::new(seed) }
    }

    /// A case and a bound whose list has at most so many schedules.
    pub fn listable(&mut self, most: u128) -> Listable {
        loop {
            let case = cases::to_list(&mut self.rng);
            let bound = self.bound(&case);
            let Some(listing) = states::list_within(&case, bound, STATES) else { continue };
            let telling = listing.outcomes.len() >= 2 || listing.cut && usize::from(bound) > ACTIONS;
            if listing.schedules <= most && (telling || self.rng.once_in(8)) {
                return Listable { case, bound, outcomes: listing.outcomes.into_iter().collect() };
            }
        }
    }

    /// A full-size case: four processors of twelve instructions, eight locations, every op alike.
    pub fn full_size(&mut self) -> Case {
        cases::any_ops(&mut self.rng, 4, 12)
    }

    /// A case for boards and a bound: half the time one that tells them apart, else any.
    pub fn boarded(&mut self) -> Listable {
        if self.rng.once_in(2) {
            return self.listable(u128::MAX);
        }
        loop {
            let case = cases::to_race(&mut self.rng);
            let bound = self.bound(&case);
            if let Some(listing) = states::list_within(&case, bound, 4 * STATES) {
                return Listable { case, bound, outcomes: listing.outcomes.into_iter().collect() };
            }
        }
    }

    pub fn to_list(&mut self, held: &Listable) -> ListInput {
        let room = self.records_room(held.outcomes.len());
        let block = self.block(&held.case).to_vec();
        self.spoilt_list(ListInput { block, bound: held.bound.into(), room })
    }

    /// A listing into a buffer of a given length.
    pub fn to_list_into(&mut self, room: usize, held: &Listable) -> ListInput {
        ListInput { room, ..self.to_list(held) }
    }

    /// A listing on a board: the bound counts instructions, half of the steps or one beside.
    pub fn to_board(&mut self, held: &Listable) -> ListInput {
        let input = self.to_list(held);
        let near = self.rng.pick(&[0, 0, 0, 1]);
        let bound = if input.bound <= STEPS as u32 { (input.bound / 2).saturating_sub(near) } else { input.bound };
        let bound = if self.rng.once_in(24) { self.rng.pick(&[48, 49, 96, 97]) } else { bound };
        ListInput { bound, ..input }
    }

    /// A question about a case: mostly up to three clauses, half of them taken from one outcome.
    pub fn to_ask(&mut self, held: &Listable) -> AskInput {
        let wanted = if held.outcomes.is_empty() { Outcome::default() } else { self.rng.pick(&held.outcomes) };
        let slips = self.rng.once_in(2);
        let most = if self.rng.once_in(16) { CLAUSES + 2 } else { 4 };
        let clauses = (0..self.rng.below(most)).map(|_| self.clause(&held.case, &wanted, slips)).collect();
        let input = ListInput { block: self.block(&held.case).to_vec(), bound: held.bound.into(), room: 0 };
        let ListInput { block, bound, .. } = self.spoilt_list(input);
        let room = if self.rng.once_in(24) { self.rng.pick(&[0, 383, 385, 400]) } else { SCHEDULE };
        AskInput { block, bound, clauses, room }
    }

    /// A clause that an outcome meets, or one that slips in half its parts.
    fn clause(&mut self, case: &Case, wanted: &Outcome, slips: bool) -> Clause {
        let (p, k) = (self.rng.below(case.processors().len()), self.rng.below(REGISTERS));
        let mut clause = clause(p as u8, k as u8).ends_as(wanted.registers[p][k]);
        if !clause.defined && self.rng.once_in(2) {
            clause.value = self.rng.pick(&cases::VALUES);
        }
        match self.rng.below(if slips { 8 } else { 64 }) {
            0 => clause.defined ^= true,
            1 => clause.value = self.rng.pick(&cases::VALUES),
            2 => clause.register = self.rng.below(REGISTERS + 1) as u8,
            3 => clause.processor = self.rng.below(5) as u8,
            _ => (),
        }
        clause
    }

    /// Mostly the steps of one pass over every program, now and then a little less or more; for a case with
    /// a loop often any number.
    fn bound(&mut self, case: &Case) -> u8 {
        if self.rng.once_in(if cases::loops(case) { 2 } else { 16 }) {
            return self.rng.below(STEPS + 1) as u8;
        }
        let instructions: usize = case.processors().iter().map(|processor| processor.program.len()).sum();
        let more = self.rng.pick(&[0, 0, 0, 0, 1, 2]);
        let fewer = if self.rng.once_in(5) { self.rng.below(2 * instructions + 1) } else { 0 };
        (2 * instructions + more - fewer) as u8
    }

    fn records_room(&mut self, count: usize) -> usize {
        let enough = count * RECORD;
        match self.rng.below(12) {
            0 => enough.saturating_sub(1 + self.rng.below(RECORD)),
            1 => enough,
            2 => self.rng.below(4 * RECORD),
            _ => enough + self.rng.below(3 * RECORD),
        }
    }

    fn spoilt_list(&mut self, mut input: ListInput) -> ListInput {
        if self.rng.once_in(8) {
            input.block = self.spoilt_block(&input.block);
        }
        if self.rng.once_in(24) {
            input.bound = self.rng.pick(&[97, 100, 255, 256, 264, 65_544, u32::MAX]);
        }
        input
    }

    /// A replay; of the refused steps tried at its end, one whose code the tally has seen least.
    pub fn to_replay(&mut self, tally: &Tally) -> ReplayInput {
        let case = cases::to_replay(&mut self.rng);
        let mut run = Run::new(&case);
        let mut steps = self.walk(&mut run);
        if steps.len() < 92 && !self.rng.once_in(4) {
            let least = self.refused_steps(&case, &run).into_iter().min_by_key(|(code, _)| tally.replays(*code));
            steps.extend(least.map(|(_, step)| step));
            for _ in 0..self.rng.below(4) {
                steps.push(self.any_step(&case, &run));
            }
        }
        let block = self.block(&case).to_vec();
        self.spoilt_replay(ReplayInput { block, schedule: steps.concat(), room: ENDING })
    }

    /// A replay into a buffer of a given length.
    pub fn to_replay_into(&mut self, room: usize, tally: &Tally) -> ReplayInput {
        ReplayInput { room, ..self.to_replay(tally) }
    }

    /// A replay of a schedule cut to a given number of bytes, or filled up to it with issues.
    pub fn to_replay_of(&mut self, length: usize, tally: &Tally) -> ReplayInput {
        let mut input = self.to_replay(tally);
        input.schedule.resize(length, 0);
        input
    }

    /// A block and 96 steps, all of which are accepted.
    pub fn to_replay_whole(&mut self) -> ReplayInput {
        loop {
            let case = cases::to_replay(&mut self.rng);
            let steps = self.steps(&mut Run::new(&case), STEPS, 1);
            if steps.len() == STEPS {
                return ReplayInput { block: case.block().to_vec(), schedule: steps.concat(), room: ENDING };
            }
        }
    }

    /// Takes accepted steps up to a random number or until there are none.
    pub(crate) fn walk(&mut self, run: &mut Run) -> Vec<[u8; 4]> {
        let most = if self.rng.once_in(5) { self.rng.below(20) } else { 20 + self.rng.below(77) };
        let eager = self.rng.below(4);
        self.steps(run, most, eager)
    }

    /// Takes accepted steps, at most so many; an issue is preferred `eager` times in four.
    pub(crate) fn steps(&mut self, run: &mut Run, most: usize, eager: usize) -> Vec<[u8; 4]> {
        let mut steps = vec![];
        while steps.len() < most {
            let accepted = run.accepted();
            let issues: Vec<Step> = accepted.iter().copied().filter(|step| matches!(step, Step::Issue { .. })).collect();
            let choice = if self.rng.below(4) < eager && !issues.is_empty() { issues } else { accepted };
            if choice.is_empty() {
                break;
            }
            let step = self.rng.pick(&choice).bytes();
            run.take(step).expect("an accepted step");
            steps.push(step);
        }
        steps
    }

    /// Some steps that are refused now, with their codes: any steps, and accepted ones with another source.
    fn refused_steps(&mut self, case: &Case, run: &Run) -> Vec<(u32, [u8; 4])> {
        let mut tried: Vec<[u8; 4]> = (0..60).map(|_| self.any_step(case, run)).collect();
        for step in run.accepted() {
            let [kind, processor, action, _] = step.bytes();
            tried.push([kind, processor, action, self.rng.below(run.actions() + 9) as u8]);
        }
        tried.into_iter().filter_map(|step| run.clone().take(step).err().map(|refusal| (refusal.code(), step))).collect()
    }

    /// Any step whose numbers are near those in use.
    pub(crate) fn any_step(&mut self, case: &Case, run: &Run) -> [u8; 4] {
        let processor = self.rng.below(case.processors().len()) as u8;
        match self.rng.below(12) {
            0 => [self.rng.byte(), self.rng.byte(), self.rng.byte(), self.rng.byte()],
            1..=3 => [0, processor, 0, 0],
            4 => [self.rng.below(3) as u8, self.rng.below(6) as u8, self.rng.below(2) as u8, self.rng.below(2) as u8],
            5..=8 => [1, processor, self.rng.below(run.actions() + 1) as u8, 0],
            _ => [1, processor, self.rng.below(run.actions() + 1) as u8, self.rng.below(run.actions() + 10) as u8],
        }
    }

    pub(crate) fn spoilt_replay(&mut self, mut input: ReplayInput) -> ReplayInput {
        match self.rng.below(48) {
            0 => input.block = self.spoilt_block(&input.block),
            1 => input.schedule.push(self.rng.byte()),
            2 => input.schedule.extend(schedule(&[Step::Issue { processor: 0 }; 97])),
            3 => input.room = self.rng.pick(&[0, 1, 103, 105, 208]),
            _ => (),
        }
        input
    }
}

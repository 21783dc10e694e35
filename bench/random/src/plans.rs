//! Pairs of plans of a hand-off: all legal ones up to a length, random ones, and a comparison on them.

use std::collections::BTreeMap;
use std::fmt;

use model::{HandedOff, Planner, Plans, Reason, Verdict, READY, SCHEDULE};

use crate::Rng;

/// A sending and a receiving plan, and the length of the schedule buffer.
#[derive(Clone, Debug, PartialEq, Eq)]
pub struct PlanInput {
    pub sending: Vec<u8>,
    pub receiving: Vec<u8>,
    pub room: usize,
}

/// A pair on which the two differ, in the answer or in a byte of the schedule.
#[derive(Debug)]
pub struct PlanMismatch {
    pub input: PlanInput,
    pub reference: HandedOff,
    pub other: HandedOff,
}

/// How often each code and each verdict came.
#[derive(Clone, Debug, Default, PartialEq, Eq)]
pub struct PlanTally {
    codes: BTreeMap<u32, u32>,
    verdicts: BTreeMap<Verdict, u32>,
}

/// Every legal pair of plans of at most so many actions each.
pub fn legal_plans(most: usize) -> impl Iterator<Item = PlanInput> {
    let all = plans(most);
    let receiving = all.clone();
    let pairs = all.into_iter().flat_map(move |sending| receiving.clone().into_iter().map(move |other| (sending.clone(), other)));
    pairs.filter(|(sending, receiving)| Plans::read(sending, receiving).is_ok()).map(|(sending, receiving)| PlanInput {
        sending,
        receiving,
        room: SCHEDULE,
    })
}

/// Every sequence of at most so many actions, the short ones first.
fn plans(most: usize) -> Vec<Vec<u8>> {
    let mut all = vec![vec![]];
    let mut from = 0;
    for _ in 0..most {
        let longer: Vec<Vec<u8>> =
            all[from..].iter().flat_map(|plan| (0..6).map(move |byte| [plan.as_slice(), &[byte]].concat())).collect();
        from = all.len();
        all.extend(longer);
    }
    all
}

/// Random pairs of plans, the same for the same seed: mostly legal, half of them about one word and the flag.
pub fn random_plans(seed: u64, pairs: usize) -> impl Iterator<Item = PlanInput> {
    let mut rng = Rng::new(seed);
    (0..pairs).map(move |_| {
        let (sending, receiving) = if rng.once_in(2) { one_word(&mut rng) } else { any_words(&mut rng) };
        let room = if rng.once_in(24) { rng.pick(&[0, 1, 383, 385]) } else { SCHEDULE };
        let mut input = PlanInput { sending, receiving, room };
        slip(&mut rng, &mut input);
        input
    })
}

/// A word and the flag, each side in either order and now and then inside the lock.
fn one_word(rng: &mut Rng) -> (Vec<u8>, Vec<u8>) {
    let word = rng.below(3) as u8;
    let mut side = || {
        let touched = rng.pick(&[[word, READY], [READY, word]]);
        if rng.once_in(3) {
            [&[4], &touched[..], &[5]].concat()
        } else {
            touched.to_vec()
        }
    };
    (side(), side())
}

/// Whatever comes, with the flag read once.
fn any_words(rng: &mut Rng) -> (Vec<u8>, Vec<u8>) {
    let sending = plan(rng, &[0, 1, 2, READY]);
    let mut receiving = plan(rng, &[0, 1, 2]);
    let at = rng.below(receiving.len() + 1);
    if receiving.len() < 4 {
        receiving.insert(at, READY);
    } else {
        receiving[1 + at % 2] = READY;
    }
    (sending, receiving)
}

/// Up to four actions; a lock comes as a pair or, now and then, anyhow.
fn plan(rng: &mut Rng, words: &[u8]) -> Vec<u8> {
    match rng.below(4) {
        0 => (0..rng.below(5)).map(|_| if rng.once_in(3) { rng.pick(&[4, 5]) } else { rng.pick(words) }).collect(),
        1 => (0..rng.below(5)).map(|_| rng.pick(words)).collect(),
        _ => {
            let inside: Vec<u8> = (0..rng.below(3)).map(|_| rng.pick(words)).collect();
            [&[4], inside.as_slice(), &[5]].concat()
        }
    }
}

/// Once in eight times an action that is none, one more, or the flag read as often as it comes.
fn slip(rng: &mut Rng, input: &mut PlanInput) {
    let plan = if rng.once_in(2) { &mut input.sending } else { &mut input.receiving };
    match rng.below(24) {
        0 => plan.push(rng.below(8) as u8),
        1 if !plan.is_empty() => {
            let at = rng.below(plan.len());
            plan[at] = rng.below(8) as u8;
        }
        2 => plan.extend([READY, 0, 1]),
        _ => (),
    }
}

/// Hands the same pairs to both, in buffers that are not zero before.
pub fn compare_plans(
    inputs: impl Iterator<Item = PlanInput>,
    reference: &dyn Planner,
    other: &dyn Planner,
) -> Result<PlanTally, Box<PlanMismatch>> {
    let mut tally = PlanTally::default();
    for input in inputs {
        let (mut ours, mut theirs) = (vec![0xA5; input.room], vec![0x5A; input.room]);
        let said = reference.handoff(&input.sending, &input.receiving, &mut ours);
        let answer = other.handoff(&input.sending, &input.receiving, &mut theirs);
        if (said, ours) != (answer, theirs) {
            return Err(Box::new(PlanMismatch { input, reference: said, other: answer }));
        }
        tally.add(said);
    }
    Ok(tally)
}

impl PlanTally {
    fn add(&mut self, answer: HandedOff) {
        *self.codes.entry(answer.code).or_default() += 1;
        if answer.code == 0 {
            *self.verdicts.entry(answer.verdict).or_default() += 1;
        }
    }

    /// The pairs compared.
    pub fn pairs(&self) -> u32 {
        self.codes.values().sum()
    }

    /// Each verdict eighty times or more, and both refusals.
    pub fn deep(&self) -> bool {
        let refused = |reason: Reason| self.codes.contains_key(&reason.code());
        self.verdicts.len() == 3
            && self.verdicts.values().all(|&times| times >= 80)
            && refused(Reason::Plan)
            && refused(Reason::ScheduleRoom)
    }
}

impl fmt::Display for PlanTally {
    fn fmt(&self, f: &mut fmt::Formatter<'_>) -> fmt::Result {
        let codes = self.codes.iter().map(|(code, n)| format!(" {code}:{n}")).collect::<String>();
        let verdicts = self.verdicts.iter().map(|(verdict, n)| format!(" {verdict:?} {n}")).collect::<String>();
        write!(f, "pairs of plans {}, by code{codes};{verdicts}", self.pairs())
    }
}

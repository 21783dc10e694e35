use std::collections::{BTreeMap, BTreeSet};
use std::fmt;

use model::{Asked, Listed, Read, Reason, Replayed, Wait};

use crate::compare::{rooms, LENGTHS, RECORDS};
use crate::{ListInput, ReplayInput};

/// What the inputs reached.
#[derive(Clone, Debug, Default, PartialEq, Eq)]
pub struct Tally {
    /// How many lists ended with each code.
    lists: BTreeMap<u32, u32>,
    several: u32,
    most: u32,
    cut: u32,
    /// Cut lists whose bound is over 48: runs of loops in which code 23 may arise.
    long_lists: u32,
    /// How many questions ended with each code, with yes, and with no and cut.
    asks: BTreeMap<u32, u32>,
    yes: u32,
    no_cut: u32,
    /// How many replays ended with each code.
    replays: BTreeMap<u32, u32>,
    long: u32,
    whole: u32,
    /// The states after which it was asked why, and how many processors waited for each cause.
    states: u32,
    waits: BTreeMap<Wait, u32>,
    /// The places that refused steps named.
    places: BTreeSet<u8>,
    /// The lengths of the record buffers, schedules and result buffers.
    records: BTreeSet<usize>,
    schedules: BTreeSet<usize>,
    results: BTreeSet<usize>,
    /// The positions of each code in blocks that were read, and how often the code was given.
    blocks: BTreeMap<u32, (BTreeSet<u32>, u32)>,
    /// How many blocks were accepted without their usual bound.
    usual: u32,
    /// The ops and fields at which code 19 stood.
    unset: BTreeSet<(u8, u32)>,
}

impl Tally {
    pub(crate) fn listed(&mut self, input: &ListInput, listed: Listed) {
        *self.lists.entry(listed.code).or_default() += 1;
        self.several += u32::from(listed.count >= 2);
        self.most = self.most.max(listed.count);
        self.cut += u32::from(listed.cut);
        self.long_lists += u32::from(listed.cut && input.bound > 48);
        self.records.insert(input.room);
    }

    pub(crate) fn asked(&mut self, asked: Asked) {
        *self.asks.entry(asked.code).or_default() += 1;
        self.yes += u32::from(asked.yes);
        self.no_cut += u32::from(asked.cut);
    }

    pub(crate) fn replayed(&mut self, input: &ReplayInput, replayed: Replayed) {
        *self.replays.entry(replayed.code).or_default() += 1;
        self.long += u32::from(replayed.steps >= 20);
        self.whole += u32::from(replayed.steps == 96);
        self.places.extend(replayed.place);
        self.schedules.insert(input.schedule.len());
        self.results.insert(input.room);
    }

    pub(crate) fn waited(&mut self, block: &[u8], replayed: Replayed, causes: &[u8]) {
        if replayed.code == 0 || replayed.code >= 20 {
            self.states += 1;
            for wait in causes[..block[0].into()].iter().filter_map(|&cause| Wait::from_byte(cause)) {
                *self.waits.entry(wait).or_default() += 1;
            }
        }
    }

    pub(crate) fn read(&mut self, block: &[u8], read: Read) {
        let (positions, times) = self.blocks.entry(read.code).or_default();
        positions.insert(read.position);
        *times += 1;
        self.usual += u32::from(read.usual);
        if read.code == 19 {
            let part = (read.position - 92) % 6;
            self.unset.insert((block[(read.position - part) as usize], part));
        }
    }

    /// The states after which it was asked why.
    pub fn asked_why(&self) -> u32 {
        self.states
    }

    /// The replays that ended with a code.
    pub fn replays(&self, code: u32) -> u32 {
        self.replays.get(&code).copied().unwrap_or(0)
    }

    /// A third of the lists with two or more outcomes, a third of the questions with yes, half the replays of 20 steps or more, every code, every place
    /// and every cause to wait.
    pub fn deep(&self) -> bool {
        let tallies = [&self.lists, &self.asks, &self.replays];
        let missing = |code: &u32| tallies.iter().all(|tally| !tally.contains_key(code));
        let elsewhere = [Reason::Plan, Reason::Queued, Reason::NoText, Reason::TextRoom];
        let codes = Reason::all().filter(|reason| !elsewhere.contains(reason)).map(Reason::code);
        3 * self.several >= self.lists.values().sum()
            && 3 * self.yes >= self.asks.values().sum()
            && self.no_cut > 0
            && 2 * self.long >= self.replays.values().sum()
            && codes.filter(missing).count() == 0
            && (1..=7).chain([19]).all(|code| self.lists.contains_key(&code) && self.replays.contains_key(&code))
            && [19, 10, 12, 13].iter().all(|code| self.asks.contains_key(code))
            && Wait::all().all(|wait| self.waits.contains_key(&wait))
            && (0..12).all(|place| self.places.contains(&place))
            && self.lengths()
            && self.positions()
    }

    /// Each byte that can be bad for codes 3 and 4 was a position, and most of those that can be for 5 to 7; 19 stood at
    /// every field that names a register to read; usual bounds were dropped.
    fn positions(&self) -> bool {
        let reached = |code: u32| self.blocks.get(&code).map_or(0, |(positions, _)| positions.len());
        reached(3) == 4
            && reached(4) == 4
            && reached(5) >= 75
            && reached(6) >= 270
            && reached(7) >= 390
            && self.unset.len() == 12
            && self.usual > 0
    }

    /// Every length asked for.
    fn lengths(&self) -> bool {
        rooms().all(|room| self.records.contains(&room))
            && (0..=LENGTHS).all(|length| self.schedules.contains(&length) && self.results.contains(&length))
    }
}

impl fmt::Display for Tally {
    fn fmt(&self, f: &mut fmt::Formatter<'_>) -> fmt::Result {
        let codes = |codes: &BTreeMap<u32, u32>| codes.iter().map(|(code, n)| format!(" {code}:{n}")).collect::<String>();
        let (lists, replays) = (self.lists.values().sum::<u32>(), self.replays.values().sum::<u32>());
        let (several, most, cut, long) = (self.several, self.most, self.cut, self.long_lists);
        writeln!(f, "lists {lists}, two or more outcomes {several}, at most {most}, cut {cut}, cut over 48 steps {long}")?;
        writeln!(f, "  by code{}", codes(&self.lists))?;
        let asks = self.asks.values().sum::<u32>();
        writeln!(f, "questions {asks}, yes {}, no and cut {}", self.yes, self.no_cut)?;
        writeln!(f, "  by code{}", codes(&self.asks))?;
        writeln!(f, "replays {replays}, 20 steps or more {}, 96 steps {}", self.long, self.whole)?;
        writeln!(f, "  by code{}", codes(&self.replays))?;
        let waits = self.waits.iter().map(|(wait, n)| format!("; {wait} {n}"));
        writeln!(f, "states asked why {}{}", self.states, waits.collect::<String>())?;
        let blocks = self.blocks.iter().map(|(code, (positions, n))| format!(" {code}:{n}/{}", positions.len()));
        writeln!(f, "blocks by code, and the positions it stood at{}", blocks.collect::<String>())?;
        writeln!(f, "  19 at {} of 12 kinds of field; {} with a usual bound", self.unset.len(), self.usual)?;
        let all = if self.lengths() { "yes" } else { "no" };
        write!(f, "schedules and buffers of every length to {LENGTHS}, records around every multiple of 96 to {RECORDS}: {all}")
    }
}

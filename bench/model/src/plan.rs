//! Request 13: the plans of a hand-off and the case that a pair of them makes.

use crate::ops::{acquire, read, release, write};
use crate::{Case, Instr, Outcome, Reason};

/// One action of a plan.
#[derive(Clone, Copy, Debug, PartialEq, Eq)]
pub enum Act {
    /// The sender writes 1 to a word, the receiver reads it.
    Touch(u8),
    Take,
    Free,
}

/// Word 3 says that the others are ready.
pub const READY: u8 = 3;
/// The most actions of a plan, and the most reads of a receiving one.
pub const ACTS: usize = 4;
pub const READS: usize = 3;

/// The lock's location, and the register of either processor that holds its number.
const LOCK: u8 = 4;
/// The first of the receiver's registers that it reads into.
const FRESH: u8 = 5;

impl Act {
    /// Its number in a plan.
    pub fn byte(self) -> u8 {
        match self {
            Act::Touch(word) => word,
            Act::Take => 4,
            Act::Free => 5,
        }
    }

    pub fn from_byte(byte: u8) -> Option<Act> {
        match byte {
            0..=3 => Some(Act::Touch(byte)),
            4 => Some(Act::Take),
            5 => Some(Act::Free),
            _ => None,
        }
    }
}

/// A pair of plans that is one of a hand-off.
#[derive(Clone, Debug, PartialEq, Eq)]
pub struct Plans {
    pub sending: Vec<Act>,
    pub receiving: Vec<Act>,
}

impl Plans {
    /// The plans of some bytes; any other than document 02's are refused.
    pub fn read(sending: &[u8], receiving: &[u8]) -> Result<Plans, Reason> {
        let plan = |bytes: &[u8]| -> Option<Vec<Act>> {
            (bytes.len() <= ACTS).then(|| bytes.iter().map(|&byte| Act::from_byte(byte)).collect()).flatten()
        };
        let (sending, receiving) = plan(sending).zip(plan(receiving)).ok_or(Reason::Plan)?;
        let plans = Plans { sending, receiving };
        let ready = plans.reads().filter(|&(word, _)| word == READY).count();
        if ready != 1 || plans.reads().count() > READS {
            return Err(Reason::Plan);
        }
        Ok(plans)
    }

    /// The words that the receiver reads, each with the register it goes into.
    pub fn reads(&self) -> impl Iterator<Item = (u8, u8)> + '_ {
        let words = self.receiving.iter().filter_map(|act| match act {
            Act::Touch(word) => Some(*word),
            _ => None,
        });
        words.zip(FRESH..)
    }

    /// Twice the number of actions.
    pub fn bound(&self) -> u8 {
        2 * (self.sending.len() + self.receiving.len()) as u8
    }

    /// Registers 0 to 4 hold their own numbers: the words', the value 1 and the lock's.
    pub fn case(&self) -> Case {
        let mut fresh = FRESH..;
        let instr = |act: &Act, touch: &mut dyn FnMut(u8) -> Instr| match *act {
            Act::Touch(word) => touch(word),
            Act::Take => acquire(LOCK),
            Act::Free => release(LOCK),
        };
        let sends: Vec<Instr> = self.sending.iter().map(|act| instr(act, &mut |word| write(word, 1))).collect();
        let mut reads = |word| read(fresh.next().expect("a register for each read"), word);
        let receives: Vec<Instr> = self.receiving.iter().map(|act| instr(act, &mut reads)).collect();
        let mut case = Case::builder(2, LOCK + 1).program(0, &sends).program(1, &receives);
        for (p, k) in (0..2).flat_map(|p| (0..=LOCK).map(move |k| (p, k))) {
            case = case.preset(p, k.into(), k.into());
        }
        case.build().expect("plans make a sound case")
    }

    /// Whether the flag is seen and some read finds another word that the sender touches as it was.
    pub fn is_stale(&self, outcome: &Outcome) -> bool {
        let read = |register: u8| outcome.registers[1][usize::from(register)];
        let seen = self.reads().any(|(word, register)| word == READY && read(register) == Some(1));
        let sent = |word: u8| word != READY && self.sending.contains(&Act::Touch(word));
        seen && self.reads().any(|(word, register)| sent(word) && read(register) == Some(0))
    }
}

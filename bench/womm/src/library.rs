//! The library over plain bytes, and the numbers that it gives.

use model::{Asked, Asker, Board, BoardLister, Clause, Codec, HandedOff, Listed, Lister, Planner, Raced, Racer, Read};
use model::{ReadText, Replayed, Replayer, Typist, Verdict, Waiter, Written, WrittenText};

use crate::ffi::{self, AskNumbers, ListNumbers, ReplayNumbers};

/// The library over plain bytes.
pub struct Library;

impl Codec for Library {
    fn read(&self, block: &[u8]) -> Read {
        let [mut position, mut usual] = [0; 2];
        let code = ffi::read(block, &mut position, &mut usual);
        Read { code, position: short(position), usual: mark(usual) }
    }

    fn write(&self, block: &mut [u8]) -> Written {
        let mut position = 0;
        let code = ffi::write(block, &mut position);
        Written { code, position: short(position) }
    }
}

impl Typist for Library {
    fn read_text(&self, text: &[u8], block: &mut [u8]) -> ReadText {
        let [mut line, mut usual] = [0; 2];
        let code = ffi::read_text(text, block, &mut line, &mut usual);
        ReadText { code, line: short(line), usual: mark(usual) }
    }

    fn write_text(&self, block: &[u8], text: &mut [u8]) -> WrittenText {
        let [mut length, mut position] = [0; 2];
        let code = ffi::write_text(block, text, &mut length, &mut position);
        WrittenText { code, length: short(length), position: short(position) }
    }
}

impl Lister for Library {
    fn outcomes(&self, block: &[u8], bound: u32, records: &mut [u8]) -> Listed {
        listed(|given| ffi::outcomes(block, bound, records, given))
    }
}

impl BoardLister for Library {
    fn board(&self, board: Board, block: &[u8], bound: u32, records: &mut [u8]) -> Listed {
        listed(|given| ffi::board(board.number(), block, bound, records, given))
    }
}

/// Makes one of the calls that hand back a list's numbers.
fn listed(call: impl FnOnce(ListNumbers) -> u32) -> Listed {
    let [mut count, mut cut, mut position] = [0; 3];
    let code = call(ListNumbers { count: &mut count, cut: &mut cut, position: &mut position });
    Listed { code, count: short(count), cut: mark(cut), position: short(position) }
}

impl Replayer for Library {
    fn replay(&self, block: &[u8], schedule: &[u8], result: &mut [u8]) -> Replayed {
        replayed(|given| ffi::replay(block, schedule, result, given))
    }
}

impl Waiter for Library {
    fn why(&self, block: &[u8], schedule: &[u8], causes: &mut [u8]) -> Replayed {
        replayed(|given| ffi::why(block, schedule, causes, given))
    }
}

impl Racer for Library {
    fn race(&self, block: &[u8], schedule: &[u8]) -> Raced {
        let [mut first, mut second] = [0; 2];
        let replayed = replayed(|given| ffi::race(block, schedule, [&mut first, &mut second], given));
        Raced { replayed, pair: pair_given(first, second) }
    }
}

/// Makes one of the calls that hand back a replay's numbers.
fn replayed(call: impl FnOnce(ReplayNumbers) -> u32) -> Replayed {
    let [mut steps, mut place, mut position] = [0; 3];
    let code = call(ReplayNumbers { steps: &mut steps, place: &mut place, position: &mut position });
    Replayed { code, steps: short(steps), place: place_given(place), position: short(position) }
}

impl Asker for Library {
    fn ask(&self, block: &[u8], bound: u32, clauses: &[Clause], schedule: &mut [u8]) -> Asked {
        asked(ffi::ask(block, bound, clauses, schedule))
    }
}

pub(crate) fn asked(given: AskNumbers) -> Asked {
    let AskNumbers { code, yes, length, cut, position } = given;
    Asked { code, yes: mark(yes), length: short(length), cut: mark(cut), position: short(position) }
}

impl Planner for Library {
    fn handoff(&self, sending: &[u8], receiving: &[u8], schedule: &mut [u8]) -> HandedOff {
        let [mut verdict, mut length] = [0; 2];
        let code = ffi::handoff(sending, receiving, schedule, &mut verdict, &mut length);
        HandedOff { code, verdict: verdict_given(verdict), length: short(length) }
    }
}

/// A number that the library gives: records, steps, bytes or a position.
pub(crate) fn short(count: usize) -> u32 {
    count.try_into().expect("no answer of document 01 is so large")
}

/// A place that the library gives; 255 is none.
pub(crate) fn place_given(number: usize) -> Option<u8> {
    let place = number.try_into().expect("no place is so large");
    Some(place).filter(|&place| place != 255)
}

/// Two actions that the library gives; 255 both is none.
pub(crate) fn pair_given(first: usize, second: usize) -> Option<[u8; 2]> {
    let pair = [first, second].map(|number| number.try_into().expect("no action's number is so large"));
    assert!((pair == [255; 2]) != (pair[0] < pair[1]), "the library gave {pair:?}, which is no pair and not none");
    Some(pair).filter(|&pair| pair != [255; 2])
}

/// A verdict that the library gives: 0 safe, 1 stale, 2 stuck.
pub(crate) fn verdict_given(number: usize) -> Verdict {
    let verdicts = [Verdict::Safe, Verdict::Stale, Verdict::Stuck];
    *verdicts.get(number).unwrap_or_else(|| panic!("the library gave {number}, which is no verdict"))
}

/// A mark that the library gives: 1 is yes, 0 is no, and there is no other.
pub(crate) fn mark(number: usize) -> bool {
    assert!(number <= 1, "the library gave {number}, which is neither yes nor no");
    number == 1
}

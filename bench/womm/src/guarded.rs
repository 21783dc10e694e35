use std::hint::black_box;

use model::{clause, Asked, Asker, Board, BoardLister, Clause, Codec, HandedOff, Listed, Lister, Planner, Raced, Racer, Read};
use model::{ReadText, Replayed, Replayer, Typist, Waiter, Written, WrittenText};

use crate::ffi::{self, ListNumbers, ReplayNumbers};
use crate::library::{asked, mark, pair_given, place_given, short, verdict_given};

/// The library with everything it is lent standing between canaries. After each call the canaries stand,
/// the inputs are what they were, and every number has been given.
pub struct Guarded;

/// An odd margin, so that slices start at odd addresses; wider than a record.
const MARGIN: usize = 129;
const CANARY: u8 = 0xC7;
const NUMBER: usize = usize::from_ne_bytes([CANARY; size_of::<usize>()]);

/// Bytes between two margins.
struct Fenced(Vec<u8>);

impl Fenced {
    fn new(inner: &[u8]) -> Fenced {
        Fenced([&[CANARY; MARGIN], inner, &[CANARY; MARGIN]].concat())
    }

    fn inner(&self) -> &[u8] {
        &self.0[MARGIN..self.0.len() - MARGIN]
    }

    fn inner_mut(&mut self) -> &mut [u8] {
        let end = self.0.len() - MARGIN;
        &mut self.0[MARGIN..end]
    }

    /// What stands inside, once the margins have been looked at.
    fn opened(&self, what: &str) -> &[u8] {
        let (before, after) = (&self.0[..MARGIN], &self.0[self.0.len() - MARGIN..]);
        assert!([before, after].concat().iter().all(|&byte| byte == CANARY), "a byte beside the {what} was written");
        self.inner()
    }
}

/// A number between two others.
struct FencedNumber([usize; 3]);

impl FencedNumber {
    fn new() -> FencedNumber {
        FencedNumber([NUMBER; 3])
    }

    fn lent(&mut self) -> &mut usize {
        &mut self.0[1]
    }

    /// The number given, once those beside it have been looked at.
    fn opened(&self, what: &str) -> usize {
        let [before, number, after] = *black_box(&self.0);
        assert_eq!((before, after), (NUMBER, NUMBER), "a number beside the {what} was written");
        assert_ne!(number, NUMBER, "the {what} was not given");
        number
    }
}

impl Codec for Guarded {
    fn read(&self, block: &[u8]) -> Read {
        let (held, mut position, mut usual) = (Fenced::new(block), FencedNumber::new(), FencedNumber::new());
        let code = ffi::read(held.inner(), position.lent(), usual.lent());
        assert_eq!(black_box(&held).opened("block"), block, "the block was written");
        Read { code, position: short(position.opened("position")), usual: mark(usual.opened("mark of a usual bound")) }
    }

    fn write(&self, block: &mut [u8]) -> Written {
        let (mut lent, mut position) = (Fenced::new(block), FencedNumber::new());
        let code = ffi::write(lent.inner_mut(), position.lent());
        block.copy_from_slice(black_box(&lent).opened("block"));
        Written { code, position: short(position.opened("position")) }
    }
}

impl Typist for Guarded {
    fn read_text(&self, text: &[u8], block: &mut [u8]) -> ReadText {
        let (held, mut lent) = (Fenced::new(text), Fenced::new(block));
        let [mut line, mut usual] = std::array::from_fn(|_| FencedNumber::new());
        let code = ffi::read_text(held.inner(), lent.inner_mut(), line.lent(), usual.lent());
        assert_eq!(black_box(&held).opened("text"), text, "the text was written");
        block.copy_from_slice(black_box(&lent).opened("block"));
        ReadText { code, line: short(line.opened("line")), usual: mark(usual.opened("mark of a usual bound")) }
    }

    fn write_text(&self, block: &[u8], text: &mut [u8]) -> WrittenText {
        let (held, mut lent) = (Fenced::new(block), Fenced::new(text));
        let [mut length, mut position] = std::array::from_fn(|_| FencedNumber::new());
        let code = ffi::write_text(held.inner(), lent.inner_mut(), length.lent(), position.lent());
        assert_eq!(black_box(&held).opened("block"), block, "the block was written");
        text.copy_from_slice(black_box(&lent).opened("text"));
        WrittenText { code, length: short(length.opened("length")), position: short(position.opened("position")) }
    }
}

impl Lister for Guarded {
    fn outcomes(&self, block: &[u8], bound: u32, records: &mut [u8]) -> Listed {
        listed(|block, records, given| ffi::outcomes(block, bound, records, given), block, records)
    }
}

impl BoardLister for Guarded {
    fn board(&self, board: Board, block: &[u8], bound: u32, records: &mut [u8]) -> Listed {
        listed(|block, records, given| ffi::board(board.number(), block, bound, records, given), block, records)
    }
}

/// Makes one of the calls that fill records and hand back a list's numbers.
fn listed(call: impl FnOnce(&[u8], &mut [u8], ListNumbers) -> u32, block: &[u8], records: &mut [u8]) -> Listed {
    let (held, mut lent) = (Fenced::new(block), Fenced::new(records));
    let [mut count, mut cut, mut position] = std::array::from_fn(|_| FencedNumber::new());
    let given = ListNumbers { count: count.lent(), cut: cut.lent(), position: position.lent() };
    let code = call(held.inner(), lent.inner_mut(), given);
    assert_eq!(black_box(&held).opened("block"), block, "the block was written");
    records.copy_from_slice(black_box(&lent).opened("records"));
    let (count, position) = (short(count.opened("count")), short(position.opened("position")));
    Listed { code, count, cut: mark(cut.opened("cut mark")), position }
}

impl Replayer for Guarded {
    fn replay(&self, block: &[u8], schedule: &[u8], result: &mut [u8]) -> Replayed {
        replayed(ffi::replay, block, schedule, result)
    }
}

impl Waiter for Guarded {
    fn why(&self, block: &[u8], schedule: &[u8], causes: &mut [u8]) -> Replayed {
        replayed(ffi::why, block, schedule, causes)
    }
}

impl Racer for Guarded {
    fn race(&self, block: &[u8], schedule: &[u8]) -> Raced {
        let [mut first, mut second] = std::array::from_fn(|_| FencedNumber::new());
        let call = |block: &[u8], schedule: &[u8], _: &mut [u8], given: ReplayNumbers| {
            ffi::race(block, schedule, [first.lent(), second.lent()], given)
        };
        let replayed = replayed(call, block, schedule, &mut []);
        Raced { replayed, pair: pair_given(first.opened("first action"), second.opened("second action")) }
    }
}

/// Makes one of the calls that take a schedule and hand back a replay's numbers.
fn replayed(
    call: impl FnOnce(&[u8], &[u8], &mut [u8], ReplayNumbers) -> u32,
    block: &[u8],
    schedule: &[u8],
    filled: &mut [u8],
) -> Replayed {
    let (held, steps_held, mut lent) = (Fenced::new(block), Fenced::new(schedule), Fenced::new(filled));
    let [mut steps, mut place, mut position] = std::array::from_fn(|_| FencedNumber::new());
    let given = ReplayNumbers { steps: steps.lent(), place: place.lent(), position: position.lent() };
    let code = call(held.inner(), steps_held.inner(), lent.inner_mut(), given);
    assert_eq!(black_box(&held).opened("block"), block, "the block was written");
    assert_eq!(black_box(&steps_held).opened("schedule"), schedule, "the schedule was written");
    filled.copy_from_slice(black_box(&lent).opened("buffer"));
    let (steps, position) = (short(steps.opened("steps")), short(position.opened("position")));
    Replayed { code, steps, place: place_given(place.opened("place")), position }
}

impl Asker for Guarded {
    fn ask(&self, block: &[u8], bound: u32, clauses: &[Clause], schedule: &mut [u8]) -> Asked {
        let (held, mut lent) = (Fenced::new(block), Fenced::new(schedule));
        let edge = [clause(CANARY, CANARY).is(u16::MAX)];
        let wishes = [&edge, clauses, &edge].concat();
        let given = ffi::ask(held.inner(), bound, &wishes[1..=clauses.len()], lent.inner_mut());
        assert_eq!(black_box(&held).opened("block"), block, "the block was written");
        assert_eq!(black_box(&wishes)[..], [&edge, clauses, &edge].concat(), "a clause was written");
        schedule.copy_from_slice(black_box(&lent).opened("schedule"));
        asked(given)
    }
}

impl Planner for Guarded {
    fn handoff(&self, sending: &[u8], receiving: &[u8], schedule: &mut [u8]) -> HandedOff {
        let (sent, received, mut lent) = (Fenced::new(sending), Fenced::new(receiving), Fenced::new(schedule));
        let [mut verdict, mut length] = std::array::from_fn(|_| FencedNumber::new());
        let code = ffi::handoff(sent.inner(), received.inner(), lent.inner_mut(), verdict.lent(), length.lent());
        assert_eq!(black_box(&sent).opened("sending plan"), sending, "the sending plan was written");
        assert_eq!(black_box(&received).opened("receiving plan"), receiving, "the receiving plan was written");
        schedule.copy_from_slice(black_box(&lent).opened("schedule"));
        HandedOff { code, verdict: verdict_given(verdict.opened("verdict")), length: short(length.opened("length")) }
    }
}

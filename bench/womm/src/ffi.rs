//! The library's exports. A slice passes as its pointer, then its length; a number lent has a length's width.
#![allow(unsafe_code)]

use model::Clause;

extern "C" {
    fn womm_read(block: *const u8, block_length: usize, position: *mut usize, usual: *mut usize) -> u32;

    fn womm_write(block: *mut u8, block_length: usize, position: *mut usize) -> u32;

    fn womm_read_text(
        text: *const u8,
        text_length: usize,
        block: *mut u8,
        block_length: usize,
        line: *mut usize,
        usual: *mut usize,
    ) -> u32;

    fn womm_write_text(
        block: *const u8,
        block_length: usize,
        text: *mut u8,
        text_length: usize,
        length: *mut usize,
        position: *mut usize,
    ) -> u32;

    fn womm_replay(
        block: *const u8,
        block_length: usize,
        schedule: *const u8,
        schedule_length: usize,
        result: *mut u8,
        result_length: usize,
        steps: *mut usize,
        place: *mut usize,
        position: *mut usize,
    ) -> u32;

    fn womm_why(
        block: *const u8,
        block_length: usize,
        schedule: *const u8,
        schedule_length: usize,
        causes: *mut u8,
        causes_length: usize,
        steps: *mut usize,
        place: *mut usize,
        position: *mut usize,
    ) -> u32;

    fn womm_race(
        block: *const u8,
        block_length: usize,
        schedule: *const u8,
        schedule_length: usize,
        first: *mut usize,
        second: *mut usize,
        steps: *mut usize,
        place: *mut usize,
        position: *mut usize,
    ) -> u32;

    fn womm_outcomes(
        block: *const u8,
        block_length: usize,
        bound: u32,
        records: *mut u8,
        records_length: usize,
        count: *mut usize,
        cut: *mut usize,
        position: *mut usize,
    ) -> u32;

    fn womm_board(
        kind: u32,
        block: *const u8,
        block_length: usize,
        bound: u32,
        records: *mut u8,
        records_length: usize,
        count: *mut usize,
        cut: *mut usize,
        position: *mut usize,
    ) -> u32;

    fn womm_ask(
        block: *const u8,
        block_length: usize,
        bound: u32,
        clauses: *const Clause,
        clauses_length: usize,
        schedule: *mut u8,
        schedule_length: usize,
    ) -> AskNumbers;

    fn womm_handoff(
        sending: *const u8,
        sending_length: usize,
        receiving: *const u8,
        receiving_length: usize,
        schedule: *mut u8,
        schedule_length: usize,
        verdict: *mut usize,
        length: *mut usize,
    ) -> u32;
}

/// What a question gives: the code, two marks and two numbers.
#[repr(C)]
pub struct AskNumbers {
    pub code: u32,
    pub yes: usize,
    pub length: usize,
    pub cut: usize,
    pub position: usize,
}

/// The numbers that a replay hands back, and the question why.
pub struct ReplayNumbers<'a> {
    pub steps: &'a mut usize,
    pub place: &'a mut usize,
    pub position: &'a mut usize,
}

/// The numbers that a list hands back, on whatever machine.
pub struct ListNumbers<'a> {
    pub count: &'a mut usize,
    pub cut: &'a mut usize,
    pub position: &'a mut usize,
}

/// Reads a block; gives the code.
pub fn read(block: &[u8], position: &mut usize, usual: &mut usize) -> u32 {
    // SAFETY: each pointer comes from a live slice or number and goes with its own length; the numbers are lent to
    // this call alone.
    unsafe { womm_read(block.as_ptr(), block.len(), position, usual) }
}

/// Makes a block of a buffer that holds one but for its check; gives the code.
pub fn write(block: &mut [u8], position: &mut usize) -> u32 {
    // SAFETY: as above; `block` and `position` are lent to this call alone.
    unsafe { womm_write(block.as_mut_ptr(), block.len(), position) }
}

/// Reads a text into a block; gives the code.
pub fn read_text(text: &[u8], block: &mut [u8], line: &mut usize, usual: &mut usize) -> u32 {
    // SAFETY: as above; `block` and the numbers are lent to this call alone.
    unsafe { womm_read_text(text.as_ptr(), text.len(), block.as_mut_ptr(), block.len(), line, usual) }
}

/// Writes the text of a block; gives the code.
pub fn write_text(block: &[u8], text: &mut [u8], length: &mut usize, position: &mut usize) -> u32 {
    // SAFETY: as above; `text` and the numbers are lent to this call alone.
    unsafe { womm_write_text(block.as_ptr(), block.len(), text.as_mut_ptr(), text.len(), length, position) }
}

/// Replays a schedule; gives the code.
pub fn replay(block: &[u8], schedule: &[u8], result: &mut [u8], numbers: ReplayNumbers) -> u32 {
    let ReplayNumbers { steps, place, position } = numbers;
    let (given, given_length) = (schedule.as_ptr(), schedule.len());
    let (bytes, length) = (result.as_mut_ptr(), result.len());
    // SAFETY: as above; `result` and the numbers are lent to this call alone.
    unsafe { womm_replay(block.as_ptr(), block.len(), given, given_length, bytes, length, steps, place, position) }
}

/// Replays a schedule and says what each processor waits for; gives the code.
pub fn why(block: &[u8], schedule: &[u8], causes: &mut [u8], numbers: ReplayNumbers) -> u32 {
    let ReplayNumbers { steps, place, position } = numbers;
    let (given, given_length) = (schedule.as_ptr(), schedule.len());
    let (bytes, length) = (causes.as_mut_ptr(), causes.len());
    // SAFETY: as above; `causes` and the numbers are lent to this call alone.
    unsafe { womm_why(block.as_ptr(), block.len(), given, given_length, bytes, length, steps, place, position) }
}

/// Replays a schedule and gives its first race; gives the code.
pub fn race(block: &[u8], schedule: &[u8], pair: [&mut usize; 2], numbers: ReplayNumbers) -> u32 {
    let ReplayNumbers { steps, place, position } = numbers;
    let [first, second] = pair;
    let (given, length) = (schedule.as_ptr(), schedule.len());
    // SAFETY: as above; the numbers are lent to this call alone.
    unsafe { womm_race(block.as_ptr(), block.len(), given, length, first, second, steps, place, position) }
}

/// Lists outcomes; gives the code.
pub fn outcomes(block: &[u8], bound: u32, records: &mut [u8], numbers: ListNumbers) -> u32 {
    let ListNumbers { count, cut, position } = numbers;
    let (bytes, length) = (records.as_mut_ptr(), records.len());
    // SAFETY: as above; `records` and the numbers are lent to this call alone.
    unsafe { womm_outcomes(block.as_ptr(), block.len(), bound, bytes, length, count, cut, position) }
}

/// Lists outcomes on a board; gives the code.
pub fn board(kind: u32, block: &[u8], bound: u32, records: &mut [u8], numbers: ListNumbers) -> u32 {
    let ListNumbers { count, cut, position } = numbers;
    let (bytes, length) = (records.as_mut_ptr(), records.len());
    // SAFETY: as above; `records` and the numbers are lent to this call alone.
    unsafe { womm_board(kind, block.as_ptr(), block.len(), bound, bytes, length, count, cut, position) }
}

/// Asks for a result.
pub fn ask(block: &[u8], bound: u32, clauses: &[Clause], schedule: &mut [u8]) -> AskNumbers {
    let (wish, wishes) = (clauses.as_ptr(), clauses.len());
    let (bytes, length) = (schedule.as_mut_ptr(), schedule.len());
    // SAFETY: as above; a clause has the layout that the library takes, and `schedule` is lent to this call alone.
    unsafe { womm_ask(block.as_ptr(), block.len(), bound, wish, wishes, bytes, length) }
}

/// Judges a pair of plans; gives the code.
pub fn handoff(sending: &[u8], receiving: &[u8], schedule: &mut [u8], verdict: &mut usize, length: &mut usize) -> u32 {
    let (other, others) = (receiving.as_ptr(), receiving.len());
    let (bytes, room) = (schedule.as_mut_ptr(), schedule.len());
    // SAFETY: as above; `schedule` and the numbers are lent to this call alone.
    unsafe { womm_handoff(sending.as_ptr(), sending.len(), other, others, bytes, room, verdict, length) }
}

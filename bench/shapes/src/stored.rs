//! Inputs of the two programs, stored as files with what the programs print for them.

use model::ops::*;
use model::{block, Lister, Outcome, Reason, Replayed, Replayer, ENDING, RECORD};
use states::States;

use crate::lists::message;
use crate::{damaged, lists, runs, usual};

/// The records that the program `outcomes` has room for.
const ROOM: usize = 682;

/// Every stored file: its path and its bytes.
pub fn stored() -> Vec<(String, Vec<u8>)> {
    let replays = runs().into_iter().map(|run| {
        let prints = replay_line(run.replayed());
        (format!("replay/{}", run.name), [run.block, run.schedule].concat(), prints)
    });
    let outcomes = list_inputs().into_iter().map(|(name, input)| {
        let prints = outcomes_prints(&input);
        (format!("outcomes/{name}"), input, prints)
    });
    let files = replays.chain(outcomes);
    files.flat_map(|(path, input, prints)| [(format!("{path}.in"), input), (format!("{path}.out"), prints.into())]).collect()
}

fn list_inputs() -> Vec<(&'static str, Vec<u8>)> {
    let with = |block: &[u8], bound: u8| [block, &[bound]].concat();
    let h = message().build().expect("a sound case").block();
    let old = block::with_bound(h, 8);
    let readers = usual(1, &[&[write(0, 1), write(0, 4)], &[2, 3, 4, 5, 6, 7].map(|d| read(d, 0))]);
    let readers = readers.preset(0, 4, 2).build().expect("a sound case").block();
    let mut inputs: Vec<_> = lists().iter().map(|shape| (shape.name, with(&shape.case.block(), shape.bound))).collect();
    inputs.extend(damaged().iter().map(|damaged| (damaged.name, with(&damaged.block, 255))));
    inputs.extend([
        ("old-bound-1-given-8", with(&block::with_bound(h, 1), 8)),
        ("old-bound-8-given-7", with(&old, 7)),
        ("old-bound-96-given-8", with(&block::with_bound(h, 96), 8)),
        ("old-bound-8-given-255", with(&old, 255)),
        ("bound-97", with(&h, 97)),
        ("bound-254", with(&h, 254)),
        ("bound-255", with(&h, 255)),
        ("length-0", vec![]),
        ("length-512", h.to_vec()),
        ("length-514", with(&with(&h, 8), 0)),
        ("outcomes-729", with(&readers, 16)),
    ]);
    inputs
}

/// What the program `replay` prints for its input.
pub fn replay_prints(input: &[u8]) -> String {
    let (block, schedule) = input.split_at(input.len().min(block::LENGTH));
    let replayed = States.replay(block, schedule, &mut [0; ENDING]);
    replay_line(replayed)
}

fn replay_line(replayed: Replayed) -> String {
    format!("code {} after {} steps{}\n", replayed.code, replayed.steps, at(replayed.code, replayed.position))
}

/// The end of a block code's line.
fn at(code: u32, position: u32) -> String {
    let of_block = Reason::from_code(code).is_some_and(Reason::is_of_block);
    if of_block {
        format!(" at {position}")
    } else {
        String::new()
    }
}

/// What the program `outcomes` prints for its input.
pub fn outcomes_prints(input: &[u8]) -> String {
    let Some((&bound, block)) = input.split_last().filter(|(_, block)| block.len() == block::LENGTH) else {
        return "refused 1 at 0\n".to_string();
    };
    let mut records = vec![0; ROOM * RECORD];
    let listed = States.outcomes(block, bound.into(), &mut records);
    if listed.code != 0 {
        return format!("refused {}{}\n", listed.code, at(listed.code, listed.position));
    }
    let header = format!("outcomes {} cut {}\n", listed.count, if listed.cut { "yes" } else { "no" });
    let line = |record: &[u8]| Outcome::read(record.try_into().expect("96 bytes")).line(block[0].into()) + "\n";
    records.chunks_exact(RECORD).take(listed.count as usize).fold(header, |text, record| text + &line(record))
}

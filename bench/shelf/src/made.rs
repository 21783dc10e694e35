use model::block::LENGTH;
use random::{Inputs, Rng};

use crate::report;

/// A shelf of so many accepted blocks, of every shape in turn.
pub fn all_accepted(blocks: usize) -> Vec<u8> {
    let shapes: Vec<_> = shapes::lists().iter().map(|list| list.case.block()).collect();
    shapes.iter().cycle().take(blocks).flatten().copied().collect()
}

/// A shelf with an accepted block before each block that is refused, and every code of a whole block among these.
pub fn every_code() -> Vec<u8> {
    let refused = shapes::damaged().into_iter().map(|damaged| damaged.block).filter(|block| block.len() == LENGTH);
    let accepted = shapes::lists().into_iter().map(|list| list.case.block()).collect::<Vec<_>>();
    refused.zip(accepted.iter().cycle()).flat_map(|(refused, accepted)| [&accepted[..], &refused].concat()).collect()
}

/// A shelf of random blocks, sound and damaged, and some bytes over.
pub fn random(seed: u64) -> Vec<u8> {
    let mut rng = Rng::new(seed);
    let mut inputs = Inputs::new(seed);
    let mut shelf = Vec::new();
    for _ in 0..rng.below(40) {
        let mut block = inputs.to_judge_any();
        block.resize(LENGTH, 0);
        shelf.extend(block);
    }
    shelf.extend((0..rng.below(LENGTH)).map(|_| rng.byte()));
    shelf
}

/// The shelves that are stored, each with what is printed of it, by their paths.
pub fn stored() -> Vec<(String, Vec<u8>)> {
    let whole = every_code();
    let shelves = [
        ("empty", vec![]),
        ("one-byte-short", all_accepted(1)[..LENGTH - 1].to_vec()),
        ("one-block", all_accepted(1)),
        ("one-byte-over", [all_accepted(2), vec![1]].concat()),
        ("every-code-and-511-over", [&whole, &whole[..LENGTH - 1]].concat()),
    ];
    let files = |(name, shelf): (&str, Vec<u8>)| {
        let printed = report(&shelf).into_bytes();
        [(format!("shelf/{name}.in"), shelf), (format!("shelf/{name}.out"), printed)]
    };
    shelves.into_iter().flat_map(files).collect()
}

#[cfg(test)]
mod tests {
    use super::*;

    #[test]
    fn every_code_and_every_op_occurs() {
        let printed = report(&every_code());
        let codes = shapes::damaged()
            .into_iter()
            .filter(|damaged| damaged.code != 1)
            .map(|damaged| format!("refused {} 0\n", damaged.code));
        for line in codes.chain((1..=10).map(|op| format!("op {op} 0\n"))) {
            assert!(!printed.contains(&line), "{line}");
        }
    }

    #[test]
    fn what_is_stored_is_up_to_date() {
        let inputs = concat!(env!("CARGO_MANIFEST_DIR"), "/../inputs/");
        for (path, bytes) in stored() {
            assert!(std::fs::read(format!("{inputs}{path}")).ok() == Some(bytes), "{path}: run write-shelves");
        }
    }
}

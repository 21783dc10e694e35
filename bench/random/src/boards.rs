//! Store-buffer machines: random inputs, and a comparison on them with the inclusions looked at.

use std::collections::{BTreeMap, BTreeSet};
use std::fmt;

use model::{Board, BoardLister, Listed, Outcome};

use crate::{Inputs, ListInput, Listable};

/// Where two implementations differ, or a machine has an outcome that the next one lacks.
#[derive(Debug)]
pub enum BoardMismatch {
    Answer { board: Board, input: ListInput, reference: Listed, other: Listed },
    Outside { board: Board, held: Listable },
}

/// What the inputs reached.
#[derive(Clone, Debug, Default, PartialEq, Eq)]
pub struct BoardTally {
    cases: u32,
    /// How many lists ended with each code.
    codes: BTreeMap<u32, u32>,
    several: u32,
    cut: u32,
    /// Cases in which each machine has fewer outcomes than the next, WOMM after PSO.
    wider: [u32; 3],
}

/// Hands so many random cases to both, on every machine, in buffers that are not zero before.
pub fn compare_boards(
    seed: u64,
    cases: u32,
    reference: &dyn BoardLister,
    other: &dyn BoardLister,
) -> Result<BoardTally, Box<BoardMismatch>> {
    let mut tally = BoardTally { cases, ..BoardTally::default() };
    let mut inputs = Inputs::new(seed);
    for _ in 0..cases {
        let held = inputs.boarded();
        for board in Board::ALL {
            let input = inputs.to_board(&held);
            let (mut ours, mut theirs) = (vec![0xA5; input.room], vec![0x5A; input.room]);
            let said = reference.board(board, &input.block, input.bound, &mut ours);
            let answer = other.board(board, &input.block, input.bound, &mut theirs);
            if (said, ours) != (answer, theirs) {
                return Err(Box::new(BoardMismatch::Answer { board, input, reference: said, other: answer }));
            }
            tally.listed(said);
        }
        tally.included(&held).map_err(|board| Box::new(BoardMismatch::Outside { board, held }))?;
    }
    Ok(tally)
}

impl BoardTally {
    fn listed(&mut self, listed: Listed) {
        *self.codes.entry(listed.code).or_default() += 1;
        self.several += u32::from(listed.count >= 2);
        self.cut += u32::from(listed.cut);
    }

    /// Looks whether each machine's outcomes are among the next one's; the first of which they are not.
    fn included(&mut self, held: &Listable) -> Result<(), Board> {
        let bound = held.bound / 2;
        let [sc, tso, pso] = Board::ALL.map(|board| boards::list(board, &held.case, bound).outcomes);
        let even = held.bound.is_multiple_of(2);
        let womm = if even { held.outcomes.iter().cloned().collect() } else { states::list(&held.case, 2 * bound).outcomes };
        let machines: [BTreeSet<Outcome>; 4] = [sc, tso, pso, womm];
        for (i, board) in Board::ALL.into_iter().enumerate() {
            if !machines[i].is_subset(&machines[i + 1]) {
                return Err(board);
            }
            self.wider[i] += u32::from(machines[i].len() < machines[i + 1].len());
        }
        Ok(())
    }

    /// A fifth of the lists with two or more outcomes, every refusal of a list, cut lists, and cases that tell each
    /// machine from the next.
    pub fn deep(&self) -> bool {
        let codes = (1..=7).chain([19, 10, 11]);
        5 * self.several >= self.codes.values().sum()
            && codes.into_iter().all(|code| self.codes.contains_key(&code))
            && self.cut > 0
            && self.wider.iter().all(|&cases| 100 * cases >= self.cases)
    }
}

impl fmt::Display for BoardTally {
    fn fmt(&self, f: &mut fmt::Formatter<'_>) -> fmt::Result {
        let codes = self.codes.iter().map(|(code, n)| format!(" {code}:{n}")).collect::<String>();
        let [tso, pso, womm] = self.wider;
        writeln!(f, "cases on boards {}, lists with two or more outcomes {}, cut {}", self.cases, self.several, self.cut)?;
        writeln!(f, "  by code{codes}")?;
        write!(f, "  more outcomes on TSO than on SC {tso}, on PSO than on TSO {pso}, on WOMM than on PSO {womm}; none fewer")
    }
}

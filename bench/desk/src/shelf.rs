//! `shelf`: the numbers over a file of blocks, in the lines of the proved program `shelf`.

use std::io::{self, Read};

use womm::{Case, Refusal};

use crate::arguments::Arguments;
use crate::input;
use crate::said::{cause, Said, Trouble, REFUSED, YES};

/// More whole blocks than these are refused.
const MOST: usize = 65_535;
const LENGTH: usize = 512;

/// The codes that a whole block can get.
const CODES: [u32; 7] = [2, 3, 4, 5, 6, 7, 19];

/// The numbers so far.
#[derive(Default)]
struct Tally {
    blocks: usize,
    accepted: usize,
    refused: [usize; CODES.len()],
    ops: [usize; 11],
}

pub fn run(given: Arguments) -> Result<Said, Trouble> {
    let [path] = given.exactly(["FILE"])?;
    let mut tally = Tally::default();
    let over = count(&path, &mut tally).map_err(|wrong| Trouble::system(format!("{path}: {}", cause(&wrong))))?;
    Ok(match over {
        Some(over) => Said::new(tally.report(over), YES),
        None => Said::new("refused 16\n", REFUSED),
    })
}

/// Counts the blocks of a file; the bytes left over, or none where there are too many blocks.
fn count(path: &str, tally: &mut Tally) -> io::Result<Option<usize>> {
    let mut file = io::BufReader::with_capacity(1 << 16, input::open(path)?);
    let mut block = Vec::with_capacity(LENGTH);
    loop {
        block.clear();
        let read = file.by_ref().take(LENGTH as u64).read_to_end(&mut block)?;
        if read < LENGTH {
            return Ok(Some(read));
        }
        if tally.blocks == MOST {
            return Ok(None);
        }
        tally.add(Case::from_block(&block));
    }
}

impl Tally {
    fn add(&mut self, judged: Result<Case, Refusal>) {
        self.blocks += 1;
        match judged {
            Ok(case) => {
                self.accepted += 1;
                for instr in case.processors().iter().flat_map(|processor| &processor.program) {
                    self.ops[usize::from(instr.bytes()[0])] += 1;
                }
            }
            Err(refusal) => {
                let row = CODES.iter().position(|&code| code == refusal.code());
                self.refused[row.expect("a whole block gets no other code")] += 1;
            }
        }
    }

    fn report(&self, over: usize) -> String {
        let refused = CODES.iter().zip(self.refused).map(|(code, number)| format!("refused {code} {number}\n"));
        let ops = (1..=10).map(|op| format!("op {op} {}\n", self.ops[op]));
        let head = format!("blocks {}\naccepted {}\n", self.blocks, self.accepted);
        head + &refused.collect::<String>() + &format!("over {over}\n") + &ops.collect::<String>()
    }
}

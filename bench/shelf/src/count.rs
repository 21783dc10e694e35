use std::fmt::Write;

use model::{block, Case, Refusal};

/// More whole blocks than these are refused.
const MOST: usize = 65_535;

/// The codes that a whole block can get.
const CODES: [u32; 7] = [2, 3, 4, 5, 6, 7, 19];

/// All that is printed of a shelf.
pub fn report(shelf: &[u8]) -> String {
    let blocks = shelf.chunks_exact(block::LENGTH);
    let over = blocks.remainder().len();
    if blocks.len() > MOST {
        return "refused 16\n".into();
    }
    lines(&blocks.map(block::read).collect::<Vec<_>>(), over)
}

fn lines(blocks: &[Result<Case, Refusal>], over: usize) -> String {
    let accepted: Vec<&Case> = blocks.iter().flatten().collect();
    let mut text = format!("blocks {}\naccepted {}\n", blocks.len(), accepted.len());
    for code in CODES {
        let refused = blocks.iter().filter(|read| matches!(read, Err(refusal) if refusal.code() == code)).count();
        writeln!(text, "refused {code} {refused}").expect("a string");
    }
    writeln!(text, "over {over}").expect("a string");
    let mut ops = [0; 11];
    for instr in accepted.iter().flat_map(|case| case.processors()).flat_map(|processor| &processor.program) {
        ops[usize::from(instr.bytes()[0])] += 1;
    }
    for (op, count) in ops.iter().enumerate().skip(1) {
        writeln!(text, "op {op} {count}").expect("a string");
    }
    text
}

#[cfg(test)]
mod tests {
    use super::*;

    const NOTHING: &str = "refused 2 0\nrefused 3 0\nrefused 4 0\nrefused 5 0\nrefused 6 0\nrefused 7 0\nrefused 19 0\n";

    #[test]
    fn an_empty_shelf_has_every_line() {
        let ops = "op 1 0\nop 2 0\nop 3 0\nop 4 0\nop 5 0\nop 6 0\nop 7 0\nop 8 0\nop 9 0\nop 10 0\n";
        assert_eq!(report(&[]), format!("blocks 0\naccepted 0\n{NOTHING}over 0\n{ops}"));
        assert_eq!(report(&[0; 511]), format!("blocks 0\naccepted 0\n{NOTHING}over 511\n{ops}"));
    }

    #[test]
    fn two_writes_and_two_reads() {
        let message = shapes::message().build().expect("a sound case").block();
        let ops = "op 1 2\nop 2 2\nop 3 0\nop 4 0\nop 5 0\nop 6 0\nop 7 0\nop 8 0\nop 9 0\nop 10 0\n";
        assert_eq!(report(&message), format!("blocks 1\naccepted 1\n{NOTHING}over 0\n{ops}"));
    }

    #[test]
    fn one_block_too_many() {
        let block = shapes::message().build().expect("a sound case").block();
        assert!(report(&block.repeat(MOST)).starts_with("blocks 65535\naccepted 65535\n"));
        assert_eq!(report(&block.repeat(MOST + 1)), "refused 16\n");
    }
}

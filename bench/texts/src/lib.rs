//! The text of a case by document 02 alone. A text is read by completing it: what its lines say is put into a case in
//! whatever order they stand, programs are drawn out until every label is reached, and the text of that case must
//! begin with the lines.
#![forbid(unsafe_code)]

mod damage;
mod draft;
mod made;

pub use damage::damages;
pub use made::random_text;

use draft::Draft;
use model::{block, ReadText, Reason, Typist, WrittenText};

/// Texts read by completing them.
pub struct Texts;

impl Typist for Texts {
    fn read_text(&self, text: &[u8], block: &mut [u8]) -> ReadText {
        let read = read(text);
        block.fill(0);
        match read {
            Ok(_) if block.len() != block::LENGTH => ReadText::refused(Reason::BlockLength, 0),
            Ok((bytes, usual)) => {
                block.copy_from_slice(&bytes);
                ReadText { code: 0, line: 0, usual }
            }
            Err((reason, line)) => ReadText::refused(reason, line),
        }
    }

    fn write_text(&self, block: &[u8], text: &mut [u8]) -> WrittenText {
        text.fill(0);
        let written = match block::read(block) {
            Ok(_) => Draft::of_block(block).text(),
            Err(refusal) => return WrittenText { code: refusal.code(), length: 0, position: refusal.position },
        };
        match text.get_mut(..written.len()) {
            Some(start) => start.copy_from_slice(written.as_bytes()),
            None => return WrittenText { code: Reason::TextRoom.code(), length: 0, position: 0 },
        }
        WrittenText { code: 0, length: written.len() as u32, position: 0 }
    }
}

type Line = u32;

/// The block of a text and whether it had a usual bound; or the refusal and its line.
fn read(text: &[u8]) -> Result<([u8; block::LENGTH], bool), (Reason, Line)> {
    let lines: Vec<&[u8]> = text.split_inclusive(|&byte| byte == b'\n').collect();
    let begins =
        |n: &usize| completed(&lines[..*n]).is_some_and(|whole| whole.text().as_bytes().starts_with(&lines[..*n].concat()));
    let ended = |n: &usize| lines[n - 1].ends_with(b"\n");
    let bad = (1..=lines.len()).find(|n| !(ended(n) && begins(n))).unwrap_or(lines.len() + 1) as Line;
    let whole = completed(&lines).filter(|whole| whole.text().as_bytes() == text).ok_or((Reason::NoText, bad))?;
    match whole.unset_line() {
        Some(line) => Err((Reason::NobodySets, line)),
        None => Ok((whole.block().expect("a case"), whole.had_bound())),
    }
}

/// The case of some lines, its programs drawn out until every label is reached, if it gets none of codes 3 to 7.
fn completed(lines: &[&[u8]]) -> Option<Draft> {
    let mut draft = Draft::of_lines(lines)?;
    draft.draw_out();
    let judged = block::read(&draft.block()?);
    let sound = judged.map_or_else(|refusal| refusal.reason == Reason::NobodySets, |_| true);
    sound.then_some(draft)
}

#[cfg(test)]
mod tests {
    use super::*;

    #[test]
    fn lines_that_cannot_go_on() {
        let at = |text: &str| read(text.as_bytes()).map_or_else(|(reason, line)| (reason.code(), line), |_| (0, 0));
        assert_eq!([at(""), at("case 1 1"), at("case 1 1\n"), at("case 1 1 97\n")], [(17, 1), (17, 1), (0, 0), (17, 1)]);
        assert_eq!(at("case 2 1\nop 0 goto 5\nop 1 goto 0\n"), (17, 3));
        assert_eq!(at("case 1 1\nop 0 goto 5\n"), (17, 3));
        assert_eq!(at("case 1 1\nop 0 goto 13\n"), (17, 2));
        assert_eq!(at("case 1 1\nreg 0 0 0\nop 0 goto 2\nop 0 read 1 7\n"), (19, 4));
    }

    #[test]
    fn the_longest_text() {
        let set = |p: u32| (0..12).map(move |_| format!("op {p} set 7 65535\n"));
        let reg = |p: u32| (0..8).map(move |k| format!("reg {p} {k} 65535\n"));
        let mem = (0..8).map(|l| format!("mem {l} 65535\n"));
        let text: String =
            ["case 4 8\n".to_string()].into_iter().chain(mem).chain((0..4).flat_map(reg)).chain((0..4).flat_map(set)).collect();
        assert_eq!(text.len(), 1_369);
        assert!(read(text.as_bytes()).is_ok());
    }
}

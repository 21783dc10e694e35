//! Texts through the library's reader and writer.

use model::block::LENGTH;
use model::Typist;

use crate::refusal::{accepted, reason, Refusal};
use crate::Library;

/// The longest text has so many bytes.
pub const TEXT: usize = 1_369;

/// The block of a text, and whether an old text's usual bound was dropped.
pub fn read(text: &[u8]) -> Result<([u8; LENGTH], bool), Refusal> {
    let mut block = [0; LENGTH];
    let read = Library.read_text(text, &mut block);
    reason(read.code).map_or(Ok((block, read.usual)), |reason| Err(Refusal::of_text(reason, read.line)))
}

/// The text of a block.
pub fn written(block: &[u8; LENGTH]) -> Result<String, Refusal> {
    let mut text = vec![0; TEXT];
    let written = Library.write_text(block, &mut text);
    accepted(written.code, written.position)?;
    text.truncate(written.length as usize);
    Ok(String::from_utf8(text).expect("a text is ASCII"))
}

//! Cases that the library has accepted.

use model::block::{self, LENGTH};
use model::{Codec, Instr, Processor};

use crate::refusal::{accepted, Refusal};
use crate::texts;
use crate::Library;

/// A case that the library has accepted: from a block's bytes, from a text, or from a builder.
///
/// ```
/// use womm::{ops, Case};
///
/// let typed = Case::from_text("case 1 1\nreg 0 0 0\nop 0 read 2 0\n")?;
/// let built = Case::builder(1, 1).preset(0, 0, 0).program(0, &[ops::read(2, 0)]).build()?;
/// assert_eq!(typed, built);
/// assert_eq!(Case::from_block(built.block())?, built);
/// assert_eq!(built.text(), "case 1 1\nreg 0 0 0\nop 0 read 2 0\n");
/// # Ok::<(), womm::Refusal>(())
/// ```
#[derive(Clone, Debug, PartialEq, Eq)]
pub struct Case {
    block: [u8; LENGTH],
    held: model::Case,
}

impl Case {
    /// The case of 512 bytes. A usual bound, which old blocks have, is dropped.
    pub fn from_block(bytes: &[u8]) -> Result<Case, Refusal> {
        let read = Library.read(bytes);
        accepted(read.code, read.position)?;
        Ok(block::read(bytes).expect("the library accepted it").into())
    }

    /// The case of a text. A usual bound, which old texts have, is dropped.
    ///
    /// ```
    /// let refused = womm::Case::from_text("case 1 1\nop 0 jump 0\n").unwrap_err();
    /// assert_eq!((refused.code(), refused.line), (17, Some(2)));
    /// ```
    pub fn from_text(text: impl AsRef<[u8]>) -> Result<Case, Refusal> {
        Case::from_block(&texts::read(text.as_ref())?.0)
    }

    /// Begins a case with as many processors and locations, nothing preset, memory at 0.
    pub fn builder(processors: u8, locations: u8) -> CaseBuilder {
        CaseBuilder { held: model::Case::builder(processors, locations) }
    }

    /// Its block.
    pub fn block(&self) -> &[u8; LENGTH] {
        &self.block
    }

    /// Its text.
    pub fn text(&self) -> String {
        texts::written(&self.block).expect("a case that was accepted has a text")
    }

    /// What each processor starts with and runs.
    pub fn processors(&self) -> &[Processor] {
        self.held.processors()
    }

    /// How many locations there are.
    pub fn locations(&self) -> u8 {
        self.held.locations()
    }

    /// The word that a location starts with.
    pub fn memory(&self, location: u8) -> u16 {
        self.held.memory(location)
    }
}

impl From<model::Case> for Case {
    fn from(held: model::Case) -> Case {
        Case { block: held.block(), held }
    }
}

/// Gathers a case.
///
/// ```
/// let refused = womm::Case::builder(1, 1).program(0, &[womm::ops::goto(2)]).build().unwrap_err();
/// assert_eq!((refused.code(), refused.position), (6, Some(96)));
/// ```
#[derive(Clone, Debug)]
pub struct CaseBuilder {
    held: model::CaseBuilder,
}

impl CaseBuilder {
    /// Register k of processor p starts with a value.
    pub fn preset(self, p: usize, k: usize, value: u16) -> Self {
        CaseBuilder { held: self.held.preset(p, k, value) }
    }

    /// A location starts with a value.
    pub fn memory(self, location: usize, value: u16) -> Self {
        CaseBuilder { held: self.held.memory(location, value) }
    }

    /// Adds instructions at the end of processor p's program.
    pub fn program(self, p: usize, instrs: &[Instr]) -> Self {
        CaseBuilder { held: self.held.program(p, instrs) }
    }

    /// The case, or the first refusal that it deserves, at the byte that its block would have had.
    pub fn build(self) -> Result<Case, Refusal> {
        Case::from_block(&self.held.build()?.block())
    }
}

/// Whether bytes are a block that holds a case; if so, whether it has a usual bound too, which is dropped.
pub fn check_block(bytes: &[u8]) -> Result<bool, Refusal> {
    let read = Library.read(bytes);
    accepted(read.code, read.position)?;
    Ok(read.usual)
}

/// Whether a text is one case's; if so, whether it has a usual bound of 1 to 96 too, which is dropped.
///
/// ```
/// assert_eq!(womm::check_text("case 1 1\n"), Ok(false));
/// assert_eq!(womm::check_text("case 1 1 8\n"), Ok(true));
/// assert_eq!(womm::check_text("case 1 1 97\n").unwrap_err().line, Some(1));
/// ```
pub fn check_text(text: impl AsRef<[u8]>) -> Result<bool, Refusal> {
    texts::read(text.as_ref()).map(|(_, usual)| usual)
}

/// Makes a block of a buffer that holds a case in its bytes 0 to 509: no usual bound, and the check. Refused, the buffer
/// is all zeros.
///
/// ```
/// let mut buffer = [0; 512];
/// buffer[..2].copy_from_slice(&[1, 1]);
/// womm::seal_block(&mut buffer)?;
/// assert_eq!(womm::check_block(&buffer), Ok(false));
/// # Ok::<(), womm::Refusal>(())
/// ```
pub fn seal_block(buffer: &mut [u8]) -> Result<(), Refusal> {
    let written = Library.write(buffer);
    accepted(written.code, written.position)
}

//! Why a call was refused.

use std::fmt;

use model::Reason;

/// Why a call was refused, and where: the byte of a block, or the line of a text.
///
/// ```
/// let refused = womm::Case::from_block(&[0; 511]).unwrap_err();
/// assert_eq!((refused.code(), refused.to_string().as_str()), (1, "length is not 512"));
/// ```
#[non_exhaustive]
#[derive(Clone, Copy, Debug, PartialEq, Eq, Hash)]
pub struct Refusal {
    /// The first refusal that applies.
    pub reason: Reason,
    /// With codes 3 to 7 and 19 of a block: the lowest bad byte.
    pub position: Option<u32>,
    /// With codes 17 and 19 of a text: the line, from 1.
    pub line: Option<u32>,
}

impl Refusal {
    /// Its number in documents 01 and 02.
    pub fn code(&self) -> u32 {
        self.reason.code()
    }

    /// A refusal of a block or of a call that takes one; a position counts only with a code that names a byte.
    pub(crate) fn of_block(reason: Reason, position: u32) -> Refusal {
        Refusal { reason, position: reason.has_position().then_some(position), line: None }
    }

    /// A refusal of a text at a line.
    pub(crate) fn of_text(reason: Reason, line: u32) -> Refusal {
        Refusal { reason, position: None, line: Some(line) }
    }
}

impl From<Reason> for Refusal {
    /// A refusal that names no byte and no line.
    fn from(reason: Reason) -> Refusal {
        Refusal { reason, position: None, line: None }
    }
}

impl From<model::Refusal> for Refusal {
    fn from(refusal: model::Refusal) -> Refusal {
        Refusal::of_block(refusal.reason, refusal.position)
    }
}

impl fmt::Display for Refusal {
    fn fmt(&self, f: &mut fmt::Formatter<'_>) -> fmt::Result {
        match (self.position, self.line) {
            (Some(position), _) => model::Refusal { reason: self.reason, position }.fmt(f),
            (_, Some(line)) => write!(f, "line {line}: {}", self.reason),
            _ => self.reason.fmt(f),
        }
    }
}

impl std::error::Error for Refusal {}

/// Nothing with code 0, else the refusal at a position.
pub(crate) fn accepted(code: u32, position: u32) -> Result<(), Refusal> {
    reason(code).map_or(Ok(()), |reason| Err(Refusal::of_block(reason, position)))
}

/// The refusal of a code; none for 0.
pub(crate) fn reason(code: u32) -> Option<Reason> {
    let reason = Reason::from_code(code);
    assert!(code == 0 || reason.is_some(), "the library gave {code}, which is no code of documents 01 and 02");
    reason
}

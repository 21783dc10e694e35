use std::fmt;

/// Why the oldest queued action of a processor waits, by the byte that stands for it.
#[derive(Clone, Copy, Debug, PartialEq, Eq, PartialOrd, Ord, Hash)]
pub enum Wait {
    Nothing,
    MayCommit,
    Undefined,
    NoLocation,
    HeldByAnother,
    NotHeld,
}

use Wait::*;

/// The bytes of an answer, one for each processor; 0 for an absent one.
pub const WAITS: usize = 4;

/// Each with its words, in the order of the bytes.
const TABLE: [(Wait, &str); 6] = [
    (Nothing, "nothing is queued"),
    (MayCommit, "may commit"),
    (Undefined, "reads an undefined register"),
    (NoLocation, "acquire or release of a location not below M"),
    (HeldByAnother, "acquire of a location held by another"),
    (NotHeld, "release of a location it does not hold"),
];

impl Wait {
    pub fn all() -> impl Iterator<Item = Wait> {
        TABLE.iter().map(|row| row.0)
    }

    pub fn byte(self) -> u8 {
        self as u8
    }

    pub fn from_byte(byte: u8) -> Option<Wait> {
        TABLE.get(usize::from(byte)).map(|row| row.0)
    }
}

impl fmt::Display for Wait {
    fn fmt(&self, f: &mut fmt::Formatter<'_>) -> fmt::Result {
        f.write_str(TABLE[usize::from(self.byte())].1)
    }
}

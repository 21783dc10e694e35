use std::fmt;

use crate::{field, Reason};

/// Why a call was refused and, for a block's code, where: the lowest bad byte that belongs to the code. The derived
/// order goes by code, then by position.
#[derive(Clone, Copy, Debug, PartialEq, Eq, PartialOrd, Ord, Hash)]
pub struct Refusal {
    pub reason: Reason,
    /// 0 with codes that name no byte.
    pub position: u32,
}

impl Refusal {
    pub fn code(self) -> u32 {
        self.reason.code()
    }
}

impl From<Reason> for Refusal {
    /// A refusal that names no byte.
    fn from(reason: Reason) -> Refusal {
        Refusal { reason, position: 0 }
    }
}

impl fmt::Display for Refusal {
    fn fmt(&self, f: &mut fmt::Formatter<'_>) -> fmt::Result {
        self.reason.fmt(f)?;
        if self.reason.has_position() {
            write!(f, ": byte {}, {}", self.position, field::named(self.position as usize))?;
        }
        Ok(())
    }
}

impl std::error::Error for Refusal {}

#[cfg(test)]
mod tests {
    use super::*;

    #[test]
    fn a_refusal_in_words() {
        let bad = Refusal { reason: Reason::Instruction, position: 169 };
        let words = "a used instruction with a bad op, register, label or unused field: \
                     byte 169, processor 1, instruction 0, the constant's high byte";
        assert_eq!(bad.to_string(), words);
        assert_eq!(Refusal::from(Reason::Check).to_string(), "check");
    }
}

use crate::REGISTERS;

/// One instruction, with the fields that document 01 names for its op.
#[derive(Clone, Copy, Debug, PartialEq, Eq, Hash)]
pub enum Instr {
    Read { d: u8, a: u8 },
    Write { a: u8, b: u8 },
    Set { d: u8, constant: u16 },
    Add { d: u8, a: u8, b: u8 },
    Sub { d: u8, a: u8, b: u8 },
    Equal { d: u8, a: u8, b: u8 },
    Branch { a: u8, label: u16 },
    Goto { label: u16 },
    Acquire { a: u8 },
    Release { a: u8 },
}

use Instr::*;

impl Instr {
    /// Op, d, a, b and the constant, the low byte first.
    pub fn bytes(self) -> [u8; 6] {
        let (op, d, a, b, constant) = match self {
            Read { d, a } => (1, d, a, 0, 0),
            Write { a, b } => (2, 0, a, b, 0),
            Set { d, constant } => (3, d, 0, 0, constant),
            Add { d, a, b } => (4, d, a, b, 0),
            Sub { d, a, b } => (5, d, a, b, 0),
            Equal { d, a, b } => (6, d, a, b, 0),
            Branch { a, label } => (7, 0, a, 0, label),
            Goto { label } => (8, 0, 0, 0, label),
            Acquire { a } => (9, 0, a, 0, 0),
            Release { a } => (10, 0, a, 0, 0),
        };
        let [low, high] = constant.to_le_bytes();
        [op, d, a, b, low, high]
    }

    /// The instruction of six bytes, if their op is one.
    pub fn read(bytes: [u8; 6]) -> Option<Instr> {
        let [op, d, a, b, low, high] = bytes;
        let constant = u16::from_le_bytes([low, high]);
        Some(match op {
            1 => Read { d, a },
            2 => Write { a, b },
            3 => Set { d, constant },
            4 => Add { d, a, b },
            5 => Sub { d, a, b },
            6 => Equal { d, a, b },
            7 => Branch { a, label: constant },
            8 => Goto { label: constant },
            9 => Acquire { a },
            10 => Release { a },
            _ => return None,
        })
    }

    /// Which of six bytes are bad in a program of `count` instructions: an op that is none, a register over 7, a
    /// field that is not named and not zero, and the low byte of a label over the count.
    pub fn bad_bytes(bytes: [u8; 6], count: u8) -> Vec<usize> {
        let Some(instr) = Instr::read(bytes) else { return vec![0] };
        let named = instr.bytes();
        let register = |at: usize| (1..4).contains(&at) && usize::from(bytes[at]) >= REGISTERS;
        let label = matches!(instr, Branch { label, .. } | Goto { label } if label > count.into());
        (0..6).filter(|&at| bytes[at] != named[at] || register(at) || label && at == 4).collect()
    }

    /// The word for its op.
    pub fn word(self) -> &'static str {
        let op = usize::from(self.bytes()[0]);
        ["read", "write", "set", "add", "sub", "eq", "branch", "goto", "acquire", "release"][op - 1]
    }

    /// The registers read.
    pub fn inputs(self) -> impl Iterator<Item = u8> {
        let registers = match self {
            Read { a, .. } | Branch { a, .. } | Acquire { a } | Release { a } => [Some(a), None],
            Write { a, b } | Add { a, b, .. } | Sub { a, b, .. } | Equal { a, b, .. } => [Some(a), Some(b)],
            Set { .. } | Goto { .. } => [None, None],
        };
        registers.into_iter().flatten()
    }

    /// The register assigned.
    pub fn output(self) -> Option<u8> {
        match self {
            Read { d, .. } | Set { d, .. } => Some(d),
            Add { d, .. } | Sub { d, .. } | Equal { d, .. } => Some(d),
            _ => None,
        }
    }

    /// The address register of a read or write.
    pub fn address(self) -> Option<u8> {
        match self {
            Read { a, .. } | Write { a, .. } => Some(a),
            _ => None,
        }
    }

    /// Acquire or release: its item joins every location's order.
    pub fn is_sync(self) -> bool {
        matches!(self, Acquire { .. } | Release { .. })
    }
}

/// Short constructors, fields in the order d, a, b, constant.
pub mod ops {
    use super::Instr::{self, *};

    pub fn read(d: u8, a: u8) -> Instr {
        Read { d, a }
    }
    pub fn write(a: u8, b: u8) -> Instr {
        Write { a, b }
    }
    pub fn set(d: u8, constant: u16) -> Instr {
        Set { d, constant }
    }
    pub fn add(d: u8, a: u8, b: u8) -> Instr {
        Add { d, a, b }
    }
    pub fn sub(d: u8, a: u8, b: u8) -> Instr {
        Sub { d, a, b }
    }
    pub fn equal(d: u8, a: u8, b: u8) -> Instr {
        Equal { d, a, b }
    }
    pub fn branch(a: u8, label: u16) -> Instr {
        Branch { a, label }
    }
    pub fn goto(label: u16) -> Instr {
        Goto { label }
    }
    pub fn acquire(a: u8) -> Instr {
        Acquire { a }
    }
    pub fn release(a: u8) -> Instr {
        Release { a }
    }
}

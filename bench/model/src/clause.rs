use crate::{Case, Outcome, Reason, REGISTERS};

/// The most clauses of one question.
pub const CLAUSES: usize = 8;

/// What a register is to end as. The layout is the one that the library takes.
#[repr(C)]
#[derive(Clone, Copy, Debug, PartialEq, Eq)]
pub struct Clause {
    pub processor: u8,
    pub register: u8,
    /// False asks for undefined, whatever the value.
    pub defined: bool,
    pub value: u16,
}

/// A register that a clause is about to name.
#[derive(Clone, Copy, Debug)]
pub struct Named {
    processor: u8,
    register: u8,
}

/// Begins a clause on a processor's register.
pub fn clause(processor: u8, register: u8) -> Named {
    Named { processor, register }
}

impl Named {
    pub fn is(self, value: u16) -> Clause {
        Clause { processor: self.processor, register: self.register, defined: true, value }
    }

    pub fn undefined(self) -> Clause {
        Clause { processor: self.processor, register: self.register, defined: false, value: 0 }
    }

    /// A value, or undefined.
    pub fn ends_as(self, register: Option<u16>) -> Clause {
        register.map_or_else(|| self.undefined(), |value| self.is(value))
    }
}

impl Clause {
    /// Whether an outcome meets it.
    pub fn met(&self, outcome: &Outcome) -> bool {
        let wanted = self.defined.then_some(self.value);
        outcome.registers[usize::from(self.processor)][usize::from(self.register)] == wanted
    }

    /// Refuses over 8 clauses, an absent processor and a register over 7.
    pub fn judge(clauses: &[Clause], case: &Case) -> Result<(), Reason> {
        let named =
            |clause: &Clause| usize::from(clause.processor) < case.processors().len() && usize::from(clause.register) < REGISTERS;
        (clauses.len() <= CLAUSES && clauses.iter().all(named)).then_some(()).ok_or(Reason::Clauses)
    }
}

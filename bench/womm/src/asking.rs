//! Is this one result possible?

use model::{steps, Asker, Clause, Step, SCHEDULE};

use crate::refusal::{accepted, Refusal};
use crate::stack::deep;
use crate::{Case, Library};

/// The answer to a wanted result.
#[derive(Clone, Debug, PartialEq, Eq)]
pub enum Answer {
    /// It is possible; the lowest schedule in byte order that shows it.
    Yes(Vec<Step>),
    /// It is not, within the bound.
    No {
        /// Whether longer runs remain, which may reach it.
        cut: bool,
    },
}

impl Case {
    /// Asks whether some finished run within a bound of steps meets every clause, of which there may be 8.
    ///
    /// ```
    /// use womm::{clause, Answer, Case};
    /// # let text = "case 2 2\nreg 0 0 0\nreg 0 1 1\nreg 1 0 0\nreg 1 1 1\nop 0 write 0 1\nop 0 write 1 1\nop 1 read 2 1\nop 1 read 3 0\n";
    /// let case = Case::from_text(text)?;    // 1 to x, then 1 to y; the other reads y, then x
    /// let Answer::Yes(schedule) = case.ask(8, &[clause(1, 2).is(1), clause(1, 3).is(0)])? else { panic!() };
    /// assert_eq!(schedule.len(), 8);
    /// assert_eq!(case.ask(8, &[clause(1, 2).undefined()])?, Answer::No { cut: false });
    /// # Ok::<(), womm::Refusal>(())
    /// ```
    pub fn ask(&self, bound: u32, clauses: &[Clause]) -> Result<Answer, Refusal> {
        let mut schedule = [0; SCHEDULE];
        let asked = deep(|| Library.ask(self.block(), bound, clauses, &mut schedule));
        accepted(asked.code, asked.position)?;
        Ok(match asked.yes {
            true => Answer::Yes(steps(&schedule[..asked.length as usize])),
            false => Answer::No { cut: asked.cut },
        })
    }
}

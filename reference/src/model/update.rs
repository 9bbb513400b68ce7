//! What a transition or edge writes to variables: assignments, and from version 2 on advances.

use crate::model::expression::Expression;
use crate::model::limits::{ADVANCE, LEVELS, VARIABLES};
use crate::model::reader::{in_range, Fault, Reader};
use crate::model::version::Version;

#[derive(Clone, PartialEq, Eq, Debug)]
pub struct Assignment {
    pub variable: usize,
    pub expression: Expression,
}

/// An advance by a fraction of a step: the whole steps go to one variable, and what is left, in
/// parts of the denominator, stays in another.
#[derive(Clone, Copy, PartialEq, Eq, PartialOrd, Ord, Debug)]
pub struct Advance {
    pub steps: usize,
    pub remainder: usize,
    pub numerator: u16,
    /// Not 0 in a file that is read.
    pub denominator: u16,
}

impl Advance {
    /// Reads what follows the byte that stands for an advance.
    fn read(reader: &mut Reader, variables: usize) -> Result<Advance, Fault> {
        let steps = reader.byte_below(variables)?;
        let remainder = reader.byte_below(variables)?;
        let numerator = reader.two_bytes()?;
        let denominator = reader.two_bytes()?;
        in_range(denominator != 0)?;
        Ok(Advance { steps, remainder, numerator, denominator })
    }

    fn write(&self, bytes: &mut Vec<u8>) {
        bytes.extend([ADVANCE, self.steps as u8, self.remainder as u8]);
        bytes.extend(self.numerator.to_be_bytes());
        bytes.extend(self.denominator.to_be_bytes());
    }

    pub fn writes(&self, variable: usize) -> bool {
        variable == self.steps || variable == self.remainder
    }

    /// Remainder plus numerator. It is exact: it may pass the range of a variable.
    pub fn sum(&self, old: &[i32; VARIABLES]) -> i64 {
        i64::from(old[self.remainder]) + i64::from(self.numerator)
    }

    /// The steps after the advance, which may leave the range. With a positive denominator the
    /// Euclidean quotient is the one rounded down.
    pub fn exact_steps(&self, old: &[i32; VARIABLES]) -> i64 {
        i64::from(old[self.steps]) + self.sum(old).div_euclid(i64::from(self.denominator))
    }

    /// Writes both variables, or gives none if a value to be stored leaves the range. The old pair is
    /// read.
    fn apply(&self, old: &[i32; VARIABLES], new: &mut [i32; VARIABLES]) -> Option<()> {
        new[self.steps] = i32::try_from(self.exact_steps(old)).ok()?;
        let rest = self.sum(old).rem_euclid(i64::from(self.denominator));
        // It is less than the denominator, so it is in the range.
        new[self.remainder] = i32::try_from(rest).ok()?;
        Some(())
    }
}

/// One of the assignments that a label counts.
#[derive(Clone, PartialEq, Eq, Debug)]
pub enum Update {
    Assignment(Assignment),
    Advance(Advance),
}

impl Update {
    pub fn assignment(variable: usize, expression: Expression) -> Update {
        Update::Assignment(Assignment { variable, expression })
    }

    pub fn read(reader: &mut Reader, version: Version, variables: usize) -> Result<Update, Fault> {
        let first = reader.byte()?;
        // In a version without advances this byte is a variable, and out of range.
        if first == ADVANCE && version.has_advances() {
            return Ok(Update::Advance(Advance::read(reader, variables)?));
        }
        let variable = usize::from(first);
        in_range(variable < variables)?;
        Ok(Update::assignment(variable, Expression::read(reader, variables, LEVELS)?))
    }

    pub fn write(&self, bytes: &mut Vec<u8>) {
        match self {
            Update::Assignment(assignment) => {
                bytes.push(assignment.variable as u8);
                assignment.expression.write(bytes);
            }
            Update::Advance(advance) => advance.write(bytes),
        }
    }

    /// The variables that it writes, one by one: an advance may name one twice.
    pub fn written(&self) -> impl Iterator<Item = usize> {
        let (first, second) = match self {
            Update::Assignment(assignment) => (assignment.variable, None),
            Update::Advance(advance) => (advance.steps, Some(advance.remainder)),
        };
        std::iter::once(first).chain(second)
    }

    /// Writes the new values of its variables into `new`, or gives none if a result leaves the range:
    /// of an assignment that of any operation, of an advance only the two stored values. Only `old` is
    /// read.
    pub fn apply(&self, old: &[i32; VARIABLES], new: &mut [i32; VARIABLES]) -> Option<()> {
        match self {
            Update::Assignment(assignment) => {
                new[assignment.variable] = assignment.expression.value(old)?;
                Some(())
            }
            Update::Advance(advance) => advance.apply(old, new),
        }
    }

    /// The advance, if it is one.
    pub fn as_advance(&self) -> Option<&Advance> {
        match self {
            Update::Assignment(_) => None,
            Update::Advance(advance) => Some(advance),
        }
    }
}

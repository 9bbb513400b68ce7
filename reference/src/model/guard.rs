//! Guards of transitions and edges.

use crate::model::expression::Expression;
use crate::model::label::Declared;
use crate::model::limits::{LARGEST, LEVELS};
use crate::model::reader::{in_range, Fault, Reader};
use crate::model::values::Values;

/// Relations 0 to 5.
#[derive(Clone, Copy, PartialEq, Eq, PartialOrd, Ord, Debug)]
pub enum Relation {
    Less,
    AtMost,
    Greater,
    AtLeast,
    Equal,
    Different,
}

impl Relation {
    pub const ALL: [Relation; 6] = [
        Relation::Less,
        Relation::AtMost,
        Relation::Greater,
        Relation::AtLeast,
        Relation::Equal,
        Relation::Different,
    ];

    pub fn read(reader: &mut Reader) -> Result<Relation, Fault> {
        Ok(Relation::ALL[reader.byte_below(Relation::ALL.len())?])
    }

    pub fn holds<T: Ord>(self, left: T, right: T) -> bool {
        match self {
            Relation::Less => left < right,
            Relation::AtMost => left <= right,
            Relation::Greater => left > right,
            Relation::AtLeast => left >= right,
            Relation::Equal => left == right,
            Relation::Different => left != right,
        }
    }
}

#[derive(Clone, PartialEq, Eq, Debug)]
pub enum Guard {
    /// Kind 0: a relation between two expressions.
    Data { relation: Relation, left: Expression, right: Expression },
    /// Kind 1: a relation between a clock and a constant.
    Clock { clock: usize, relation: Relation, constant: u32 },
    /// Kind 2: a relation between the difference of two clocks and a constant.
    Difference { first: usize, second: usize, relation: Relation, constant: u32 },
}

impl Guard {
    pub fn read(reader: &mut Reader, declared: &Declared) -> Result<Guard, Fault> {
        match reader.byte()? {
            0 => Ok(Guard::Data {
                relation: Relation::read(reader)?,
                left: Expression::read(reader, declared.variables, LEVELS)?,
                right: Expression::read(reader, declared.variables, LEVELS)?,
            }),
            1 => Ok(Guard::Clock {
                clock: reader.byte_below(declared.clocks)?,
                relation: Relation::read(reader)?,
                constant: clock_constant(reader)?,
            }),
            2 => Ok(Guard::Difference {
                first: reader.byte_below(declared.clocks)?,
                second: reader.byte_below(declared.clocks)?,
                relation: Relation::read(reader)?,
                constant: clock_constant(reader)?,
            }),
            _ => Err(Fault::Field),
        }
    }

    pub fn write(&self, bytes: &mut Vec<u8>) {
        match self {
            Guard::Data { relation, left, right } => {
                bytes.extend([0, *relation as u8]);
                left.write(bytes);
                right.write(bytes);
            }
            Guard::Clock { clock, relation, constant } => {
                bytes.extend([1, *clock as u8, *relation as u8]);
                bytes.extend(constant.to_be_bytes());
            }
            Guard::Difference { first, second, relation, constant } => {
                bytes.extend([2, *first as u8, *second as u8, *relation as u8]);
                bytes.extend(constant.to_be_bytes());
            }
        }
    }

    /// A data guard with a side that has no value does not hold, whatever its relation.
    pub fn holds(&self, values: &Values) -> bool {
        match self {
            Guard::Data { relation, left, right } => {
                let sides = left.value(&values.variables).zip(right.value(&values.variables));
                sides.is_some_and(|(left, right)| relation.holds(left, right))
            }
            Guard::Clock { clock, relation, constant } => {
                relation.holds(values.clocks[*clock], *constant)
            }
            Guard::Difference { first, second, relation, constant } => {
                let difference =
                    i64::from(values.clocks[*first]) - i64::from(values.clocks[*second]);
                relation.holds(difference, i64::from(*constant))
            }
        }
    }
}

/// A clock constant runs from 0 to 2,147,483,647.
fn clock_constant(reader: &mut Reader) -> Result<u32, Fault> {
    let value = reader.four_bytes()?;
    in_range(value <= LARGEST)?;
    Ok(value)
}

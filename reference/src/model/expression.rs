//! Expressions over variables: prefix codes on file, a tree in memory.

use crate::model::limits::{LARGEST, VARIABLES};
use crate::model::reader::{in_range, Fault, Reader};

#[derive(Clone, PartialEq, Eq, Debug)]
pub enum Expression {
    /// Code 0.
    Constant(i32),
    /// Code 1.
    Variable(usize),
    /// Code 2.
    Sum(Box<Expression>, Box<Expression>),
    /// Code 3.
    Difference(Box<Expression>, Box<Expression>),
    /// Code 4.
    Product(Box<Expression>, Box<Expression>),
    /// Code 5: the quotient by a positive divisor, rounded down.
    Quotient(Box<Expression>, i32),
    /// Code 6: what that quotient leaves, never negative.
    Remainder(Box<Expression>, i32),
}

impl Expression {
    /// Reads an expression of at most `levels` levels.
    /// With no level left, a code that is there is out of range, whatever it is.
    pub fn read(reader: &mut Reader, variables: usize, levels: usize) -> Result<Expression, Fault> {
        let code = reader.byte()?;
        in_range(levels > 0)?;
        let argument = |reader: &mut Reader| -> Result<Box<Expression>, Fault> {
            Ok(Box::new(Expression::read(reader, variables, levels - 1)?))
        };
        match code {
            0 => Ok(Expression::Constant(reader.four_bytes()? as i32)),
            1 => Ok(Expression::Variable(reader.byte_below(variables)?)),
            2 => Ok(Expression::Sum(argument(reader)?, argument(reader)?)),
            3 => Ok(Expression::Difference(argument(reader)?, argument(reader)?)),
            4 => Ok(Expression::Product(argument(reader)?, argument(reader)?)),
            5 => Ok(Expression::Quotient(argument(reader)?, divisor(reader)?)),
            6 => Ok(Expression::Remainder(argument(reader)?, divisor(reader)?)),
            _ => Err(Fault::Field),
        }
    }

    pub fn write(&self, bytes: &mut Vec<u8>) {
        let two = |bytes: &mut Vec<u8>, code: u8, first: &Expression, second: &Expression| {
            bytes.push(code);
            first.write(bytes);
            second.write(bytes);
        };
        let divided = |bytes: &mut Vec<u8>, code: u8, argument: &Expression, divisor: i32| {
            bytes.push(code);
            argument.write(bytes);
            bytes.extend(divisor.to_be_bytes());
        };
        match self {
            Expression::Constant(value) => {
                bytes.push(0);
                bytes.extend(value.to_be_bytes());
            }
            Expression::Variable(variable) => bytes.extend([1, *variable as u8]),
            Expression::Sum(first, second) => two(bytes, 2, first, second),
            Expression::Difference(first, second) => two(bytes, 3, first, second),
            Expression::Product(first, second) => two(bytes, 4, first, second),
            Expression::Quotient(argument, divisor) => divided(bytes, 5, argument, *divisor),
            Expression::Remainder(argument, divisor) => divided(bytes, 6, argument, *divisor),
        }
    }

    /// The value where the variables have these values, or none if the exact result of some
    /// operation in it leaves signed 32 bits.
    pub fn value(&self, variables: &[i32; VARIABLES]) -> Option<i32> {
        let exact = |first: &Expression, second: &Expression, operation: fn(i64, i64) -> i64| {
            let (first, second) = (first.value(variables)?, second.value(variables)?);
            // Of two numbers of 32 bits every result has 64 bits.
            i32::try_from(operation(i64::from(first), i64::from(second))).ok()
        };
        match self {
            Expression::Constant(value) => Some(*value),
            Expression::Variable(variable) => Some(variables[*variable]),
            Expression::Sum(first, second) => exact(first, second, |one, other| one + other),
            Expression::Difference(first, second) => exact(first, second, |one, other| one - other),
            Expression::Product(first, second) => exact(first, second, |one, other| one * other),
            // With a positive divisor the Euclidean quotient is the one rounded down. Neither it nor
            // the remainder can leave the range.
            Expression::Quotient(argument, divisor) => {
                Some(argument.value(variables)?.div_euclid(*divisor))
            }
            Expression::Remainder(argument, divisor) => {
                Some(argument.value(variables)?.rem_euclid(*divisor))
            }
        }
    }

    /// How many levels it nests, a constant or variable being one.
    pub fn levels(&self) -> usize {
        match self {
            Expression::Constant(_) | Expression::Variable(_) => 1,
            Expression::Sum(first, second)
            | Expression::Difference(first, second)
            | Expression::Product(first, second) => 1 + first.levels().max(second.levels()),
            Expression::Quotient(argument, _) | Expression::Remainder(argument, _) => {
                1 + argument.levels()
            }
        }
    }
}

/// A divisor runs from 1 to 2,147,483,647.
fn divisor(reader: &mut Reader) -> Result<i32, Fault> {
    let value = reader.four_bytes()?;
    in_range((1..=LARGEST).contains(&value))?;
    Ok(value as i32)
}

//! Expressions as text: `7`, `v0`, `(v0 + 1)`, `(v0 - v1)`, `(v0 * 2)`, `(v0 div 2)`, `(v0 mod 2)`.
//! Every operation has its brackets, so that a text stands for one tree.

use super::lines::Line;
use super::Mistake;
use crate::model::expression::Expression;
use crate::model::limits::{LARGEST, VARIABLES};

pub fn to_text(expression: &Expression) -> String {
    let two = |first: &Expression, sign: &str, second: &Expression| {
        format!("({} {sign} {})", to_text(first), to_text(second))
    };
    match expression {
        Expression::Constant(value) => value.to_string(),
        Expression::Variable(variable) => format!("v{variable}"),
        Expression::Sum(first, second) => two(first, "+", second),
        Expression::Difference(first, second) => two(first, "-", second),
        Expression::Product(first, second) => two(first, "*", second),
        Expression::Quotient(argument, divisor) => format!("({} div {divisor})", to_text(argument)),
        Expression::Remainder(argument, divisor) => {
            format!("({} mod {divisor})", to_text(argument))
        }
    }
}

pub fn from_line(line: &mut Line) -> Result<Expression, Mistake> {
    if !line.takes("(") {
        return leaf(line);
    }
    let first = Box::new(from_line(line)?);
    let expression = match line.word()? {
        "+" => Expression::Sum(first, Box::new(from_line(line)?)),
        "-" => Expression::Difference(first, Box::new(from_line(line)?)),
        "*" => Expression::Product(first, Box::new(from_line(line)?)),
        "div" => Expression::Quotient(first, line.number(LARGEST)? as i32),
        "mod" => Expression::Remainder(first, line.number(LARGEST)? as i32),
        other => return Err(line.mistake(format!("'{other}' is no operation"))),
    };
    line.expect(")")?;
    Ok(expression)
}

/// A constant or a variable.
fn leaf(line: &mut Line) -> Result<Expression, Mistake> {
    match line.peek() {
        Some(word) if word.starts_with('v') => {
            Ok(Expression::Variable(line.lettered('v', VARIABLES as u32 - 1)? as usize))
        }
        Some(word) => match word.parse() {
            Ok(value) => {
                line.word()?;
                Ok(Expression::Constant(value))
            }
            Err(_) => Err(line.mistake(format!("'{word}' is no signed 32-bit constant"))),
        },
        None => Err(line.mistake("an expression is missing".to_string())),
    }
}

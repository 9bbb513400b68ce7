//! The range of signed 32-bit numbers: where expressions and updates leave it, and what they would be
//! by other rules, by which it is told what the range decides.

use std::rc::Rc;

use crate::model::chart::Chart;
use crate::model::expression::Expression;
use crate::model::guard::Guard;
use crate::model::label::Label;
use crate::model::limits::VARIABLES;
use crate::model::network::Network;
use crate::model::update::Update;
use crate::model::values::Values;

/// What is kept of the exact result of an operation, or none.
pub type Keep = fn(i128) -> Option<i128>;

/// Every result is kept.
pub const EXACT: Keep = Some;
/// The lowest 32 bits are kept.
pub const WRAPPED: Keep = |result| Some(i128::from(result as i32));

/// The value of an expression by another rule than that of `Expression::value`. A number that even
/// 128 bits do not hold counts as none.
pub fn value_by(keep: Keep, expression: &Expression, variables: &[i32; VARIABLES]) -> Option<i128> {
    let value = |one: &Expression| value_by(keep, one, variables);
    match expression {
        Expression::Constant(value) => Some(i128::from(*value)),
        Expression::Variable(variable) => Some(i128::from(variables[*variable])),
        Expression::Sum(first, second) => keep(value(first)?.checked_add(value(second)?)?),
        Expression::Difference(first, second) => keep(value(first)?.checked_sub(value(second)?)?),
        Expression::Product(first, second) => keep(value(first)?.checked_mul(value(second)?)?),
        Expression::Quotient(argument, divisor) => {
            Some(value(argument)?.div_euclid(i128::from(*divisor)))
        }
        Expression::Remainder(argument, divisor) => {
            Some(value(argument)?.rem_euclid(i128::from(*divisor)))
        }
    }
}

/// The value by another rule, where it has 32 bits.
pub fn number_by(keep: Keep, expression: &Expression, values: &Values) -> Option<i32> {
    i32::try_from(value_by(keep, expression, &values.variables)?).ok()
}

/// An operation whose arguments have values and whose result leaves the range.
#[derive(Clone, Copy, PartialEq, Eq, PartialOrd, Ord, Debug)]
pub struct Leaving {
    /// 2, 3 or 4.
    pub code: u8,
    /// How deep it stands: the outermost operation is at level 1.
    pub level: usize,
    /// Whether it stands in an argument of a product whose other argument is 0, of a quotient, and of
    /// a remainder.
    pub below_0: bool,
    pub below_quotient: bool,
    pub below_remainder: bool,
}

/// The operations of an expression that leave the range.
pub fn leavings(expression: &Expression, variables: &[i32; VARIABLES]) -> Vec<Leaving> {
    let mut found = Vec::new();
    let outermost = Leaving {
        code: 0,
        level: 1,
        below_0: false,
        below_quotient: false,
        below_remainder: false,
    };
    add_leavings(expression, variables, outermost, &mut found);
    found
}

/// `here` tells where the expression stands.
fn add_leavings(
    expression: &Expression,
    variables: &[i32; VARIABLES],
    here: Leaving,
    found: &mut Vec<Leaving>,
) {
    let deeper = Leaving { level: here.level + 1, ..here };
    let (code, first, second) = match expression {
        Expression::Constant(_) | Expression::Variable(_) => return,
        Expression::Sum(first, second) => (2, first, second),
        Expression::Difference(first, second) => (3, first, second),
        Expression::Product(first, second) => (4, first, second),
        Expression::Quotient(argument, _) => {
            let below = Leaving { below_quotient: true, ..deeper };
            return add_leavings(argument, variables, below, found);
        }
        Expression::Remainder(argument, _) => {
            let below = Leaving { below_remainder: true, ..deeper };
            return add_leavings(argument, variables, below, found);
        }
    };
    let is_0 = |one: &Expression| code == 4 && one.value(variables) == Some(0);
    let beside = |other| Leaving { below_0: here.below_0 || is_0(other), ..deeper };
    add_leavings(first, variables, beside(second), found);
    add_leavings(second, variables, beside(first), found);
    let has_value = |one: &Expression| one.value(variables).is_some();
    if has_value(first) && has_value(second) && !has_value(expression) {
        found.push(Leaving { code, ..here });
    }
}

/// Whether an update has a result for which it is refused.
pub fn leaves(update: &Update, values: &Values) -> bool {
    update.apply(&values.variables, &mut values.variables.clone()).is_none()
}

/// Whether some update of a label has.
pub fn label_leaves(label: &Label, values: &Values) -> bool {
    label.updates.iter().any(|update| leaves(update, values))
}

/// Whether an assignment is refused though the value that would be stored is in the range.
pub fn leaves_inside_only(update: &Update, values: &Values) -> bool {
    match update {
        Update::Assignment(one) => {
            leaves(update, values) && number_by(EXACT, &one.expression, values).is_some()
        }
        Update::Advance(_) => false,
    }
}

/// Whether a guard does not hold because a side of it has no value.
pub fn has_no_value(guard: &Guard, values: &Values) -> bool {
    match guard {
        Guard::Data { left, right, .. } => {
            [left, right].into_iter().any(|side| side.value(&values.variables).is_none())
        }
        Guard::Clock { .. } | Guard::Difference { .. } => false,
    }
}

/// Whether a guard would hold by another rule. By one that leaves numbers of more than 32 bits, those
/// are compared.
pub fn holds_by(keep: Keep, guard: &Guard, values: &Values) -> bool {
    match guard {
        Guard::Data { relation, left, right } => {
            let value = |side| value_by(keep, side, &values.variables);
            value(left).zip(value(right)).is_some_and(|(left, right)| relation.holds(left, right))
        }
        Guard::Clock { .. } | Guard::Difference { .. } => guard.holds(values),
    }
}

/// The chart without updates: it refuses what this one refuses, but for 28.
pub fn chart_without_updates(chart: &Chart) -> Chart {
    let mut bare = chart.clone();
    bare.transitions.iter_mut().for_each(|one| one.label = without_updates(&one.label));
    bare
}

/// The same of a network.
pub fn network_without_updates(network: &Network) -> Network {
    let mut bare = network.clone();
    bare.edges.iter_mut().for_each(|one| one.label = without_updates(&one.label));
    bare
}

fn without_updates(label: &Rc<Label>) -> Rc<Label> {
    Rc::new(Label { updates: Vec::new(), ..(**label).clone() })
}

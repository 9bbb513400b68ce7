//! Steps made by hand whose results leave the range of signed 32-bit numbers or just stay in it, in
//! updates and in guards.

use std::rc::Rc;

use crate::generate::faulty::ADVANCE;
use crate::generate::special::{
    guarded_receiver, one_loop, one_pick, rendezvous_with_swap, sample_1,
};
use crate::model::chart::Chart;
use crate::model::expression::Expression;
use crate::model::guard::{Guard, Relation};
use crate::model::label::{Declared, Label, Signal};
use crate::model::update::{Advance, Update};
use crate::model::values::Values;
use crate::model::version::Version;

/// A step of a chart from its start with these values. The edges of its network that bear the
/// transitions of the list have the same numbers.
pub struct Example {
    pub chart: Chart,
    pub values: Values,
    pub list: Vec<u16>,
}

fn constant(value: i32) -> Box<Expression> {
    Box::new(Expression::Constant(value))
}

/// 2,147,483,647 and 1 added.
pub fn one_too_many() -> Expression {
    Expression::Sum(constant(i32::MAX), constant(1))
}

/// Expressions without a value. Below each operation and at every level that an operation can have,
/// there is one whose value would be in the range, if only that counted.
pub fn without_value() -> Vec<Expression> {
    let around: [fn(Box<Expression>) -> Expression; 6] = [
        |inner| Expression::Difference(inner, constant(1)),
        |inner| Expression::Sum(constant(-1), inner),
        |inner| Expression::Product(inner, constant(0)),
        |inner| Expression::Product(constant(0), inner),
        |inner| Expression::Quotient(inner, 2),
        |inner| Expression::Remainder(inner, 2),
    ];
    let mut all = vec![
        one_too_many(),
        Expression::Difference(constant(i32::MIN), constant(1)),
        Expression::Difference(constant(0), constant(i32::MIN)),
        Expression::Product(constant(46_341), constant(46_341)),
        Expression::Product(constant(i32::MIN), constant(-1)),
        Expression::Product(constant(65_536), constant(32_768)),
        Expression::Product(constant(i32::MIN), constant(i32::MIN)),
    ];
    for around in around {
        let deeper = |inner: &Expression| Some(around(Box::new(inner.clone())));
        all.extend(std::iter::successors(deeper(&one_too_many()), deeper).take(6));
    }
    all
}

/// Results at the ends of the range, or on the way to them, with what they are.
pub fn at_the_ends() -> Vec<(Expression, i32)> {
    vec![
        (Expression::Sum(constant(i32::MAX - 1), constant(1)), i32::MAX),
        (Expression::Sum(constant(i32::MIN), constant(i32::MAX)), -1),
        (Expression::Difference(constant(-1), constant(i32::MAX)), i32::MIN),
        (Expression::Difference(constant(-1), constant(i32::MIN)), i32::MAX),
        (Expression::Product(constant(46_340), constant(46_340)), 2_147_395_600),
        (Expression::Product(constant(65_536), constant(-32_768)), i32::MIN),
        (Expression::Product(constant(i32::MAX), constant(-1)), -i32::MAX),
        (Expression::Quotient(constant(i32::MIN), 1), i32::MIN),
        (Expression::Quotient(constant(i32::MIN), i32::MAX), -2),
        (Expression::Remainder(constant(i32::MIN), i32::MAX), i32::MAX - 1),
    ]
}

/// A loop with one variable and one update.
fn assigning(version: Version, expression: Expression) -> Chart {
    let declared = Declared { variables: 1, ..Declared::default() };
    let updates = vec![Update::assignment(0, expression)];
    one_loop(version, declared, Label { updates, ..Label::of_signal(Signal::None) })
}

/// A step of a chart from its start.
fn from_start(chart: Chart, list: &[u16]) -> Example {
    Example { chart, values: Values::default(), list: list.to_vec() }
}

/// All of them.
pub fn examples() -> Vec<Example> {
    let mut all = assignments();
    all.extend(advances());
    all.extend(guards());
    all.extend(beside_other_refusals());
    all
}

fn assignments() -> Vec<Example> {
    let ends = at_the_ends().into_iter().map(|(expression, _)| expression);
    let expressions: Vec<Expression> = without_value().into_iter().chain(ends).collect();
    let of_version = |version: Version| {
        let all = expressions.clone().into_iter();
        all.map(move |expression| from_start(assigning(version, expression), &[0]))
    };
    Version::ALL.into_iter().flat_map(of_version).collect()
}

/// An advance with steps at the ends of the range, beside an assignment; its sum may pass the range.
fn advances() -> Vec<Example> {
    let ratios = [(7, 3), (65_535, 1), (65_535, 65_535), (1, 2)];
    let pairs = [
        (i32::MAX, 0),
        (i32::MAX, -7),
        (i32::MAX - 2, 0),
        (i32::MAX, i32::MIN),
        (i32::MIN, -8),
        (i32::MIN, -7),
        (i32::MIN, i32::MAX),
        (0, i32::MAX),
        (-65_535, i32::MAX),
        (-65_534, i32::MAX),
    ];
    let mut all = Vec::new();
    for (numerator, denominator) in ratios {
        let advance = Update::Advance(Advance { numerator, denominator, ..ADVANCE });
        let beside = Update::assignment(2, Expression::Variable(ADVANCE.steps));
        for updates in [vec![advance.clone(), beside.clone()], vec![beside, advance.clone()]] {
            let chart = one_pick(updates);
            for (steps, remainder) in pairs {
                let mut values = Values::default();
                values.variables[..2].copy_from_slice(&[steps, remainder]);
                all.push(Example { chart: chart.clone(), values, list: vec![0] });
            }
        }
    }
    all
}

/// Guards without a value on either side, of a transition without signal, of a sender and of a receiver,
/// and a sender alone whose receiver is therefore not looked for.
fn guards() -> Vec<Example> {
    let mut all = Vec::new();
    let expressions = without_value();
    for (number, expression) in expressions.into_iter().enumerate() {
        let relation = Relation::ALL[number % Relation::ALL.len()];
        let other = *constant(if number % 2 == 0 { i32::MIN } else { 0 });
        let left = Guard::Data { relation, left: expression.clone(), right: other.clone() };
        let right = Guard::Data { relation, left: other, right: expression };
        all.extend([left, right].into_iter().flat_map(guarded));
    }
    for relation in Relation::ALL {
        for (left, right) in [(0, i32::MIN), (i32::MIN, 0), (0, 0)] {
            let sum = |more: i32| Expression::Sum(Box::new(one_too_many()), constant(more));
            all.extend(guarded(Guard::Data { relation, left: sum(left), right: sum(right) }));
            let right = *constant(right);
            all.extend(guarded(Guard::Data { relation, left: sum(left), right }));
        }
    }
    all
}

fn guarded(guard: Guard) -> Vec<Example> {
    let label = Label { guards: vec![guard.clone()], ..Label::of_signal(Signal::None) };
    let alone = one_loop(Version::Two, Declared::default(), label);
    let receiver = guarded_receiver(guard.clone());
    vec![
        from_start(alone, &[0]),
        from_start(rendezvous_with_swap(guard), &[0, 1]),
        from_start(receiver.clone(), &[0, 1]),
        from_start(receiver, &[0]),
    ]
}

/// An update that leaves the range where a bound would be broken too, and where the list is not allowed;
/// each of the two also without such an update.
fn beside_other_refusals() -> Vec<Example> {
    let mut all = Vec::new();
    for version in Version::ALL {
        for expression in [one_too_many(), Expression::Constant(1)] {
            let updates = vec![Update::assignment(0, expression)];
            let mut values = Values::default();
            values.clocks[0] = 4;
            let chart = into_a_bound(version, updates.clone());
            all.push(Example { chart, values, list: vec![0] });
            all.push(from_start(into_a_bound(version, updates.clone()), &[0]));
            let chart = sender_without_receiver(version, updates);
            all.push(from_start(chart.clone(), &[0]));
            all.push(from_start(chart, &[0, 1]));
        }
    }
    all
}

/// The transition of sample S1 with these updates, to a state where a clock may be 3 at most.
fn into_a_bound(version: Version, updates: Vec<Update>) -> Chart {
    let mut chart = sample_1();
    chart.version = version;
    chart.declared = Declared { clocks: 1, variables: 1, ..Declared::default() };
    chart.states[2].bounds.0[0] = 3;
    chart.transitions[0].label = Rc::new(Label { updates, ..Label::of_signal(Signal::None) });
    chart
}

/// A sender of a rendezvous with these updates, and a receiver.
fn sender_without_receiver(version: Version, updates: Vec<Update>) -> Chart {
    let holds = Guard::Data {
        relation: Relation::Equal,
        left: Expression::Constant(0),
        right: Expression::Constant(0),
    };
    let mut chart = rendezvous_with_swap(holds);
    chart.version = version;
    let label = Label { updates, ..(*chart.transitions[0].label).clone() };
    chart.transitions[0].label = Rc::new(label);
    chart
}

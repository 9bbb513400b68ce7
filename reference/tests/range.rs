//! Results that leave signed 32 bits: a data guard with one does not hold, and an update with one is
//! refused with 28. Wrong readings of that are noticed by runs and by the vectors.

mod committed;

use std::collections::BTreeSet;
use std::rc::Rc;

use reference::coverage::range::{
    chart_without_updates, has_no_value, holds_by, leaves, leaves_inside_only,
    network_without_updates, number_by, EXACT, WRAPPED,
};
use reference::forms::request::{Request, Success};
use reference::generate::charts::{chart_from_seed, Wish};
use reference::generate::random::Random;
use reference::generate::special::{guarded_receiver, one_loop, rendezvous_with_swap};
use reference::generate::special_range::{at_the_ends, one_too_many, without_value};
use reference::model::chart::Chart;
use reference::model::chart_machine;
use reference::model::check::check;
use reference::model::expression::Expression;
use reference::model::flatten::network_of;
use reference::model::guard::{Guard, Relation};
use reference::model::label::{Declared, Label, Signal};
use reference::model::network::Network;
use reference::model::network_machine;
use reference::model::refusal::Refusal;
use reference::model::update::{Assignment, Update};
use reference::model::values::Values;
use reference::model::version::Version;
use reference::runs::moment::Machines;
use reference::runs::side_by_side::run_both_lists;
use reference::runs::steps::Steps;

use committed::vectors;

fn constant(value: i32) -> Box<Expression> {
    Box::new(Expression::Constant(value))
}

#[test]
fn a_guard_without_a_value_does_not_hold_whatever_its_relation() {
    let values = Values::default();
    let levels: BTreeSet<usize> = without_value().iter().map(Expression::levels).collect();
    assert!(levels.into_iter().eq(2..=8));
    for expression in without_value() {
        assert!(expression.levels() <= 8 && expression.value(&values.variables).is_none());
        for relation in Relation::ALL {
            for other in [i32::MIN, -1, 0, 1, i32::MAX] {
                let (one, other) = (expression.clone(), Expression::Constant(other));
                let left = Guard::Data { relation, left: one.clone(), right: other.clone() };
                let right = Guard::Data { relation, left: other, right: one.clone() };
                let both = Guard::Data { relation, left: one.clone(), right: one };
                for guard in [left, right, both] {
                    assert!(!guard.holds(&values), "{guard:?}");
                }
            }
        }
    }
    for (expression, expected) in at_the_ends() {
        assert_eq!(expression.value(&values.variables), Some(expected));
    }
}

#[test]
fn an_assignment_without_a_value_is_28_in_both_versions() {
    let declared = Declared { variables: 1, ..Declared::default() };
    let answers = |version: Version, expression: &Expression| {
        let updates = vec![Update::assignment(0, expression.clone())];
        let label = Label { updates, ..Label::of_signal(Signal::None) };
        let chart = check(&one_loop(version, declared, label).write()).unwrap();
        let network = network_of(&chart).unwrap();
        let on_chart = chart_machine::step(&chart, &chart_machine::start(&chart), &[0]);
        let start = network_machine::start(&network);
        let on_network = network_machine::step(&network, &start, &[0]);
        let answer = on_chart.map(|new| new.values);
        assert_eq!(on_network.map(|new| new.values), answer);
        answer.map(|values| values.variables[0])
    };
    for version in Version::ALL {
        for expression in without_value() {
            assert_eq!(answers(version, &expression), Err(Refusal::RangeLeft), "{expression:?}");
        }
        for (expression, expected) in at_the_ends() {
            assert_eq!(answers(version, &expression), Ok(expected), "{expression:?}");
        }
    }
}

/// A sender's guard without a value: 19. A receiver's: it is not active, so it is not looked for, and
/// the sender alone is allowed.
#[test]
fn senders_and_receivers_without_a_value_are_not_active() {
    let values = Values::default();
    for relation in Relation::ALL {
        for left in [one_too_many(), Expression::Sum(constant(1), constant(1))] {
            let inside = left.value(&values.variables);
            let guard = Guard::Data { relation, left, right: Expression::Constant(2) };
            let holds = inside.is_some_and(|value| relation.holds(value, 2));
            let sender = rendezvous_with_swap(guard.clone());
            let expected = if holds { Ok(()) } else { Err(Refusal::Inactive) };
            assert_eq!(on_both(&sender, &[0, 1]), expected);
            let receiver = guarded_receiver(guard);
            assert_eq!(on_both(&receiver, &[0, 1]), expected);
            let alone = if holds { Err(Refusal::NotAllowed) } else { Ok(()) };
            assert_eq!(on_both(&receiver, &[0]), alone);
        }
    }
}

/// What both machines answer at their start to lists in which edges have the numbers of transitions.
fn on_both(chart: &Chart, list: &[u16]) -> Result<(), Refusal> {
    let network = network_of(chart).unwrap();
    let on_chart = chart_machine::step(chart, &chart_machine::start(chart), list);
    let on_network = network_machine::step(&network, &network_machine::start(&network), list);
    let answer = on_chart.map(|_| ());
    assert_eq!(on_network.map(|_| ()), answer);
    answer
}

// Readings that are wrong. Most are changes of a label for the values that it is read at.

/// The label with which the right machine behaves like a wrong one at these values, or none if there
/// is no difference.
type Change = fn(&Label, &Values) -> Option<Label>;

/// The label with each guard replaced that is without a value, by one that holds if `holds` says so.
fn with_guards(label: &Label, values: &Values, holds: impl Fn(&Guard) -> bool) -> Option<Label> {
    let changed = |guard: &Guard| {
        if !has_no_value(guard, values) {
            return guard.clone();
        }
        let right = Expression::Constant(i32::from(!holds(guard)));
        Guard::Data { relation: Relation::Equal, left: Expression::Constant(0), right }
    };
    let guards = label.guards.iter().map(changed).collect();
    label
        .guards
        .iter()
        .any(|guard| has_no_value(guard, values))
        .then(|| Label { guards, ..label.clone() })
}

/// The label with each update replaced that is refused.
fn with_updates(
    label: &Label,
    values: &Values,
    changed: impl Fn(&Update) -> Vec<Update>,
) -> Option<Label> {
    if !label.updates.iter().any(|update| leaves(update, values)) {
        return None;
    }
    let each = |update: &Update| match leaves(update, values) {
        true => changed(update),
        false => vec![update.clone()],
    };
    let updates = label.updates.iter().flat_map(each).collect();
    Some(Label { updates, ..label.clone() })
}

fn guards_wrap(label: &Label, values: &Values) -> Option<Label> {
    with_guards(label, values, |guard| holds_by(WRAPPED, guard, values))
}

fn guards_of_receivers_wrap(label: &Label, values: &Values) -> Option<Label> {
    match label.signal {
        Signal::Receive(_) => guards_wrap(label, values),
        _ => None,
    }
}

fn guards_of_senders_wrap(label: &Label, values: &Values) -> Option<Label> {
    match label.signal {
        Signal::Send(_) => guards_wrap(label, values),
        _ => None,
    }
}

/// Exact numbers are compared, however long they are.
fn guards_are_exact(label: &Label, values: &Values) -> Option<Label> {
    with_guards(label, values, |guard| holds_by(EXACT, guard, values))
}

/// What has no value is different from every number.
fn nothing_is_different(label: &Label, values: &Values) -> Option<Label> {
    let different =
        |guard: &Guard| matches!(guard, Guard::Data { relation: Relation::Different, .. });
    with_guards(label, values, different)
}

/// Only the left side of a guard has to have a value; the other wraps.
fn right_sides_wrap(label: &Label, values: &Values) -> Option<Label> {
    with_guards(label, values, |guard| match guard {
        Guard::Data { left, .. } => {
            left.value(&values.variables).is_some() && holds_by(WRAPPED, guard, values)
        }
        _ => false,
    })
}

/// The results of operations below a product by 0 do not count.
fn products_by_0_forgive(label: &Label, values: &Values) -> Option<Label> {
    let shortened = |expression: &Expression| without_products_by_0(expression, values);
    let guards = with_guards(label, values, |guard| match guard {
        Guard::Data { relation, left, right } => {
            let [left, right] = [left, right].map(shortened);
            Guard::Data { relation: *relation, left, right }.holds(values)
        }
        _ => false,
    });
    let with_guards = guards.as_ref().unwrap_or(label);
    let both = with_updates(with_guards, values, |update| match update {
        Update::Assignment(Assignment { variable, expression }) => {
            vec![Update::assignment(*variable, shortened(expression))]
        }
        Update::Advance(_) => vec![update.clone()],
    });
    both.or(guards)
}

fn without_products_by_0(expression: &Expression, values: &Values) -> Expression {
    let inner = |one: &Expression| Box::new(without_products_by_0(one, values));
    match expression {
        Expression::Constant(_) | Expression::Variable(_) => expression.clone(),
        Expression::Sum(first, second) => Expression::Sum(inner(first), inner(second)),
        Expression::Difference(first, second) => {
            Expression::Difference(inner(first), inner(second))
        }
        Expression::Product(first, second) => {
            let (first, second) = (inner(first), inner(second));
            let is_0 = |one: &Expression| one.value(&values.variables) == Some(0);
            if is_0(&first) || is_0(&second) {
                Expression::Constant(0)
            } else {
                Expression::Product(first, second)
            }
        }
        Expression::Quotient(argument, divisor) => Expression::Quotient(inner(argument), *divisor),
        Expression::Remainder(argument, divisor) => {
            Expression::Remainder(inner(argument), *divisor)
        }
    }
}

/// Only the value stored by an assignment counts.
fn inner_results_forgiven(label: &Label, values: &Values) -> Option<Label> {
    with_updates(label, values, |update| match update {
        Update::Assignment(one) if leaves_inside_only(update, values) => {
            let stored = number_by(EXACT, &one.expression, values).expect("it is inside");
            vec![Update::assignment(one.variable, Expression::Constant(stored))]
        }
        _ => vec![update.clone()],
    })
}

fn assignments_wrap(label: &Label, values: &Values) -> Option<Label> {
    with_updates(label, values, |update| match update {
        Update::Assignment(one) => {
            let stored = number_by(WRAPPED, &one.expression, values).expect("it is inside");
            vec![Update::assignment(one.variable, Expression::Constant(stored))]
        }
        Update::Advance(_) => vec![update.clone()],
    })
}

fn advances_wrap(label: &Label, values: &Values) -> Option<Label> {
    with_updates(label, values, |update| match update {
        Update::Assignment(_) => vec![update.clone()],
        Update::Advance(one) => {
            let steps = one.exact_steps(&values.variables) as i32;
            let rest = one.sum(&values.variables).rem_euclid(i64::from(one.denominator)) as i32;
            vec![
                Update::assignment(one.steps, Expression::Constant(steps)),
                Update::assignment(one.remainder, Expression::Constant(rest)),
            ]
        }
    })
}

/// The sum of remainder and numerator counts too.
fn sums_of_advances_count(label: &Label, values: &Values) -> Option<Label> {
    let passes = |update: &Update| {
        let advance = update.as_advance();
        advance.is_some_and(|one| i32::try_from(one.sum(&values.variables)).is_err())
    };
    let refused = Expression::Sum(constant(i32::MAX), constant(1));
    label
        .updates
        .iter()
        .any(passes)
        .then(|| Label { updates: vec![Update::assignment(0, refused)], ..label.clone() })
}

fn changed_chart(chart: &Chart, values: &Values, change: Change) -> Chart {
    let mut changed = chart.clone();
    for transition in &mut changed.transitions {
        if let Some(label) = change(&transition.label, values) {
            transition.label = Rc::new(label);
        }
    }
    changed
}

fn changed_network(network: &Network, values: &Values, change: Change) -> Network {
    let mut changed = network.clone();
    for edge in &mut changed.edges {
        if let Some(label) = change(&edge.label, values) {
            edge.label = Rc::new(label);
        }
    }
    changed
}

/// Both machines with changed labels.
macro_rules! by {
    ($change:path) => {
        Steps {
            of_chart: |chart, given, list| {
                let changed = changed_chart(chart, &given.values, $change);
                chart_machine::step(&changed, given, list)
            },
            of_network: |network, given, list| {
                let changed = changed_network(network, &given.values, $change);
                network_machine::step(&changed, given, list)
            },
            active_in_chart: |chart, given, number| {
                let changed = changed_chart(chart, &given.values, $change);
                chart_machine::is_active(&changed, given, number)
            },
            active_in_network: |network, given, edge| {
                let mut changed = edge.clone();
                if let Some(label) = $change(&edge.label, &given.values) {
                    changed.label = Rc::new(label);
                }
                network_machine::is_active(network, given, &changed)
            },
        }
    };
}

/// 28 is tried after 21.
const AFTER_21: Steps = Steps {
    of_chart: |chart, given, list| match chart_machine::step(chart, given, list) {
        Err(Refusal::RangeLeft) => {
            let bare = chart_machine::step(&chart_without_updates(chart), given, list);
            bare.and(Err(Refusal::RangeLeft))
        }
        answer => answer,
    },
    of_network: |network, given, list| match network_machine::step(network, given, list) {
        Err(Refusal::RangeLeft) => {
            let bare = network_machine::step(&network_without_updates(network), given, list);
            bare.and(Err(Refusal::RangeLeft))
        }
        answer => answer,
    },
    ..Steps::RIGHT
};

fn any_update_leaves<'a>(labels: impl Iterator<Item = &'a Rc<Label>>, values: &Values) -> bool {
    let mut updates = labels.flat_map(|label| &label.updates);
    updates.any(|update| leaves(update, values))
}

/// 28 is tried before 20.
const BEFORE_20: Steps = Steps {
    of_chart: |chart, given, list| match chart_machine::step(chart, given, list) {
        Err(Refusal::NotAllowed) => {
            let labels = list.iter().map(|&one| &chart.transitions[usize::from(one)].label);
            let leaves = any_update_leaves(labels, &given.values);
            Err(if leaves { Refusal::RangeLeft } else { Refusal::NotAllowed })
        }
        answer => answer,
    },
    of_network: |network, given, list| match network_machine::step(network, given, list) {
        Err(Refusal::NotAllowed) => {
            let labels = list.iter().map(|&one| &network.edges[usize::from(one)].label);
            let leaves = any_update_leaves(labels, &given.values);
            Err(if leaves { Refusal::RangeLeft } else { Refusal::NotAllowed })
        }
        answer => answer,
    },
    ..Steps::RIGHT
};

const WRONG: [(&str, Steps); 14] = [
    ("28 after 21", AFTER_21),
    ("28 before 20", BEFORE_20),
    ("guards wrap", by!(guards_wrap)),
    ("guards of receivers wrap", by!(guards_of_receivers_wrap)),
    ("guards of senders wrap", by!(guards_of_senders_wrap)),
    ("guards are exact", by!(guards_are_exact)),
    ("nothing is different", by!(nothing_is_different)),
    ("right sides wrap", by!(right_sides_wrap)),
    ("products by 0 forgive", by!(products_by_0_forgive)),
    ("inner results forgiven", by!(inner_results_forgiven)),
    ("assignments wrap", by!(assignments_wrap)),
    ("advances wrap", by!(advances_wrap)),
    ("sums of advances count", by!(sums_of_advances_count)),
    ("nothing is ever 28", by!(never_refused)),
];

/// Everything wraps.
fn never_refused(label: &Label, values: &Values) -> Option<Label> {
    let assigned = assignments_wrap(label, values);
    let advanced = advances_wrap(assigned.as_ref().unwrap_or(label), values);
    advanced.or(assigned)
}

/// The runs of both machines notice each of them, where one machine alone has it.
#[test]
fn wrong_readings_are_noticed_in_runs() {
    let seeds = || (0..1_000).filter(|&seed| Wish::from_seed(seed).ends > 0);
    for (name, wrong) in WRONG {
        let of_chart = Steps {
            of_chart: wrong.of_chart,
            active_in_chart: wrong.active_in_chart,
            ..Steps::RIGHT
        };
        let of_network = Steps {
            of_network: wrong.of_network,
            active_in_network: wrong.active_in_network,
            ..Steps::RIGHT
        };
        for (machine, steps) in [("chart", of_chart), ("network", of_network)] {
            let shows = |&seed: &u64| {
                let mut machines = Machines::of(chart_from_seed(seed)).unwrap();
                machines.steps = steps;
                run_both_lists(&machines, 20, &mut Random::new(seed)).is_err()
            };
            // Three are enough, and those that are noticed often are not run further.
            let shown: Vec<u64> = seeds().filter(shows).take(3).collect();
            println!("{name}, {machine}: noticed on the charts of the seeds {shown:?}");
            assert_eq!(shown.len(), 3, "{name}, {machine}");
        }
    }
}

/// A program that reads it so does not pass the vectors, in either machine.
#[test]
fn wrong_readings_fail_the_vectors() {
    for (form, requests) in vectors() {
        for (name, wrong) in WRONG {
            let (mut charts, mut networks) = (0, 0);
            for request in &requests {
                match request {
                    Request::ChartStep(file, given, list) => {
                        let answer =
                            check(file).and_then(|chart| (wrong.of_chart)(&chart, given, list));
                        charts += u64::from(answer.map(Success::Chart) != request.answer());
                    }
                    Request::NetworkStep(file, given, list) => {
                        let read = Network::read(file);
                        let answer =
                            read.and_then(|network| (wrong.of_network)(&network, given, list));
                        networks += u64::from(answer.map(Success::Network) != request.answer());
                    }
                    _ => {}
                }
            }
            println!("{form}: {name} fails {charts} requests of charts, {networks} of networks");
            assert!(charts > 0 && networks > 0, "{form}: {name}");
        }
    }
}

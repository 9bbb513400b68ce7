//! Numbers at the ends of the range of signed 32-bit numbers: as constants and as values of variables,
//! in expressions in which an operation at any level may leave the range, and in requests for steps.

use crate::coverage::range::has_no_value;
use crate::forms::request::Request;
use crate::generate::candidates::candidates;
use crate::generate::charts::Wish;
use crate::generate::random::Random;
use crate::model::chart::Chart;
use crate::model::chart_machine::{self, ChartConfiguration};
use crate::model::expression::Expression;
use crate::model::label::Label;
use crate::model::limits::LEVELS;
use crate::model::moves::Member;
use crate::model::network::Network;
use crate::model::network_machine::{self, NetworkConfiguration};
use crate::model::values::Values;

/// The ends, their neighbours, and numbers of which products and sums are just inside or just outside:
/// the square of 46,340 is inside and that of 46,341 is not, and 65,536 times 32,768 is one too many.
const ENDS: [i32; 18] = [
    i32::MAX,
    i32::MAX - 1,
    i32::MIN,
    i32::MIN + 1,
    1 << 30,
    (1 << 30) - 1,
    -(1 << 30),
    -(1 << 30) - 1,
    46_340,
    46_341,
    -46_340,
    -46_341,
    65_536,
    -65_536,
    65_535,
    32_768,
    32_767,
    -32_768,
];

/// The numbers among them for products.
const FACTORS: &[i32] = ENDS.split_at(8).1;

/// More than half are one of the first four.
pub fn end_number(random: &mut Random) -> i32 {
    if random.chance(50) {
        random.pick(&ENDS[..4])
    } else {
        random.pick(&ENDS)
    }
}

fn small_number(random: &mut Random) -> i32 {
    random.between(0, 4) as i32 - 2
}

/// An expression of at most this many levels, with an operation on numbers at the ends at any level and
/// others around it, most of which stay inside where it does.
pub fn end_expression(wish: &Wish, random: &mut Random, levels: usize) -> Expression {
    if levels <= 1 || random.chance(10) {
        return Expression::Constant(end_number(random));
    }
    let mut expression = end_operation(wish, random);
    for _ in 1..random.between(1, levels - 1) {
        expression = one_around(expression, wish, random);
    }
    expression
}

/// An operation on two constants or variables, which leaves the range about as often as not.
fn end_operation(wish: &Wish, random: &mut Random) -> Expression {
    if random.chance(15) {
        let factor = |random: &mut Random| Box::new(Expression::Constant(random.pick(FACTORS)));
        return Expression::Product(factor(random), factor(random));
    }
    let first = Box::new(one_leaf(wish, random, 60));
    let second = Box::new(one_leaf(wish, random, 30));
    let (first, second) = if random.chance(50) { (first, second) } else { (second, first) };
    match random.below(3) {
        0 => Expression::Sum(first, second),
        1 => Expression::Difference(first, second),
        _ => Expression::Product(first, second),
    }
}

/// A number at an end in so many of a hundred cases, or else a variable or a small number.
fn one_leaf(wish: &Wish, random: &mut Random, at_end: usize) -> Expression {
    if random.chance(at_end) {
        Expression::Constant(end_number(random))
    } else if wish.variables > 0 && random.chance(60) {
        Expression::Variable(random.below(wish.variables))
    } else {
        Expression::Constant(small_number(random))
    }
}

/// An operation with this expression as an argument.
fn one_around(inner: Expression, wish: &Wish, random: &mut Random) -> Expression {
    let inner = Box::new(inner);
    let divisor = random.pick(&[1, 2, 3, 65_536, i32::MAX]);
    let constant = |value: i32| Box::new(Expression::Constant(value));
    match random.below(9) {
        0 => Expression::Sum(inner, constant(small_number(random))),
        1 => Expression::Difference(inner, constant(small_number(random))),
        2 => Expression::Difference(constant(small_number(random)), inner),
        3 => Expression::Product(inner, constant(0)),
        4 => Expression::Product(constant(0), inner),
        5 => Expression::Product(constant(random.pick(&[1, -1, 2])), inner),
        6 => Expression::Sum(Box::new(one_leaf(wish, random, 20)), inner),
        7 => Expression::Quotient(inner, divisor),
        _ => Expression::Remainder(inner, divisor),
    }
}

/// The levels of an expression: where numbers at the ends are wanted, sometimes the most there are.
pub fn most_levels(wish: &Wish, random: &mut Random, ordinary: usize) -> usize {
    if wish.ends > 0 && random.chance(35) {
        LEVELS
    } else {
        ordinary
    }
}

/// The values with most declared variables at an end, and the others small.
pub fn end_values(values: &Values, variables: usize, random: &mut Random) -> Values {
    let mut wild = *values;
    for variable in &mut wild.variables[..variables] {
        *variable = match random.below(10) {
            0..=5 => end_number(random),
            6 | 7 => small_number(random),
            8 => random.bits() as i32,
            _ => *variable,
        };
    }
    wild
}

/// A request for a step for each configuration that a request of a chart's run is given, with
/// variables at the ends.
pub fn chart_end_requests(chart: &Chart, run: &[Request], random: &mut Random) -> Vec<Request> {
    let file = chart.write();
    let mut requests = Vec::new();
    for given in run.iter().filter_map(Request::given_to_chart) {
        let values = end_values(&given.values, chart.declared.variables, random);
        let given = ChartConfiguration { values, ..*given };
        let member = |number: usize| (number as u16, chart_machine::member(chart, number));
        let in_active_state = (0..chart.transitions.len())
            .filter(|&number| given.active[chart.transitions[number].source]);
        let active = in_active_state
            .clone()
            .filter(|&number| chart_machine::is_active(chart, &given, number));
        let without_value = in_active_state
            .filter(|&number| lacks_value(&chart.transitions[number].label, &values));
        let active: Vec<(u16, Member)> = active.map(member).collect();
        let without_value: Vec<(u16, Member)> = without_value.map(member).collect();
        let list = one_list(active, without_value, chart.declared.rendezvous, random);
        requests.push(Request::ChartStep(file.clone(), given, list));
    }
    requests
}

/// The same of a network's run.
pub fn network_end_requests(
    network: &Network,
    run: &[Request],
    random: &mut Random,
) -> Vec<Request> {
    let file = network.write();
    let mut requests = Vec::new();
    for given in run.iter().filter_map(Request::given_to_network) {
        let values = end_values(&given.values, network.declared.variables, random);
        let given = NetworkConfiguration { values, ..*given };
        let member = |number: usize| {
            (number as u16, network_machine::member(network, &network.edges[number]))
        };
        let occupied = (0..network.edges.len()).filter(|&number| {
            let source = network.edges[number].source;
            usize::from(given.locations[network.locations[source].automaton]) == source
        });
        let active = occupied
            .clone()
            .filter(|&number| network_machine::is_active(network, &given, &network.edges[number]));
        let without_value =
            occupied.filter(|&number| lacks_value(&network.edges[number].label, &values));
        let active: Vec<(u16, Member)> = active.map(member).collect();
        let without_value: Vec<(u16, Member)> = without_value.map(member).collect();
        let list = one_list(active, without_value, network.declared.rendezvous, random);
        requests.push(Request::NetworkStep(file.clone(), given, list));
    }
    requests
}

fn lacks_value(label: &Label, values: &Values) -> bool {
    label.guards.iter().any(|guard| has_no_value(guard, values))
}

/// A list that fits one of the three cases, made from those that are active; in some cases those count
/// as active too that only the range keeps from being so, and in a few there is one number more.
fn one_list(
    active: Vec<(u16, Member)>,
    without_value: Vec<(u16, Member)>,
    rendezvous: usize,
    random: &mut Random,
) -> Vec<u16> {
    let mut all = active;
    if random.chance(30) {
        all.extend(without_value);
        all.sort_by_key(|(number, _)| *number);
        all.dedup_by_key(|(number, _)| *number);
    }
    let fitting = candidates(&all, rendezvous, 4, random);
    let mut list = match fitting.len() {
        0 => all.iter().take(1).map(|(number, _)| *number).collect(),
        count => fitting[random.below(count)].clone(),
    };
    if !all.is_empty() && random.chance(10) {
        list.push(random.pick(&all).0);
        list.sort_unstable();
        list.dedup();
    }
    list
}

//! The samples S1 to S10 of the paper but for S9, which was withdrawn, and the sizes that it names.

use reference::generate::special::{
    self, broadcast_of_self_loops, chart_with_edges, chart_with_sequential_children, largest,
    longest_network, many_equal_choices, most_alternatives, most_levels, sample_1, sample_3, state,
    transition,
};
use reference::model::chart::{Chart, Kind};
use reference::model::chart_machine;
use reference::model::check::check;
use reference::model::expression::Expression;
use reference::model::flatten::{flatten, network_of};
use reference::model::guard::{Guard, Relation};
use reference::model::label::{Declared, Label, Signal};
use reference::model::limits::VARIABLES;
use reference::model::network::Network;
use reference::model::network_machine;
use reference::model::refusal::Refusal;
use reference::model::update::Update;
use reference::model::version::Version;

const S1_CHART: [u8; 40] = [
    0x01, 0x00, 0x25, 0x03, 0x00, 0x00, 0x00, 0x00, 0x01, 0x00, 0x01, //
    0x05, 0xFF, 0x01, 0x00, 0x01, 0x00, //
    0x05, 0x00, 0x00, 0x00, 0x01, 0x00, //
    0x05, 0x00, 0x00, 0x00, 0x00, 0x00, //
    0x00, 0x09, 0x01, 0x02, 0xFF, 0xFF, 0x00, 0xFF, 0x00, 0x00, 0x00,
];

const S1_NETWORK: [u8; 42] = [
    0x01, 0x00, 0x00, 0x00, 0x25, 0x01, 0x03, 0x00, 0x01, 0x00, 0x00, 0x00, 0x00, //
    0x03, 0x00, 0x00, 0x00, //
    0x03, 0x00, 0x00, 0x01, //
    0x03, 0x00, 0x00, 0x00, //
    0x00, 0x0F, 0x01, 0x02, 0x00, 0xFF, 0x00, 0x00, 0x00, 0x00, 0x00, 0x00, 0x00, 0xFF, 0x00, 0x00,
    0x00,
];

/// A loop of version 1.
fn one_loop(declared: Declared, label: Label) -> Chart {
    special::one_loop(Version::One, declared, label)
}

#[test]
fn s1_and_s2() {
    assert_eq!(sample_1().write(), S1_CHART);
    for room in [42, 43, 100] {
        let mut buffer = vec![0xAA; room];
        assert_eq!(flatten(&S1_CHART, &mut buffer), Ok(42));
        assert_eq!(buffer[..42], S1_NETWORK);
        assert!(buffer[42..].iter().all(|&byte| byte == 0xAA));
    }
    let mut buffer = vec![0xAA; 41];
    assert_eq!(flatten(&S1_CHART, &mut buffer), Err(Refusal::BufferLength));
    assert_eq!(buffer, vec![0xAA; 41]);
}

#[test]
fn s3() {
    let chart = check(&sample_3().write()).unwrap();
    let network = network_of(&chart).unwrap();
    assert_eq!((network.automata, network.locations.len(), network.edges.len()), (2, 7, 6));
    // Each chart step takes two network moves, and two steps lead back to the start.
    let start = network_machine::start(&network);
    let mut configuration = start;
    for moves in 1..=4 {
        let next: Vec<_> = (0..6)
            .flat_map(|first| (first..6).map(move |second| (first, second)))
            .map(|(first, second)| if first == second { vec![first] } else { vec![first, second] })
            .filter_map(|list| network_machine::step(&network, &configuration, &list).ok())
            .collect();
        assert_eq!(next.len(), 1);
        configuration = next[0];
        assert_eq!(configuration == start, moves == 4);
    }
}

#[test]
fn s4_and_s5() {
    let declared = Declared { clocks: 1, ..Declared::default() };
    let mut chart = one_loop(declared, Label::of_signal(Signal::None));
    chart.states[1].bounds.0[0] = 3;
    let at = |clock| {
        let mut configuration = chart_machine::start(&chart);
        configuration.values.clocks[0] = clock;
        configuration
    };
    assert_eq!(chart_machine::wait(&chart, &at(3), 1), Err(Refusal::BoundBroken));
    assert_eq!(chart_machine::wait(&chart, &at(2), 1), Ok(at(3)));
    assert_eq!(chart_machine::wait(&chart, &at(2), 0), Err(Refusal::Ticks));
}

#[test]
fn s6() {
    let updates = vec![
        Update::assignment(0, Expression::Variable(1)),
        Update::assignment(1, Expression::Variable(0)),
    ];
    let declared = Declared { variables: 2, ..Declared::default() };
    let chart = one_loop(declared, Label { updates, ..Label::of_signal(Signal::None) });
    let mut configuration = chart_machine::start(&chart);
    configuration.values.variables[..2].copy_from_slice(&[5, -8]);
    let new = chart_machine::step(&chart, &configuration, &[0]).unwrap();
    assert_eq!(new.values.variables[..2], [-8, 5]);
}

#[test]
fn s7() {
    let value = |expression: Expression| expression.value(&[0; VARIABLES]);
    let constant = |value: i32| Box::new(Expression::Constant(value));
    assert_eq!(value(Expression::Quotient(constant(-7), 2)), Some(-4));
    assert_eq!(value(Expression::Remainder(constant(-7), 2)), Some(1));
    assert_eq!(value(Expression::Quotient(constant(i32::MIN), 1)), Some(i32::MIN));
}

/// S9 had a sum that wraps. It was withdrawn: such a sum has no value, and an assignment of it is 28.
#[test]
fn in_the_place_of_s9() {
    let constant = |value: i32| Box::new(Expression::Constant(value));
    let sum = Expression::Sum(constant(i32::MAX), constant(1));
    assert_eq!(sum.value(&[0; VARIABLES]), None);
    let product = Expression::Product(constant(i32::MIN), constant(-1));
    assert_eq!(product.value(&[0; VARIABLES]), None);
    let declared = Declared { variables: 1, ..Declared::default() };
    let assigned = |expression: Expression| {
        let updates = vec![Update::assignment(0, expression)];
        let chart = one_loop(declared, Label { updates, ..Label::of_signal(Signal::None) });
        let after = chart_machine::step(&chart, &chart_machine::start(&chart), &[0]);
        let network = network_of(&chart).unwrap();
        let start = network_machine::start(&network);
        let on_network = network_machine::step(&network, &start, &[0]).map(|new| new.values);
        assert_eq!(on_network, after.map(|new| new.values));
        after.map(|new| new.values.variables[0])
    };
    assert_eq!(assigned(sum.clone()), Err(Refusal::RangeLeft));
    assert_eq!(assigned(*constant(i32::MAX)), Ok(i32::MAX));
    // Any operation counts, not only the value that would be stored.
    let less = Expression::Difference(Box::new(sum.clone()), constant(1));
    let times_0 = Expression::Product(Box::new(sum), constant(0));
    assert_eq!(assigned(less), Err(Refusal::RangeLeft));
    assert_eq!(assigned(times_0), Err(Refusal::RangeLeft));
}

#[test]
fn s8() {
    let nested = |levels: usize| {
        let left = (1..levels)
            .fold(Expression::Constant(0), |inner, _| Expression::Remainder(Box::new(inner), 3));
        assert_eq!(left.levels(), levels);
        let guard = Guard::Data { relation: Relation::Equal, left, right: Expression::Constant(0) };
        let label = Label { guards: vec![guard], ..Label::of_signal(Signal::None) };
        check(&one_loop(Declared::default(), label).write()).map(|_| ())
    };
    assert_eq!(nested(8), Ok(()));
    assert_eq!(nested(9), Err(Refusal::ChartField));
}

#[test]
fn s10() {
    let declared = Declared { broadcast: 1, ..Declared::default() };
    let chart = one_loop(declared, Label::of_signal(Signal::Send(0)));
    assert!(chart_machine::step(&chart, &chart_machine::start(&chart), &[0]).is_ok());
    // Active receivers in other sequential states must be in the set.
    let chart = broadcast_of_self_loops();
    let start = chart_machine::start(&chart);
    assert_eq!(chart_machine::step(&chart, &start, &[0]), Err(Refusal::NotAllowed));
    assert_eq!(chart_machine::step(&chart, &start, &[0, 1, 2, 3, 4, 5, 6, 7]), Ok(start));
}

#[test]
fn sizes() {
    let mut chart = sample_1();
    while chart.states.len() < 48 {
        chart.states.push(state(0, Kind::Basic, 0, 0));
    }
    assert!(check(&chart.write()).is_ok());
    chart.states.push(state(0, Kind::Basic, 0, 0));
    assert_eq!(check(&chart.write()).unwrap_err(), Refusal::ChartCount);
    assert!(check(&chart_with_sequential_children(15).write()).is_ok());
    let refused = check(&chart_with_sequential_children(16).write());
    assert_eq!(refused.unwrap_err(), Refusal::SequentialCount);
}

#[test]
fn alternatives_are_counted_before_they_are_listed() {
    assert_eq!(network_of(&chart_with_edges(1024)).unwrap().edges.len(), 1024);
    assert_eq!(network_of(&chart_with_edges(1025)), Err(Refusal::EdgeCount));
    assert_eq!(network_of(&most_alternatives()), Err(Refusal::EdgeCount));
    // 2^15 choices that are one alternative: one edge to post, one from it, 30 that hear the exit.
    assert_eq!(network_of(&many_equal_choices()).unwrap().edges.len(), 32);
}

/// A state that cannot complete has no alternatives, however many its children have.
#[test]
fn branches_that_cannot_complete_are_left_out() {
    let mut chart = chart_with_edges(1024);
    // The last of the five children in parallel loses its marks.
    let last = chart.children[2][4];
    for state in chart.at_or_below(last) {
        chart.states[state].exit_marks = 0;
    }
    let transitions = vec![transition(2, 1, Some(0), None, Signal::None); 60];
    let chart = Chart::new(Version::One, chart.declared, 1, 1, chart.states, transitions);
    let network = network_of(&chart).unwrap();
    // One edge from each post, and 20 that hear the exit.
    assert_eq!(network.edges.len(), 60 + 20);
    assert!(network.edges.iter().all(|edge| edge.transition.is_none()));
}

#[test]
fn the_largest_chart_passes() {
    let chart = largest();
    let file = chart.write();
    assert!(file.len() <= 65_536 && file.len() > 65_000);
    let mut buffer = vec![0; 200_000];
    let length = flatten(&file, &mut buffer).unwrap();
    let network = Network::read(&buffer[..length]).unwrap();
    assert_eq!(network.edges.len(), 1024);
}

/// What the benchmark steps: full trees of eight levels, of which none leaves the range in any run.
#[test]
fn the_chart_of_most_levels() {
    let chart = check(&most_levels().write()).unwrap();
    let network = network_of(&chart).unwrap();
    let expressions = chart.transitions.iter().flat_map(|one| {
        let of_guards = one.label.guards.iter().map(|guard| match guard {
            Guard::Data { left, .. } => left.levels(),
            _ => 0,
        });
        let of_updates = one.label.updates.iter().map(|update| match update {
            Update::Assignment(one) => one.expression.levels(),
            Update::Advance(_) => 0,
        });
        of_guards.chain(of_updates).collect::<Vec<usize>>()
    });
    assert_eq!(expressions.collect::<Vec<usize>>(), [8; 4 + 16 + 14 * 4]);
    let list: Vec<u16> = std::iter::once(0).chain((0..14).map(|region| 1 + 4 * region)).collect();
    let mut on_chart = chart_machine::start(&chart);
    let mut on_network = network_machine::start(&network);
    let mut met = std::collections::BTreeSet::new();
    for _ in 0..200 {
        on_chart = chart_machine::step(&chart, &on_chart, &list).unwrap();
        on_network = network_machine::step(&network, &on_network, &list).unwrap();
        assert_eq!(on_network.values, on_chart.values);
        met.extend(on_chart.values.variables);
    }
    assert!(met.iter().copied().eq(0..3), "{met:?}");
}

/// Every alternative has the whole label, so a network can be far longer than its chart.
#[test]
fn a_long_network() {
    let file = longest_network().write();
    let mut buffer = vec![0; 16_000_000];
    let length = flatten(&file, &mut buffer).unwrap();
    assert!(length > 15_500_000, "{length}");
    assert_eq!(flatten(&file, &mut buffer[..length - 1]), Err(Refusal::BufferLength));
    // The length in the header is that of the file.
    assert_eq!(buffer[1..5], ((length - 5) as u32).to_be_bytes());
}

/// The file `samples/fractional.chart`: each pick advances the motor by 7/3 of a step.
#[test]
fn the_fractional_sample() {
    let chart = check(include_bytes!("../../samples/fractional.chart")).unwrap();
    let network = network_of(&chart).unwrap();
    assert_eq!((chart.version, network.version), (Version::Two, Version::Two));
    assert_eq!((network.automata, network.locations.len(), network.edges.len()), (2, 8, 8));
    let mut configuration = chart_machine::step(&chart, &chart_machine::start(&chart), &[0]);
    let mut before = 0;
    for pick in 1..=9 {
        let list = [if pick % 2 == 1 { 1 } else { 2 }];
        configuration = chart_machine::step(&chart, &configuration.unwrap(), &list);
        let whole = 7 * pick / 3;
        let expected = [whole, 7 * pick % 3, before];
        assert_eq!(configuration.as_ref().unwrap().values.variables[..3], expected);
        before = whole;
        // It stops in the first shed alone.
        let stop = chart_machine::step(&chart, configuration.as_ref().unwrap(), &[3]);
        assert_eq!(stop.is_ok(), pick % 2 == 0);
    }
    // On the network: start and its urgent move, then a pick in each shed.
    let mut on_network = network_machine::start(&network);
    for list in [&[0][..], &[2, 4], &[6], &[7], &[6]] {
        on_network = network_machine::step(&network, &on_network, list).unwrap();
    }
    assert_eq!(on_network.values.variables[..3], [7, 0, 4]);
}

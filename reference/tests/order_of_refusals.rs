//! Where two refusals fit, the first in the paper's order is given.

use std::rc::Rc;

use reference::forms::request::{Request, Success};
use reference::generate::damage::{advance_places, Form};
use reference::generate::faulty::{all_faulty, ADVANCE};
use reference::generate::special::{dense, nested_channel, one_pick, state, transition};
use reference::model::chart::{Chart, Kind, Transition};
use reference::model::chart_machine::{self, ChartConfiguration};
use reference::model::check::check;
use reference::model::expression::Expression;
use reference::model::flatten::network_of;
use reference::model::guard::{Guard, Relation};
use reference::model::label::{Declared, Label, Signal};
use reference::model::limits::{LARGEST, NONE};
use reference::model::network::Network;
use reference::model::network_machine::{self, NetworkConfiguration};
use reference::model::refusal::Refusal;
use reference::model::update::Update;
use reference::model::version::Version;

/// Two sequential states in parallel. The first enters a composite state; the second has a
/// transition to itself that resets the clock, one that does not and is guarded, and two with
/// signals. The composite state has a bound of 5.
fn chart() -> Chart {
    let mut states = vec![
        state(NONE, Kind::Parallel, 1, 0),
        state(0, Kind::Sequential, 1, 0),
        state(1, Kind::Basic, 1, 0),
        state(1, Kind::Sequential, 2, 0),
        state(3, Kind::Basic, 2, 0),
        state(0, Kind::Sequential, 1, 0),
        state(5, Kind::Basic, 1, 0),
    ];
    states[3].bounds.0[0] = 5;
    let labelled = |label: Label| Transition {
        source: 6,
        destination: 6,
        exit: None,
        entry: None,
        label: Rc::new(label),
    };
    let late = Guard::Clock { clock: 0, relation: Relation::AtLeast, constant: 3 };
    let transitions = vec![
        transition(2, 3, None, Some(1), Signal::None),
        labelled(Label::of_signal(Signal::None)),
        labelled(Label { guards: vec![late], ..Label::of_signal(Signal::None) }),
        labelled(Label::of_signal(Signal::Send(0))),
        labelled(Label::of_signal(Signal::Receive(0))),
    ];
    let declared = Declared { clocks: 1, rendezvous: 1, ..Declared::default() };
    let chart = Chart::new(Version::One, declared, 2, 0, states, transitions);
    check(&chart.write()).expect("the chart passes")
}

/// The numbers of the edges that bear a transition.
fn edge(network: &Network, transition: usize) -> u16 {
    let found = network.edges.iter().position(|edge| edge.transition == Some(transition));
    found.expect("the transition has an edge") as u16
}

#[test]
fn a_chart_step() {
    let chart = chart();
    let start = chart_machine::start(&chart);
    let step = |configuration: &ChartConfiguration, list: &[u16]| {
        chart_machine::step(&chart, configuration, list)
    };
    let mut broken = start;
    broken.active[6] = false;
    // 17 before 18.
    assert_eq!(step(&broken, &[]), Err(Refusal::ChartConfiguration));
    // 18 before 19: 2 is inactive, 9 is unknown.
    assert_eq!(step(&start, &[2, 9]), Err(Refusal::List));
    assert_eq!(step(&start, &[1, 1]), Err(Refusal::List));
    assert_eq!(step(&start, &[0; 17]), Err(Refusal::List));
    // 19 before 20: two transitions without signal are not allowed together.
    assert_eq!(step(&start, &[1, 2]), Err(Refusal::Inactive));
    assert_eq!(step(&start, &[0, 1]), Err(Refusal::NotAllowed));
    // A sender and a receiver of one parent are not independent.
    assert_eq!(step(&start, &[3, 4]), Err(Refusal::NotAllowed));
    assert_eq!(step(&start, &[3]), Err(Refusal::NotAllowed));
    // 20 before 21: entering the composite state breaks its bound.
    let mut late = start;
    late.values.clocks[0] = 6;
    assert_eq!(step(&late, &[0, 1]), Err(Refusal::NotAllowed));
    assert_eq!(step(&late, &[0]), Err(Refusal::BoundBroken));
}

/// The same chart, in which every transition but the receiver adds 1 to a variable.
fn adding_chart() -> Chart {
    let mut chart = chart();
    chart.declared.variables = 1;
    let more =
        Expression::Sum(Box::new(Expression::Variable(0)), Box::new(Expression::Constant(1)));
    for transition in &mut chart.transitions {
        let mut label = (*transition.label).clone();
        if !matches!(label.signal, Signal::Receive(_)) {
            label.updates.push(Update::assignment(0, more.clone()));
        }
        transition.label = Rc::new(label);
    }
    check(&chart.write()).expect("the chart passes")
}

/// 28 comes after 20 and before 21.
#[test]
fn a_chart_step_that_leaves_the_range() {
    let chart = adding_chart();
    let step = |variable: i32, clock: u32, list: &[u16]| {
        let mut given = chart_machine::start(&chart);
        given.values.variables[0] = variable;
        given.values.clocks[0] = clock;
        chart_machine::step(&chart, &given, list).map(|new| new.values.variables[0])
    };
    assert_eq!(step(i32::MAX - 1, 0, &[0]), Ok(i32::MAX));
    assert_eq!(step(i32::MAX, 0, &[0]), Err(Refusal::RangeLeft));
    // 18, 19 and 20 before 28.
    assert_eq!(step(i32::MAX, 0, &[0, 9]), Err(Refusal::List));
    assert_eq!(step(i32::MAX, 0, &[2]), Err(Refusal::Inactive));
    assert_eq!(step(i32::MAX, 3, &[2]), Err(Refusal::RangeLeft));
    assert_eq!(step(i32::MAX, 0, &[0, 1]), Err(Refusal::NotAllowed));
    assert_eq!(step(i32::MAX, 0, &[3]), Err(Refusal::NotAllowed));
    // 28 before 21: entering the composite state breaks its bound.
    assert_eq!(step(i32::MAX, 6, &[0]), Err(Refusal::RangeLeft));
    assert_eq!(step(0, 6, &[0]), Err(Refusal::BoundBroken));
    // 17 first.
    assert_eq!(step(i32::MAX, LARGEST + 1, &[0]), Err(Refusal::ChartConfiguration));
}

#[test]
fn a_chart_wait() {
    let chart = chart();
    let mut inside = chart_machine::step(&chart, &chart_machine::start(&chart), &[0]).unwrap();
    let wait = |configuration: &ChartConfiguration, ticks| {
        chart_machine::wait(&chart, configuration, ticks)
    };
    assert_eq!(wait(&inside, 0), Err(Refusal::Ticks));
    // 22 before 21.
    assert_eq!(wait(&inside, LARGEST + 1), Err(Refusal::Ticks));
    assert_eq!(wait(&inside, LARGEST), Err(Refusal::BoundBroken));
    assert_eq!(wait(&inside, 6), Err(Refusal::BoundBroken));
    assert!(wait(&inside, 5).is_ok());
    // 17 before 22.
    inside.values.clocks[0] = 6;
    assert_eq!(wait(&inside, 0), Err(Refusal::ChartConfiguration));
}

#[test]
fn a_network_step() {
    let chart = chart();
    let network = network_of(&chart).unwrap();
    let start = network_machine::start(&network);
    let step = |configuration: &NetworkConfiguration, list: &[u16]| {
        network_machine::step(&network, configuration, list)
    };
    let edges: Vec<u16> = (0..5).map(|transition| edge(&network, transition)).collect();
    let mut broken = start;
    broken.locations[0] = broken.locations[1];
    // 26 before 18.
    assert_eq!(step(&broken, &[]), Err(Refusal::NetworkConfiguration));
    let at_pre = step(&start, &edges[..1]).unwrap();
    assert!(network_machine::urgent_is_occupied(&network, &at_pre));
    // 18 before 19 before 27 before 20.
    assert_eq!(step(&at_pre, &[edges[2], 1_000]), Err(Refusal::List));
    assert_eq!(step(&at_pre, &[edges[2]]), Err(Refusal::Inactive));
    assert_eq!(step(&at_pre, &[edges[1]]), Err(Refusal::Urgency));
    assert_eq!(step(&at_pre, &[edges[3]]), Err(Refusal::Urgency));
    assert_eq!(step(&at_pre, &[edges[3], edges[4]]), Err(Refusal::Urgency));
    // With an edge that leaves the urgent location, 20.
    let leaving = network.edges.iter().position(|edge| network.locations[edge.source].urgent);
    let leaving = leaving.unwrap() as u16;
    let mut both = vec![leaving, edges[1]];
    both.sort();
    assert_eq!(step(&at_pre, &both), Err(Refusal::NotAllowed));
    // The set of the broadcast "enter" must include the receiver, which is active.
    assert_eq!(step(&at_pre, &[leaving]), Err(Refusal::NotAllowed));
    // 21: pre has the bound of what is entered.
    let mut late = start;
    late.values.clocks[0] = 6;
    assert_eq!(step(&late, &edges[..1]), Err(Refusal::BoundBroken));
}

/// 28 comes after 27 and 20 and before 21.
#[test]
fn a_network_step_that_leaves_the_range() {
    let network = network_of(&adding_chart()).unwrap();
    let edges: Vec<u16> = (0..5).map(|transition| edge(&network, transition)).collect();
    let start = network_machine::start(&network);
    let step = |given: &NetworkConfiguration, variable: i32, clock: u32, list: &[u16]| {
        let mut given = *given;
        given.values.variables[0] = variable;
        given.values.clocks[0] = clock;
        network_machine::step(&network, &given, list).map(|new| new.values.variables[0])
    };
    assert_eq!(step(&start, i32::MAX - 1, 0, &edges[..1]), Ok(i32::MAX));
    assert_eq!(step(&start, i32::MAX, 0, &edges[..1]), Err(Refusal::RangeLeft));
    // 18, 19 and 20 before 28.
    assert_eq!(step(&start, i32::MAX, 0, &[edges[0], 1_000]), Err(Refusal::List));
    assert_eq!(step(&start, i32::MAX, 0, &edges[2..3]), Err(Refusal::Inactive));
    assert_eq!(step(&start, i32::MAX, 3, &edges[2..3]), Err(Refusal::RangeLeft));
    let mut both = edges[..2].to_vec();
    both.sort();
    assert_eq!(step(&start, i32::MAX, 0, &both), Err(Refusal::NotAllowed));
    assert_eq!(step(&start, i32::MAX, 0, &edges[3..4]), Err(Refusal::NotAllowed));
    // 27 before 28.
    let at_pre = network_machine::step(&network, &start, &edges[..1]).unwrap();
    assert_eq!(step(&at_pre, i32::MAX, 0, &edges[1..2]), Err(Refusal::Urgency));
    // 28 before 21: pre has the bound of what is entered.
    assert_eq!(step(&start, i32::MAX, 6, &edges[..1]), Err(Refusal::RangeLeft));
    assert_eq!(step(&start, 0, 6, &edges[..1]), Err(Refusal::BoundBroken));
    // 26 first.
    let refused = Err(Refusal::NetworkConfiguration);
    assert_eq!(step(&start, i32::MAX, LARGEST + 1, &edges[..1]), refused);
}

#[test]
fn a_network_wait() {
    let chart = chart();
    let network = network_of(&chart).unwrap();
    let start = network_machine::start(&network);
    let at_pre = network_machine::step(&network, &start, &[edge(&network, 0)]).unwrap();
    let wait = |configuration: &NetworkConfiguration, ticks| {
        network_machine::wait(&network, configuration, ticks)
    };
    // 22 before 27 before 21.
    assert_eq!(wait(&at_pre, 0), Err(Refusal::Ticks));
    assert_eq!(wait(&at_pre, LARGEST + 1), Err(Refusal::Ticks));
    assert_eq!(wait(&at_pre, 6), Err(Refusal::Urgency));
    assert_eq!(wait(&at_pre, 1), Err(Refusal::Urgency));
    assert_eq!(wait(&start, LARGEST).map(|new| new.values.clocks[0]), Ok(LARGEST));
    let mut broken = at_pre;
    broken.flags[15] = 1;
    // 26 before 22.
    assert_eq!(wait(&broken, 0), Err(Refusal::NetworkConfiguration));
}

/// The file's refusals, then 17 or 26, and no other: where a wait of one tick is refused for another
/// reason, the longest wait is 0.
#[test]
fn a_longest_wait() {
    let chart = chart();
    let network = network_of(&chart).unwrap();
    let inside = chart_machine::step(&chart, &chart_machine::start(&chart), &[0]).unwrap();
    let start = network_machine::start(&network);
    let at_pre = network_machine::step(&network, &start, &[edge(&network, 0)]).unwrap();
    let on_chart = |file: Vec<u8>, clock: u32| {
        let mut given = inside;
        given.values.clocks[0] = clock;
        Request::ChartLongest(file, given).answer()
    };
    let on_network = |file: Vec<u8>, given: &NetworkConfiguration, clock: u32| {
        let mut given = *given;
        given.values.clocks[0] = clock;
        Request::NetworkLongest(file, given).answer()
    };
    // 21 of a wait, at the bound of 5; past it 17.
    assert_eq!(on_chart(chart.write(), 5), Ok(Success::Longest(0)));
    assert_eq!(on_chart(chart.write(), 6), Err(Refusal::ChartConfiguration));
    // 22 of a wait, at the limit; past it 26. 27 of a wait, at the urgent location, which has the bound
    // of what is entered.
    assert_eq!(on_network(network.write(), &start, LARGEST), Ok(Success::Longest(0)));
    let refused = Err(Refusal::NetworkConfiguration);
    assert_eq!(on_network(network.write(), &start, LARGEST + 1), refused);
    assert_eq!(on_network(network.write(), &at_pre, 0), Ok(Success::Longest(0)));
    assert_eq!(on_network(network.write(), &at_pre, 6), refused);
    // Files first.
    for one in all_faulty() {
        assert_eq!(on_chart(one.chart, 6), Err(one.chart_refusal), "{}", one.name);
        let answer = on_network(one.network, &at_pre, 6);
        assert_eq!(answer, Err(one.network_refusal), "{}", one.name);
    }
}

#[test]
fn records_are_read_from_left_to_right() {
    let refusal = |file: &[u8]| check(file).map(|_| ()).unwrap_err();
    let file = dense().write();
    // The first state's kind (out of range) comes before its end (too long).
    let mut both = file.clone();
    both[11] += 1;
    both[13] = 3;
    assert_eq!(refusal(&both), Refusal::ChartField);
    // A length that passes the file is wrong at its own bytes, before the field.
    both[11] = 255;
    assert_eq!(refusal(&both), Refusal::ChartLength);
    // A field that passes its record comes before a later field out of range.
    let mut both = file.clone();
    both[11] = 3;
    both[13] = 0;
    assert_eq!(refusal(&both), Refusal::ChartLength);
    // Bytes after the last record come last, so an earlier field wins.
    let mut both = file.clone();
    both.push(0);
    both[2] += 1;
    assert_eq!(refusal(&both), Refusal::ChartLength);
    both[13] = 3;
    assert_eq!(refusal(&both), Refusal::ChartField);
    // Rules are tried one after the other on the whole chart: 5 before 14.
    let mut chart = nested_channel();
    assert_eq!(refusal(&chart.write()), Refusal::NestedChannel);
    chart.states[1].exit_marks = 1;
    assert_eq!(refusal(&chart.write()), Refusal::ExitMarks);
    chart.states[0].entry_marks = 0;
    assert_eq!(refusal(&chart.write()), Refusal::EntryMarks);
    chart.states[2].parent = 2;
    assert_eq!(refusal(&chart.write()), Refusal::Parent);
}

#[test]
fn every_fault_of_an_advance_has_its_number() {
    for one in all_faulty() {
        assert_eq!(check(&one.chart).map(|_| ()), Err(one.chart_refusal), "{}", one.name);
        let answer = Network::read(&one.network).map(|_| ());
        assert_eq!(answer, Err(one.network_refusal), "{}", one.name);
    }
}

#[test]
fn an_advance_is_read_from_left_to_right() {
    let good = one_pick(vec![Update::Advance(ADVANCE)]);
    let file = good.write();
    let place = advance_places(Form::Chart, &file)[0];
    let refusal = |file: &[u8]| check(file).map(|_| ()).unwrap_err();
    // The record one byte shorter: the file ends where the denominator is cut.
    let mut short = file[..file.len() - 1].to_vec();
    Form::Chart.correct_length(&mut short);
    short[place - 10] -= 1;
    assert_eq!(refusal(&short), Refusal::ChartLength);
    // A variable out of range comes before the denominator that is cut.
    for variable in [1, 2] {
        let mut both = short.clone();
        both[place + variable] = 3;
        assert_eq!(refusal(&both), Refusal::ChartField);
    }
    // A denominator of 0 comes before the end of the record, which is too long.
    let mut long = file.clone();
    long.push(0);
    Form::Chart.correct_length(&mut long);
    long[place - 10] += 1;
    assert_eq!(refusal(&long), Refusal::ChartLength);
    long[place + 6] = 0;
    assert_eq!(refusal(&long), Refusal::ChartField);
    // The version comes before the counts, and both before the advance.
    let mut early = file.clone();
    early[place + 6] = 0;
    early[3] = 1;
    assert_eq!(refusal(&early), Refusal::ChartCount);
    early[0] = 3;
    assert_eq!(refusal(&early), Refusal::ChartHeader);
}

#[test]
fn a_network_bears_the_version_of_its_chart() {
    for version in Version::ALL {
        let chart = Chart { version, ..chart() };
        let file = chart.write();
        assert_eq!(file[0], version.number());
        let network = network_of(&check(&file).unwrap()).unwrap();
        assert_eq!(network.version, version);
        let mut bytes = network.write();
        assert_eq!(bytes[0], version.number());
        // Nothing else depends on it where there is no advance.
        let other = network_of(&Chart { version: Version::One, ..chart }).unwrap();
        bytes[0] = 1;
        assert_eq!(bytes, other.write());
    }
}

/// An advance reads the old pair, and what stands beside it reads the old values too. The sum of
/// remainder and numerator may pass the range, the steps may not: 28.
#[test]
fn all_updates_of_a_step_read_the_old_values() {
    let beside = [
        vec![Update::assignment(2, Expression::Variable(0)), Update::Advance(ADVANCE)],
        vec![Update::Advance(ADVANCE), Update::assignment(2, Expression::Variable(0))],
    ];
    // Steps and remainder before and after an advance by 7/3.
    let cases = [
        ((0, 0), Some((2, 1))),
        ((10, 2), Some((13, 0))),
        ((10, -8), Some((9, 2))),
        ((i32::MAX - 3, 2), Some((i32::MAX, 0))),
        ((i32::MAX - 2, 2), None),
        ((i32::MAX, -7), Some((i32::MAX, 0))),
        ((i32::MIN, -7), Some((i32::MIN, 0))),
        ((i32::MIN, -8), None),
        ((0, i32::MIN), Some((-715_827_881, 2))),
        ((0, i32::MAX), Some((715_827_884, 2))),
    ];
    for updates in beside {
        let chart = one_pick(updates);
        let network = network_of(&chart).unwrap();
        for (old, new) in cases {
            let mut given = chart_machine::start(&chart);
            given.values.variables[..2].copy_from_slice(&[old.0, old.1]);
            let after = chart_machine::step(&chart, &given, &[0]).map(|new| new.values);
            let start = network_machine::start(&network);
            let on_network = NetworkConfiguration { values: given.values, ..start };
            let stepped = network_machine::step(&network, &on_network, &[0]);
            assert_eq!(stepped.map(|new| new.values), after);
            let written = after.map(|values| [0, 1, 2].map(|number| values.variables[number]));
            let expected = new.map(|(steps, remainder)| [steps, remainder, old.0]);
            assert_eq!(written, expected.ok_or(Refusal::RangeLeft), "{old:?}");
        }
    }
}

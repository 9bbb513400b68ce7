//! What a request exercises, in words. The vector files are chosen by it, and tests ask for it.

use std::collections::{BTreeMap, BTreeSet};

use crate::coverage::breaks_features;
use crate::coverage::longest_features;
use crate::coverage::sensor_features;
use crate::coverage::sensors::has_sensors;
use crate::forms::request::{Request, Success};
use crate::forms::run_request::{Read, RunRequest, View};
use crate::model::chart::{Chart, Transition};
use crate::model::chart_machine;
use crate::model::check::check;
use crate::model::expression::Expression;
use crate::model::flatten::network_of;
use crate::model::guard::Guard;
use crate::model::label::{Label, Signal};
use crate::model::layout::{Layout, Place};
use crate::model::limits::{EDGES, LIST};
use crate::model::network::{Edge, Network};
use crate::model::network_machine;
use crate::model::refusal::Refusal;
use crate::model::update::{Advance, Update};
use crate::model::values::Values;
use crate::runs::moment::{Call, Machines};

/// A set of features, each in words.
pub type Features = BTreeSet<String>;

/// How often each feature was met.
pub type Counts = BTreeMap<String, usize>;

/// The name of a request's operation.
pub fn operation_name(request: &Request) -> &'static str {
    match request {
        Request::Check(_) => "check",
        Request::Flatten(..) => "flatten",
        Request::ChartStart(_) => "chart start",
        Request::ChartStep(..) => "chart step",
        Request::ChartWait(..) => "chart wait",
        Request::ChartLongest(..) => "chart longest wait",
        Request::NetworkStart(_) => "network start",
        Request::NetworkStep(..) => "network step",
        Request::NetworkWait(..) => "network wait",
        Request::NetworkLongest(..) => "network longest wait",
        Request::WeftBreaks(..) => "weft breaks",
    }
}

/// The features of a request. `layout` tells what the locations of a flattened network stand for.
pub fn features(request: &Request, layout: Option<&Layout>) -> Features {
    let answer = request.answer();
    let mut found = Features::new();
    found.insert(match &answer {
        Ok(_) => "ok".to_string(),
        Err(refusal) => format!("refusal {}", refusal.number()),
    });
    if let (Ok(_), Some([version, ..])) = (&answer, request.file()) {
        found.insert(format!("version {version}"));
    }
    match request {
        Request::Check(file) if answer.is_ok() => {
            if let Ok(chart) = check(file) {
                for transition in &chart.transitions {
                    add_label_parts(&transition.label, &mut found);
                }
                sensor_features::add_states(&chart, &mut found);
            }
        }
        Request::Flatten(file, _) if answer.is_ok() => {
            if let Ok(chart) = check(file) {
                add_flatten_features(&chart, &mut found);
            }
        }
        Request::ChartStep(file, configuration, list) => {
            if let Ok(chart) = check(file) {
                let known = list.iter().filter_map(|&n| chart.transitions.get(usize::from(n)));
                let active =
                    known.filter(|transition| configuration.active[transition.source]).collect();
                add_chart_step_features(&chart, active, &configuration.values, &answer, &mut found);
                sensor_features::add_chart_step(&chart, configuration, list, &answer, &mut found);
            }
        }
        Request::ChartStart(file) if check(file).is_ok_and(|chart| has_sensors(&chart)) => {
            found.insert("sensors".to_string());
        }
        Request::ChartWait(file, configuration, ticks) => {
            if let Ok(chart) = check(file) {
                sensor_features::add_chart_wait(&chart, configuration, *ticks, &answer, &mut found);
            }
        }
        Request::ChartLongest(file, configuration) => {
            if let (Ok(chart), Ok(Success::Longest(ticks))) = (check(file), &answer) {
                longest_features::add_chart(&chart, configuration, *ticks, &mut found);
                sensor_features::add_chart_longest(&chart, configuration, *ticks, &mut found);
            }
        }
        Request::NetworkLongest(file, configuration) => {
            if let (Ok(network), Ok(Success::Longest(ticks))) = (Network::read(file), &answer) {
                longest_features::add_network(&network, configuration, *ticks, &mut found);
            }
        }
        Request::NetworkStep(file, configuration, list) => {
            if let Ok(network) = Network::read(file) {
                let known = list.iter().filter_map(|&n| network.edges.get(usize::from(n)));
                let occupied = known.filter(|edge| {
                    let automaton = network.locations[edge.source].automaton;
                    usize::from(configuration.locations[automaton]) == edge.source
                });
                let occupied: Vec<&Edge> = occupied.collect();
                let values = &configuration.values;
                add_network_step_features(&network, &occupied, values, &answer, layout, &mut found);
                if answer == Err(Refusal::Inactive) {
                    let fails = |edge: &&&Edge| {
                        edge.label.guards_hold(values)
                            && !network_machine::is_active(&network, configuration, edge)
                    };
                    if occupied.iter().find(fails).is_some() {
                        found.insert("flag test false".to_string());
                    }
                }
            }
        }
        Request::WeftBreaks(ticks, window) => breaks_features::add(ticks, *window, &mut found),
        _ => {}
    }
    let name = operation_name(request);
    found.into_iter().map(|feature| format!("{name}: {feature}")).collect()
}

/// The features of a request to run a chart and its network side by side.
pub fn run_features(request: &RunRequest) -> Features {
    let answer = request.answer();
    let mut found = Features::new();
    found.insert(match &answer.flattened {
        Ok(_) => "flattened".to_string(),
        Err(refusal) => format!("refusal {}", refusal.number()),
    });
    if let Ok(machines) = request.machines() {
        found.insert(format!("version {}", machines.network.version.number()));
        if machines.network.edges.len() == EDGES {
            found.insert("most edges".to_string());
        }
        for (call, view) in request.calls.iter().zip(answer.views.iter().skip(1)) {
            add_call_features(&machines, call, view, &mut found);
        }
        let is_call = |view: &&View| matches!(view.read, Read::Call(_));
        let read = answer.views.iter().filter(is_call).count();
        found.insert(format!("{} chart calls read", at_most(read, 10)));
    }
    found.into_iter().map(|feature| format!("side by side: {feature}")).collect()
}

/// What a call of the network did, and what is read from it.
fn add_call_features(machines: &Machines, call: &Call, view: &View, found: &mut Features) {
    let name = match call {
        Call::Step(list) if list.is_empty() => "step without a number",
        Call::Step(list) if list.len() > LIST => "step of too many numbers",
        Call::Step(_) => "step",
        Call::Wait(_) => "wait",
    };
    found.insert(match view.refusal {
        None => format!("{name} ok"),
        Some(refusal) => format!("{name} refused {}", refusal.number()),
    });
    sensor_features::add_call(machines, call, view, found);
    let (Call::Step(list), None) = (call, view.refusal) else {
        return;
    };
    let edges = at_most(list.len(), 3);
    let owed = at_most(view.owed, 3);
    match &view.read {
        Read::Call(Call::Step(carried)) => {
            let transitions = at_most(carried.len(), 3);
            found.insert(format!("move of {edges} edges with {transitions} transitions"));
            found.insert(format!("move, {owed} owed"));
            if carried.iter().any(|&number| {
                let label = &machines.chart.transitions[usize::from(number)].label;
                label.updates.iter().any(|update| update.as_advance().is_some())
            }) {
                found.insert("move with an advance".to_string());
            }
            if *carried != machines.borne(list) {
                found.insert("transitions in another order than their edges".to_string());
            }
        }
        _ => {
            found.insert(format!("urgent move of {edges} edges"));
            found.insert(format!("urgent move, {owed} still owed"));
        }
    }
}

fn add_chart_step_features(
    chart: &Chart,
    active: Vec<&Transition>,
    values: &Values,
    answer: &Result<Success, Refusal>,
    found: &mut Features,
) {
    for transition in &active {
        add_guard_truths(&transition.label, values, found);
        if answer.is_ok() {
            add_label_parts(&transition.label, found);
            add_advances_made(&transition.label, values, found);
            let kind = |state: usize| chart.states[state].kind;
            found.insert(format!("from {:?}", kind(transition.source)));
            found.insert(format!("to {:?}", kind(transition.destination)));
            let composite = transition.exit.is_some();
            if composite && transition.source == transition.destination {
                found.insert("composite self-loop".to_string());
            }
        }
    }
    if answer.is_ok() {
        let labels: Vec<&Label> = active.iter().map(|transition| &*transition.label).collect();
        found.insert(set_kind(&labels, chart.declared.rendezvous));
    }
}

fn add_network_step_features(
    network: &Network,
    occupied: &[&Edge],
    values: &Values,
    answer: &Result<Success, Refusal>,
    layout: Option<&Layout>,
    found: &mut Features,
) {
    for edge in occupied {
        add_guard_truths(&edge.label, values, found);
        if answer.is_ok() {
            add_label_parts(&edge.label, found);
            add_advances_made(&edge.label, values, found);
            add_flag_parts(edge, found);
            if let Some(layout) = layout {
                found.insert(format!("leaves {}", place_name(layout.places[edge.source])));
                found.insert(format!("reaches {}", place_name(layout.places[edge.target])));
                sensor_features::add_edge(layout, edge, found);
            }
        }
    }
    if answer.is_ok() {
        let labels: Vec<&Label> = occupied.iter().map(|edge| &*edge.label).collect();
        found.insert(set_kind(&labels, network.declared.rendezvous));
    }
}

fn add_flatten_features(chart: &Chart, found: &mut Features) {
    let Ok(network) = network_of(chart) else {
        return;
    };
    for edge in &network.edges {
        add_label_parts(&edge.label, found);
        add_flag_parts(edge, found);
    }
    sensor_features::add_network(chart, &network, found);
    for place in Layout::of(chart).places {
        found.insert(format!("has {}", place_name(place)));
    }
    for number in 0..chart.transitions.len() {
        if chart.transitions[number].exit.is_some() {
            let alternatives =
                network.edges.iter().filter(|edge| edge.transition == Some(number)).count();
            found.insert(format!("{} alternatives", at_most(alternatives, 4)));
        }
        let initially = chart_machine::start(chart).active;
        if chart.transitions[number].exit.is_some() && initially[chart.transitions[number].source] {
            found.insert("exit from an initially active state".to_string());
        }
    }
}

fn add_flag_parts(edge: &Edge, found: &mut Features) {
    if edge.exit_tested.is_some() {
        let zeros = edge.automata_tested & !edge.values_needed != 0;
        let ones = edge.values_needed != 0;
        found.insert(format!("flag test of 0: {zeros}, of 1: {ones}"));
    }
    if edge.exits_written & !edge.values_written != 0 {
        found.insert("flag written 0".to_string());
    }
    if edge.values_written != 0 {
        found.insert("flag written 1".to_string());
    }
}

/// Which of the three cases of an allowed set this is.
fn set_kind(labels: &[&Label], rendezvous: usize) -> String {
    let channel = labels.iter().find_map(|label| label.signal.channel());
    match channel {
        None => "set without signal".to_string(),
        Some(channel) if channel < rendezvous => "set on a rendezvous channel".to_string(),
        Some(_) => {
            format!("set on a broadcast channel, {} receivers", at_most(labels.len() - 1, 3))
        }
    }
}

fn add_guard_truths(label: &Label, values: &Values, found: &mut Features) {
    for guard in &label.guards {
        found.insert(format!("guard {} is {}", guard_name(guard), guard.holds(values)));
    }
}

fn add_label_parts(label: &Label, found: &mut Features) {
    found.insert(match label.signal {
        Signal::None => "signal none".to_string(),
        Signal::Send(_) => "signal send".to_string(),
        Signal::Receive(_) => "signal receive".to_string(),
    });
    for guard in &label.guards {
        found.insert(format!("guard {}", guard_name(guard)));
        if let Guard::Data { left, right, .. } = guard {
            add_codes(left, found);
            add_codes(right, found);
        }
    }
    for update in &label.updates {
        match update {
            Update::Assignment(assignment) => add_codes(&assignment.expression, found),
            Update::Advance(advance) => add_ratio(advance, found),
        }
    }
    for pair in label.updates.windows(2) {
        found.extend(match pair {
            [Update::Assignment(_), Update::Advance(_)] => Some("assignment before advance".into()),
            [Update::Advance(_), Update::Assignment(_)] => Some("advance before assignment".into()),
            [Update::Advance(_), Update::Advance(_)] => Some("several advances".into()),
            _ => None,
        });
    }
    if label.updates.len() > 1 {
        found.insert("several assignments".to_string());
    }
    if label.resets != 0 {
        found.insert("resets".to_string());
    }
}

fn add_ratio(advance: &Advance, found: &mut Features) {
    found.insert("advance".to_string());
    let ends =
        [("numerator", advance.numerator, [0, 1]), ("denominator", advance.denominator, [1, 2])];
    for (name, value, small) in ends {
        if small.contains(&value) || value == u16::MAX {
            found.insert(format!("advance, {name} {value}"));
        }
    }
}

/// What the advances of a label meet and do where its transition or edge is in an accepted step.
fn add_advances_made(label: &Label, values: &Values, found: &mut Features) {
    let in_range = |value: i64| i32::try_from(value).is_ok();
    for advance in label.updates.iter().filter_map(Update::as_advance) {
        let old = values.variables[advance.remainder];
        let cases = [
            ("a negative remainder", old < 0),
            ("the least remainder", old == i32::MIN),
            ("a remainder above the denominator", old > i32::from(advance.denominator)),
            ("a sum that passes the range", !in_range(advance.sum(&values.variables))),
            ("steps that reach an end of the range", {
                let steps = advance.exact_steps(&values.variables);
                in_range(steps) && !(in_range(steps - 1) && in_range(steps + 1))
            }),
            ("negative steps", values.variables[advance.steps] < 0),
        ];
        let met = cases.into_iter().filter(|(_, holds)| *holds);
        found.extend(met.map(|(name, _)| format!("advance with {name}")));
    }
}

fn add_codes(expression: &Expression, found: &mut Features) {
    let code = match expression {
        Expression::Constant(_) => 0,
        Expression::Variable(_) => 1,
        Expression::Sum(..) => 2,
        Expression::Difference(..) => 3,
        Expression::Product(..) => 4,
        Expression::Quotient(..) => 5,
        Expression::Remainder(..) => 6,
    };
    found.insert(format!("expression code {code}"));
    match expression {
        Expression::Constant(_) | Expression::Variable(_) => {}
        Expression::Sum(first, second)
        | Expression::Difference(first, second)
        | Expression::Product(first, second) => {
            add_codes(first, found);
            add_codes(second, found);
        }
        Expression::Quotient(argument, _) | Expression::Remainder(argument, _) => {
            add_codes(argument, found);
        }
    }
}

/// The kind and relation of a guard.
pub fn guard_name(guard: &Guard) -> String {
    match guard {
        Guard::Data { relation, .. } => format!("Data {relation:?}"),
        Guard::Clock { relation, .. } => format!("Clock {relation:?}"),
        Guard::Difference { relation, .. } => format!("Difference {relation:?}"),
    }
}

fn place_name(place: Place) -> &'static str {
    match place {
        Place::Idle => "idle",
        Place::Child(_) => "child",
        Place::Pre(..) => "pre",
        Place::Post(_) => "post",
    }
}

fn at_most(number: usize, most: usize) -> String {
    if number >= most {
        format!("{most} or more")
    } else {
        number.to_string()
    }
}

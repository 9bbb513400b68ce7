//! What a request exercises of sensors and plain parallel states, in words.

use crate::coverage::features::Features;
use crate::coverage::sensors::{
    dropped_choices, has_sensors, is_in, is_sensor, plain_states, tests_nothing,
    with_marked_sensors, without_sensor_bounds,
};
use crate::forms::request::Success;
use crate::forms::run_request::View;
use crate::model::chart::{Chart, Kind, ROOT};
use crate::model::chart_machine::{self, ChartConfiguration};
use crate::model::layout::{Layout, Place};
use crate::model::network::{Edge, Network};
use crate::model::refusal::Refusal;
use crate::model::values::Bounds;
use crate::runs::moment::{Call, Machines};

/// The states of a chart that passes.
pub fn add_states(chart: &Chart, found: &mut Features) {
    for state in (0..chart.states.len()).filter(|&state| is_sensor(chart, state)) {
        let bounds = if chart.states[state].bounds == Bounds::NONE { "without" } else { "with" };
        let marks = if chart.states[state].exit_marks == 0 { "without" } else { "with" };
        found.insert(format!("sensor {bounds} bounds, {marks} marks"));
        if chart.parent(state) == Some(ROOT) {
            found.insert("sensor in the root".to_string());
        }
    }
    for state in plain_states(chart) {
        let kind = if is_in(chart, state, Kind::Parallel) { "parallel" } else { "sequential" };
        found.insert(format!("plain in a {kind} state"));
        if chart.parent(state) == Some(ROOT) {
            found.insert(format!("plain in a {kind} root"));
        }
        if chart.transitions.iter().any(|one| one.source == state) {
            found.insert("plain source".to_string());
        }
        if chart.transitions.iter().any(|one| one.destination == state) {
            found.insert("plain destination".to_string());
        }
    }
}

/// What flattening makes of sensors.
pub fn add_network(chart: &Chart, network: &Network, found: &mut Features) {
    if !has_sensors(chart) {
        return;
    }
    add_states(chart, found);
    if dropped_choices(chart) > 0 {
        found.insert("choice dropped".to_string());
    }
    if network.edges.iter().any(|edge| tests_nothing(chart, edge)) {
        found.insert("edge to post that tests no exit".to_string());
    }
    let layout = Layout::of(chart);
    add_bounded_places(chart, &layout, found);
    let plain = plain_states(chart);
    for (number, transition) in chart.transitions.iter().enumerate() {
        let borne = network.edges.iter().any(|edge| edge.transition == Some(number));
        if plain.contains(&transition.source) && !borne {
            found.insert("plain source without an edge".to_string());
        }
    }
    for (location, place) in layout.places.iter().enumerate() {
        if matches!(place, Place::Child(child) if plain.contains(child)) {
            let at = if layout.at[location] == 0 { "no exit" } else { "an exit" };
            found.insert(format!("plain at {at}"));
        }
    }
}

/// Where the bounds of sensors stand.
fn add_bounded_places(chart: &Chart, layout: &Layout, found: &mut Features) {
    let without = Layout::of(&without_sensor_bounds(chart));
    let locations = layout.locations.iter().zip(&without.locations);
    for ((one, other), place) in locations.zip(&layout.places) {
        if one.bounds == other.bounds {
            continue;
        }
        found.insert(match *place {
            Place::Child(child) if chart.states[child].kind == Kind::Parallel => {
                "sensor's bound at a parallel state".to_string()
            }
            Place::Child(_) => "sensor's bound carried down".to_string(),
            Place::Pre(..) => "sensor's bound in pre".to_string(),
            Place::Post(_) => "sensor's bound in post".to_string(),
            Place::Idle => unreachable!("idle has no bounds"),
        });
    }
}

/// What a step of a chart has to do with sensors.
pub fn add_chart_step(
    chart: &Chart,
    configuration: &ChartConfiguration,
    list: &[u16],
    answer: &Result<Success, Refusal>,
    found: &mut Features,
) {
    if !has_sensors(chart) {
        return;
    }
    match answer {
        Ok(_) => {
            let plain = plain_states(chart);
            for transition in list.iter().map(|&number| &chart.transitions[usize::from(number)]) {
                if plain.contains(&transition.source) {
                    found.insert("from plain".to_string());
                }
                if plain.contains(&transition.destination) {
                    found.insert("to plain".to_string());
                }
            }
        }
        Err(Refusal::Inactive) => {
            let marked = with_marked_sensors(chart);
            if chart_machine::step(&marked, configuration, list) != Err(Refusal::Inactive) {
                found.insert("exit shut by a sensor".to_string());
            }
        }
        Err(Refusal::BoundBroken) => {
            let without_bounds = without_sensor_bounds(chart);
            if chart_machine::step(&without_bounds, configuration, list).is_ok() {
                found.insert("refused by a sensor's bound".to_string());
            }
        }
        _ => {}
    }
}

/// Whether a wait of a chart is refused by sensors alone.
pub fn add_chart_wait(
    chart: &Chart,
    configuration: &ChartConfiguration,
    ticks: u32,
    answer: &Result<Success, Refusal>,
    found: &mut Features,
) {
    let refused = *answer == Err(Refusal::BoundBroken);
    if refused && chart_machine::wait(&without_sensor_bounds(chart), configuration, ticks).is_ok() {
        found.insert("refused by a sensor's bound".to_string());
    }
}

/// Whether the longest wait of a chart is as short as it is by sensors alone.
pub fn add_chart_longest(
    chart: &Chart,
    configuration: &ChartConfiguration,
    ticks: u32,
    found: &mut Features,
) {
    if chart_machine::longest_wait(&without_sensor_bounds(chart), configuration) != Ok(ticks) {
        found.insert("by a sensor's bound".to_string());
    }
}

/// A call of the network in a run of both machines.
pub fn add_call(machines: &Machines, call: &Call, view: &View, found: &mut Features) {
    let Machines { chart, network, sensors, .. } = machines;
    match (call, view.refusal) {
        (Call::Wait(ticks), Some(Refusal::BoundBroken))
            if sensors.refuse_wait(&view.chart, *ticks) =>
        {
            found.insert("wait refused by a sensor's bound".to_string());
        }
        (Call::Step(list), None) => {
            let mut edges = list.iter().map(|&number| &network.edges[usize::from(number)]);
            if edges.any(|edge| tests_nothing(chart, edge)) {
                found.insert("move that tests no exit".to_string());
            }
            let mut borne = machines.borne(list).into_iter();
            if borne.any(|number| sensors.leads_to_plain(chart, usize::from(number))) {
                found.insert("move to plain".to_string());
            }
        }
        _ => {}
    }
}

/// An edge of an accepted step, of a network whose layout is known.
pub fn add_edge(layout: &Layout, edge: &Edge, found: &mut Features) {
    let to_post = matches!(layout.places[edge.target], Place::Post(_));
    if to_post && edge.exit_tested.is_none() {
        found.insert("edge to post that tests no exit".to_string());
    }
}

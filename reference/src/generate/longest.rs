//! Requests for longest waits: of the configurations that the requests of a run are given, bad ones
//! among them, and of wild ones, which are valid but need not be met in a run. Clocks of wild ones are
//! at or near their bounds and limits; some are made to pass one.

use crate::forms::request::Request;
use crate::generate::random::Random;
use crate::model::chart::{Chart, Kind, ROOT};
use crate::model::chart_machine::{self, active_bounds, ChartConfiguration};
use crate::model::limits::{AUTOMATA, CLOCKS, LARGEST, STATES};
use crate::model::network::Network;
use crate::model::network_machine::{self, occupied_bounds, NetworkConfiguration};
use crate::model::values::{Bounds, Values};

/// Two requests for each configuration that a request of a chart's run is given.
pub fn chart_longest_requests(chart: &Chart, run: &[Request], random: &mut Random) -> Vec<Request> {
    let file = chart.write();
    let mut requests = Vec::new();
    for given in run.iter().filter_map(Request::given_to_chart) {
        requests.push(Request::ChartLongest(file.clone(), *given));
        requests.push(Request::ChartLongest(file.clone(), wild_chart(chart, given, random)));
    }
    requests
}

/// Two requests for each configuration that a request of a network's run is given.
pub fn network_longest_requests(
    network: &Network,
    run: &[Request],
    random: &mut Random,
) -> Vec<Request> {
    let file = network.write();
    let mut requests = Vec::new();
    for given in run.iter().filter_map(Request::given_to_network) {
        let wild = wild_network(network, given, random);
        requests.push(Request::NetworkLongest(file.clone(), *given));
        requests.push(Request::NetworkLongest(file.clone(), wild));
    }
    requests
}

/// With the active states of the one that is given, or with any.
fn wild_chart(
    chart: &Chart,
    given: &ChartConfiguration,
    random: &mut Random,
) -> ChartConfiguration {
    let mut wild = *given;
    if !chart_machine::is_configuration(chart, given) || random.chance(40) {
        wild = chart_machine::start(chart);
        wild.active = [false; STATES];
        activate(chart, ROOT, &mut wild.active, random);
    }
    let bounds = active_bounds(chart, &wild);
    wild.values = with_wild_clocks(&wild.values, &bounds, chart.declared.clocks, random);
    wild
}

/// A state, and any child of each sequential state that becomes active with it.
fn activate(chart: &Chart, state: usize, active: &mut [bool; STATES], random: &mut Random) {
    active[state] = true;
    let children = &chart.children[state];
    match chart.states[state].kind {
        Kind::Basic => {}
        Kind::Sequential => activate(chart, random.pick(children), active, random),
        Kind::Parallel => {
            for &child in children {
                activate(chart, child, active, random);
            }
        }
    }
}

/// With the locations of the one that is given, or with any.
fn wild_network(
    network: &Network,
    given: &NetworkConfiguration,
    random: &mut Random,
) -> NetworkConfiguration {
    let mut wild = *given;
    if !network_machine::is_configuration(network, given) || random.chance(40) {
        wild = network_machine::start(network);
        wild.locations = any_locations(network, random);
    }
    let bounds = occupied_bounds(network, &wild);
    wild.values = with_wild_clocks(&wild.values, &bounds, network.declared.clocks, random);
    wild
}

/// A location of each automaton, in half of all cases none that is urgent if it has another.
fn any_locations(network: &Network, random: &mut Random) -> [u8; AUTOMATA] {
    let avoid_urgent = random.chance(50);
    let mut locations = [0; AUTOMATA];
    for (automaton, location) in locations[..network.automata].iter_mut().enumerate() {
        let own = |number: &usize| network.locations[*number].automaton == automaton;
        let mut all: Vec<usize> = (0..network.locations.len()).filter(own).collect();
        if avoid_urgent && all.iter().any(|&number| !network.locations[number].urgent) {
            all.retain(|&number| !network.locations[number].urgent);
        }
        *location = random.pick(&all) as u8;
    }
    locations
}

/// Clocks that keep the bounds, but for a few cases.
fn with_wild_clocks(
    values: &Values,
    bounds: &Bounds,
    clocks: usize,
    random: &mut Random,
) -> Values {
    let tops: [u32; CLOCKS] = bounds.0.map(|bound| bound.min(LARGEST));
    let at_top = random.chance(25);
    let mut wild = *values;
    for (clock, &top) in wild.clocks[..clocks].iter_mut().zip(&tops) {
        *clock = match random.below(8) {
            0 if at_top => top,
            0..=2 => top.saturating_sub(random.between(1, 9) as u32),
            3 => random.below(top as usize + 1) as u32,
            4 | 5 => top.min(random.below(30) as u32),
            _ => top.min(*clock),
        };
    }
    if clocks > 0 && random.chance(8) {
        let clock = random.below(clocks);
        wild.clocks[clock] = tops[clock] + 1;
    }
    wild
}

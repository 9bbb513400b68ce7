//! Running a network: start, step, wait, and how long it may wait. Nothing here knows of charts.

use crate::model::label::Signal;
use crate::model::limits::AUTOMATA;
use crate::model::moves::{allowed, known_and_ascending, Member};
use crate::model::network::{Edge, Network};
use crate::model::refusal::Refusal;
use crate::model::values::{Bounds, Values};

/// The location and the eight flags of each automaton, and the values.
/// Automata that the network lacks have location 0 and flags 0.
#[derive(Clone, Copy, PartialEq, Eq, Debug)]
pub struct NetworkConfiguration {
    pub locations: [u8; AUTOMATA],
    /// Bit e is the flag for exit e.
    pub flags: [u8; AUTOMATA],
    pub values: Values,
}

/// The start configuration: every automaton at its initial location, flags and values 0.
pub fn start(network: &Network) -> NetworkConfiguration {
    let mut locations = [0; AUTOMATA];
    for (number, location) in network.locations.iter().enumerate() {
        if location.initial {
            locations[location.automaton] = number as u8;
        }
    }
    NetworkConfiguration { locations, flags: [0; AUTOMATA], values: Values::default() }
}

/// Moves a set of edges, given by their numbers: refusals 26, 18, 19, 27, 20, 28, 21.
pub fn step(
    network: &Network,
    configuration: &NetworkConfiguration,
    list: &[u16],
) -> Result<NetworkConfiguration, Refusal> {
    if !is_configuration(network, configuration) {
        return Err(Refusal::NetworkConfiguration);
    }
    known_and_ascending(list, network.edges.len())?;
    let edges = || list.iter().map(|&number| &network.edges[usize::from(number)]);
    if !edges().all(|edge| is_active(network, configuration, edge)) {
        return Err(Refusal::Inactive);
    }
    let leaves_urgent = edges().any(|edge| network.locations[edge.source].urgent);
    if urgent_is_occupied(network, configuration) && !leaves_urgent {
        return Err(Refusal::Urgency);
    }
    let set: Vec<Member> = edges().map(|edge| member(network, edge)).collect();
    let active_receivers = |channel| active_receivers(network, configuration, channel);
    if !allowed(&set, network.declared.rendezvous, active_receivers) {
        return Err(Refusal::NotAllowed);
    }
    let mut new = *configuration;
    for edge in edges() {
        let automaton = network.locations[edge.source].automaton;
        new.locations[automaton] = edge.target as u8;
        new.flags[automaton] = (new.flags[automaton] & !edge.exits_written) | edge.values_written;
        edge.label.apply(&configuration.values, &mut new.values).ok_or(Refusal::RangeLeft)?;
    }
    keeping_bounds(network, new)
}

/// Lets time pass: refusals 26, 22, 27, 21.
pub fn wait(
    network: &Network,
    configuration: &NetworkConfiguration,
    ticks: u32,
) -> Result<NetworkConfiguration, Refusal> {
    if !is_configuration(network, configuration) {
        return Err(Refusal::NetworkConfiguration);
    }
    let values =
        configuration.values.after_ticks(network.declared.clocks, ticks).ok_or(Refusal::Ticks)?;
    if urgent_is_occupied(network, configuration) {
        return Err(Refusal::Urgency);
    }
    keeping_bounds(network, NetworkConfiguration { values, ..*configuration })
}

/// The greatest wait that is allowed, 0 if none is: refusal 26. Every wait from 1 tick up to it is
/// allowed.
pub fn longest_wait(
    network: &Network,
    configuration: &NetworkConfiguration,
) -> Result<u32, Refusal> {
    if !has_fitting_parts(network, configuration) {
        return Err(Refusal::NetworkConfiguration);
    }
    let left = ticks_left(network, configuration).ok_or(Refusal::NetworkConfiguration)?;
    Ok(if urgent_is_occupied(network, configuration) { 0 } else { left })
}

/// Whether an edge is active: its source is occupied, its guards and flag tests are true.
pub fn is_active(network: &Network, configuration: &NetworkConfiguration, edge: &Edge) -> bool {
    let automaton = network.locations[edge.source].automaton;
    usize::from(configuration.locations[automaton]) == edge.source
        && edge.label.guards_hold(&configuration.values)
        && flag_tests_hold(configuration, edge)
}

fn flag_tests_hold(configuration: &NetworkConfiguration, edge: &Edge) -> bool {
    let Some(exit) = edge.exit_tested else {
        return true;
    };
    (0..AUTOMATA).filter(|automaton| edge.automata_tested & (1 << automaton) != 0).all(
        |automaton| {
            let flag = configuration.flags[automaton] & (1 << exit) != 0;
            let needed = edge.values_needed & (1 << automaton) != 0;
            flag == needed
        },
    )
}

/// What the rules of allowed sets look at in an edge.
pub fn member(network: &Network, edge: &Edge) -> Member {
    Member { group: network.locations[edge.source].automaton, signal: edge.label.signal }
}

/// The groups of the active receivers on a channel.
fn active_receivers(
    network: &Network,
    configuration: &NetworkConfiguration,
    channel: usize,
) -> Vec<usize> {
    network
        .edges
        .iter()
        .filter(|edge| edge.label.signal == Signal::Receive(channel))
        .filter(|edge| is_active(network, configuration, edge))
        .map(|edge| network.locations[edge.source].automaton)
        .collect()
}

/// Whether some automaton is at an urgent location.
pub fn urgent_is_occupied(network: &Network, configuration: &NetworkConfiguration) -> bool {
    configuration.locations[..network.automata]
        .iter()
        .any(|&location| network.locations[usize::from(location)].urgent)
}

/// Refusal 26: each automaton at a location of its own, undeclared automata and values 0,
/// bounds kept. The flags of declared automata are free.
pub fn is_configuration(network: &Network, configuration: &NetworkConfiguration) -> bool {
    has_fitting_parts(network, configuration) && ticks_left(network, configuration).is_some()
}

/// What 26 asks but for the bounds.
fn has_fitting_parts(network: &Network, configuration: &NetworkConfiguration) -> bool {
    let at_its_own = |automaton: usize| {
        let number = usize::from(configuration.locations[automaton]);
        network.locations.get(number).is_some_and(|location| location.automaton == automaton)
    };
    let declared = &network.declared;
    (0..network.automata).all(at_its_own)
        && configuration.locations[network.automata..].iter().all(|&location| location == 0)
        && configuration.flags[network.automata..].iter().all(|&flags| flags == 0)
        && configuration.values.fit(declared.variables, declared.clocks)
}

/// The bounds of all occupied locations, joined.
pub fn occupied_bounds(network: &Network, configuration: &NetworkConfiguration) -> Bounds {
    let occupied = configuration.locations[..network.automata].iter();
    Bounds::joined(occupied.map(|&location| &network.locations[usize::from(location)].bounds))
}

/// The ticks left under the bounds of all occupied locations, or none if one is broken.
fn ticks_left(network: &Network, configuration: &NetworkConfiguration) -> Option<u32> {
    let clocks = &configuration.values.clocks[..network.declared.clocks];
    occupied_bounds(network, configuration).ticks_left(clocks)
}

fn keeping_bounds(
    network: &Network,
    new: NetworkConfiguration,
) -> Result<NetworkConfiguration, Refusal> {
    if ticks_left(network, &new).is_some() {
        Ok(new)
    } else {
        Err(Refusal::BoundBroken)
    }
}

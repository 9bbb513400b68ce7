//! What a request for a longest wait exercises, in words.

use crate::coverage::features::Features;
use crate::coverage::longest_reason::{is_less_under, less_by_inactive_state, Reason};
use crate::model::chart::Chart;
use crate::model::chart_machine::ChartConfiguration;
use crate::model::network::Network;
use crate::model::network_machine::{self, NetworkConfiguration};
use crate::model::values::Bounds;

/// Of a chart's configuration with this answer.
pub fn add_chart(chart: &Chart, given: &ChartConfiguration, answer: u32, found: &mut Features) {
    let reason = Reason::of_chart(chart, given, answer).name();
    found.insert(reason.to_string());
    if less_by_inactive_state(chart, given, answer) {
        found.insert(format!("{reason}, though an inactive state has a smaller bound"));
    }
}

/// Of a network's configuration with this answer.
pub fn add_network(
    network: &Network,
    given: &NetworkConfiguration,
    answer: u32,
    found: &mut Features,
) {
    let reason = Reason::of_network(network, given, answer).name();
    found.insert(reason.to_string());
    let bounds = Bounds::joined(network.locations.iter().map(|location| &location.bounds));
    if is_less_under(&bounds, &given.values.clocks[..network.declared.clocks], answer) {
        found.insert(format!("{reason}, though a location elsewhere has a smaller bound"));
    }
    let mut without_urgency = network.clone();
    without_urgency.locations.iter_mut().for_each(|location| location.urgent = false);
    if network_machine::longest_wait(&without_urgency, given) != Ok(answer) {
        found.insert("0, an urgent location alone".to_string());
    }
}

//! The picture of a chart configuration: the network configuration that stands for it.

use crate::model::chart::Chart;
use crate::model::chart_machine::ChartConfiguration;
use crate::model::layout::Layout;
use crate::model::limits::AUTOMATA;
use crate::model::network_machine::NetworkConfiguration;

/// The same values, each active sequential state's automaton at the active child, the rest idle,
/// and every flag true to its automaton's location.
pub fn picture(
    chart: &Chart,
    layout: &Layout,
    configuration: &ChartConfiguration,
) -> NetworkConfiguration {
    let mut locations = [0; AUTOMATA];
    let mut flags = [0; AUTOMATA];
    for (automaton, &state) in layout.sequential.iter().enumerate() {
        let active_child =
            chart.children[state].iter().copied().find(|&child| configuration.active[child]);
        let location = match active_child {
            Some(child) => layout.location_of_child(child),
            None => layout.idle[automaton],
        };
        locations[automaton] = location as u8;
        flags[automaton] = layout.flags(location);
    }
    NetworkConfiguration { locations, flags, values: configuration.values }
}

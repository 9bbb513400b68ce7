//! What firmware relies on of the longest wait: a wait is accepted exactly for 1 tick up to it.

use crate::model::chart::Chart;
use crate::model::chart_machine::{self, ChartConfiguration};
use crate::model::network::Network;
use crate::model::network_machine::{self, NetworkConfiguration};
use crate::model::refusal::Refusal;

/// The operation of each machine. A test puts another in its place, to see that it is noticed.
#[derive(Clone, Copy)]
pub struct LongestWaits {
    pub of_chart: fn(&Chart, &ChartConfiguration) -> Result<u32, Refusal>,
    pub of_network: fn(&Network, &NetworkConfiguration) -> Result<u32, Refusal>,
}

impl LongestWaits {
    pub const RIGHT: LongestWaits = LongestWaits {
        of_chart: chart_machine::longest_wait,
        of_network: network_machine::longest_wait,
    };
}

/// Whether waits near an answer are accepted exactly from 1 tick up to it: none, 1, half of it, it,
/// and one more if that has 32 bits.
pub fn is_longest(answer: u32, accepts: impl Fn(u32) -> bool) -> bool {
    let tried = [0, 1, answer / 2, answer, answer.saturating_add(1)];
    tried.into_iter().all(|ticks| accepts(ticks) == (1..=answer).contains(&ticks))
}

/// Whether the answer for a chart's configuration is its longest wait.
pub fn is_longest_of_chart(chart: &Chart, given: &ChartConfiguration, answer: u32) -> bool {
    is_longest(answer, |ticks| chart_machine::wait(chart, given, ticks).is_ok())
}

/// Whether the answer for a network's configuration is its longest wait.
pub fn is_longest_of_network(network: &Network, given: &NetworkConfiguration, answer: u32) -> bool {
    is_longest(answer, |ticks| network_machine::wait(network, given, ticks).is_ok())
}

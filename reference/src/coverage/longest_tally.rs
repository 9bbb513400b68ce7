//! How much of longest waits runs met, to see that they covered enough.

use std::collections::BTreeMap;

use crate::coverage::longest_reason::{less_by_inactive_state, Reason};
use crate::model::chart::Chart;
use crate::model::chart_machine::ChartConfiguration;
use crate::model::network::Network;
use crate::model::network_machine::{self, NetworkConfiguration};

/// Counts, each over some runs.
#[derive(Clone, PartialEq, Eq, Debug, Default)]
pub struct LongestTally {
    /// The answers of each machine, by what decided them.
    pub of_charts: BTreeMap<Reason, u64>,
    pub of_networks: BTreeMap<Reason, u64>,
    /// Answers of charts that would be less if the bound of an inactive state counted.
    pub inactive_bounds: u64,
    /// Answers of both machines that were equal, none being owed, and answers 0 of networks while
    /// some were.
    pub equal: u64,
    pub while_owed: u64,
    /// Of those equal: only the bound of a sensor, or of a plain state in a parallel one, leaves so few.
    pub sensor_bounds: u64,
    /// Accepted waits that were the longest, and refused ones of one tick more.
    pub waited: u64,
    pub one_more_refused: u64,
}

impl LongestTally {
    pub fn count_of_chart(&mut self, chart: &Chart, given: &ChartConfiguration, answer: u32) {
        let reason = Reason::of_chart(chart, given, answer);
        *self.of_charts.entry(reason).or_insert(0) += 1;
        self.inactive_bounds += u64::from(less_by_inactive_state(chart, given, answer));
    }

    pub fn count_of_network(
        &mut self,
        network: &Network,
        given: &NetworkConfiguration,
        answer: u32,
    ) {
        let reason = Reason::of_network(network, given, answer);
        *self.of_networks.entry(reason).or_insert(0) += 1;
    }

    /// Counts an accepted wait of a network.
    pub fn count_accepted_wait(
        &mut self,
        network: &Network,
        given: &NetworkConfiguration,
        ticks: u32,
    ) {
        self.waited += u64::from(is_longest_with(0, network, given, ticks));
    }

    /// Counts a refused wait of a network.
    pub fn count_refused_wait(
        &mut self,
        network: &Network,
        given: &NetworkConfiguration,
        ticks: u32,
    ) {
        self.one_more_refused += u64::from(is_longest_with(1, network, given, ticks));
    }

    pub fn add(&mut self, other: &LongestTally) {
        add_counts(&mut self.of_charts, &other.of_charts);
        add_counts(&mut self.of_networks, &other.of_networks);
        self.inactive_bounds += other.inactive_bounds;
        self.equal += other.equal;
        self.while_owed += other.while_owed;
        self.sensor_bounds += other.sensor_bounds;
        self.waited += other.waited;
        self.one_more_refused += other.one_more_refused;
    }
}

/// Whether ticks are so many more than a network's longest wait.
fn is_longest_with(more: u32, network: &Network, given: &NetworkConfiguration, ticks: u32) -> bool {
    let longest = network_machine::longest_wait(network, given);
    ticks == longest.map_or(0, |longest| longest.saturating_add(more))
}

fn add_counts(counts: &mut BTreeMap<Reason, u64>, others: &BTreeMap<Reason, u64>) {
    for (&reason, count) in others {
        *counts.entry(reason).or_insert(0) += count;
    }
}

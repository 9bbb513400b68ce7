//! What side by side runs did, to see that they covered enough.

use crate::coverage::longest_tally::LongestTally;
use crate::coverage::range_tally::RangeTally;
use crate::coverage::sensor_tally::SensorTally;

/// Counts, each over some runs.
#[derive(Clone, PartialEq, Eq, Debug, Default)]
pub struct Tally {
    pub runs: u64,
    pub chart_calls: u64,
    pub network_calls: u64,
    /// Accepted network steps that carry transitions.
    pub moves: u64,
    /// Accepted network steps that leave an urgent location.
    pub urgent_moves: u64,
    /// Accepted moves of three edges or more that carry transitions.
    pub broadcasts_with_several_receivers: u64,
    pub waits: u64,
    /// Refused chart calls by number.
    pub chart_refusals: [u64; 29],
    /// Refused network calls by number.
    pub network_refusals: [u64; 29],
    /// The most urgent moves owed at one time.
    pub most_owed: usize,
    /// Pairs of variables, of the chart and of the network, that one advance alone writes, where
    /// the run made that advance.
    pub take_ups: u64,
    /// The most times that such an advance was made in one run.
    pub most_advances: u64,
    pub sensors: SensorTally,
    pub longest: LongestTally,
    pub range: RangeTally,
}

impl Tally {
    pub fn add(&mut self, other: &Tally) {
        self.runs += other.runs;
        self.chart_calls += other.chart_calls;
        self.network_calls += other.network_calls;
        self.moves += other.moves;
        self.urgent_moves += other.urgent_moves;
        self.broadcasts_with_several_receivers += other.broadcasts_with_several_receivers;
        self.waits += other.waits;
        for number in 0..self.chart_refusals.len() {
            self.chart_refusals[number] += other.chart_refusals[number];
            self.network_refusals[number] += other.network_refusals[number];
        }
        self.most_owed = self.most_owed.max(other.most_owed);
        self.take_ups += other.take_ups;
        self.most_advances = self.most_advances.max(other.most_advances);
        self.sensors.add(&other.sensors);
        self.longest.add(&other.longest);
        self.range.add(&other.range);
    }
}

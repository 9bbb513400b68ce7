//! What decides a longest wait, told from the answer, the clocks and the urgent locations alone.

use crate::model::chart::Chart;
use crate::model::chart_machine::ChartConfiguration;
use crate::model::limits::LARGEST;
use crate::model::network::Network;
use crate::model::network_machine::{urgent_is_occupied, NetworkConfiguration};
use crate::model::values::Bounds;

#[derive(Clone, Copy, PartialEq, Eq, PartialOrd, Ord, Debug)]
pub enum Reason {
    /// 0, since an urgent location is occupied.
    Urgent,
    /// 0, since a clock is at a bound.
    BoundReached,
    /// 0, since a clock is at its limit.
    LimitReached,
    /// A bound leaves some ticks.
    Bound,
    /// No bound leaves fewer ticks than the limit of a clock.
    Limit,
    /// There is no clock.
    NoClock,
}

impl Reason {
    pub const ALL: [Reason; 6] = [
        Reason::Urgent,
        Reason::BoundReached,
        Reason::LimitReached,
        Reason::Bound,
        Reason::Limit,
        Reason::NoClock,
    ];

    /// The reasons that a chart can have.
    pub const OF_CHARTS: &'static [Reason] = Reason::ALL.split_at(1).1;

    pub fn of_chart(chart: &Chart, given: &ChartConfiguration, answer: u32) -> Reason {
        Reason::of(answer, false, &given.values.clocks[..chart.declared.clocks])
    }

    pub fn of_network(network: &Network, given: &NetworkConfiguration, answer: u32) -> Reason {
        let clocks = &given.values.clocks[..network.declared.clocks];
        Reason::of(answer, urgent_is_occupied(network, given), clocks)
    }

    fn of(answer: u32, urgent: bool, clocks: &[u32]) -> Reason {
        match clocks.iter().max().map(|greatest| LARGEST - greatest) {
            _ if urgent => Reason::Urgent,
            None => Reason::NoClock,
            Some(0) => Reason::LimitReached,
            Some(limit) if answer == limit => Reason::Limit,
            Some(_) if answer == 0 => Reason::BoundReached,
            Some(_) => Reason::Bound,
        }
    }

    /// In words, for the features of a request.
    pub fn name(self) -> &'static str {
        match self {
            Reason::Urgent => "0, an urgent location",
            Reason::BoundReached => "0, a bound reached",
            Reason::LimitReached => "0, a limit reached",
            Reason::Bound => "by a bound",
            Reason::Limit => "by a limit",
            Reason::NoClock => "no clock",
        }
    }
}

/// Whether an answer would be less if the bounds of all states counted, the inactive ones' too.
pub fn less_by_inactive_state(chart: &Chart, given: &ChartConfiguration, answer: u32) -> bool {
    let bounds = Bounds::joined(chart.states.iter().map(|state| &state.bounds));
    is_less_under(&bounds, &given.values.clocks[..chart.declared.clocks], answer)
}

/// Whether bounds are broken or leave fewer ticks than an answer.
pub fn is_less_under(bounds: &Bounds, clocks: &[u32], answer: u32) -> bool {
    bounds.ticks_left(clocks).is_none_or(|left| left < answer)
}

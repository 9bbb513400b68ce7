//! The step of each machine, and its test of what is active, as side by side runs call them. A test
//! puts others in their place, to see that they are noticed.

use crate::model::chart::Chart;
use crate::model::chart_machine::{self, ChartConfiguration};
use crate::model::network::{Edge, Network};
use crate::model::network_machine::{self, NetworkConfiguration};
use crate::model::refusal::Refusal;

type OfChart = fn(&Chart, &ChartConfiguration, &[u16]) -> Result<ChartConfiguration, Refusal>;
type OfNetwork =
    fn(&Network, &NetworkConfiguration, &[u16]) -> Result<NetworkConfiguration, Refusal>;

#[derive(Clone, Copy)]
pub struct Steps {
    pub of_chart: OfChart,
    pub of_network: OfNetwork,
    pub active_in_chart: fn(&Chart, &ChartConfiguration, usize) -> bool,
    pub active_in_network: fn(&Network, &NetworkConfiguration, &Edge) -> bool,
}

impl Steps {
    pub const RIGHT: Steps = Steps {
        of_chart: chart_machine::step,
        of_network: network_machine::step,
        active_in_chart: chart_machine::is_active,
        active_in_network: network_machine::is_active,
    };
}

/// Whether a step got as far as its updates: it was accepted, or refused with 28 or 21.
pub fn got_to_updates<T>(answer: &Result<T, Refusal>) -> bool {
    matches!(answer, Ok(_) | Err(Refusal::RangeLeft | Refusal::BoundBroken))
}

/// The number of an answer, 0 if it was accepted.
pub fn number<T>(answer: &Result<T, Refusal>) -> u8 {
    answer.as_ref().map_or_else(|refusal| refusal.number(), |_| 0)
}

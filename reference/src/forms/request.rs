//! Requests: one operation with everything it is given, and the answer to it.

use crate::model::chart_machine::{self, ChartConfiguration};
use crate::model::check::check;
use crate::model::flatten::network_of;
use crate::model::network::Network;
use crate::model::network_machine::{self, NetworkConfiguration};
use crate::model::refusal::Refusal;
use crate::model::weft_breaks::{weft_breaks, Breaks};

/// One operation. Files come first, or the ticks of weft breaks, then what the operation takes besides.
#[derive(Clone, PartialEq, Eq, Debug)]
pub enum Request {
    Check(Vec<u8>),
    /// With the length of the lent buffer.
    Flatten(Vec<u8>, u32),
    ChartStart(Vec<u8>),
    ChartStep(Vec<u8>, ChartConfiguration, Vec<u16>),
    ChartWait(Vec<u8>, ChartConfiguration, u32),
    ChartLongest(Vec<u8>, ChartConfiguration),
    NetworkStart(Vec<u8>),
    NetworkStep(Vec<u8>, NetworkConfiguration, Vec<u16>),
    NetworkWait(Vec<u8>, NetworkConfiguration, u32),
    NetworkLongest(Vec<u8>, NetworkConfiguration),
    /// With the window.
    WeftBreaks(Vec<u32>, u32),
}

/// What an accepted request gives.
#[derive(Clone, PartialEq, Eq, Debug)]
pub enum Success {
    /// The chart passes.
    Passed,
    /// The bytes of the network.
    Flattened(Vec<u8>),
    Chart(ChartConfiguration),
    Network(NetworkConfiguration),
    /// The ticks of the longest wait.
    Longest(u32),
    /// The most weft breaks in a window, and the first tick of one with so many.
    Breaks(Breaks),
}

impl Request {
    pub fn answer(&self) -> Result<Success, Refusal> {
        match self {
            Request::Check(file) => check(file).map(|_| Success::Passed),
            Request::Flatten(file, room) => flatten_for(file, *room).map(Success::Flattened),
            Request::ChartStart(file) => {
                let chart = check(file)?;
                Ok(Success::Chart(chart_machine::start(&chart)))
            }
            Request::ChartStep(file, configuration, list) => {
                let chart = check(file)?;
                chart_machine::step(&chart, configuration, list).map(Success::Chart)
            }
            Request::ChartWait(file, configuration, ticks) => {
                let chart = check(file)?;
                chart_machine::wait(&chart, configuration, *ticks).map(Success::Chart)
            }
            Request::ChartLongest(file, configuration) => {
                let chart = check(file)?;
                chart_machine::longest_wait(&chart, configuration).map(Success::Longest)
            }
            Request::NetworkStart(file) => {
                let network = Network::read(file)?;
                Ok(Success::Network(network_machine::start(&network)))
            }
            Request::NetworkStep(file, configuration, list) => {
                let network = Network::read(file)?;
                network_machine::step(&network, configuration, list).map(Success::Network)
            }
            Request::NetworkWait(file, configuration, ticks) => {
                let network = Network::read(file)?;
                network_machine::wait(&network, configuration, *ticks).map(Success::Network)
            }
            Request::NetworkLongest(file, configuration) => {
                let network = Network::read(file)?;
                network_machine::longest_wait(&network, configuration).map(Success::Longest)
            }
            Request::WeftBreaks(ticks, window) => weft_breaks(ticks, *window).map(Success::Breaks),
        }
    }

    /// What a step or a wait of a chart is given.
    pub fn given_to_chart(&self) -> Option<&ChartConfiguration> {
        match self {
            Request::ChartStep(_, given, _) | Request::ChartWait(_, given, _) => Some(given),
            _ => None,
        }
    }

    /// What a step or a wait of a network is given.
    pub fn given_to_network(&self) -> Option<&NetworkConfiguration> {
        match self {
            Request::NetworkStep(_, given, _) | Request::NetworkWait(_, given, _) => Some(given),
            _ => None,
        }
    }

    /// The file of a chart or a network; weft breaks have none.
    pub fn file(&self) -> Option<&[u8]> {
        match self {
            Request::Check(file)
            | Request::Flatten(file, _)
            | Request::ChartStart(file)
            | Request::ChartStep(file, _, _)
            | Request::ChartWait(file, _, _)
            | Request::ChartLongest(file, _)
            | Request::NetworkStart(file)
            | Request::NetworkStep(file, _, _)
            | Request::NetworkWait(file, _, _)
            | Request::NetworkLongest(file, _) => Some(file),
            Request::WeftBreaks(..) => None,
        }
    }
}

/// Flattens for a lent buffer of this length without making the buffer, which may be huge.
fn flatten_for(file: &[u8], room: u32) -> Result<Vec<u8>, Refusal> {
    let network = network_of(&check(file)?)?.write();
    if network.len() <= room as usize {
        Ok(network)
    } else {
        Err(Refusal::BufferLength)
    }
}

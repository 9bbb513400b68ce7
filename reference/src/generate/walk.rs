//! Requests along a random run of one machine, most of them accepted.

use crate::forms::request::{Request, Success};
use crate::generate::candidates::candidates;
use crate::generate::damage::{
    damage_chart_configuration, damage_list, damage_network_configuration, random_ticks,
    wild_values,
};
use crate::generate::random::Random;
use crate::model::chart::Chart;
use crate::model::chart_machine::{self, ChartConfiguration};
use crate::model::moves::Member;
use crate::model::network::Network;
use crate::model::network_machine::{self, NetworkConfiguration};
use crate::model::version::Version;

/// How many sets with one broadcast sender are looked at.
const MOST_BROADCAST_SETS: usize = 4;

/// Which configuration a request is given.
enum Given {
    /// One that was met in the run.
    Met,
    /// One that is valid, with values that an advance may find.
    Wild,
    /// One that may not be valid.
    Damaged,
}

impl Given {
    fn draw(version: Version, random: &mut Random) -> Given {
        match random.below(100) {
            90.. => Given::Damaged,
            0..20 if version.has_advances() => Given::Wild,
            _ => Given::Met,
        }
    }
}

/// Requests to a chart's machine. Accepted ones lead on to the next configuration.
pub fn chart_requests(chart: &Chart, count: usize, random: &mut Random) -> Vec<Request> {
    let file = chart.write();
    let mut configuration = chart_machine::start(chart);
    let mut requests = vec![Request::ChartStart(file.clone())];
    while requests.len() < count {
        let given = match Given::draw(chart.version, random) {
            Given::Met => configuration,
            Given::Wild => {
                let variables = chart.declared.variables;
                let values = wild_values(&configuration.values, variables, random);
                ChartConfiguration { values, ..configuration }
            }
            Given::Damaged => damage_chart_configuration(&configuration, random),
        };
        let request = if random.chance(30) {
            Request::ChartWait(file.clone(), given, random_ticks(8, random))
        } else {
            let active: Vec<(u16, Member)> = (0..chart.transitions.len())
                .filter(|&number| chart_machine::is_active(chart, &configuration, number))
                .map(|number| (number as u16, chart_machine::member(chart, number)))
                .collect();
            let rendezvous = chart.declared.rendezvous;
            let list = random_list(&active, rendezvous, chart.transitions.len(), random);
            Request::ChartStep(file.clone(), given, list)
        };
        if let Ok(Success::Chart(new)) = request.answer() {
            configuration = new;
        }
        requests.push(request);
    }
    requests
}

/// Requests to a network's machine. Accepted ones lead on to the next configuration.
pub fn network_requests(network: &Network, count: usize, random: &mut Random) -> Vec<Request> {
    let file = network.write();
    let mut configuration = network_machine::start(network);
    let mut requests = vec![Request::NetworkStart(file.clone())];
    while requests.len() < count {
        let given = match Given::draw(network.version, random) {
            Given::Met => configuration,
            Given::Wild => {
                let variables = network.declared.variables;
                let values = wild_values(&configuration.values, variables, random);
                NetworkConfiguration { values, ..configuration }
            }
            Given::Damaged => damage_network_configuration(&configuration, random),
        };
        let request = if random.chance(30) {
            Request::NetworkWait(file.clone(), given, random_ticks(8, random))
        } else {
            let active: Vec<(u16, Member)> = network
                .edges
                .iter()
                .enumerate()
                .filter(|(_, edge)| network_machine::is_active(network, &configuration, edge))
                .map(|(number, edge)| (number as u16, network_machine::member(network, edge)))
                .collect();
            let rendezvous = network.declared.rendezvous;
            let list = random_list(&active, rendezvous, network.edges.len(), random);
            Request::NetworkStep(file.clone(), given, list)
        };
        if let Ok(Success::Network(new)) = request.answer() {
            configuration = new;
        }
        requests.push(request);
    }
    requests
}

fn random_list(
    active: &[(u16, Member)],
    rendezvous: usize,
    known: usize,
    random: &mut Random,
) -> Vec<u16> {
    let fitting = candidates(active, rendezvous, MOST_BROADCAST_SETS, random);
    let list = match fitting.len() {
        0 => Vec::new(),
        count => fitting[random.below(count)].clone(),
    };
    if random.chance(60) {
        return list;
    }
    let numbers: Vec<u16> = active.iter().map(|&(number, _)| number).collect();
    damage_list(&list, &numbers, known, random)
}

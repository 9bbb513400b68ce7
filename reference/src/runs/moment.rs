//! A chart and its network, and both machines at one moment of a run: what they answer there, and which
//! lists they may allow.

use crate::coverage::range_tally::RangeFacts;
use crate::coverage::sensor_tally::SensorFacts;
use crate::coverage::tally::Tally;
use crate::generate::candidates::candidates;
use crate::generate::random::Random;
use crate::model::chart::Chart;
use crate::model::chart_machine::{self, ChartConfiguration};
use crate::model::flatten::network_of;
use crate::model::label::Label;
use crate::model::layout::Layout;
use crate::model::moves::Member;
use crate::model::network::Network;
use crate::model::network_machine::{self, NetworkConfiguration};
use crate::model::refusal::Refusal;
use crate::model::update::Advance;
use crate::runs::longest::LongestWaits;
use crate::runs::steps::{got_to_updates, number, Steps};
use crate::runs::take_up::{sole_advances, TakeUps};

/// How many sets with one broadcast sender are tried at a time.
const MOST_BROADCAST_SETS: usize = 4;

/// A chart and the network that flattening writes for it.
pub struct Machines {
    pub chart: Chart,
    pub layout: Layout,
    pub network: Network,
    /// The advances that alone write their variables, in the chart and in the network.
    pub chart_advances: Vec<Advance>,
    pub network_advances: Vec<Advance>,
    pub sensors: SensorFacts,
    pub range: RangeFacts,
    /// What the tests ask for the longest wait.
    pub longest: LongestWaits,
    /// What the tests and runs call for a step.
    pub steps: Steps,
}

impl Machines {
    /// The network is the one that flattening gives, if it accepts the chart.
    pub fn of(chart: Chart) -> Result<Machines, Refusal> {
        let network = network_of(&chart)?;
        let chart_labels = chart.transitions.iter().map(|transition| &*transition.label);
        let network_labels = network.edges.iter().map(|edge| &*edge.label);
        Ok(Machines {
            layout: Layout::of(&chart),
            chart_advances: sole_advances(chart_labels),
            network_advances: sole_advances(network_labels),
            sensors: SensorFacts::of(&chart, &network),
            range: RangeFacts::of(&chart),
            longest: LongestWaits::RIGHT,
            steps: Steps::RIGHT,
            chart,
            network,
        })
    }

    /// The transition numbers on the edges of a move, in the order of the edges and without 255.
    pub fn borne(&self, list: &[u16]) -> Vec<u16> {
        list.iter()
            .filter_map(|&edge| self.network.edges[usize::from(edge)].transition)
            .map(|number| number as u16)
            .collect()
    }

    /// The labels of the transitions and of the edges of a list, those that are known.
    pub fn chart_labels(&self, list: &[u16]) -> Vec<&Label> {
        let known = list.iter().filter_map(|&one| self.chart.transitions.get(usize::from(one)));
        known.map(|transition| &*transition.label).collect()
    }

    pub fn network_labels(&self, list: &[u16]) -> Vec<&Label> {
        let known = list.iter().filter_map(|&one| self.network.edges.get(usize::from(one)));
        known.map(|edge| &*edge.label).collect()
    }
}

/// One call of either machine.
#[derive(Clone, PartialEq, Eq, Debug)]
pub enum Call {
    Step(Vec<u16>),
    Wait(u32),
}

/// Both machines at one moment of a run.
pub struct Moment<'a> {
    pub(super) machines: &'a Machines,
    pub chart: ChartConfiguration,
    pub network: NetworkConfiguration,
    /// The active edges of the network.
    pub(super) active_edges: Vec<(u16, Member)>,
    /// How many urgent moves are owed.
    pub owed: usize,
    /// The chart list so far.
    pub chart_list: Vec<Call>,
    pub(super) chart_take_ups: TakeUps,
    pub(super) network_take_ups: TakeUps,
    pub(super) tally: Tally,
}

impl<'a> Moment<'a> {
    pub fn start(machines: &'a Machines) -> Moment<'a> {
        let network = network_machine::start(&machines.network);
        Moment {
            machines,
            chart: chart_machine::start(&machines.chart),
            network,
            active_edges: active_edges(machines, &network),
            owed: 0,
            chart_list: Vec::new(),
            chart_take_ups: TakeUps::none_made(&machines.chart_advances),
            network_take_ups: TakeUps::none_made(&machines.network_advances),
            tally: Tally {
                runs: 1,
                sensors: machines.sensors.at_start.clone(),
                ..Tally::default()
            },
        }
    }

    /// The network goes on to a configuration that it answered.
    pub(super) fn move_network_to(&mut self, new: NetworkConfiguration) {
        self.network = new;
        self.active_edges = active_edges(self.machines, &new);
    }

    /// What the run did.
    pub(super) fn into_tally(self) -> Tally {
        let (chart, network) = (self.chart_take_ups, self.network_take_ups);
        Tally {
            take_ups: chart.used() + network.used(),
            most_advances: chart.most_made().max(network.most_made()),
            ..self.tally
        }
    }

    pub(super) fn network_step(&self, list: &[u16]) -> Result<NetworkConfiguration, Refusal> {
        (self.machines.steps.of_network)(&self.machines.network, &self.network, list)
    }

    pub(super) fn network_wait(&self, ticks: u32) -> Result<NetworkConfiguration, Refusal> {
        network_machine::wait(&self.machines.network, &self.network, ticks)
    }

    pub(super) fn chart_step(&self, list: &[u16]) -> Result<ChartConfiguration, Refusal> {
        (self.machines.steps.of_chart)(&self.machines.chart, &self.chart, list)
    }

    pub(super) fn chart_wait(&self, ticks: u32) -> Result<ChartConfiguration, Refusal> {
        chart_machine::wait(&self.machines.chart, &self.chart, ticks)
    }

    pub(super) fn chart_answer(&self, call: &Call) -> Result<ChartConfiguration, Refusal> {
        match call {
            Call::Step(list) => self.chart_step(list),
            Call::Wait(ticks) => self.chart_wait(*ticks),
        }
    }

    /// The transition numbers on the edges of a move, ascending and without 255.
    pub(super) fn carried(&self, list: &[u16]) -> Vec<u16> {
        let mut numbers = self.machines.borne(list);
        numbers.sort_unstable();
        numbers
    }

    /// Whether some edge of a move leaves an urgent location.
    pub(super) fn is_urgent(&self, list: &[u16]) -> bool {
        let network = &self.machines.network;
        list.iter().any(|&edge| {
            let source = network.edges[usize::from(edge)].source;
            network.locations[source].urgent
        })
    }

    pub(super) fn active_transitions(&self) -> Vec<(u16, Member)> {
        let Machines { chart, steps, .. } = self.machines;
        (0..chart.transitions.len())
            .filter(|&number| (steps.active_in_chart)(chart, &self.chart, number))
            .map(|number| (number as u16, chart_machine::member(chart, number)))
            .collect()
    }

    /// The network moves allowed now, not all of them if there are very many.
    pub(super) fn allowed_network_moves(&self, random: &mut Random) -> Vec<Vec<u16>> {
        self.allowed(self.network_candidates(random))
    }

    /// Those of some network lists that are allowed now.
    pub(super) fn allowed(&self, mut moves: Vec<Vec<u16>>) -> Vec<Vec<u16>> {
        moves.retain(|list| self.network_step(list).is_ok());
        moves
    }

    /// Network lists that fit one of the three cases; some may break bounds or leave nothing urgent.
    pub(super) fn network_candidates(&self, random: &mut Random) -> Vec<Vec<u16>> {
        let rendezvous = self.machines.network.declared.rendezvous;
        candidates(&self.active_edges, rendezvous, MOST_BROADCAST_SETS, random)
    }

    /// Chart lists that fit one of the three cases; some may break bounds.
    pub(super) fn chart_candidates(&self, random: &mut Random) -> Vec<Vec<u16>> {
        let rendezvous = self.machines.chart.declared.rendezvous;
        candidates(&self.active_transitions(), rendezvous, MOST_BROADCAST_SETS, random)
    }

    /// All network moves made of one edge for each transition of the list that get as far as their
    /// updates, with the number that they get.
    pub(super) fn network_moves_carrying(&self, list: &[u16]) -> Vec<(Vec<u16>, u8)> {
        let ascending = list.windows(2).all(|pair| pair[0] < pair[1]);
        if list.is_empty() || !ascending {
            return Vec::new();
        }
        let mut moves = vec![Vec::new()];
        for &transition in list {
            let bearing = self.active_edges_bearing(transition);
            let longer = |edges: Vec<u16>| {
                bearing
                    .iter()
                    .map(move |&edge| edges.iter().copied().chain([edge]).collect::<Vec<u16>>())
            };
            moves = moves.into_iter().flat_map(longer).collect();
        }
        for edges in &mut moves {
            edges.sort_unstable();
        }
        let answered = |edges: Vec<u16>| {
            let answer = self.network_step(&edges);
            got_to_updates(&answer).then(|| (edges, number(&answer)))
        };
        moves.into_iter().filter_map(answered).collect()
    }

    fn active_edges_bearing(&self, transition: u16) -> Vec<u16> {
        let bears = |&edge: &u16| {
            let number = self.machines.network.edges[usize::from(edge)].transition;
            number == Some(usize::from(transition))
        };
        self.active_edges.iter().map(|&(edge, _)| edge).filter(bears).collect()
    }
}

fn active_edges(machines: &Machines, configuration: &NetworkConfiguration) -> Vec<(u16, Member)> {
    let Machines { network, steps, .. } = machines;
    network
        .edges
        .iter()
        .enumerate()
        .filter(|(_, edge)| (steps.active_in_network)(network, configuration, edge))
        .map(|(number, edge)| (number as u16, network_machine::member(network, edge)))
        .collect()
}

//! How much of sensors and plain parallel states runs met, to see that they covered enough.

use crate::coverage::sensors::{
    dropped_choices, is_in, is_sensor, plain_states, tests_nothing, with_marked_sensors,
    without_sensor_bounds,
};
use crate::model::chart::{Chart, Kind, Transition, ROOT};
use crate::model::chart_machine::{self, ChartConfiguration};
use crate::model::network::Network;
use crate::model::refusal::Refusal;
use crate::model::values::Bounds;
use crate::runs::moment::Machines;

/// Counts, each over some runs.
#[derive(Clone, PartialEq, Eq, Debug, Default)]
pub struct SensorTally {
    /// Runs of charts with sensors, and with sensors that have bounds.
    pub with_sensors: u64,
    pub with_bounded_sensors: u64,
    /// Runs of charts with plain parallel states in a sequential state, in a parallel one, in the
    /// root, as sources and as destinations of transitions.
    pub with_plain_in_sequential: u64,
    pub with_plain_in_parallel: u64,
    pub with_plain_in_root: u64,
    pub with_plain_sources: u64,
    pub with_plain_destinations: u64,
    /// Choices of children that are no alternative because of a sensor, and runs of charts with some.
    pub dropped_choices: u64,
    pub with_dropped_choices: u64,
    /// Edges to post that test no exit, and accepted moves by them.
    pub edges_without_test: u64,
    pub moves_without_test: u64,
    /// Accepted moves that carry a transition to a plain parallel state.
    pub moves_to_plain: u64,
    /// Transitions that only a sensor's marks keep from being active, at each test of the clauses: of
    /// plain sources, and of other composite ones.
    pub plain_exits_shut: u64,
    pub exits_shut: u64,
    /// Waits that only the bound of a sensor, or of a plain state in a parallel one, refuses.
    pub waits_refused: u64,
}

impl SensorTally {
    pub fn add(&mut self, other: &SensorTally) {
        self.with_sensors += other.with_sensors;
        self.with_bounded_sensors += other.with_bounded_sensors;
        self.with_plain_in_sequential += other.with_plain_in_sequential;
        self.with_plain_in_parallel += other.with_plain_in_parallel;
        self.with_plain_in_root += other.with_plain_in_root;
        self.with_plain_sources += other.with_plain_sources;
        self.with_plain_destinations += other.with_plain_destinations;
        self.dropped_choices = self.dropped_choices.saturating_add(other.dropped_choices);
        self.with_dropped_choices += other.with_dropped_choices;
        self.edges_without_test += other.edges_without_test;
        self.moves_without_test += other.moves_without_test;
        self.moves_to_plain += other.moves_to_plain;
        self.plain_exits_shut += other.plain_exits_shut;
        self.exits_shut += other.exits_shut;
        self.waits_refused += other.waits_refused;
    }

    /// Counts an accepted move, by its edges and by the transitions that they carry.
    pub fn count_move(&mut self, machines: &Machines, list: &[u16], carried: &[u16]) {
        let Machines { chart, network, sensors, .. } = machines;
        let tests_nothing =
            |&number: &u16| tests_nothing(chart, &network.edges[usize::from(number)]);
        let to_plain = |&number: &u16| sensors.leads_to_plain(chart, usize::from(number));
        self.moves_without_test += u64::from(list.iter().any(tests_nothing));
        self.moves_to_plain += u64::from(carried.iter().any(to_plain));
    }

    /// Counts the exits that sensors keep shut in a configuration of the chart.
    pub fn count_exits_shut(&mut self, machines: &Machines, given: &ChartConfiguration) {
        let (of_plain, of_others) = machines.sensors.exits_shut(&machines.chart, given);
        self.plain_exits_shut += of_plain;
        self.exits_shut += of_others;
    }

    /// Counts a wait that is refused in a configuration of the chart, if that is for a bound.
    pub fn count_refused_wait(
        &mut self,
        machines: &Machines,
        given: &ChartConfiguration,
        ticks: u32,
        refusal: Refusal,
    ) {
        let by_sensor =
            refusal == Refusal::BoundBroken && machines.sensors.refuse_wait(given, ticks);
        self.waits_refused += u64::from(by_sensor);
    }
}

/// What the counts are made from, of one chart and its network.
pub struct SensorFacts {
    /// What one run counts before its first call.
    pub at_start: SensorTally,
    plain: Vec<usize>,
    without_bounds: Chart,
    marked: Chart,
}

impl SensorFacts {
    pub fn of(chart: &Chart, network: &Network) -> SensorFacts {
        SensorFacts {
            at_start: at_start(chart, network),
            plain: plain_states(chart),
            without_bounds: without_sensor_bounds(chart),
            marked: with_marked_sensors(chart),
        }
    }

    /// The transitions that only a sensor's marks keep from being active, by whether their source is
    /// plain: how many are, and how many are not.
    pub fn exits_shut(&self, chart: &Chart, configuration: &ChartConfiguration) -> (u64, u64) {
        let shut = |&number: &usize| {
            chart_machine::is_active(&self.marked, configuration, number)
                && !chart_machine::is_active(chart, configuration, number)
        };
        let sources = (0..chart.transitions.len())
            .filter(shut)
            .map(|number| chart.transitions[number].source);
        let (plain, others): (Vec<usize>, Vec<usize>) =
            sources.partition(|source| self.plain.contains(source));
        (plain.len() as u64, others.len() as u64)
    }

    /// Whether a wait that is refused is one that sensors' bounds alone refuse.
    pub fn refuse_wait(&self, configuration: &ChartConfiguration, ticks: u32) -> bool {
        chart_machine::wait(&self.without_bounds, configuration, ticks).is_ok()
    }

    /// Whether a longest wait is as short as it is by sensors' bounds alone.
    pub fn shorten(&self, configuration: &ChartConfiguration, longest: u32) -> bool {
        chart_machine::longest_wait(&self.without_bounds, configuration) != Ok(longest)
    }

    /// Whether a transition leads to a plain parallel state.
    pub fn leads_to_plain(&self, chart: &Chart, transition: usize) -> bool {
        self.plain.contains(&chart.transitions[transition].destination)
    }
}

fn at_start(chart: &Chart, network: &Network) -> SensorTally {
    let plain = plain_states(chart);
    let some_plain =
        |holds: &dyn Fn(usize) -> bool| u64::from(plain.iter().any(|&state| holds(state)));
    let some_end = |end: fn(&Transition) -> usize| {
        some_plain(&|state| chart.transitions.iter().any(|one| end(one) == state))
    };
    let sensors: Vec<usize> =
        (0..chart.states.len()).filter(|&state| is_sensor(chart, state)).collect();
    let bounded = |&state: &usize| chart.states[state].bounds != Bounds::NONE;
    let dropped_choices = dropped_choices(chart);
    let without_test = network.edges.iter().filter(|edge| tests_nothing(chart, edge));
    SensorTally {
        with_sensors: u64::from(!sensors.is_empty()),
        with_bounded_sensors: u64::from(sensors.iter().any(bounded)),
        with_plain_in_sequential: some_plain(&|state| is_in(chart, state, Kind::Sequential)),
        with_plain_in_parallel: some_plain(&|state| is_in(chart, state, Kind::Parallel)),
        with_plain_in_root: some_plain(&|state| chart.parent(state) == Some(ROOT)),
        with_plain_sources: some_end(|transition| transition.source),
        with_plain_destinations: some_end(|transition| transition.destination),
        dropped_choices,
        with_dropped_choices: u64::from(dropped_choices > 0),
        edges_without_test: without_test.count() as u64,
        ..SensorTally::default()
    }
}

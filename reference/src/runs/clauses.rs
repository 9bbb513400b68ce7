//! What is demanded of a chart and its network at every moment of a run, clause by clause.
//!
//! The two have the same variables and clocks. While urgent moves are owed, one is allowed, and no other
//! move and no wait. With none owed, the network's configuration is the picture of the chart's, every
//! allowed move carries transitions, and both machines give the same number to a list of edges and to the
//! transitions that it carries, and to a wait. Run from the start, the chart list leads to the chart's
//! configuration. Besides, the longest waits and the advances are what firmware and weavers rely on.

use crate::generate::random::Random;
use crate::model::chart_machine;
use crate::model::label::Label;
use crate::model::picture::picture;
use crate::model::refusal::Refusal;
use crate::runs::longest::{is_longest_of_chart, is_longest_of_network};
use crate::runs::moment::{Call, Machines, Moment};
use crate::runs::steps::{got_to_updates, number};

/// A clause that failed, in words.
pub type Failure = String;

impl Moment<'_> {
    /// Tests every clause that can be tested between two calls.
    pub(super) fn test(&mut self, random: &mut Random) -> Result<(), Failure> {
        demand(
            self.network.values == self.chart.values,
            "the variables or clocks of the two machines differ",
        )?;
        self.test_take_ups()?;
        self.test_longest_waits()?;
        let moves = self.network_candidates(random);
        if self.owed > 0 {
            self.test_while_owed(&self.allowed(moves), random)
        } else {
            self.test_with_none_owed(moves, random)
        }
    }

    fn test_while_owed(&self, allowed: &[Vec<u16>], random: &mut Random) -> Result<(), Failure> {
        demand(!allowed.is_empty(), "an urgent move is owed and none is allowed")?;
        for list in allowed {
            demand(
                self.is_urgent(list),
                "a move that is not urgent is allowed while some are owed",
            )?;
            demand(self.carried(list).is_empty(), "an urgent move carries transitions")?;
        }
        for ticks in [1, random.between(1, 12) as u32, random.bits() as u32] {
            demand(self.network_wait(ticks).is_err(), "a wait is allowed while some are owed")?;
        }
        Ok(())
    }

    fn test_with_none_owed(
        &mut self,
        moves: Vec<Vec<u16>>,
        random: &mut Random,
    ) -> Result<(), Failure> {
        for list in &moves {
            self.test_matched(list)?;
        }
        demand(
            self.network == picture(&self.machines.chart, &self.machines.layout, &self.chart),
            "with none owed, the network's configuration is not the picture of the chart's",
        )?;
        self.tally.sensors.count_exits_shut(self.machines, &self.chart);
        self.tally.range.count_active_guards(&self.machines.chart, &self.chart);
        self.test_allowed_moves(self.allowed(moves))?;
        for list in self.chart_candidates(random) {
            self.test_chart_step(&list)?;
        }
        for ticks in [0, 1, random.between(1, 12) as u32, random.bits() as u32] {
            self.test_wait(ticks)?;
        }
        Ok(())
    }

    /// Tests what a weaver relies on, of each machine by itself.
    fn test_take_ups(&self) -> Result<(), Failure> {
        demand(
            self.chart_take_ups.hold(&self.chart.values.variables),
            "the take-up of the chart is not that of so many advances",
        )?;
        demand(
            self.network_take_ups.hold(&self.network.values.variables),
            "the take-up of the network is not that of so many advances",
        )
    }

    /// Tests the longest wait of each machine by waits, and that the two are one number, or that the
    /// network's is 0 while some moves are owed.
    fn test_longest_waits(&mut self) -> Result<(), Failure> {
        let Machines { chart, network, sensors, longest, .. } = self.machines;
        let refused = "there is no longest wait of a configuration met in a run";
        let on_chart = (longest.of_chart)(chart, &self.chart).map_err(|_| refused)?;
        let on_network = (longest.of_network)(network, &self.network).map_err(|_| refused)?;
        demand(
            is_longest_of_chart(chart, &self.chart, on_chart),
            "the chart's longest wait is not the longest that it accepts",
        )?;
        demand(
            is_longest_of_network(network, &self.network, on_network),
            "the network's longest wait is not the longest that it accepts",
        )?;
        let tally = &mut self.tally.longest;
        tally.count_of_chart(chart, &self.chart, on_chart);
        tally.count_of_network(network, &self.network, on_network);
        if self.owed > 0 {
            tally.while_owed += 1;
            return demand(on_network == 0, "the network may wait while some are owed");
        }
        tally.equal += 1;
        tally.sensor_bounds += u64::from(sensors.shorten(&self.chart, on_chart));
        demand(on_chart == on_network, "with none owed, the two longest waits differ")
    }

    /// With none owed, each allowed move carries a list of its own and is not urgent.
    fn test_allowed_moves(&self, moves: Vec<Vec<u16>>) -> Result<(), Failure> {
        let mut lists = Vec::new();
        for list in &moves {
            let carried = self.carried(list);
            demand(!carried.is_empty(), "with none owed, a move without transitions is allowed")?;
            demand(!self.is_urgent(list), "with none owed, an urgent move is allowed")?;
            lists.push(carried);
        }
        lists.sort();
        lists.dedup();
        let mut different_moves = moves;
        different_moves.sort();
        different_moves.dedup();
        demand(lists.len() == different_moves.len(), "two allowed moves carry one list")
    }

    /// With none owed: where the network gets as far as the updates of a list, the chart gives the
    /// same number to the list of transitions that it carries.
    fn test_matched(&mut self, list: &[u16]) -> Result<(), Failure> {
        let answer = self.network_step(list);
        if !got_to_updates(&answer) {
            return Ok(());
        }
        let carried = self.carried(list);
        let (of_network, of_chart) = (number(&answer), number(&self.chart_step(&carried)));
        demand(
            of_network == of_chart,
            &format!(
                "the network gives {list:?} the number {of_network}, the chart {carried:?} {of_chart}"
            ),
        )?;
        self.test_advances(list, &carried)?;
        self.tally.range.count_matched(self.machines, &self.chart, &carried, of_chart);
        Ok(())
    }

    /// An advance that alone writes its pair is refused for its own sake when its steps would pass the
    /// range, and not before.
    fn test_advances(&self, list: &[u16], carried: &[u16]) -> Result<(), Failure> {
        let on_chart =
            |label: &&Label| self.chart_take_ups.leave_in_time(label, &self.chart.values);
        let on_network =
            |label: &&Label| self.network_take_ups.leave_in_time(label, &self.network.values);
        demand(
            self.machines.chart_labels(carried).iter().all(on_chart),
            "an advance of the chart leaves the range too early or too late",
        )?;
        demand(
            self.machines.network_labels(list).iter().all(on_network),
            "an advance of the network leaves the range too early or too late",
        )
    }

    /// Tests a list that the network refuses, which need not fit one of the three cases.
    pub(super) fn test_refused_step(
        &mut self,
        list: &[u16],
        refusal: Refusal,
    ) -> Result<(), Failure> {
        self.tally.range.count_refused_of_network(self.machines, &self.network, list, refusal);
        if self.owed > 0 {
            return Ok(());
        }
        self.test_matched(list)
    }

    /// With none owed, tests a call of the chart.
    pub(super) fn test_chart_call(&mut self, call: &Call) -> Result<(), Failure> {
        match call {
            Call::Step(list) => self.test_chart_step(list),
            Call::Wait(ticks) => self.test_wait(*ticks),
        }
    }

    /// With none owed: a chart step gets as far as its updates exactly when one network move carrying
    /// the same list does, and never two; it gets the same number then.
    fn test_chart_step(&mut self, list: &[u16]) -> Result<(), Failure> {
        let answer = self.chart_step(list);
        let of_chart = number(&answer);
        let expected = if got_to_updates(&answer) { vec![of_chart] } else { Vec::new() };
        let found = self.network_moves_carrying(list);
        let found: Vec<u8> = found.into_iter().map(|(_, number)| number).collect();
        demand(
            found == expected,
            &format!("moves that carry {list:?} get {found:?}, the chart gives {of_chart}"),
        )?;
        if let [number] = found[..] {
            self.tally.range.count_matched_from_chart(number);
        }
        Ok(())
    }

    /// With none owed: a wait gets the same answer with the same number.
    fn test_wait(&self, ticks: u32) -> Result<(), Failure> {
        let network = self.network_wait(ticks).map(|new| new.values);
        let chart = self.chart_wait(ticks).map(|new| new.values);
        demand(network == chart, &format!("waits of {ticks} get different answers"))
    }

    /// The demand is one claim about the whole list: from the start the chart list leads here.
    pub(super) fn replay_chart_list(&self) -> Result<(), Failure> {
        let Machines { chart, steps, .. } = self.machines;
        let mut configuration = chart_machine::start(chart);
        for call in &self.chart_list {
            let answer = match call {
                Call::Step(list) => (steps.of_chart)(chart, &configuration, list),
                Call::Wait(ticks) => chart_machine::wait(chart, &configuration, *ticks),
            };
            configuration = answer.map_err(|_| "the chart list is refused when run again")?;
        }
        demand(configuration == self.chart, "the chart list leads elsewhere when run again")
    }
}

pub(super) fn demand(holds: bool, clause: &str) -> Result<(), Failure> {
    if holds {
        Ok(())
    } else {
        Err(clause.to_string())
    }
}

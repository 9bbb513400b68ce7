//! Running a chart and its network side by side, from their starts.
//!
//! A network run builds the chart list that is read from the network list, call by call. A chart
//! run looks for a network list that realises the chart list. After every call every clause of the
//! demand is tested (`clauses`); the first that fails is reported.

use crate::coverage::tally::Tally;
use crate::generate::damage::{damage_list, random_ticks};
use crate::generate::random::Random;
use crate::model::chart_machine;
use crate::model::moves::Member;
use crate::model::network_machine;
use crate::model::refusal::Refusal;
use crate::runs::clauses::{demand, Failure};
use crate::runs::moment::{Call, Machines, Moment};

/// Runs a random network list of this length and tests every clause after every call.
pub fn run_network_list(
    machines: &Machines,
    calls: usize,
    random: &mut Random,
) -> Result<Tally, Failure> {
    run_list(machines, calls, random, |moment, random| {
        let call = moment.random_network_call(random);
        let outcome = moment.call_network(&call).map(|_| ());
        (call, outcome)
    })
}

/// A random network list of this length, most of it accepted.
pub fn random_network_list(machines: &Machines, calls: usize, random: &mut Random) -> Vec<Call> {
    let mut moment = Moment::start(machines);
    let mut list = Vec::new();
    while list.len() < calls {
        let call = if random.chance(85) {
            moment.random_network_call(random)
        } else {
            moment.random_network_step(&moment.network_candidates(random), random)
        };
        moment.call_network(&call).expect("every clause of the demand holds");
        list.push(call);
    }
    list
}

/// Runs a random chart list of this length, realising each accepted call on the network.
pub fn run_chart_list(
    machines: &Machines,
    calls: usize,
    random: &mut Random,
) -> Result<Tally, Failure> {
    run_list(machines, calls, random, |moment, random| {
        let call = moment.random_chart_call(random);
        let outcome = moment.realise(&call, random);
        (call, outcome)
    })
}

/// A random network list and a random chart list, each of this length.
pub fn run_both_lists(
    machines: &Machines,
    calls: usize,
    random: &mut Random,
) -> Result<Tally, Failure> {
    let mut tally = run_network_list(machines, calls, random)?;
    tally.add(&run_chart_list(machines, calls, random)?);
    Ok(tally)
}

/// Makes so many calls, and tests every clause before the first and after each.
fn run_list(
    machines: &Machines,
    calls: usize,
    random: &mut Random,
    make_call: impl Fn(&mut Moment, &mut Random) -> (Call, Result<(), Failure>),
) -> Result<Tally, Failure> {
    let mut moment = Moment::start(machines);
    moment.test(random)?;
    for _ in 0..calls {
        let (call, outcome) = make_call(&mut moment, random);
        outcome.map_err(|failure| format!("{failure}, at {call:?}"))?;
        moment.test(random).map_err(|failure| format!("{failure}, after {call:?}"))?;
    }
    moment.replay_chart_list()?;
    Ok(moment.into_tally())
}

impl Moment<'_> {
    /// Calls the network and adds to the chart list what the demand says, calling it at once.
    /// Gives the refusal of a call that the network refuses.
    pub fn call_network(&mut self, call: &Call) -> Result<Option<Refusal>, Failure> {
        self.tally.network_calls += 1;
        let answer = match call {
            Call::Step(list) => self.network_step(list),
            Call::Wait(ticks) => self.network_wait(*ticks),
        };
        match answer {
            Ok(new) => {
                self.account_for(call)?;
                self.move_network_to(new);
                Ok(None)
            }
            Err(refusal) => {
                self.account_for_refused(call, refusal)?;
                Ok(Some(refusal))
            }
        }
    }

    /// Counts a call that the network accepts, and adds what is read from it to the chart list.
    fn account_for(&mut self, call: &Call) -> Result<(), Failure> {
        match call {
            Call::Wait(ticks) => {
                demand(self.owed == 0, "a wait was accepted while urgent moves are owed")?;
                self.tally.waits += 1;
                let network = &self.machines.network;
                self.tally.longest.count_accepted_wait(network, &self.network, *ticks);
                self.add_to_chart_list(call.clone())
            }
            Call::Step(list) => {
                self.account_for_move(list)?;
                for &number in list {
                    let edge = &self.machines.network.edges[usize::from(number)];
                    self.network_take_ups.count(&edge.label);
                }
                Ok(())
            }
        }
    }

    /// Counts what an accepted move pays or owes, and adds its chart step.
    fn account_for_move(&mut self, list: &[u16]) -> Result<(), Failure> {
        let carried = self.carried(list);
        if self.is_urgent(list) {
            demand(carried.is_empty(), "an urgent move carries transitions")?;
            demand(self.owed > 0, "an urgent move was accepted while none is owed")?;
            self.tally.urgent_moves += 1;
            self.owed -= 1;
            return Ok(());
        }
        demand(self.owed == 0, "a move that is not urgent was accepted while some are owed")?;
        demand(!carried.is_empty(), "a move that is not urgent carries no transition")?;
        self.tally.moves += 1;
        self.tally.broadcasts_with_several_receivers += u64::from(list.len() >= 3);
        for &number in &carried {
            let transition = &self.machines.chart.transitions[usize::from(number)];
            self.owed += usize::from(transition.exit.is_some());
            self.owed += usize::from(transition.entry.is_some());
        }
        self.tally.most_owed = self.tally.most_owed.max(self.owed);
        self.tally.sensors.count_move(self.machines, list, &carried);
        self.add_to_chart_list(Call::Step(carried))
    }

    /// A refused call adds nothing, and what it was given stays as it is.
    fn account_for_refused(&mut self, call: &Call, refusal: Refusal) -> Result<(), Failure> {
        self.tally.network_refusals[usize::from(refusal.number())] += 1;
        match call {
            Call::Wait(ticks) => {
                let network = &self.machines.network;
                self.tally.sensors.count_refused_wait(self.machines, &self.chart, *ticks, refusal);
                self.tally.longest.count_refused_wait(network, &self.network, *ticks);
                Ok(())
            }
            Call::Step(list) => self.test_refused_step(list, refusal),
        }
    }

    /// Each addition is called on the chart at once and must be accepted.
    fn add_to_chart_list(&mut self, call: Call) -> Result<(), Failure> {
        self.tally.chart_calls += 1;
        match self.chart_answer(&call) {
            Ok(new) => self.chart = new,
            Err(refusal) => {
                return Err(format!("the chart refuses {call:?} with {}", refusal.number()))
            }
        }
        if let Call::Step(list) = &call {
            for &number in list {
                let transition = &self.machines.chart.transitions[usize::from(number)];
                self.chart_take_ups.count(&transition.label);
            }
        }
        self.chart_list.push(call);
        Ok(())
    }

    /// Calls the chart and finds network calls that realise what it accepts.
    fn realise(&mut self, call: &Call, random: &mut Random) -> Result<(), Failure> {
        if let Err(refusal) = self.chart_answer(call) {
            self.count_refused_by_chart(call, refusal);
            // No network move carries a list that the chart refuses; a wait is refused alike.
            return self.test_chart_call(call);
        }
        match call {
            Call::Wait(_) => self.call_network(call).map(|_| ()),
            Call::Step(list) => self.realise_step(list, random),
        }
    }

    fn count_refused_by_chart(&mut self, call: &Call, refusal: Refusal) {
        self.tally.chart_calls += 1;
        self.tally.chart_refusals[usize::from(refusal.number())] += 1;
        match call {
            Call::Wait(ticks) => {
                self.tally.sensors.count_refused_wait(self.machines, &self.chart, *ticks, refusal);
            }
            Call::Step(list) => {
                self.tally.range.count_refused_of_chart(self.machines, &self.chart, list, refusal);
            }
        }
    }

    /// The one network move that carries a list which the chart accepts, and then urgent moves until
    /// none is owed.
    fn realise_step(&mut self, list: &[u16], random: &mut Random) -> Result<(), Failure> {
        let found = self.network_moves_carrying(list);
        let [(edges, 0)] = &found[..] else {
            return Err("not exactly one network move carries an accepted list".to_string());
        };
        self.call_network(&Call::Step(edges.clone()))?;
        self.test(random)?;
        while self.owed > 0 {
            let urgent = self.allowed_network_moves(random);
            demand(!urgent.is_empty(), "an urgent move is owed and none is allowed")?;
            let chosen = urgent[random.below(urgent.len())].clone();
            self.call_network(&Call::Step(chosen))?;
            self.test(random)?;
        }
        Ok(())
    }

    fn random_network_call(&self, random: &mut Random) -> Call {
        if random.chance(20) {
            let longest = network_machine::longest_wait(&self.machines.network, &self.network);
            return random_wait(longest, random);
        }
        // Some that are refused with 28 or 21 are called too.
        let fitting = if random.chance(10) {
            self.network_candidates(random)
        } else {
            self.allowed_network_moves(random)
        };
        self.random_network_step(&fitting, random)
    }

    fn random_network_step(&self, fitting: &[Vec<u16>], random: &mut Random) -> Call {
        let known = self.machines.network.edges.len();
        random_step(fitting, &self.active_edges, known, random)
    }

    fn random_chart_call(&self, random: &mut Random) -> Call {
        if random.chance(20) {
            let longest = chart_machine::longest_wait(&self.machines.chart, &self.chart);
            return random_wait(longest, random);
        }
        let fitting = self.chart_candidates(random);
        let known = self.machines.chart.transitions.len();
        random_step(&fitting, &self.active_transitions(), known, random)
    }
}

/// Any wait, or the longest, or one tick more. A clock that is at its limit forbids all waits until it
/// is reset, so the longest is seldom taken where no bound decides it.
fn random_wait(longest: Result<u32, Refusal>, random: &mut Random) -> Call {
    match longest {
        Ok(ticks) if random.chance(if ticks <= 40 { 40 } else { 4 }) => {
            Call::Wait(ticks.saturating_add(random.below(2) as u32))
        }
        _ => Call::Wait(random_ticks(10, random)),
    }
}

/// Mostly one of the fitting lists, otherwise a damaged one.
fn random_step(
    fitting: &[Vec<u16>],
    active: &[(u16, Member)],
    known: usize,
    random: &mut Random,
) -> Call {
    let list =
        if fitting.is_empty() { Vec::new() } else { fitting[random.below(fitting.len())].clone() };
    if random.chance(75) && !list.is_empty() {
        return Call::Step(list);
    }
    let active: Vec<u16> = active.iter().map(|&(number, _)| number).collect();
    Call::Step(damage_list(&list, &active, known, random))
}

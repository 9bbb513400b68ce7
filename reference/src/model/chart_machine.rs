//! Running a chart: start, step, wait, and how long it may wait.

use crate::model::chart::{Chart, Kind, MAIN_ENTRY, ROOT};
use crate::model::label::Signal;
use crate::model::limits::STATES;
use crate::model::moves::{allowed, known_and_ascending, Member};
use crate::model::refusal::Refusal;
use crate::model::values::{Bounds, Values};

/// The active tree and the values. States that the chart lacks are not active.
#[derive(Clone, Copy, PartialEq, Eq, Debug)]
pub struct ChartConfiguration {
    pub active: [bool; STATES],
    pub values: Values,
}

/// The start configuration: the root entered by the main entry, all values 0.
pub fn start(chart: &Chart) -> ChartConfiguration {
    let mut active = [false; STATES];
    for state in chart.entered(ROOT, MAIN_ENTRY) {
        active[state] = true;
    }
    ChartConfiguration { active, values: Values::default() }
}

/// Moves a set of transitions, given by their numbers: refusals 17, 18, 19, 20, 28, 21.
pub fn step(
    chart: &Chart,
    configuration: &ChartConfiguration,
    list: &[u16],
) -> Result<ChartConfiguration, Refusal> {
    if !is_configuration(chart, configuration) {
        return Err(Refusal::ChartConfiguration);
    }
    known_and_ascending(list, chart.transitions.len())?;
    let numbers = || list.iter().map(|&number| usize::from(number));
    if !numbers().all(|number| is_active(chart, configuration, number)) {
        return Err(Refusal::Inactive);
    }
    let set: Vec<Member> = numbers().map(|number| member(chart, number)).collect();
    let active_receivers = |channel| active_receivers(chart, configuration, channel);
    if !allowed(&set, chart.declared.rendezvous, active_receivers) {
        return Err(Refusal::NotAllowed);
    }
    let mut new = *configuration;
    for number in numbers() {
        let transition = &chart.transitions[number];
        for state in chart.at_or_below(transition.source) {
            new.active[state] = false;
        }
        match transition.entry {
            None => new.active[transition.destination] = true,
            Some(entry) => {
                for state in chart.entered(transition.destination, entry) {
                    new.active[state] = true;
                }
            }
        }
        let label = &transition.label;
        label.apply(&configuration.values, &mut new.values).ok_or(Refusal::RangeLeft)?;
    }
    keeping_bounds(chart, new)
}

/// Lets time pass: refusals 17, 22 and 21.
pub fn wait(
    chart: &Chart,
    configuration: &ChartConfiguration,
    ticks: u32,
) -> Result<ChartConfiguration, Refusal> {
    if !is_configuration(chart, configuration) {
        return Err(Refusal::ChartConfiguration);
    }
    let values =
        configuration.values.after_ticks(chart.declared.clocks, ticks).ok_or(Refusal::Ticks)?;
    keeping_bounds(chart, ChartConfiguration { active: configuration.active, values })
}

/// The greatest wait that is allowed, 0 if none is: refusal 17. Every wait from 1 tick up to it is
/// allowed.
pub fn longest_wait(chart: &Chart, configuration: &ChartConfiguration) -> Result<u32, Refusal> {
    if !has_fitting_parts(chart, configuration) {
        return Err(Refusal::ChartConfiguration);
    }
    ticks_left(chart, configuration).ok_or(Refusal::ChartConfiguration)
}

/// Whether a transition is active: its source is, its guards hold, and for a composite source
/// every active basic state below is marked with its exit.
pub fn is_active(chart: &Chart, configuration: &ChartConfiguration, number: usize) -> bool {
    let transition = &chart.transitions[number];
    configuration.active[transition.source]
        && transition.label.guards_hold(&configuration.values)
        && transition
            .exit
            .is_none_or(|exit| can_complete(chart, configuration, transition.source, exit))
}

/// What the rules of allowed sets look at in a transition.
pub fn member(chart: &Chart, number: usize) -> Member {
    Member {
        group: chart.parent_of_transition(number),
        signal: chart.transitions[number].label.signal,
    }
}

fn can_complete(
    chart: &Chart,
    configuration: &ChartConfiguration,
    state: usize,
    exit: usize,
) -> bool {
    chart.at_or_below(state).into_iter().all(|below| {
        let counts = configuration.active[below] && !chart.states[below].is_composite();
        !counts || chart.states[below].has_exit(exit)
    })
}

/// The groups of the active receivers on a channel.
fn active_receivers(
    chart: &Chart,
    configuration: &ChartConfiguration,
    channel: usize,
) -> Vec<usize> {
    (0..chart.transitions.len())
        .filter(|&number| chart.transitions[number].label.signal == Signal::Receive(channel))
        .filter(|&number| is_active(chart, configuration, number))
        .map(|number| chart.parent_of_transition(number))
        .collect()
}

/// Refusal 17: exactly one active tree, fitting values, bounds kept.
pub fn is_configuration(chart: &Chart, configuration: &ChartConfiguration) -> bool {
    has_fitting_parts(chart, configuration) && ticks_left(chart, configuration).is_some()
}

/// What 17 asks but for the bounds: exactly one active tree, fitting values.
fn has_fitting_parts(chart: &Chart, configuration: &ChartConfiguration) -> bool {
    let active = &configuration.active;
    let state_fits = |number: usize| {
        let in_tree = match chart.parent(number) {
            None => active[number],
            Some(parent) => !active[number] || active[parent],
        };
        let children = &chart.children[number];
        let active_children = children.iter().filter(|&&child| active[child]).count();
        let children_fit = !active[number]
            || match chart.states[number].kind {
                Kind::Basic => true,
                Kind::Sequential => active_children == 1,
                Kind::Parallel => active_children == children.len(),
            };
        in_tree && children_fit
    };
    let declared = &chart.declared;
    (0..chart.states.len()).all(state_fits)
        && active[chart.states.len()..].iter().all(|&value| !value)
        && configuration.values.fit(declared.variables, declared.clocks)
}

/// The bounds of all active states, joined.
pub fn active_bounds(chart: &Chart, configuration: &ChartConfiguration) -> Bounds {
    let active = chart.states.iter().zip(&configuration.active).filter(|(_, &active)| active);
    Bounds::joined(active.map(|(state, _)| &state.bounds))
}

/// The ticks left under the bounds of all active states, or none if one is broken.
fn ticks_left(chart: &Chart, configuration: &ChartConfiguration) -> Option<u32> {
    let clocks = &configuration.values.clocks[..chart.declared.clocks];
    active_bounds(chart, configuration).ticks_left(clocks)
}

fn keeping_bounds(chart: &Chart, new: ChartConfiguration) -> Result<ChartConfiguration, Refusal> {
    if ticks_left(chart, &new).is_some() {
        Ok(new)
    } else {
        Err(Refusal::BoundBroken)
    }
}

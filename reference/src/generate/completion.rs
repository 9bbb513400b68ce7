//! Steps by which it shows whether composite states are completed, of charts whose basic states are
//! marked with every exit: as they are, and with fewer marks at one basic state.

use std::iter;

use crate::forms::request::Request;
use crate::generate::special_completion::{
    broadcast_list, broadcast_step, deep, plain_list, plain_step, step_from_start, wide, EVERY_EXIT,
};
use crate::model::chart::{Chart, Kind};
use crate::model::chart_machine::{self, ChartConfiguration};
use crate::model::limits::EXITS;

/// The basic states of a chart.
pub fn basic_states(chart: &Chart) -> Vec<usize> {
    let is_basic = |&state: &usize| chart.states[state].kind == Kind::Basic;
    (0..chart.states.len()).filter(is_basic).collect()
}

/// A chart with other exit marks at one state.
pub fn with_marks(chart: &Chart, state: usize, exit_marks: u8) -> Chart {
    let mut changed = chart.clone();
    changed.states[state].exit_marks = exit_marks;
    changed
}

/// All marks but one, one alone, and none.
pub fn fewer_marks() -> Vec<u8> {
    let of_exit = |exit: usize| [EVERY_EXIT & !(1 << exit), 1 << exit];
    (0..EXITS).flat_map(of_exit).chain([0]).collect()
}

/// The start configuration, and others that a step by one transition leads to.
pub fn configurations(chart: &Chart) -> Vec<ChartConfiguration> {
    let start = chart_machine::start(chart);
    let mut all = vec![start];
    for number in 0..chart.transitions.len() as u16 {
        match chart_machine::step(chart, &start, &[number]) {
            Ok(new) if !all.contains(&new) => all.push(new),
            _ => {}
        }
    }
    all
}

/// Lists whose answers tell what is active: each transition alone, which is refused with 19 just if it
/// is not, and a broadcast without one of its receivers, which is accepted just if none of that region is.
fn telling_lists(chart: &Chart) -> Vec<Vec<u16>> {
    let alone = (0..chart.transitions.len() as u16).map(|number| vec![number]);
    let broadcast = broadcast_list(chart, 0);
    let mut lists: Vec<Vec<u16>> = alone.collect();
    lists.extend((1..broadcast.len()).map(|place| without_place(&broadcast, place)));
    lists.push(broadcast);
    lists
}

fn without_place(list: &[u16], place: usize) -> Vec<u16> {
    [&list[..place], &list[place + 1..]].concat()
}

/// Every basic state with every set of fewer marks in turn, and steps by all of those lists from all of
/// those configurations: tens of thousands of requests.
pub fn completion_requests(chart: &Chart) -> impl Iterator<Item = Request> + '_ {
    let fewer = |state: usize| fewer_marks().into_iter().map(move |marks| (state, marks));
    let changes = basic_states(chart).into_iter().flat_map(fewer);
    let changed = changes.map(|(state, marks)| with_marks(chart, state, marks));
    let (given, lists) = (configurations(chart), telling_lists(chart));
    iter::once(chart.clone()).chain(changed).flat_map(move |one| {
        let file = one.write();
        let step = |given: &ChartConfiguration, list: &Vec<u16>| {
            Request::ChartStep(file.clone(), *given, list.clone())
        };
        let steps = given.iter().flat_map(|given| lists.iter().map(|list| step(given, list)));
        steps.collect::<Vec<Request>>()
    })
}

/// Some 30 of such requests, from the start configuration: a basic state at every kind of place of the
/// deep chart lacks an exit, and the first and the last of the wide one.
pub fn few_completion_requests() -> Vec<Request> {
    let (deep, wide) = (deep(), wide());
    let mut all = Vec::new();
    for chart in [&deep, &wide] {
        all.extend([plain_step(chart), broadcast_step(chart)]);
        all.extend(steps_without_a_receiver(chart));
    }
    let last_children = last_basic_children(&deep);
    all.extend(last_children.into_iter().flat_map(|state| steps_without_an_exit(&deep, state)));
    let of_wide = basic_states(&wide);
    let ends = [of_wide.first(), of_wide.last()].into_iter().flatten();
    all.extend(ends.flat_map(|&state| steps_without_an_exit(&wide, state)));
    all
}

/// The last basic child of each state that has one: a state at every kind of place.
fn last_basic_children(chart: &Chart) -> Vec<usize> {
    let is_basic = |&&child: &&usize| chart.states[child].kind == Kind::Basic;
    chart.children.iter().filter_map(|list| list.iter().rfind(is_basic).copied()).collect()
}

/// A broadcast without the receiver of one region, that of the last state: it is refused while this state
/// has every mark or only one, and accepted when it has none.
fn steps_without_a_receiver(chart: &Chart) -> impl Iterator<Item = Request> + '_ {
    let last = chart.states.len() - 1;
    let is_above = |&number: &u16| {
        let source = chart.transitions[usize::from(number)].source;
        chart.is_below(last, source)
    };
    let mut list = broadcast_list(chart, 0);
    list.retain(|number| !is_above(number));
    let marks = [EVERY_EXIT, 1 << (EXITS - 1), 0];
    marks
        .into_iter()
        .map(move |marks| step_from_start(&with_marks(chart, last, marks), list.clone()))
}

/// A basic state lacks one exit: a plain step and a broadcast by this exit, and a broadcast by another.
fn steps_without_an_exit(chart: &Chart, state: usize) -> [Request; 3] {
    // No plain step has exit 0.
    let exit = 1 + state % (EXITS - 1);
    let changed = with_marks(chart, state, EVERY_EXIT & !(1 << exit));
    [plain_list(chart, exit), broadcast_list(chart, exit), broadcast_list(chart, 0)]
        .map(|list| step_from_start(&changed, list))
}

//! Sensors: basic states directly in parallel ones. What a chart and its network have of them and of
//! plain parallel states, and the charts that it would be if their bounds or marks did not count.

use crate::model::alternatives::Alternatives;
use crate::model::chart::{Chart, Kind, State};
use crate::model::layout::Layout;
use crate::model::limits::lowest_bits;
use crate::model::network::Edge;
use crate::model::plain::Plain;
use crate::model::values::Bounds;

/// Whether a state is a basic state directly in a parallel one.
pub fn is_sensor(chart: &Chart, state: usize) -> bool {
    chart.states[state].kind == Kind::Basic && is_in(chart, state, Kind::Parallel)
}

/// Whether the parent of a state has this kind.
pub fn is_in(chart: &Chart, state: usize, kind: Kind) -> bool {
    chart.parent(state).is_some_and(|parent| chart.states[parent].kind == kind)
}

/// The plain parallel states.
pub fn plain_states(chart: &Chart) -> Vec<usize> {
    let plain = Plain::of(chart);
    let is_plain = |&state: &usize| plain.is_fixed(state) && chart.states[state].is_composite();
    (0..chart.states.len()).filter(is_plain).collect()
}

/// Whether a chart has a sensor. A plain parallel state always has one.
pub fn has_sensors(chart: &Chart) -> bool {
    (0..chart.states.len()).any(|state| is_sensor(chart, state))
}

/// The chart with some of its states changed.
fn changed(chart: &Chart, states: Vec<usize>, change: impl Fn(&mut State)) -> Chart {
    let mut new = chart.clone();
    for state in states {
        change(&mut new.states[state]);
    }
    new
}

/// The chart with no bound on the basic and plain states directly in parallel ones.
pub fn without_sensor_bounds(chart: &Chart) -> Chart {
    let plain = Plain::of(chart);
    let counts = |&state: &usize| plain.is_fixed(state) && is_in(chart, state, Kind::Parallel);
    let states = (0..chart.states.len()).filter(counts).collect();
    changed(chart, states, |state| state.bounds = Bounds::NONE)
}

/// The chart with all sensors marked with every exit.
pub fn with_marked_sensors(chart: &Chart) -> Chart {
    let states = (0..chart.states.len()).filter(|&state| is_sensor(chart, state)).collect();
    changed(chart, states, |state| state.exit_marks = lowest_bits(chart.exits) as u8)
}

/// The chart with all those sensors marked with every exit that a choice of children can meet: those
/// at or below a basic or plain child of a parallel state that is not plain.
pub fn with_marked_choices(chart: &Chart) -> Chart {
    let plain = Plain::of(chart);
    let met = |&state: &usize| {
        let parent = chart.parent(state).filter(|&parent| !plain.is_fixed(parent));
        let in_parallel = parent.is_some_and(|one| chart.states[one].kind == Kind::Parallel);
        in_parallel && plain.is_fixed(state)
    };
    let below = (0..chart.states.len()).filter(met).flat_map(|state| chart.at_or_below(state));
    let basic = below.filter(|&state| chart.states[state].kind == Kind::Basic).collect();
    changed(chart, basic, |state| state.exit_marks = lowest_bits(chart.exits) as u8)
}

/// How many alternatives of its transitions a chart lacks because of a sensor that is not marked.
pub fn dropped_choices(chart: &Chart) -> u64 {
    let marked = with_marked_choices(chart);
    let (layout, marked_layout) = (Layout::of(chart), Layout::of(&marked));
    let dropped = chart.transitions.iter().filter_map(|transition| {
        let exit = transition.exit?;
        let kept = Alternatives::of(chart, &layout, exit).count(transition.source);
        let all = Alternatives::of(&marked, &marked_layout, exit).count(transition.source);
        Some(all.saturating_sub(kept))
    });
    dropped.fold(0, u64::saturating_add)
}

/// Whether an edge of a chart's network bears a transition with an exit and tests none.
pub fn tests_nothing(chart: &Chart, edge: &Edge) -> bool {
    let exit = edge.transition.and_then(|number| chart.transitions[number].exit);
    exit.is_some() && edge.exit_tested.is_none()
}

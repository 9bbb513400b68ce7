//! Checking a chart: refusals 1 to 14.

use crate::model::chart::{Chart, Kind, MAIN_ENTRY, ROOT};
use crate::model::limits::{AUTOMATA, CHANNELS, NONE, STATES};
use crate::model::refusal::Refusal;

/// Reads a chart file and tries the rules in order, each on the whole chart before the next.
pub fn check(file: &[u8]) -> Result<Chart, Refusal> {
    let chart = Chart::read(file)?;
    for (holds, refusal) in RULES {
        if !holds(&chart) {
            return Err(refusal);
        }
    }
    Ok(chart)
}

type Rule = fn(&Chart) -> bool;

/// Each rule may rely on the rules before it.
const RULES: [(Rule, Refusal); 10] = [
    (parents_form_a_tree, Refusal::Parent),
    (few_sequential_states, Refusal::SequentialCount),
    (some_sequential_state, Refusal::NoSequential),
    (entry_marks_fit, Refusal::EntryMarks),
    (exit_marks_on_basic_only, Refusal::ExitMarks),
    (ends_share_a_sequential_parent, Refusal::TransitionEnds),
    (exits_fit_sources, Refusal::TransitionExit),
    (entries_fit_destinations, Refusal::TransitionEntry),
    (assignments_fit, Refusal::Assignments),
    (channels_are_not_nested, Refusal::NestedChannel),
];

fn parents_form_a_tree(chart: &Chart) -> bool {
    let parent_fits = |number: usize| {
        let parent = chart.states[number].parent;
        if number == ROOT {
            parent == NONE
        } else {
            usize::from(parent) < number && chart.states[usize::from(parent)].is_composite()
        }
    };
    (0..chart.states.len()).all(|number| {
        let childless = chart.children[number].is_empty();
        parent_fits(number) && !(chart.states[number].is_composite() && childless)
    })
}

fn few_sequential_states(chart: &Chart) -> bool {
    let sequential = chart.states.iter().filter(|state| state.kind == Kind::Sequential);
    sequential.count() <= AUTOMATA
}

fn some_sequential_state(chart: &Chart) -> bool {
    chart.states.iter().any(|state| state.kind == Kind::Sequential)
}

fn entry_marks_fit(chart: &Chart) -> bool {
    let marks = |number: usize| chart.states[number].entry_marks;
    let marks_of_children_fit = |number: usize| match chart.states[number].kind {
        Kind::Basic => true,
        Kind::Parallel => chart.children[number].iter().all(|&child| marks(child) == marks(number)),
        Kind::Sequential => {
            let mut on_children = 0;
            for &child in &chart.children[number] {
                if on_children & marks(child) != 0 {
                    return false;
                }
                on_children |= marks(child);
            }
            marks(number) & !on_children == 0
        }
    };
    marks(ROOT) == 1 << MAIN_ENTRY && (0..chart.states.len()).all(marks_of_children_fit)
}

fn exit_marks_on_basic_only(chart: &Chart) -> bool {
    chart.states.iter().all(|state| !state.is_composite() || state.exit_marks == 0)
}

fn ends_share_a_sequential_parent(chart: &Chart) -> bool {
    chart.transitions.iter().all(|transition| {
        let parent = chart.parent(transition.source);
        parent == chart.parent(transition.destination)
            && parent.is_some_and(|number| chart.states[number].kind == Kind::Sequential)
    })
}

fn exits_fit_sources(chart: &Chart) -> bool {
    chart.transitions.iter().all(|transition| {
        transition.exit.is_some() == chart.states[transition.source].is_composite()
    })
}

fn entries_fit_destinations(chart: &Chart) -> bool {
    chart.transitions.iter().all(|transition| {
        let destination = &chart.states[transition.destination];
        match transition.entry {
            None => !destination.is_composite(),
            Some(entry) => destination.is_composite() && destination.has_entry(entry),
        }
    })
}

fn assignments_fit(chart: &Chart) -> bool {
    chart.transitions.iter().all(|transition| transition.label.assigns_properly())
}

fn channels_are_not_nested(chart: &Chart) -> bool {
    // For each channel, the sequential states whose children its transitions join.
    let mut users = [[false; STATES]; CHANNELS];
    for (number, transition) in chart.transitions.iter().enumerate() {
        if let Some(channel) = transition.label.signal.channel() {
            users[channel][chart.parent_of_transition(number)] = true;
        }
    }
    users[..chart.declared.channels()].iter().all(|uses| {
        let states = || (0..chart.states.len()).filter(|&state| uses[state]);
        states().all(|state| states().all(|other| !chart.is_below(state, other)))
    })
}

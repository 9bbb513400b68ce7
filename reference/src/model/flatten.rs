//! Flattening: from a chart to the network that behaves like it.

use std::rc::Rc;

use crate::model::alternatives::Alternatives;
use crate::model::chart::{Chart, Kind};
use crate::model::check::check;
use crate::model::label::{Declared, Label, Signal};
use crate::model::layout::Layout;
use crate::model::limits::EDGES;
use crate::model::network::{Edge, Network};
use crate::model::refusal::Refusal;

/// Flattens a chart file into a lent buffer and returns the length of the network file:
/// refusals 1 to 16. Bytes after the network keep their values.
pub fn flatten(file: &[u8], buffer: &mut [u8]) -> Result<usize, Refusal> {
    let chart = check(file)?;
    let network = network_of(&chart)?.write();
    let Some(room) = buffer.get_mut(..network.len()) else {
        return Err(Refusal::BufferLength);
    };
    room.copy_from_slice(&network);
    Ok(network.len())
}

/// The network of a checked chart: refusal 15.
pub fn network_of(chart: &Chart) -> Result<Network, Refusal> {
    let layout = Layout::of(chart);
    let edges = all_edges(chart, &layout)?;
    Ok(Network {
        version: chart.version,
        declared: Declared {
            broadcast: chart.declared.broadcast
                + layout.enter_channel.len()
                + layout.exit_channel.len(),
            ..chart.declared
        },
        automata: layout.sequential.len(),
        locations: layout.locations,
        edges,
    })
}

fn all_edges(chart: &Chart, layout: &Layout) -> Result<Vec<Edge>, Refusal> {
    let mut edges = Vec::new();
    add_post_edges(chart, layout, &mut edges);
    add_pre_edges(layout, &mut edges);
    add_enter_edges(chart, layout, &mut edges);
    add_exit_edges(chart, layout, &mut edges);

    // The alternatives are counted before they are listed.
    let by_exit: Vec<Alternatives> =
        (0..chart.exits).map(|exit| Alternatives::of(chart, layout, exit)).collect();
    let transition_edges = chart.transitions.iter().map(|transition| match transition.exit {
        Some(exit) => by_exit[exit].count(transition.source),
        None => 1,
    });
    let total = transition_edges.fold(edges.len() as u64, u64::saturating_add);
    if total > EDGES as u64 {
        return Err(Refusal::EdgeCount);
    }
    add_transition_edges(chart, layout, &by_exit, &mut edges);
    edges.sort_by_key(Edge::sort_key);
    Ok(edges)
}

/// An edge without transition number and flag tests, which writes the flags of its own automaton
/// for the exits that just one of its ends is "at".
fn edge(layout: &Layout, source: usize, target: usize, label: Rc<Label>) -> Edge {
    let exits_written = layout.at[source] ^ layout.at[target];
    Edge {
        source,
        target,
        transition: None,
        exit_tested: None,
        automata_tested: 0,
        values_needed: 0,
        exits_written,
        values_written: layout.flags(target) & exits_written,
        label,
    }
}

fn signal_edge(layout: &Layout, source: usize, target: usize, signal: Signal) -> Edge {
    edge(layout, source, target, Rc::new(Label::of_signal(signal)))
}

/// A transition has one edge, or with an exit one edge to post for each alternative. Where no
/// automaton is tested, no exit is.
fn add_transition_edges(
    chart: &Chart,
    layout: &Layout,
    by_exit: &[Alternatives],
    edges: &mut Vec<Edge>,
) {
    for (number, transition) in chart.transitions.iter().enumerate() {
        let source = layout.location_of_child(transition.source);
        let target = layout.after_source(chart, number);
        let plain = Edge {
            transition: Some(number),
            ..edge(layout, source, target, Rc::clone(&transition.label))
        };
        let Some(exit) = transition.exit else {
            edges.push(plain);
            continue;
        };
        let values_at = (0..layout.sequential.len())
            .filter(|&automaton| layout.one_means_at(automaton, exit))
            .fold(0, |values, automaton| values | (1 << automaton));
        for automata_tested in by_exit[exit].list(transition.source) {
            edges.push(Edge {
                exit_tested: (automata_tested != 0).then_some(exit),
                automata_tested,
                values_needed: values_at & automata_tested,
                ..plain.clone()
            });
        }
    }
}

/// Post sends on "exit(source, exit)" and goes on to pre or the destination.
fn add_post_edges(chart: &Chart, layout: &Layout, edges: &mut Vec<Edge>) {
    for (number, transition) in chart.transitions.iter().enumerate() {
        if let (Some(exit), Some(post)) = (transition.exit, layout.post[number]) {
            let signal = Signal::Send(layout.exit_channel[&(transition.source, exit)]);
            edges.push(signal_edge(layout, post, layout.after_exit(chart, number), signal));
        }
    }
}

/// Pre sends on "enter(destination, entry)" and goes to the destination.
fn add_pre_edges(layout: &Layout, edges: &mut Vec<Edge>) {
    for (&(destination, entry), &pre) in &layout.pre {
        let signal = Signal::Send(layout.enter_channel[&(destination, entry)]);
        edges.push(signal_edge(layout, pre, layout.location_of_child(destination), signal));
    }
}

/// Each sequential state that an entry enters goes from idle to its marked child on "enter".
fn add_enter_edges(chart: &Chart, layout: &Layout, edges: &mut Vec<Edge>) {
    for (&(destination, entry), &channel) in &layout.enter_channel {
        for state in chart.entered(destination, entry) {
            if let (Some(automaton), Some(child)) =
                (layout.automaton[state], chart.marked_child(state, entry))
            {
                let target = layout.location_of_child(child);
                let signal = Signal::Receive(channel);
                edges.push(signal_edge(layout, layout.idle[automaton], target, signal));
            }
        }
    }
}

/// Each sequential state at or below a composite that is left goes to idle on "exit", from every
/// child with a basic state so marked at or below it.
fn add_exit_edges(chart: &Chart, layout: &Layout, edges: &mut Vec<Edge>) {
    for (&(composite, exit), &channel) in &layout.exit_channel {
        for state in chart.at_or_below(composite) {
            if chart.states[state].kind != Kind::Sequential {
                continue;
            }
            for &child in &chart.children[state] {
                if has_marked_basic(chart, child, exit) {
                    let source = layout.location_of_child(child);
                    let idle = layout.idle[layout.locations[source].automaton];
                    edges.push(signal_edge(layout, source, idle, Signal::Receive(channel)));
                }
            }
        }
    }
}

fn has_marked_basic(chart: &Chart, state: usize, exit: usize) -> bool {
    // Only basic states have exit marks.
    chart.at_or_below(state).into_iter().any(|below| chart.states[below].has_exit(exit))
}

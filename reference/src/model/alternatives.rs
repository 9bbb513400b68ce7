//! The alternatives of an exit: which automata must be "at" it for a composite state to complete.
//!
//! An alternative chooses a child of every sequential state met from the composite down, all basic
//! states reached being marked with the exit. It is the set of automata whose chosen child is
//! basic. A plain parallel state counts as a basic one that is marked with the exits that it has.
//! Directly in a parallel state a basic or plain one names no automaton, and if it is not marked,
//! the parallel state has no alternative.
//!
//! The sets of different composite children that are not plain name different automata, so only the
//! basic and plain children of one sequential state can give equal sets: together they count once.

use crate::model::chart::{Chart, Kind};
use crate::model::layout::Layout;

/// The number of different alternatives of each state by one exit.
pub struct Alternatives<'a> {
    chart: &'a Chart,
    layout: &'a Layout,
    exit: usize,
    /// By state; for a basic or plain state 1 if it is marked.
    counts: Vec<u64>,
}

impl<'a> Alternatives<'a> {
    /// Counts without listing: the sum over a sequential state's children, the product over a
    /// parallel state's.
    pub fn of(chart: &'a Chart, layout: &'a Layout, exit: usize) -> Alternatives<'a> {
        let mut alternatives =
            Alternatives { chart, layout, exit, counts: vec![0; chart.states.len()] };
        // Children have greater numbers than their parents.
        for state in (0..chart.states.len()).rev() {
            alternatives.counts[state] = alternatives.count_from_children(state);
        }
        alternatives
    }

    fn count_from_children(&self, state: usize) -> u64 {
        let count = |&child: &usize| self.counts[child];
        match self.chart.states[state].kind {
            Kind::Basic => u64::from(self.is_marked(state)),
            Kind::Sequential => {
                let through_fixed = u64::from(self.has_marked_child(state));
                let through_others = self.other_children(state).map(|child| count(&child));
                through_others.fold(through_fixed, u64::saturating_add)
            }
            Kind::Parallel => {
                self.chart.children[state].iter().map(count).fold(1, u64::saturating_mul)
            }
        }
    }

    /// How many alternatives a state has; `u64::MAX` stands for that many or more.
    pub fn count(&self, state: usize) -> u64 {
        self.counts[state]
    }

    /// The alternatives of a state, bit i for automaton i. No list made on the way is longer than
    /// `count(state)`: a state that cannot complete is left at once.
    pub fn list(&self, state: usize) -> Vec<u16> {
        if self.counts[state] == 0 {
            return Vec::new();
        }
        match self.chart.states[state].kind {
            // It is marked, and nothing has to be tested.
            Kind::Basic => vec![0],
            Kind::Sequential => {
                let mut sets = Vec::new();
                if let (true, Some(automaton)) =
                    (self.has_marked_child(state), self.layout.automaton[state])
                {
                    sets.push(1 << automaton);
                }
                for child in self.other_children(state) {
                    sets.extend(self.list(child));
                }
                sets
            }
            Kind::Parallel => {
                let mut sets = vec![0];
                for &child in &self.chart.children[state] {
                    let choices = self.list(child);
                    sets = sets
                        .into_iter()
                        .flat_map(|set| choices.iter().map(move |choice| set | choice))
                        .collect();
                }
                sets
            }
        }
    }

    /// Whether a basic state is marked with the exit, or all basic states below a plain one are.
    fn is_marked(&self, state: usize) -> bool {
        self.layout.plain.exits(state) & (1 << self.exit) != 0
    }

    /// Whether a sequential state has a basic or plain child that is marked.
    fn has_marked_child(&self, state: usize) -> bool {
        self.chart.children[state].iter().any(|&child| self.is_marked(child))
    }

    /// The children that are neither basic nor plain.
    fn other_children(&self, state: usize) -> impl Iterator<Item = usize> + '_ {
        self.chart.children[state]
            .iter()
            .copied()
            .filter(|&child| !self.layout.plain.is_fixed(child))
    }
}

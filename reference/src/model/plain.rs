//! Plain parallel states: those with no sequential state below them.
//!
//! While a plain state is active, all states below it are. So it has one set of exits and one row of
//! bounds, as a basic state has. Basic and plain states together are called fixed here: no
//! sequential state lies at or below them.

use crate::model::chart::{Chart, Kind};
use crate::model::values::Bounds;

/// What flattening asks of each state of a chart, by the number of the state.
pub struct Plain {
    fixed: Vec<bool>,
    exits: Vec<u8>,
    bounds: Vec<Bounds>,
}

impl Plain {
    /// Asked of charts that pass rule 5.
    pub fn of(chart: &Chart) -> Plain {
        let count = chart.states.len();
        let mut plain = Plain {
            fixed: vec![false; count],
            exits: vec![0; count],
            bounds: chart.states.iter().map(|state| state.bounds).collect(),
        };
        // Children have greater numbers than their parents.
        for state in (0..count).rev() {
            match chart.states[state].kind {
                Kind::Sequential => {}
                Kind::Basic => {
                    plain.fixed[state] = true;
                    plain.exits[state] = chart.states[state].exit_marks;
                }
                Kind::Parallel => plain.add_parallel(state, &chart.children[state]),
            }
        }
        plain
    }

    fn add_parallel(&mut self, state: usize, children: &[usize]) {
        self.fixed[state] = children.iter().all(|&child| self.fixed[child]);
        if self.fixed[state] {
            let exits = children.iter().map(|&child| self.exits[child]);
            self.exits[state] = exits.fold(u8::MAX, |shared, exits| shared & exits);
        }
        for &child in children.iter().filter(|&&child| self.fixed[child]) {
            self.bounds[state] = self.bounds[state].join(&self.bounds[child]);
        }
    }

    /// Whether a state is basic or plain.
    pub fn is_fixed(&self, state: usize) -> bool {
        self.fixed[state]
    }

    /// The exits that a basic state is marked with or that all basic states below a plain one
    /// share; none for another state.
    pub fn exits(&self, state: usize) -> u8 {
        self.exits[state]
    }

    /// A state's own bounds; those of a parallel state joined with the bounds of its basic children
    /// and with those of its plain children, which are joined so themselves.
    pub fn own_bounds(&self, state: usize) -> &Bounds {
        &self.bounds[state]
    }
}

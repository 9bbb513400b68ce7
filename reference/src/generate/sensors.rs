//! Basic states directly in parallel ones, and plain parallel states, of charts made from a seed.

use crate::generate::charts::unmarked;
use crate::generate::random::Random;
use crate::model::chart::{Kind, State};
use crate::model::limits::STATES;

/// Adds this many states to a tree, as far as there is room: basic states in parallel ones at any
/// depth, and parallel states with a basic child in sequential and parallel ones. They may be added
/// to those that were added before. Then all states are numbered anew.
pub fn add_sensors(count: usize, random: &mut Random, states: &mut Vec<State>) {
    let wanted = (states.len() + count).min(STATES);
    let sequential = of_kind(states, Kind::Sequential);
    // The parallel states that can be left and are not plain.
    let mut can_be_left = of_kind(states, Kind::Parallel);
    can_be_left.retain(|&state| sequential.contains(&usize::from(states[state].parent)));
    while states.len() < wanted {
        let mut parallel = of_kind(states, Kind::Parallel);
        if !can_be_left.is_empty() && random.chance(50) {
            parallel.clone_from(&can_be_left);
        }
        let may_be_composite = wanted - states.len() >= 2;
        match random.below(100) {
            0..45 if !parallel.is_empty() => {
                states.push(unmarked(random.pick(&parallel) as u8, Kind::Basic));
            }
            45..65 if may_be_composite && !parallel.is_empty() => {
                add_plain(random.pick(&parallel), random, states);
            }
            65.. if may_be_composite => add_plain(random.pick(&sequential), random, states),
            _ if parallel.is_empty() && !may_be_composite => return,
            _ => {}
        }
    }
    renumber(random, states);
}

fn of_kind(states: &[State], kind: Kind) -> Vec<usize> {
    (0..states.len()).filter(|&number| states[number].kind == kind).collect()
}

/// A parallel state with one basic child.
fn add_plain(parent: usize, random: &mut Random, states: &mut Vec<State>) {
    let number = states.len() as u8;
    states.push(unmarked(parent as u8, Kind::Parallel));
    states.push(unmarked(number, Kind::Basic));
    // With two its basic states may disagree.
    if states.len() < STATES && random.chance(50) {
        states.push(unmarked(number, Kind::Basic));
    }
}

/// Gives the states other numbers, a parent still a smaller one than its children.
fn renumber(random: &mut Random, states: &mut Vec<State>) {
    let mut number = vec![0; states.len()];
    let mut order = vec![0];
    let mut waiting: Vec<usize> = (1..states.len()).collect();
    while !waiting.is_empty() {
        let ready: Vec<usize> = (0..waiting.len())
            .filter(|&place| order.contains(&usize::from(states[waiting[place]].parent)))
            .collect();
        let state = waiting.remove(random.pick(&ready));
        number[state] = order.len();
        order.push(state);
    }
    let renumbered = |&state: &usize| {
        let mut state = states[state].clone();
        if let Some(&parent) = number.get(usize::from(state.parent)) {
            state.parent = parent as u8;
        }
        state
    };
    *states = order.iter().map(renumbered).collect();
}

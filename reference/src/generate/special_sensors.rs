//! Charts made by hand with basic states directly in parallel ones.

use crate::generate::special::{state, transition};
use crate::model::chart::{Chart, Kind, State, Transition};
use crate::model::label::{Declared, Signal};
use crate::model::limits::{CLOCKS, NONE, STATES};
use crate::model::values::Bounds;
use crate::model::version::Version;

/// A state whose clock 0 is at most `bound`.
fn bounded(parent: u8, kind: Kind, entry_marks: u16, exit_marks: u8, bound: u32) -> State {
    let mut one = state(parent, kind, entry_marks, exit_marks);
    one.bounds.0[0] = bound;
    one
}

/// A chart with one clock and two exits.
fn with_one_clock(entries: usize, states: Vec<State>, transitions: Vec<Transition>) -> Chart {
    let declared = Declared { clocks: 1, ..Declared::default() };
    Chart::new(Version::One, declared, entries, 2, states, transitions)
}

/// A parallel root with two basic states and a parallel one below it, and no sequential state: rule
/// 7 refuses it.
pub fn no_sequential_state() -> Chart {
    let states = vec![
        state(NONE, Kind::Parallel, 1, 0),
        state(0, Kind::Basic, 1, 0),
        state(0, Kind::Parallel, 1, 0),
        state(2, Kind::Basic, 1, 0),
    ];
    Chart::new(Version::One, Declared::default(), 1, 0, states, Vec::new())
}

/// A parallel root with a sequential state, a sensor and a plain parallel state. The sequential state
/// has a loop; what holds beside it bounds the clock to 3.
pub fn sensors_in_the_root() -> Chart {
    let states = vec![
        bounded(NONE, Kind::Parallel, 1, 0, 9),
        state(0, Kind::Sequential, 1, 0),
        state(1, Kind::Basic, 1, 0),
        bounded(0, Kind::Basic, 1, 0, 5),
        bounded(0, Kind::Parallel, 1, 0, 7),
        bounded(4, Kind::Basic, 1, 3, 3),
    ];
    with_one_clock(1, states, vec![transition(2, 2, None, None, Signal::None)])
}

/// A plain parallel state that is entered and left: its two sensors share exit 0, and one of them
/// lacks exit 1. The clock is at most 4 in it, 6 in one sensor and 2 in the other.
pub fn plain_between() -> Chart {
    let states = vec![
        state(NONE, Kind::Sequential, 1, 0),
        state(0, Kind::Basic, 1, 0),
        bounded(0, Kind::Parallel, 2, 0, 4),
        bounded(2, Kind::Basic, 2, 3, 6),
        bounded(2, Kind::Basic, 2, 1, 2),
    ];
    let transitions = vec![
        transition(1, 2, None, Some(1), Signal::None),
        transition(2, 1, Some(0), None, Signal::None),
        transition(2, 1, Some(1), None, Signal::None),
        transition(2, 2, Some(0), Some(1), Signal::None),
    ];
    with_one_clock(2, states, transitions)
}

/// A parallel state with a sequential one and a sensor that lacks exit 1: left by exit 0 it has an
/// alternative, and by exit 1 the sensor drops it. The sensor bounds the clock to 2.
pub fn sensor_in_a_choice() -> Chart {
    let states = vec![
        state(NONE, Kind::Sequential, 1, 0),
        state(0, Kind::Basic, 1, 0),
        state(0, Kind::Parallel, 2, 0),
        state(2, Kind::Sequential, 2, 0),
        bounded(2, Kind::Basic, 2, 1, 2),
        state(3, Kind::Basic, 2, 3),
    ];
    let transitions = vec![
        transition(1, 2, None, Some(1), Signal::None),
        transition(2, 1, Some(0), None, Signal::None),
        transition(2, 1, Some(1), None, Signal::None),
    ];
    with_one_clock(2, states, transitions)
}

/// A sequential state with a plain parallel child and a basic one, below a composite that is left. The
/// plain child is "at" exit 0, which its states share, and the basic one is marked with exit 1. By
/// exit 1 there is no alternative all the same: a plain state beside the sequential one lacks it.
pub fn plain_in_a_choice() -> Chart {
    let states = vec![
        state(NONE, Kind::Sequential, 1, 0),
        state(0, Kind::Parallel, 1, 0),
        state(1, Kind::Sequential, 1, 0),
        state(2, Kind::Parallel, 1, 0),
        state(3, Kind::Basic, 1, 3),
        state(3, Kind::Basic, 1, 1),
        state(2, Kind::Basic, 0, 2),
        bounded(1, Kind::Parallel, 1, 0, 8),
        bounded(7, Kind::Basic, 1, 3, 5),
        state(7, Kind::Basic, 1, 1),
    ];
    let transitions = vec![
        transition(3, 6, Some(0), None, Signal::None),
        transition(6, 3, None, Some(0), Signal::None),
        transition(1, 1, Some(0), Some(0), Signal::None),
        transition(1, 1, Some(1), Some(0), Signal::None),
    ];
    with_one_clock(1, states, transitions)
}

/// The charts above that pass.
pub fn with_sensors() -> [Chart; 4] {
    [sensors_in_the_root(), plain_between(), sensor_in_a_choice(), plain_in_a_choice()]
}

/// As many states as there may be, 30 of them sensors: 12 in a parallel state that has four
/// sequential ones, 12 in two plain parallel states in it, one below the other, and 6 in a plain
/// parallel child of the root. All have bounds on all clocks and share the one exit.
pub fn most_sensors() -> Chart {
    let mut states = vec![
        state(NONE, Kind::Sequential, 1, 0),
        state(0, Kind::Basic, 1, 0),
        state(0, Kind::Parallel, 2, 0),
        state(2, Kind::Parallel, 2, 0),
        state(3, Kind::Parallel, 2, 0),
        state(0, Kind::Parallel, 4, 0),
    ];
    let mut transitions = Vec::new();
    for _ in 0..4 {
        let region = states.len();
        states.push(state(2, Kind::Sequential, 2, 0));
        states.push(state(region as u8, Kind::Basic, 2, 1));
        states.push(state(region as u8, Kind::Basic, 0, 0));
        for ends in [(1, 1), (1, 2), (2, 1), (2, 2)].repeat(3) {
            let (source, destination) = (region + ends.0, region + ends.1);
            transitions.push(transition(source, destination, None, None, Signal::None));
        }
    }
    for (parent, count, entry_marks) in [(2, 12, 2), (3, 6, 2), (4, 6, 2), (5, 6, 4)] {
        states.extend((0..count).map(|_| state(parent, Kind::Basic, entry_marks, 1)));
    }
    assert_eq!(states.len(), STATES);
    for (number, state) in states.iter_mut().enumerate() {
        state.bounds = Bounds([1_000_000 - number as u32; CLOCKS]);
    }
    for (composite, entry) in [(2, 1), (5, 2)].repeat(4) {
        transitions.push(transition(1, composite, None, Some(entry), Signal::None));
        transitions.push(transition(composite, 1, Some(0), None, Signal::None));
    }
    let declared = Declared { clocks: CLOCKS, ..Declared::default() };
    Chart::new(Version::One, declared, 3, 1, states, transitions)
}

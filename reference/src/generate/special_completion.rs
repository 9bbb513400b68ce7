//! Charts made by hand in which a step asks most often whether a composite state is completed: 48
//! states and 64 transitions, all of which have composite sources, so that each has an exit. One is
//! deep, the other wide.
//!
//! In both, one transition sends on a broadcast channel, 56 receive, each exit seven times, and seven
//! have no signal. There are no guards, bounds, clocks or variables, and every basic state is marked with
//! every exit: in the start configuration all 64 are active.

use crate::forms::request::Request;
use crate::generate::special::{state, transition};
use crate::model::chart::{Chart, Kind, State, Transition, MAIN_ENTRY, ROOT};
use crate::model::chart_machine;
use crate::model::label::{Declared, Signal};
use crate::model::limits::{AUTOMATA, EXITS, NONE, STATES, TRANSITIONS};
use crate::model::version::Version;

/// The one channel.
const CHANNEL: usize = 0;

/// The entry marks of a state that is active in the start configuration.
const ENTERED: u16 = 1 << MAIN_ENTRY;

/// The exit marks of every basic state: eight exits, eight bits.
pub const EVERY_EXIT: u8 = u8::MAX;

/// The regions of the wide chart, one of which sends.
const REGIONS: usize = 8;

/// In the wide chart each other region has a receiver with each exit. The deep one has as many.
const RECEIVERS: usize = EXITS * (REGIONS - 1);

/// The composite states of the deep chart that lie one below the other, the source of the receivers
/// being the first.
pub const LEVELS: usize = 30;

/// How many of them are parallel and sequential by turns. Two sequential states are the regions.
const MIXED_LEVELS: usize = 2 * (AUTOMATA - 2);

/// A chart while it is made.
struct Draft {
    states: Vec<State>,
    transitions: Vec<Transition>,
}

impl Draft {
    /// A parallel root.
    fn new() -> Draft {
        Draft { states: vec![state(NONE, Kind::Parallel, ENTERED, 0)], transitions: Vec::new() }
    }

    fn push(&mut self, parent: usize, kind: Kind, entry_marks: u16) -> usize {
        let exit_marks = if kind == Kind::Basic { EVERY_EXIT } else { 0 };
        self.states.push(state(parent as u8, kind, entry_marks, exit_marks));
        self.states.len() - 1
    }

    /// A state that is active in the start configuration.
    fn active(&mut self, parent: usize, kind: Kind) -> usize {
        self.push(parent, kind, ENTERED)
    }

    /// A basic child of a sequential state, beside the child that is entered.
    fn inactive(&mut self, parent: usize) -> usize {
        self.push(parent, Kind::Basic, 0)
    }

    /// Active basic children of these states by turns, as many as a chart has room for.
    fn fill(&mut self, parents: &[usize]) {
        let room = STATES - self.states.len();
        for &parent in parents.iter().cycle().take(room) {
            self.active(parent, Kind::Basic);
        }
    }

    /// Transitions have the exits by turns.
    fn next_exit(&self) -> Option<usize> {
        Some(self.transitions.len() % EXITS)
    }

    /// A transition from a composite state to itself.
    fn self_loop(&mut self, composite: usize, signal: Signal) {
        let entry = Some(MAIN_ENTRY);
        self.transitions.push(transition(composite, composite, self.next_exit(), entry, signal));
    }

    /// A transition without signal from a composite state to a basic one.
    fn leave(&mut self, composite: usize, basic: usize) {
        let exit = self.next_exit();
        self.transitions.push(transition(composite, basic, exit, None, Signal::None));
    }

    fn chart(self) -> Chart {
        assert_eq!((self.states.len(), self.transitions.len()), (STATES, TRANSITIONS));
        let declared = Declared { broadcast: 1, ..Declared::default() };
        Chart::new(Version::One, declared, 1, EXITS, self.states, self.transitions)
    }
}

/// A parallel root with two regions, one that sends and one that receives. All receivers have one
/// source, the first of 30 composite states that lie one below the other: 28 are parallel and
/// sequential by turns, so that there are 16 sequential states in all, and the last two are parallel.
/// Nine basic states lie in the last, and two are sensors of the first and of the fifteenth. Two more are
/// children of the first and of the last sequential one of the 30; they are not active in the start
/// configuration, and two transitions without signal lead to them. The first transition without signal
/// has the source of the receivers, the others have sources further down.
pub fn deep() -> Chart {
    let mut draft = Draft::new();
    let sending = draft.active(ROOT, Kind::Sequential);
    let receiving = draft.active(ROOT, Kind::Sequential);
    let sender = draft.active(sending, Kind::Parallel);
    draft.active(sender, Kind::Basic);
    let levels = nested_levels(&mut draft, receiving);
    draft.active(levels[0], Kind::Basic);
    draft.active(levels[14], Kind::Basic);
    let upper = draft.inactive(levels[1]);
    let lower = draft.inactive(levels[MIXED_LEVELS - 1]);
    draft.fill(&levels[LEVELS - 1..]);
    draft.self_loop(sender, Signal::Send(CHANNEL));
    for _ in 0..RECEIVERS {
        draft.self_loop(levels[0], Signal::Receive(CHANNEL));
    }
    // Levels with even numbers are children of sequential states.
    for level in [0, 6, 12, 18, 24] {
        draft.self_loop(levels[level], Signal::None);
    }
    draft.leave(levels[2], upper);
    draft.leave(levels[MIXED_LEVELS], lower);
    draft.chart()
}

/// Composite states, each the child of the one before it and the first a child of `top`.
fn nested_levels(draft: &mut Draft, top: usize) -> Vec<usize> {
    let mut above = top;
    let add = |level: usize| {
        let sequential = level < MIXED_LEVELS && level % 2 == 1;
        let kind = if sequential { Kind::Sequential } else { Kind::Parallel };
        above = draft.active(above, kind);
        above
    };
    (0..LEVELS).map(add).collect()
}

/// A parallel root with eight regions, each with one plain parallel child that has three or four basic
/// states, 31 in all. This child is the source of eight transitions, one for each exit. In the first
/// region one sends and seven have no signal; in the others all receive.
pub fn wide() -> Chart {
    let mut draft = Draft::new();
    let region = |_| {
        let region = draft.active(ROOT, Kind::Sequential);
        draft.active(region, Kind::Parallel)
    };
    let sources: Vec<usize> = (0..REGIONS).map(region).collect();
    draft.fill(&sources);
    draft.self_loop(sources[0], Signal::Send(CHANNEL));
    for number in 0..RECEIVERS {
        draft.self_loop(sources[1 + number / EXITS], Signal::Receive(CHANNEL));
    }
    for _ in 1..EXITS {
        draft.self_loop(sources[0], Signal::None);
    }
    draft.chart()
}

/// The two charts.
pub fn completion_charts() -> [(&'static str, Chart); 2] {
    [("deep", deep()), ("wide", wide())]
}

/// The numbers of the transitions with this signal, as lists have them.
fn with_signal(chart: &Chart, signal: Signal) -> impl Iterator<Item = u16> + '_ {
    let numbers = 0..chart.transitions.len() as u16;
    numbers.filter(move |&number| chart.transitions[usize::from(number)].label.signal == signal)
}

/// The list of the first transition without signal that has this exit. Exit 0 has none.
pub fn plain_list(chart: &Chart, exit: usize) -> Vec<u16> {
    let has_exit = |&number: &u16| chart.transitions[usize::from(number)].exit == Some(exit);
    with_signal(chart, Signal::None).filter(has_exit).take(1).collect()
}

/// The list of the sender, whose exit is 0, and of the first receiver with this exit in each region
/// that receives. No further receiver fits.
pub fn broadcast_list(chart: &Chart, exit: usize) -> Vec<u16> {
    let region = |number: u16| chart.parent_of_transition(usize::from(number));
    let mut list: Vec<u16> = with_signal(chart, Signal::Send(CHANNEL)).collect();
    for number in with_signal(chart, Signal::Receive(CHANNEL)) {
        let new_region = list.iter().all(|&member| region(member) != region(number));
        if new_region && chart.transitions[usize::from(number)].exit == Some(exit) {
            list.push(number);
        }
    }
    list
}

/// A step from the start configuration.
pub fn step_from_start(chart: &Chart, list: Vec<u16>) -> Request {
    Request::ChartStep(chart.write(), chart_machine::start(chart), list)
}

/// A step by one transition without signal, which is accepted.
pub fn plain_step(chart: &Chart) -> Request {
    step_from_start(chart, plain_list(chart, 1))
}

/// A step by a broadcast, which is accepted: whether all receivers are active is asked.
pub fn broadcast_step(chart: &Chart) -> Request {
    step_from_start(chart, broadcast_list(chart, 0))
}

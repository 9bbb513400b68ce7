//! Where the parts of a chart lie in its network: automata, locations, channels and flags.

use std::collections::{BTreeMap, BTreeSet};

use crate::model::chart::{Chart, Kind, ROOT};
use crate::model::chart_machine;
use crate::model::limits::STATES;
use crate::model::network::Location;
use crate::model::plain::Plain;
use crate::model::values::Bounds;

/// What a location of the network stands for.
#[derive(Clone, Copy, PartialEq, Eq, PartialOrd, Ord, Debug)]
pub enum Place {
    /// The sequential state is not active.
    Idle,
    /// This child of it is active.
    Child(usize),
    /// About to enter this destination by this entry.
    Pre(usize, usize),
    /// About to leave the source of this transition by its exit.
    Post(usize),
}

pub struct Layout {
    /// The sequential state of each automaton, ascending.
    pub sequential: Vec<usize>,
    /// The automaton of each state that is sequential.
    pub automaton: Vec<Option<usize>>,
    /// The states without a sequential state at or below them, their exits, and all own bounds.
    pub plain: Plain,
    /// What each location stands for.
    pub places: Vec<Place>,
    pub locations: Vec<Location>,
    /// The exits that each location is "at": those marked on a basic child, and those that all
    /// basic states below a plain one share.
    pub at: Vec<u8>,
    /// The idle location of each automaton.
    pub idle: Vec<usize>,
    /// The location of each state that is the child of a sequential state.
    pub child: Vec<Option<usize>>,
    /// The location of each pair (destination, entry).
    pub pre: BTreeMap<(usize, usize), usize>,
    /// The location of each transition with an exit.
    pub post: Vec<Option<usize>>,
    /// The initial location of each automaton.
    pub initial: Vec<usize>,
    /// The broadcast channel "enter" of each pair (destination, entry).
    pub enter_channel: BTreeMap<(usize, usize), usize>,
    /// The broadcast channel "exit" of each pair (source, exit).
    pub exit_channel: BTreeMap<(usize, usize), usize>,
}

impl Layout {
    pub fn of(chart: &Chart) -> Layout {
        let sequential: Vec<usize> = (0..chart.states.len())
            .filter(|&state| chart.states[state].kind == Kind::Sequential)
            .collect();
        let mut automaton = vec![None; chart.states.len()];
        for (number, &state) in sequential.iter().enumerate() {
            automaton[state] = Some(number);
        }
        let (enter_channel, exit_channel) = added_channels(chart);
        let mut layout = Layout {
            sequential,
            automaton,
            plain: Plain::of(chart),
            places: Vec::new(),
            locations: Vec::new(),
            at: Vec::new(),
            idle: Vec::new(),
            child: vec![None; chart.states.len()],
            pre: BTreeMap::new(),
            post: vec![None; chart.transitions.len()],
            initial: Vec::new(),
            enter_channel,
            exit_channel,
        };
        let initially_active = chart_machine::start(chart).active;
        for number in 0..layout.sequential.len() {
            layout.add_automaton(chart, number, &initially_active);
        }
        layout
    }

    /// Adds the locations of an automaton in order: idle, children, pre, post.
    fn add_automaton(&mut self, chart: &Chart, number: usize, initially_active: &[bool; STATES]) {
        let sequential = self.sequential[number];
        let idle = self.add(number, Place::Idle, Bounds::NONE);
        self.idle.push(idle);
        for &child in &chart.children[sequential] {
            let bounds = carried(chart, &self.plain, child);
            let location = self.add(number, Place::Child(child), bounds);
            self.child[child] = Some(location);
        }
        let own_pairs: Vec<(usize, usize)> = self
            .enter_channel
            .keys()
            .copied()
            .filter(|&(destination, _)| chart.parent(destination) == Some(sequential))
            .collect();
        for pair in own_pairs {
            let bounds = bounds_on_entering(chart, &self.plain, pair.0, pair.1);
            let location = self.add(number, Place::Pre(pair.0, pair.1), bounds);
            self.pre.insert(pair, location);
        }
        for transition in 0..chart.transitions.len() {
            let has_exit = chart.transitions[transition].exit.is_some();
            if has_exit && chart.parent_of_transition(transition) == sequential {
                let bounds = self.locations[self.after_exit(chart, transition)].bounds;
                let location = self.add(number, Place::Post(transition), bounds);
                self.post[transition] = Some(location);
            }
        }
        let initial = chart.children[sequential]
            .iter()
            .find(|&&child| initially_active[child])
            .and_then(|&child| self.child[child])
            .unwrap_or(idle);
        self.locations[initial].initial = true;
        self.initial.push(initial);
    }

    fn add(&mut self, automaton: usize, place: Place, bounds: Bounds) -> usize {
        let urgent = matches!(place, Place::Pre(..) | Place::Post(_));
        self.locations.push(Location { automaton, urgent, initial: false, bounds });
        self.places.push(place);
        self.at.push(match place {
            Place::Child(child) => self.plain.exits(child),
            _ => 0,
        });
        self.locations.len() - 1
    }

    /// The location that a transition reaches once any exit is done: pre or the destination.
    pub fn after_exit(&self, chart: &Chart, transition: usize) -> usize {
        let transition = &chart.transitions[transition];
        match transition.entry {
            Some(entry) => self.pre[&(transition.destination, entry)],
            None => self.location_of_child(transition.destination),
        }
    }

    /// The location that the edges of a transition lead to: post, or what comes after the exit.
    pub fn after_source(&self, chart: &Chart, transition: usize) -> usize {
        self.post[transition].unwrap_or_else(|| self.after_exit(chart, transition))
    }

    /// The location of a child of a sequential state.
    pub fn location_of_child(&self, child: usize) -> usize {
        self.child[child].expect("only children of sequential states are asked for")
    }

    /// The flags of an automaton that is at this location. A flag is 0 exactly while the location
    /// is "at" the exit as the initial location is: so 0 means "at" if the initial location is
    /// "at", and otherwise 1 does.
    pub fn flags(&self, location: usize) -> u8 {
        let initial = self.initial[self.locations[location].automaton];
        self.at[location] ^ self.at[initial]
    }

    /// Whether 1 is the value of an automaton's flag that means "at".
    pub fn one_means_at(&self, automaton: usize, exit: usize) -> bool {
        self.at[self.initial[automaton]] & (1 << exit) == 0
    }
}

type PairChannels = BTreeMap<(usize, usize), usize>;

/// The channels that flattening adds after the chart's own: enter pairs, then exit pairs,
/// each ascending. A pair is used as soon as a transition names it.
fn added_channels(chart: &Chart) -> (PairChannels, PairChannels) {
    let transitions = || chart.transitions.iter();
    let enter_pairs: BTreeSet<(usize, usize)> = transitions()
        .filter_map(|transition| transition.entry.map(|entry| (transition.destination, entry)))
        .collect();
    let exit_pairs: BTreeSet<(usize, usize)> = transitions()
        .filter_map(|transition| transition.exit.map(|exit| (transition.source, exit)))
        .collect();
    let first_enter = chart.declared.channels();
    let first_exit = first_enter + enter_pairs.len();
    (
        enter_pairs.into_iter().zip(first_enter..).collect(),
        exit_pairs.into_iter().zip(first_exit..).collect(),
    )
}

/// A state's bounds, joined with those of each state above it for as long as that one is the
/// root or a parallel state's child.
fn carried(chart: &Chart, plain: &Plain, state: usize) -> Bounds {
    let mut bounds = *plain.own_bounds(state);
    let mut next = chart.parent(state);
    while let Some(above) = next {
        next = chart.parent(above);
        let child_of_parallel =
            next.is_some_and(|parent| chart.states[parent].kind == Kind::Parallel);
        if above != ROOT && !child_of_parallel {
            break;
        }
        bounds = bounds.join(plain.own_bounds(above));
    }
    bounds
}

/// The joined bounds of all states that the entry enters, the destination included, each with
/// what it carries from above.
fn bounds_on_entering(chart: &Chart, plain: &Plain, destination: usize, entry: usize) -> Bounds {
    chart
        .entered(destination, entry)
        .into_iter()
        .fold(Bounds::NONE, |bounds, state| bounds.join(&carried(chart, plain, state)))
}

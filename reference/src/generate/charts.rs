//! Charts made from a seed. Every one passes the check.

use std::rc::Rc;

use crate::generate::random::Random;
use crate::generate::range::{end_expression, most_levels};
use crate::generate::sensors::add_sensors;
use crate::generate::updates::Writable;
use crate::model::chart::{Chart, Kind, State, Transition, MAIN_ENTRY};
use crate::model::expression::Expression;
use crate::model::guard::{Guard, Relation};
use crate::model::label::{Declared, Label, Signal};
use crate::model::limits::{AUTOMATA, FEWEST_STATES, LARGEST, NONE, STATES, TRANSITIONS};
use crate::model::plain::Plain;
use crate::model::values::Bounds;
use crate::model::version::Version;

/// What kind of chart is wanted. Percentages are chances.
#[derive(Clone, Copy, Debug)]
pub struct Wish {
    pub version: Version,
    /// If not 0, a parallel root with this many sequential children, each with two sequential
    /// children and a basic one; otherwise a random tree.
    pub regions: usize,
    pub states: usize,
    /// How many of the states are basic states directly in parallel ones, or belong to parallel
    /// states with no sequential state below them. If 0, there are none of either.
    pub sensors: usize,
    pub sequential: usize,
    /// That a child large enough to be composite is composite.
    pub composite: usize,
    /// That a composite child is parallel.
    pub parallel: usize,
    /// Most children of one state.
    pub children: usize,
    pub entries: usize,
    pub exits: usize,
    /// That a basic state is marked with an exit.
    pub exit_marks: usize,
    pub transitions: usize,
    pub clocks: usize,
    pub variables: usize,
    pub rendezvous: usize,
    pub broadcast: usize,
    /// That a transition with a composite end has a signal.
    pub signals: usize,
    /// That another transition has a signal.
    pub basic_signals: usize,
    /// That a signal is received rather than sent.
    pub receivers: usize,
    /// That a state has a bound on a clock.
    pub bounds: usize,
    /// That a transition has a guard; twice as likely to have the first as the second.
    pub guards: usize,
    /// That a transition without receiver assigns.
    pub assignments: usize,
    /// Where there are advances: that a transition that assigns has them.
    pub advances: usize,
    /// Where there are advances: most pairs of variables that one advance alone writes.
    pub take_ups: usize,
    /// That an expression, or one in it, has numbers at the ends of the range. If 0, the others are
    /// drawn as they were before there was this.
    pub ends: usize,
    /// That a transition leads back to its source.
    pub self_loops: usize,
    /// That an end of a transition is composite where it can be.
    pub composite_ends: usize,
}

impl Wish {
    /// A wish of middle size.
    pub const ORDINARY: Wish = Wish {
        version: Version::One,
        regions: 0,
        states: 20,
        sensors: 0,
        sequential: 8,
        composite: 50,
        parallel: 40,
        children: 4,
        entries: 4,
        exits: 3,
        exit_marks: 60,
        transitions: 30,
        clocks: 3,
        variables: 4,
        rendezvous: 2,
        broadcast: 2,
        signals: 40,
        basic_signals: 40,
        receivers: 65,
        bounds: 15,
        guards: 30,
        assignments: 40,
        advances: 60,
        take_ups: 1,
        ends: 0,
        self_loops: 15,
        composite_ends: 50,
    };

    /// The wish that belongs to a seed: seeds run through all kinds of charts in turn, first in one
    /// version, then in the next, then through all that again with sensors, and then through all that
    /// again with numbers at the ends of the range.
    pub fn from_seed(seed: u64) -> Wish {
        let mut random = Random::new(seed ^ 0x5741_4E54);
        let ordinary = Wish::ORDINARY;
        let wish = match seed % 8 {
            // Small charts.
            0 => Wish {
                states: random.between(2, 8),
                sequential: 3,
                transitions: random.between(0, 10),
                entries: random.between(1, 3),
                exits: random.between(0, 2),
                clocks: random.between(0, 2),
                variables: random.between(0, 2),
                rendezvous: random.between(0, 1),
                broadcast: random.between(0, 1),
                ..ordinary
            },
            1 => Wish { states: random.between(9, 24), ..ordinary },
            // Deep nesting.
            2 => Wish {
                states: random.between(24, STATES),
                sequential: AUTOMATA,
                composite: 95,
                parallel: 45,
                children: 2,
                exit_marks: 85,
                ..ordinary
            },
            // Many receivers of one broadcast.
            3 => Wish {
                states: random.between(24, STATES),
                sequential: AUTOMATA,
                composite: 90,
                parallel: random.between(40, 80),
                children: random.between(4, 12),
                transitions: TRANSITIONS,
                entries: 2,
                exits: 1,
                rendezvous: 0,
                broadcast: 1,
                signals: 90,
                basic_signals: 85,
                receivers: 75,
                bounds: 5,
                guards: 10,
                exit_marks: 90,
                composite_ends: 90,
                ..ordinary
            },
            // Broadcasts on which many composite states are left and entered at once.
            4 if random.chance(50) => Wish {
                regions: random.between(2, 5),
                transitions: TRANSITIONS,
                entries: 2,
                exits: 1,
                rendezvous: 0,
                broadcast: 1,
                signals: 95,
                basic_signals: 0,
                bounds: 3,
                guards: 10,
                exit_marks: 95,
                composite_ends: 90,
                ..ordinary
            },
            // Exits with several alternatives.
            4 => Wish {
                states: random.between(16, 40),
                sequential: random.between(6, AUTOMATA),
                composite: 70,
                exits: 1,
                exit_marks: 90,
                signals: 15,
                basic_signals: 15,
                self_loops: 40,
                ..ordinary
            },
            // Bounds everywhere, all clocks.
            5 => Wish {
                states: random.between(12, 36),
                clocks: 8,
                bounds: 45,
                guards: 50,
                ..ordinary
            },
            // Much data, all variables.
            6 => Wish {
                states: random.between(8, 30),
                variables: 16,
                guards: 60,
                assignments: 90,
                signals: 20,
                basic_signals: 20,
                ..ordinary
            },
            // The largest sizes.
            _ => Wish {
                states: STATES,
                sequential: AUTOMATA,
                children: 6,
                entries: 16,
                exits: 8,
                transitions: TRANSITIONS,
                clocks: 8,
                variables: 16,
                rendezvous: 8,
                broadcast: 8,
                ..ordinary
            },
        };
        let version = Version::ALL[(seed / 8) as usize % Version::ALL.len()];
        let wish = Wish { transitions: wish.transitions.min(TRANSITIONS), version, ..wish };
        let wish = wish.with_more_updates(&mut random);
        let wish = if (seed / 16) % 2 == 1 { wish.with_sensors(&mut random) } else { wish };
        if (seed / 32) % 2 == 1 {
            wish.with_ends()
        } else {
            wish
        }
    }

    /// With numbers at the ends of the range, and with guards and updates in which they are.
    fn with_ends(self) -> Wish {
        Wish {
            variables: self.variables.max(2),
            guards: self.guards.max(40),
            assignments: self.assignments.max(70),
            ends: 35,
            ..self
        }
    }

    /// With sensors, from one to about half of the states, and mostly with an exit for them.
    fn with_sensors(self, random: &mut Random) -> Wish {
        let states = self.states.max(5);
        let sensors = random.between(1, 2 + states / 2);
        let exits = self.exits.max(random.between(0, 1));
        let transitions = self.transitions.max(4);
        let parallel = self.parallel.max(60);
        // So that it is often a sensor alone that keeps an exit shut.
        let exit_marks = self.exit_marks.max(80);
        Wish { states, sensors, exits, transitions, parallel, exit_marks, ..self }
    }

    /// Where there are advances, more transitions assign, so that runs make many advances.
    fn with_more_updates(self, random: &mut Random) -> Wish {
        if !self.version.has_advances() {
            return self;
        }
        let take_ups = random.between(0, 2);
        Wish { assignments: self.assignments.max(60), take_ups, ..self }
    }
}

/// The chart of a seed.
pub fn chart_from_seed(seed: u64) -> Chart {
    chart_from_wish(&Wish::from_seed(seed), seed)
}

/// A chart as wished. It may have fewer transitions than wished where none fit.
pub fn chart_from_wish(wish: &Wish, seed: u64) -> Chart {
    let mut random = Random::new(seed);
    let declared = Declared {
        clocks: wish.clocks,
        variables: wish.variables,
        rendezvous: wish.rendezvous,
        broadcast: wish.broadcast,
    };
    let mut states = match wish.regions {
        0 => {
            let others = wish.states.saturating_sub(wish.sensors).max(FEWEST_STATES);
            tree(&Wish { states: others, ..*wish }, &mut random)
        }
        count => regions(count),
    };
    if wish.sensors > 0 {
        add_sensors(wish.sensors, &mut random, &mut states);
    }
    mark_entries(wish, &mut random, &mut states);
    mark_exits(wish, &mut random, &mut states);
    set_bounds(wish, &mut random, &mut states);
    let mut chart =
        Chart::new(wish.version, declared, wish.entries, wish.exits, states, Vec::new());
    let writable = Writable::of(wish, &mut random);
    add_transitions(wish, &writable, &mut random, &mut chart);
    chart
}

/// A state without marks and bounds.
pub fn unmarked(parent: u8, kind: Kind) -> State {
    State { parent, kind, entry_marks: 0, exit_marks: 0, bounds: Bounds::NONE }
}

/// The states of a chart with regions.
fn regions(count: usize) -> Vec<State> {
    let mut states = vec![unmarked(NONE, Kind::Parallel)];
    for _ in 0..count {
        let region = states.len() as u8;
        states.push(unmarked(0, Kind::Sequential));
        states.push(unmarked(region, Kind::Basic));
        for _ in 0..2 {
            let inner = states.len() as u8;
            states.push(unmarked(region, Kind::Sequential));
            states.extend([unmarked(inner, Kind::Basic), unmarked(inner, Kind::Basic)]);
        }
    }
    states
}

/// A state that may still become composite, with the number of states it may hold, itself included.
struct Open {
    parent: usize,
    size: usize,
    must_be_composite: bool,
}

/// The states with parents and kinds. A parent has a smaller number than its children; apart from
/// that the order is random.
fn tree(wish: &Wish, random: &mut Random) -> Vec<State> {
    let mut sequential_left = wish.sequential.clamp(1, AUTOMATA);
    let mut states = Vec::new();
    let mut open = Vec::new();
    // With sensors one sequential child is enough, and a parallel state that can be left is wanted
    // more than a parallel root.
    let (fewest_regions, fewest_states, root_chance) =
        if wish.sensors > 0 { (1, 3, wish.parallel * 2 / 3) } else { (2, 7, wish.parallel) };
    let root_may_be_parallel = wish.states >= fewest_states && sequential_left >= fewest_regions;
    let root_is_parallel = root_may_be_parallel && random.chance(root_chance);
    let root_kind = if root_is_parallel { Kind::Parallel } else { Kind::Sequential };
    states.push(unmarked(NONE, root_kind));
    sequential_left -= usize::from(root_kind == Kind::Sequential);
    open_children(wish, random, 0, root_kind, wish.states - 1, &mut sequential_left, &mut open);
    while !open.is_empty() {
        let Open { parent, size, must_be_composite } = open.swap_remove(random.below(open.len()));
        let number = states.len();
        // A sequential state that a parallel parent needs was taken from the number left already.
        let may_be_sequential = must_be_composite || (size >= 2 && sequential_left >= 1);
        let may_be_parallel = size > 2 * fewest_regions && sequential_left >= fewest_regions;
        let composite = must_be_composite || (may_be_sequential && random.chance(wish.composite));
        let kind = match (composite, may_be_parallel && random.chance(wish.parallel)) {
            (false, _) => Kind::Basic,
            (true, false) => Kind::Sequential,
            (true, true) => Kind::Parallel,
        };
        states.push(unmarked(parent as u8, kind));
        match (kind, must_be_composite) {
            (Kind::Sequential, false) => sequential_left -= 1,
            (Kind::Parallel, true) => sequential_left += 1,
            _ => {}
        }
        if kind != Kind::Basic {
            open_children(wish, random, number, kind, size - 1, &mut sequential_left, &mut open);
        }
    }
    // What basic states did not use becomes further basic states.
    let sequential: Vec<usize> =
        (0..states.len()).filter(|&number| states[number].kind == Kind::Sequential).collect();
    while states.len() < wish.states {
        states.push(unmarked(random.pick(&sequential) as u8, Kind::Basic));
    }
    states
}

/// Divides `size` states among the children of a composite state.
fn open_children(
    wish: &Wish,
    random: &mut Random,
    parent: usize,
    kind: Kind,
    size: usize,
    sequential_left: &mut usize,
    open: &mut Vec<Open>,
) {
    let must_be_composite = kind == Kind::Parallel;
    let least = if must_be_composite { 2 } else { 1 };
    let mut most = (size / least).min(wish.children.max(1));
    if must_be_composite {
        most = most.min(*sequential_left);
    }
    // One child in parallel is possible but rare.
    let fewest = if most >= 2 && random.chance(90) { 2 } else { 1 };
    let count = random.between(fewest.min(most), most);
    if must_be_composite {
        *sequential_left -= count;
    }
    let mut sizes = vec![least; count];
    let mut left = size - least * count;
    while left > 0 {
        // Several at a time, so that some children are large.
        let part = random.between(1, left);
        sizes[random.below(count)] += part;
        left -= part;
    }
    open.extend(sizes.into_iter().map(|size| Open { parent, size, must_be_composite }));
}

/// Entry marks by the rules: a parallel child's are its parent's, a sequential state's are each
/// on one child. Other entries go to some child or to none.
fn mark_entries(wish: &Wish, random: &mut Random, states: &mut [State]) {
    states[0].entry_marks = 1 << MAIN_ENTRY;
    for parent in 0..states.len() {
        let children: Vec<usize> = (parent + 1..states.len())
            .filter(|&number| usize::from(states[number].parent) == parent)
            .collect();
        let marks = states[parent].entry_marks;
        match states[parent].kind {
            Kind::Basic => {}
            Kind::Parallel => {
                for child in children {
                    states[child].entry_marks = marks;
                }
            }
            Kind::Sequential => {
                for entry in 0..wish.entries {
                    if marks & (1 << entry) != 0 || random.chance(70) {
                        states[random.pick(&children)].entry_marks |= 1 << entry;
                    }
                }
            }
        }
    }
}

/// Sensors are marked more often than others, since one that is not keeps an exit shut.
fn mark_exits(wish: &Wish, random: &mut Random, states: &mut [State]) {
    for number in 0..states.len() {
        if states[number].kind != Kind::Basic {
            continue;
        }
        let in_parallel = states[usize::from(states[number].parent)].kind == Kind::Parallel;
        let chance = match in_parallel {
            true if random.chance(5) => 0,
            true => wish.exit_marks.max(85),
            false => wish.exit_marks,
        };
        for exit in 0..wish.exits {
            if random.chance(chance) {
                states[number].exit_marks |= 1 << exit;
            }
        }
    }
}

fn set_bounds(wish: &Wish, random: &mut Random, states: &mut [State]) {
    for state in states {
        for clock in 0..wish.clocks {
            if random.chance(wish.bounds) {
                state.bounds.0[clock] = small_bound(random);
            }
        }
    }
}

/// Mostly small, so that runs meet it.
fn small_bound(random: &mut Random) -> u32 {
    match random.below(12) {
        0 => 0,
        1 => LARGEST,
        _ => random.between(1, 30) as u32,
    }
}

fn add_transitions(wish: &Wish, writable: &Writable, random: &mut Random, chart: &mut Chart) {
    let sequential: Vec<usize> = (0..chart.states.len())
        .filter(|&state| chart.states[state].kind == Kind::Sequential)
        .collect();
    for _ in 0..wish.transitions {
        // Some choices do not fit; a few trials are enough.
        let transition =
            (0..8).find_map(|_| one_transition(wish, writable, random, chart, &sequential));
        chart.transitions.extend(transition);
    }
}

fn one_transition(
    wish: &Wish,
    writable: &Writable,
    random: &mut Random,
    chart: &Chart,
    sequential: &[usize],
) -> Option<Transition> {
    let parent = random.pick(sequential);
    let children = &chart.children[parent];
    let composite: Vec<usize> =
        children.iter().copied().filter(|&child| chart.states[child].is_composite()).collect();
    let mut one_end = || {
        if !composite.is_empty() && random.chance(wish.composite_ends) {
            random.pick(&composite)
        } else {
            random.pick(children)
        }
    };
    let source = one_end();
    let destination = one_end();
    let destination = if random.chance(wish.self_loops) { source } else { destination };
    let exit = match chart.states[source].is_composite() {
        true if wish.exits == 0 => return None,
        true => Some(one_exit(wish, random, chart, source)),
        false => None,
    };
    let entry = match chart.states[destination].is_composite() {
        true => {
            let marks: Vec<usize> = (0..wish.entries)
                .filter(|&entry| chart.states[destination].has_entry(entry))
                .collect();
            if marks.is_empty() {
                return None;
            }
            Some(random.pick(&marks))
        }
        false => None,
    };
    let chance = if exit.or(entry).is_some() { wish.signals } else { wish.basic_signals };
    let signal =
        if random.chance(chance) { one_signal(wish, random, chart, parent) } else { Signal::None };
    let label = Rc::new(one_label(wish, writable, random, signal));
    Some(Transition { source, destination, exit, entry, label })
}

/// Any exit; for a plain source mostly one that all its states share, if there is one.
fn one_exit(wish: &Wish, random: &mut Random, chart: &Chart, source: usize) -> usize {
    let exits = Plain::of(chart).exits(source);
    let shared: Vec<usize> = (0..wish.exits).filter(|&exit| exits & (1 << exit) != 0).collect();
    if !shared.is_empty() && random.chance(70) {
        random.pick(&shared)
    } else {
        random.below(wish.exits)
    }
}

/// A signal on a channel that no transition above or below `parent` uses, or none.
fn one_signal(wish: &Wish, random: &mut Random, chart: &Chart, parent: usize) -> Signal {
    let channels = chart.declared.channels();
    if channels == 0 {
        return Signal::None;
    }
    let channel = random.below(channels);
    let nested = (0..chart.transitions.len())
        .filter(|&number| chart.transitions[number].label.signal.channel() == Some(channel))
        .map(|number| chart.parent_of_transition(number))
        .any(|other| chart.is_below(other, parent) || chart.is_below(parent, other));
    if nested {
        Signal::None
    } else if random.chance(wish.receivers) {
        Signal::Receive(channel)
    } else {
        Signal::Send(channel)
    }
}

fn one_label(wish: &Wish, writable: &Writable, random: &mut Random, signal: Signal) -> Label {
    let mut label = Label::of_signal(signal);
    for clock in 0..wish.clocks {
        if random.chance(20) {
            label.resets |= 1 << clock;
        }
    }
    if random.chance(wish.guards) {
        label.guards.extend(one_guard(wish, random));
        if random.chance(50) {
            label.guards.extend(one_guard(wish, random));
        }
    }
    let assigns = wish.variables > 0
        && !matches!(signal, Signal::Receive(_))
        && random.chance(wish.assignments);
    if assigns {
        label.updates = writable.updates(wish, random);
    }
    label
}

/// Guards that hold about as often as not.
fn one_guard(wish: &Wish, random: &mut Random) -> Option<Guard> {
    let relation = random.pick(&Relation::ALL);
    match random.below(3) {
        0 if wish.variables > 0 => {
            let levels = [3, 2].map(|ordinary| most_levels(wish, random, ordinary));
            let [left, right] = levels.map(|levels| one_expression(wish, random, levels));
            Some(Guard::Data { relation, left, right })
        }
        1 if wish.clocks > 0 => Some(Guard::Clock {
            clock: random.below(wish.clocks),
            relation,
            constant: random.below(12) as u32,
        }),
        2 if wish.clocks > 0 => Some(Guard::Difference {
            first: random.below(wish.clocks),
            second: random.below(wish.clocks),
            relation,
            constant: random.below(6) as u32,
        }),
        _ => None,
    }
}

/// An expression of at most this many levels.
pub fn one_expression(wish: &Wish, random: &mut Random, levels: usize) -> Expression {
    if wish.ends > 0 && random.chance(wish.ends) {
        return end_expression(wish, random, levels);
    }
    if levels <= 1 || random.chance(25) {
        return if wish.variables > 0 && random.chance(60) {
            Expression::Variable(random.below(wish.variables))
        } else {
            Expression::Constant(one_constant(random))
        };
    }
    let mut argument = || Box::new(one_expression(wish, random, levels - 1));
    let first = argument();
    let second = argument();
    match random.below(5) {
        0 => Expression::Sum(first, second),
        1 => Expression::Difference(first, second),
        2 => Expression::Product(first, second),
        3 => Expression::Quotient(first, one_divisor(random)),
        _ => Expression::Remainder(first, one_divisor(random)),
    }
}

fn one_constant(random: &mut Random) -> i32 {
    match random.below(10) {
        0 => i32::MAX,
        1 => i32::MIN,
        _ => random.between(0, 20) as i32 - 10,
    }
}

fn one_divisor(random: &mut Random) -> i32 {
    match random.below(10) {
        0 => i32::MAX,
        _ => random.between(1, 7) as i32,
    }
}

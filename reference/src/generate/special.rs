//! Charts made by hand: samples of the paper, and charts at the limits of what is accepted.

use std::rc::Rc;

use crate::model::chart::{Chart, Kind, State, Transition};
use crate::model::expression::Expression;
use crate::model::guard::{Guard, Relation};
use crate::model::label::{Declared, Label, Signal};
use crate::model::limits::{AUTOMATA, CHART_BYTES, CLOCKS, LEVELS, NONE, STATES, TRANSITIONS};
use crate::model::update::{Advance, Update};
use crate::model::values::Bounds;
use crate::model::version::Version;

/// A state without bounds.
pub fn state(parent: u8, kind: Kind, entry_marks: u16, exit_marks: u8) -> State {
    State { parent, kind, entry_marks, exit_marks, bounds: Bounds::NONE }
}

/// A transition with a signal only.
pub fn transition(
    source: usize,
    destination: usize,
    exit: Option<usize>,
    entry: Option<usize>,
    signal: Signal,
) -> Transition {
    Transition { source, destination, exit, entry, label: Rc::new(Label::of_signal(signal)) }
}

/// A sequential state with one basic child, which has a transition to itself.
pub fn one_loop(version: Version, declared: Declared, label: Label) -> Chart {
    let states = vec![state(NONE, Kind::Sequential, 1, 0), state(0, Kind::Basic, 1, 0)];
    let label = Rc::new(label);
    let one = Transition { source: 1, destination: 1, exit: None, entry: None, label };
    Chart::new(version, declared, 1, 0, states, vec![one])
}

/// A loop of version 2 with three variables and these updates.
pub fn one_pick(updates: Vec<Update>) -> Chart {
    let declared = Declared { variables: 3, ..Declared::default() };
    one_loop(Version::Two, declared, Label { updates, ..Label::of_signal(Signal::None) })
}

/// As many transitions as there may be, each with eight advances on all 16 variables: eight basic
/// states of which each leads to each.
pub fn most_advances() -> Chart {
    let mut states = vec![state(NONE, Kind::Sequential, 1, 0)];
    states.extend((0..8).map(|number| state(0, Kind::Basic, u16::from(number == 0), 0)));
    let advance = |pair: usize, number: usize| Advance {
        steps: 2 * pair,
        remainder: 2 * pair + 1,
        numerator: (1_000 * pair + 7 * number) as u16,
        denominator: (1 + 500 * pair + 3 * number) as u16,
    };
    let transitions = (0..TRANSITIONS).map(|number| {
        let updates = (0..8).map(|pair| Update::Advance(advance(pair, number))).collect();
        let label = Rc::new(Label { updates, ..Label::of_signal(Signal::None) });
        let (source, destination) = (1 + number / 8, 1 + number % 8);
        Transition { source, destination, exit: None, entry: None, label }
    });
    let declared = Declared { variables: 16, ..Declared::default() };
    Chart::new(Version::Two, declared, 1, 0, states, transitions.collect())
}

/// Sample S1: two basic states and a transition between them.
pub fn sample_1() -> Chart {
    let states = vec![
        state(NONE, Kind::Sequential, 1, 0),
        state(0, Kind::Basic, 1, 0),
        state(0, Kind::Basic, 0, 0),
    ];
    let transitions = vec![transition(1, 2, None, None, Signal::None)];
    Chart::new(Version::One, Declared::default(), 1, 0, states, transitions)
}

/// Sample S3: a composite state that is entered and left.
pub fn sample_3() -> Chart {
    let states = vec![
        state(NONE, Kind::Sequential, 1, 0),
        state(0, Kind::Basic, 1, 0),
        state(0, Kind::Sequential, 2, 0),
        state(2, Kind::Basic, 2, 1),
    ];
    let transitions = vec![
        transition(1, 2, None, Some(1), Signal::None),
        transition(2, 1, Some(0), None, Signal::None),
    ];
    Chart::new(Version::One, Declared::default(), 2, 1, states, transitions)
}

/// A parallel root with eight children. Each has a composite child that leaves and enters itself
/// on one broadcast: the first sends, the others receive. One step owes 16 urgent moves.
pub fn broadcast_of_self_loops() -> Chart {
    let mut states = vec![state(NONE, Kind::Parallel, 1, 0)];
    let mut transitions = Vec::new();
    for number in 0..8 {
        let outer = states.len();
        let composite = outer + 1;
        states.push(state(0, Kind::Sequential, 1, 0));
        states.push(state(outer as u8, Kind::Sequential, 1, 0));
        states.push(state(composite as u8, Kind::Basic, 1, 1));
        let signal = if number == 0 { Signal::Send(0) } else { Signal::Receive(0) };
        transitions.push(transition(composite, composite, Some(0), Some(0), signal));
    }
    Chart::new(
        Version::One,
        Declared { broadcast: 1, ..Declared::default() },
        1,
        1,
        states,
        transitions,
    )
}

/// A sequential root with a basic state and, entered first, a parallel state without children.
fn parallel_beside_basic() -> Vec<State> {
    vec![
        state(NONE, Kind::Sequential, 1, 0),
        state(0, Kind::Basic, 0, 0),
        state(0, Kind::Parallel, 1, 0),
    ]
}

/// States of which number 2 completes by one exit in 3^5 ways.
fn states_with_243_alternatives() -> Vec<State> {
    let mut states = parallel_beside_basic();
    for _ in 0..5 {
        let region = states.len() as u8;
        states.push(state(2, Kind::Sequential, 1, 0));
        states.push(state(region, Kind::Basic, 1, 1));
        for _ in 0..2 {
            let inner = states.len() as u8;
            states.push(state(region, Kind::Sequential, 0, 0));
            states.push(state(inner, Kind::Basic, 0, 1));
        }
    }
    states
}

/// A chart whose network has this many edges, from 1,001 to 1,061. Its state 2 completes by one
/// exit in 3^5 ways and is left by four transitions; other transitions make up the number.
pub fn chart_with_edges(edges: usize) -> Chart {
    // Four transitions have 243 edges to post and one from it each; 25 edges hear the exit.
    let mut transitions = vec![transition(2, 1, Some(0), None, Signal::None); 4];
    let others = edges.saturating_sub(4 * (243 + 1) + 25).min(TRANSITIONS - 4);
    transitions.extend(vec![transition(1, 1, None, None, Signal::None); others]);
    Chart::new(Version::One, Declared::default(), 1, 1, states_with_243_alternatives(), transitions)
}

/// As many transitions as there may be, each with 243 alternatives: over 15,000 edges, which is
/// refused.
pub fn most_alternatives() -> Chart {
    let transitions = vec![transition(2, 1, Some(0), None, Signal::None); TRANSITIONS];
    Chart::new(Version::One, Declared::default(), 1, 1, states_with_243_alternatives(), transitions)
}

/// A chart with a network of some 16 million bytes: nearly all of its 65,536 bytes are labels of
/// the four transitions that have 243 edges each.
pub fn longest_network() -> Chart {
    let mut chart = chart_with_edges(1001);
    chart.declared.variables = 16;
    fill_with_guards(&mut chart, &[0, 1, 2, 3]);
    chart
}

/// Fifteen sequential states in parallel, each with two marked basic children: the 2^15 choices of
/// children are one alternative.
pub fn many_equal_choices() -> Chart {
    let mut states = parallel_beside_basic();
    for _ in 0..15 {
        let region = states.len() as u8;
        states.push(state(2, Kind::Sequential, 1, 0));
        states.push(state(region, Kind::Basic, 1, 1));
        states.push(state(region, Kind::Basic, 0, 1));
    }
    let transitions = vec![transition(2, 1, Some(0), None, Signal::None)];
    Chart::new(Version::One, Declared::default(), 1, 1, states, transitions)
}

/// A sequential root with a basic child and this many sequential ones: with 16 of them there are
/// 17 sequential states.
pub fn chart_with_sequential_children(count: usize) -> Chart {
    let mut states = vec![state(NONE, Kind::Sequential, 1, 0), state(0, Kind::Basic, 1, 0)];
    for _ in 0..count {
        let number = states.len() as u8;
        states.push(state(0, Kind::Sequential, 0, 0));
        states.push(state(number, Kind::Basic, 0, 0));
    }
    Chart::new(Version::One, Declared::default(), 1, 0, states, Vec::new())
}

/// Two nested sequential states with a transition each on one channel: rule 14 refuses it.
pub fn nested_channel() -> Chart {
    let states = vec![
        state(NONE, Kind::Sequential, 1, 0),
        state(0, Kind::Sequential, 1, 0),
        state(1, Kind::Basic, 1, 1),
    ];
    let transitions = vec![
        transition(2, 2, None, None, Signal::Send(0)),
        transition(1, 1, Some(0), Some(0), Signal::Receive(0)),
    ];
    Chart::new(
        Version::One,
        Declared { rendezvous: 1, ..Declared::default() },
        1,
        1,
        states,
        transitions,
    )
}

/// A parallel root with two sequential children. One sends on a rendezvous channel by a guarded
/// transition that swaps two variables, the other receives.
pub fn rendezvous_with_swap(guard: Guard) -> Chart {
    let states = vec![
        state(NONE, Kind::Parallel, 1, 0),
        state(0, Kind::Sequential, 1, 0),
        state(1, Kind::Basic, 1, 0),
        state(0, Kind::Sequential, 1, 0),
        state(3, Kind::Basic, 1, 0),
    ];
    let swap = vec![
        Update::assignment(0, Expression::Variable(1)),
        Update::assignment(1, Expression::Variable(0)),
    ];
    let label = Label { signal: Signal::Send(0), resets: 1, guards: vec![guard], updates: swap };
    let transitions = vec![
        Transition { source: 2, destination: 2, exit: None, entry: None, label: Rc::new(label) },
        transition(4, 4, None, None, Signal::Receive(0)),
    ];
    let declared = Declared { clocks: 2, variables: 2, rendezvous: 1, broadcast: 0 };
    Chart::new(Version::One, declared, 1, 0, states, transitions)
}

/// A parallel root with two sequential children. One sends on a broadcast channel, the other receives
/// by a guarded transition.
pub fn guarded_receiver(guard: Guard) -> Chart {
    let mut chart = rendezvous_with_swap(guard);
    let guarded = Rc::clone(&chart.transitions[0].label);
    let sends = Label::of_signal(Signal::Send(0));
    let receives = Label { guards: guarded.guards.clone(), ..Label::of_signal(Signal::Receive(0)) };
    chart.transitions[0].label = Rc::new(sends);
    chart.transitions[1].label = Rc::new(receives);
    chart.declared = Declared { rendezvous: 0, broadcast: 1, ..chart.declared };
    chart
}

/// A chart at every limit that fits together: 48 states, 16 of them sequential, a network of 1,024
/// edges, and a file of nearly 65,536 bytes.
pub fn largest() -> Chart {
    let mut chart = chart_with_edges(1024);
    chart.declared = Declared { clocks: 8, variables: 16, rendezvous: 8, broadcast: 8 };
    let mut states = chart.states;
    while states.len() < STATES {
        states.push(state(0, Kind::Basic, 0, 0));
    }
    for state in &mut states {
        state.bounds = Bounds([1_000_000; CLOCKS]);
    }
    let mut transitions = chart.transitions;
    // Long labels on the transitions that have one edge each.
    let plain: Vec<usize> = (4..transitions.len()).collect();
    for &number in &plain {
        transitions[number].label = Rc::new(long_label());
    }
    let mut chart = Chart::new(Version::One, chart.declared, 1, 1, states, transitions);
    let sequential = chart.states.iter().filter(|state| state.kind == Kind::Sequential).count();
    assert_eq!(sequential, AUTOMATA);
    fill_with_guards(&mut chart, &plain);
    chart
}

/// As many guards more as the file has room for, by turns on these transitions.
fn fill_with_guards(chart: &mut Chart, numbers: &[usize]) {
    let mut next = 0;
    while chart.write().len() + long_guard_length() <= CHART_BYTES {
        let number = numbers[next % numbers.len()];
        let mut label = (*chart.transitions[number].label).clone();
        label.guards.push(long_guard());
        chart.transitions[number].label = Rc::new(label);
        next += 1;
    }
}

fn long_label() -> Label {
    let updates = (0..8)
        .map(|variable| Update::assignment(variable, Expression::Variable(15 - variable)))
        .collect();
    Label { signal: Signal::None, resets: 0xFF, guards: vec![long_guard()], updates }
}

/// A guard that holds while all variables are 0, with a sum of the most levels on one side.
fn long_guard() -> Guard {
    Guard::Data {
        relation: Relation::Equal,
        left: full_sum(LEVELS),
        right: Expression::Constant(0),
    }
}

fn long_guard_length() -> usize {
    let mut bytes = Vec::new();
    long_guard().write(&mut bytes);
    bytes.len()
}

fn full_sum(levels: usize) -> Expression {
    if levels == 1 {
        return Expression::Variable(3);
    }
    Expression::Sum(Box::new(full_sum(levels - 1)), Box::new(full_sum(levels - 1)))
}

/// How many receivers each sequential state of `most_levels` has but for the first.
const RECEIVERS: usize = 4;

/// A broadcast among 15 sequential states whose guards and updates are full trees of the most levels:
/// the first sends by a transition with four guards and 16 assignments, the others receive, each by one
/// of four transitions, whose guards are all looked at. Whatever steps lead there from the start,
/// nothing leaves the range, so that a machine whose sums wrap accepts them too.
pub fn most_levels() -> Chart {
    let mut states = vec![state(NONE, Kind::Parallel, 1, 0)];
    let mut transitions = Vec::new();
    for region in 0..AUTOMATA - 1 {
        let outer = states.len();
        states.push(state(0, Kind::Sequential, 1, 0));
        states.push(state(outer as u8, Kind::Basic, 1, 0));
        let labels = if region == 0 {
            vec![full_sender()]
        } else {
            (0..RECEIVERS).map(|number| full_receiver(region, number)).collect()
        };
        transitions.extend(labels.into_iter().map(|label| Transition {
            source: outer + 1,
            destination: outer + 1,
            exit: None,
            entry: None,
            label: Rc::new(label),
        }));
    }
    let declared = Declared { clocks: 1, variables: 16, rendezvous: 0, broadcast: 1 };
    Chart::new(Version::One, declared, 1, 0, states, transitions)
}

/// Each assignment keeps what a tree of one level less leaves by 3, so variables are 0 to 2.
fn full_sender() -> Label {
    let assigned = |variable: usize| {
        let tree = Box::new(full_tree(LEVELS - 1, variable));
        Update::assignment(variable, Expression::Remainder(tree, 3))
    };
    let guards = (0..4).map(|number| full_guard(number, 100_000)).collect();
    let updates = (0..16).map(assigned).collect();
    Label { signal: Signal::Send(0), resets: 1, guards, updates }
}

/// Of the receivers of one state only the first has a guard that holds.
fn full_receiver(region: usize, number: usize) -> Label {
    let constant = if number == 0 { 100_000 } else { -100_000 };
    let guards = vec![full_guard(RECEIVERS * region + number, constant)];
    Label { guards, ..Label::of_signal(Signal::Receive(0)) }
}

/// That a tree of the most levels is less than a constant.
fn full_guard(first: usize, constant: i32) -> Guard {
    let right = Expression::Constant(constant);
    Guard::Data { relation: Relation::Less, left: full_tree(LEVELS, first), right }
}

/// A tree of so many levels with variables and constants by turns. Where these are 0 to 3, five levels
/// are at most 144 and at least -144, six 20,736, seven 41,472 and eight 82,944.
fn full_tree(levels: usize, first: usize) -> Expression {
    if levels == 1 {
        return match first % 2 {
            0 => Expression::Variable(first / 2 % 16),
            _ => Expression::Constant([1, 3, 2, 2, 1, 3, 3][first / 2 % 7]),
        };
    }
    let [left, right] = [0, 1].map(|side| Box::new(full_tree(levels - 1, 2 * first + side)));
    match levels {
        2 | 5 | 7 => Expression::Sum(left, right),
        4 | 8 => Expression::Difference(left, right),
        _ => Expression::Product(left, right),
    }
}

/// Sample S3 with a transition that has every kind of guard, a quotient and a broadcast: a short
/// file with every kind of field.
pub fn dense() -> Chart {
    let chart = sample_3();
    let mut transitions = chart.transitions;
    transitions[0].label = Rc::new(Label {
        signal: Signal::Send(0),
        resets: 1,
        guards: vec![
            Guard::Data {
                relation: Relation::Less,
                left: Expression::Variable(0),
                right: Expression::Constant(5),
            },
            Guard::Clock { clock: 0, relation: Relation::AtMost, constant: 9 },
            Guard::Difference { first: 0, second: 0, relation: Relation::AtMost, constant: 3 },
        ],
        updates: vec![Update::assignment(
            0,
            Expression::Quotient(Box::new(Expression::Variable(0)), 2),
        )],
    });
    let mut states = chart.states;
    states[2].bounds.0[0] = 7;
    let declared = Declared { clocks: 1, variables: 1, rendezvous: 0, broadcast: 1 };
    Chart::new(Version::One, declared, 2, 1, states, transitions)
}

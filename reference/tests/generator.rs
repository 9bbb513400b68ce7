//! The seeded charts pass the check and have the features that are promised.

use std::collections::BTreeMap;

use reference::coverage::sensors::{has_sensors, is_in, is_sensor, plain_states};
use reference::generate::charts::{chart_from_seed, chart_from_wish, Wish};
use reference::model::chart::{Chart, Kind};
use reference::model::chart_machine;
use reference::model::check::check;
use reference::model::expression::Expression;
use reference::model::flatten::network_of;
use reference::model::guard::Guard;
use reference::model::label::Signal;
use reference::model::limits::{CLOCKS, LEVELS, STATES, VARIABLES};
use reference::model::network::Network;
use reference::model::update::{Advance, Update};
use reference::model::values::Bounds;
use reference::model::version::Version;
use reference::runs::take_up::sole_advances;

const CHARTS: u64 = 4_000;

fn depth(chart: &Chart, state: usize) -> usize {
    chart.parent(state).map_or(0, |parent| 1 + depth(chart, parent))
}

fn count_of(chart: &Chart, kind: Kind) -> usize {
    chart.states.iter().filter(|state| state.kind == kind).count()
}

/// How many sequential states can receive on one broadcast channel.
fn most_receivers(chart: &Chart) -> usize {
    let channels = chart.declared.rendezvous..chart.declared.channels();
    let receivers = |channel: usize| {
        let mut parents: Vec<usize> = (0..chart.transitions.len())
            .filter(|&number| chart.transitions[number].label.signal == Signal::Receive(channel))
            .map(|number| chart.parent_of_transition(number))
            .collect();
        parents.sort();
        parents.dedup();
        parents.len()
    };
    channels.map(receivers).max().unwrap_or(0)
}

fn has_parallel_in_parallel(chart: &Chart) -> bool {
    (0..chart.states.len()).any(|state| {
        chart.states[state].kind == Kind::Parallel
            && chart.parent(state).is_some_and(|parent| chart.states[parent].kind == Kind::Parallel)
    })
}

fn has_composite_self_loop(chart: &Chart) -> bool {
    chart.transitions.iter().any(|one| one.exit.is_some() && one.source == one.destination)
}

fn has_swap(chart: &Chart) -> bool {
    chart.transitions.iter().any(|one| match &one.label.updates[..] {
        [Update::Assignment(first), Update::Assignment(second)] => {
            first.expression == Expression::Variable(second.variable)
                && second.expression == Expression::Variable(first.variable)
        }
        _ => false,
    })
}

fn has_division(chart: &Chart) -> bool {
    let divides = |expression: &Expression| {
        matches!(expression, Expression::Quotient(..) | Expression::Remainder(..))
    };
    chart
        .transitions
        .iter()
        .flat_map(|one| &one.label.updates)
        .any(|update| matches!(update, Update::Assignment(one) if divides(&one.expression)))
}

fn most_alternatives(chart: &Chart, network: &Network) -> usize {
    (0..chart.transitions.len())
        .filter(|&number| chart.transitions[number].exit.is_some())
        .map(|number| network.edges.iter().filter(|edge| edge.transition == Some(number)).count())
        .max()
        .unwrap_or(0)
}

#[test]
fn seeded_charts_pass_and_have_the_promised_features() {
    let mut flattened = 0;
    let mut sizes = [0; STATES + 1];
    let mut deepest = 0;
    let mut most_sequential = 0;
    let mut receivers = [0; 17];
    let mut several_alternatives = 0;
    let mut highest_alternatives = 0;
    let mut parallel_in_parallel = 0;
    let mut composite_self_loops = 0;
    let mut swaps = 0;
    let mut divisions = 0;
    let mut parallel_roots = 0;
    let mut bounds_on_every_level = 0;
    for seed in 0..CHARTS {
        let chart = chart_from_seed(seed);
        let file = chart.write();
        match check(&file) {
            Ok(read) => assert!(read == chart, "seed {seed} is read as it was written"),
            Err(refusal) => panic!("seed {seed}: {refusal:?}"),
        }
        if let Ok(network) = network_of(&chart) {
            flattened += 1;
            let bytes = network.write();
            assert_eq!(Network::read(&bytes).as_ref(), Ok(&network), "seed {seed}");
            let most = most_alternatives(&chart, &network);
            several_alternatives += u64::from(most >= 2);
            highest_alternatives = highest_alternatives.max(most);
        }
        sizes[chart.states.len()] += 1;
        let levels: Vec<usize> =
            (0..chart.states.len()).map(|state| depth(&chart, state)).collect();
        let deepest_here = levels.iter().copied().max().unwrap_or(0);
        deepest = deepest.max(deepest_here);
        most_sequential = most_sequential.max(count_of(&chart, Kind::Sequential));
        receivers[most_receivers(&chart)] += 1;
        parallel_in_parallel += u64::from(has_parallel_in_parallel(&chart));
        composite_self_loops += u64::from(has_composite_self_loop(&chart));
        swaps += u64::from(has_swap(&chart));
        divisions += u64::from(has_division(&chart));
        parallel_roots += u64::from(chart.states[0].kind == Kind::Parallel);
        let bounded = |level: usize| {
            (0..chart.states.len())
                .any(|state| levels[state] == level && chart.states[state].bounds != Bounds::NONE)
        };
        bounds_on_every_level += u64::from(deepest_here >= 3 && (0..=deepest_here).all(bounded));
        assert!(chart.declared.clocks <= CLOCKS && chart.declared.variables <= VARIABLES);
    }
    println!(
        "{flattened} of {CHARTS} flattened; deepest {deepest}; most sequential {most_sequential}"
    );
    println!("receivers of one broadcast: {receivers:?}");
    println!("several alternatives {several_alternatives}, at most {highest_alternatives}");
    println!("parallel in parallel {parallel_in_parallel}, parallel roots {parallel_roots}");
    println!("self-loops {composite_self_loops}, swaps {swaps}, divisions {divisions}");
    println!("bounds on every level {bounds_on_every_level}");
    assert!(flattened > CHARTS * 9 / 10);
    assert!(sizes[2] > 0 && sizes[48] > 100 && sizes[2..].iter().all(|&count| count > 0));
    assert!(deepest >= 12);
    assert_eq!(most_sequential, 16);
    assert!(receivers[4..].iter().sum::<u64>() > 100);
    assert!(several_alternatives > 200 && highest_alternatives >= 8);
    assert!(parallel_in_parallel > 200 && parallel_roots > 200);
    assert!(composite_self_loops > 500 && swaps > 500 && divisions > 500);
    assert!(bounds_on_every_level > 50);
}

/// The advances of a chart, and whether an assignment stands beside one and reads its pair.
fn advances(chart: &Chart) -> Vec<(Advance, bool)> {
    let labels = chart.transitions.iter().map(|one| &one.label);
    labels
        .flat_map(|label| {
            let read_beside = |advance: &Advance| {
                label.updates.iter().any(|update| match update {
                    Update::Assignment(one) => [advance.steps, advance.remainder]
                        .iter()
                        .any(|&variable| one.expression == Expression::Variable(variable)),
                    Update::Advance(_) => false,
                })
            };
            let advances = label.updates.iter().filter_map(Update::as_advance);
            advances.map(|&advance| (advance, read_beside(&advance))).collect::<Vec<_>>()
        })
        .collect()
}

#[test]
fn half_of_the_charts_have_version_2_and_advances_of_every_kind() {
    let (mut version_2, mut without, mut with_take_up, mut read_beside) = (0, 0, 0, 0);
    let (mut numerators, mut denominators) = (BTreeMap::new(), BTreeMap::new());
    for seed in 0..CHARTS {
        let chart = chart_from_seed(seed);
        let found = advances(&chart);
        if chart.version == Version::One {
            assert!(found.is_empty(), "seed {seed}");
            continue;
        }
        version_2 += 1;
        without += u64::from(found.is_empty());
        let labels = chart.transitions.iter().map(|one| &*one.label);
        with_take_up += u64::from(!sole_advances(labels).is_empty());
        for (advance, reads) in found {
            *numerators.entry(advance.numerator).or_insert(0) += 1;
            *denominators.entry(advance.denominator).or_insert(0) += 1;
            read_beside += u64::from(reads);
        }
    }
    println!("{version_2} of version 2, {without} without advance, {with_take_up} with take-up");
    println!("{read_beside} advances beside an assignment that reads their pair");
    assert_eq!(version_2, CHARTS / 2);
    assert!(without > 50 && with_take_up > 800 && read_beside > 1_000);
    for numerator in [0, 1, 2, u16::MAX] {
        assert!(numerators[&numerator] > 100, "{numerator}");
    }
    for denominator in [1, 2, 3, u16::MAX] {
        assert!(denominators[&denominator] > 100, "{denominator}");
    }
    assert!(numerators.len() > 500 && denominators.len() > 500);
}

#[test]
fn half_of_the_charts_have_sensors_at_every_place() {
    let (mut with_sensors, mut sensors_of_roots) = (0, 0);
    let mut depths = [0; STATES];
    // By whether they have bounds, and by whether they have marks.
    let mut kinds = BTreeMap::new();
    for seed in 0..CHARTS {
        let chart = chart_from_seed(seed);
        if (seed / 16) % 2 == 0 {
            assert!(!has_sensors(&chart) && plain_states(&chart).is_empty(), "seed {seed}");
        }
        with_sensors += u64::from(has_sensors(&chart));
        for state in (0..chart.states.len()).filter(|&state| is_sensor(&chart, state)) {
            depths[depth(&chart, state)] += 1;
            let one = &chart.states[state];
            let kind = (one.bounds != Bounds::NONE, one.exit_marks != 0);
            *kinds.entry(kind).or_insert(0) += 1;
            sensors_of_roots += u64::from(chart.parent(state) == Some(0));
        }
    }
    println!("{with_sensors} charts with sensors, {sensors_of_roots} sensors of roots");
    println!("sensors by depth {depths:?}, by bounds and marks {kinds:?}");
    assert!(with_sensors > CHARTS * 2 / 5 && sensors_of_roots > 500);
    assert!(depths[1..8].iter().all(|&count| count > 100) && depths[10] > 0);
    assert!(kinds.len() == 4 && kinds.values().all(|&count| count > 200));
}

#[test]
fn plain_states_are_drawn_at_every_place() {
    let mut places = BTreeMap::new();
    for seed in 0..CHARTS {
        let chart = chart_from_seed(seed);
        for state in plain_states(&chart) {
            let root_is = chart.states[0].kind;
            let in_root = chart.parent(state) == Some(0);
            let is_end = |end: usize| end == state;
            let cases = [
                ("in a sequential state", is_in(&chart, state, Kind::Sequential)),
                ("in a parallel state", is_in(&chart, state, Kind::Parallel)),
                ("in a sequential root", in_root && root_is == Kind::Sequential),
                ("in a parallel root", in_root && root_is == Kind::Parallel),
                ("with a plain state in it", {
                    let mut below = plain_states(&chart).into_iter();
                    below.any(|other| chart.parent(other) == Some(state))
                }),
                ("source", chart.transitions.iter().any(|one| is_end(one.source))),
                ("destination", chart.transitions.iter().any(|one| is_end(one.destination))),
                ("active at the start", chart_machine::start(&chart).active[state]),
            ];
            for (name, _) in cases.into_iter().filter(|(_, holds)| *holds) {
                *places.entry(name).or_insert(0) += 1;
            }
        }
    }
    println!("plain states: {places:?}");
    assert!(places.len() == 8 && places.values().all(|&count| count > 100), "{places:?}");
}

/// Counts the constants of an expression that are among `numbers`, by number and level.
fn count_constants(
    expression: &Expression,
    level: usize,
    numbers: &[i32],
    counts: &mut BTreeMap<(i32, usize), u64>,
) {
    match expression {
        Expression::Constant(value) if numbers.contains(value) => {
            *counts.entry((*value, level)).or_insert(0) += 1;
        }
        Expression::Constant(_) | Expression::Variable(_) => {}
        Expression::Sum(first, second)
        | Expression::Difference(first, second)
        | Expression::Product(first, second) => {
            count_constants(first, level + 1, numbers, counts);
            count_constants(second, level + 1, numbers, counts);
        }
        Expression::Quotient(argument, _) | Expression::Remainder(argument, _) => {
            count_constants(argument, level + 1, numbers, counts);
        }
    }
}

/// At every level, on either side of guards and in assignments.
#[test]
fn half_of_the_charts_have_numbers_at_the_ends_of_the_range() {
    let numbers = [i32::MAX, i32::MAX - 1, i32::MIN, i32::MIN + 1, 46_340, 46_341, 65_536];
    let mut counts = [(); 3].map(|()| BTreeMap::new());
    let mut with_ends = 0;
    for seed in 0..CHARTS {
        with_ends += u64::from(Wish::from_seed(seed).ends > 0);
        let chart = chart_from_seed(seed);
        for label in chart.transitions.iter().map(|one| &one.label) {
            for guard in &label.guards {
                if let Guard::Data { left, right, .. } = guard {
                    count_constants(left, 1, &numbers, &mut counts[0]);
                    count_constants(right, 1, &numbers, &mut counts[1]);
                }
            }
            for update in &label.updates {
                if let Update::Assignment(one) = update {
                    count_constants(&one.expression, 1, &numbers, &mut counts[2]);
                }
            }
        }
    }
    assert!(with_ends > CHARTS * 2 / 5 && with_ends < CHARTS * 3 / 5, "{with_ends}");
    for counts in counts {
        assert_eq!(counts.len(), numbers.len() * LEVELS, "{counts:?}");
        assert!(counts.values().all(|&count| count > 5), "{counts:?}");
    }
}

/// The ordinary input of the benchmark is one of these, and its times are compared across changes: a
/// wish of version 1 gives the charts that it gave before there were other versions.
#[test]
fn the_charts_of_version_1_stay_as_they_were() {
    let mut hash = 0xCBF2_9CE4_8422_2325u64;
    for seed in 0..200 {
        for byte in chart_from_wish(&Wish::ORDINARY, seed).write() {
            hash = (hash ^ u64::from(byte)).wrapping_mul(0x0100_0000_01B3);
        }
    }
    assert_eq!(hash, 0x1241_A43F_BED3_1E9B);
}

#[test]
fn equal_seeds_give_equal_charts() {
    for seed in 0..50 {
        assert!(chart_from_seed(seed) == chart_from_seed(seed));
    }
}

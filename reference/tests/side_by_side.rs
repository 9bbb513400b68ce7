//! Random runs of charts and their networks side by side.

use std::collections::BTreeMap;
use std::rc::Rc;

use reference::coverage::longest_reason::Reason;
use reference::coverage::longest_tally::LongestTally;
use reference::coverage::range_tally::RangeTally;
use reference::coverage::sensors::{has_sensors, plain_states, with_marked_choices};
use reference::coverage::tally::Tally;
use reference::generate::charts::chart_from_seed;
use reference::generate::damage::damage_chart;
use reference::generate::random::Random;
use reference::generate::special;
use reference::generate::special_completion;
use reference::generate::special_sensors;
use reference::model::chart::{Chart, Kind};
use reference::model::chart_machine;
use reference::model::check::check;
use reference::model::flatten::network_of;
use reference::model::guard::Relation;
use reference::model::label::{Label, Signal};
use reference::model::layout::{Layout, Place};
use reference::model::limits::NONE;
use reference::model::network::Edge;
use reference::model::network_machine;
use reference::model::refusal::Refusal;
use reference::model::update::{Advance, Update};
use reference::model::values::Bounds;
use reference::model::version::Version;
use reference::runs::clauses::Failure;
use reference::runs::moment::Machines;
use reference::runs::side_by_side::run_both_lists;

const CHARTS: u64 = 2_000;
const CALLS: usize = 40;

fn machines(chart: Chart) -> Machines {
    Machines::of(chart).expect("flattening accepts the chart")
}

/// One network list and one chart list.
fn run(machines: &Machines, seed: u64, calls: usize) -> Result<Tally, Failure> {
    run_both_lists(machines, calls, &mut Random::new(seed))
}

#[test]
fn every_clause_holds_on_random_runs() {
    let mut tally = Tally::default();
    let mut of_version = BTreeMap::new();
    for seed in 0..CHARTS {
        let chart = chart_from_seed(seed);
        *of_version.entry(chart.version.number()).or_insert(0) += 1;
        match run(&machines(chart), seed, CALLS) {
            Ok(one) => tally.add(&one),
            Err(failure) => panic!("seed {seed}: {failure}"),
        }
    }
    println!("charts of each version: {of_version:?}");
    println!("{tally:#?}");
    assert_eq!(tally.runs, 2 * CHARTS);
    assert_eq!(of_version, BTreeMap::from([(1, CHARTS / 2), (2, CHARTS / 2)]));
    assert!(tally.take_ups > 1_000 && tally.most_advances >= 10);
    assert!(tally.moves > 10_000 && tally.urgent_moves > 5_000 && tally.waits > 5_000);
    assert!(tally.broadcasts_with_several_receivers > 1_000);
    for number in [18, 19, 20, 21, 22, 28] {
        assert!(tally.chart_refusals[number] > 100, "chart refusal {number}");
        assert!(tally.network_refusals[number] > 100, "network refusal {number}");
    }
    assert!(tally.network_refusals[27] > 100);
    assert!(tally.most_owed >= 6);
    let sensors = &tally.sensors;
    assert!(sensors.with_sensors > 1_500 && sensors.with_sensors < tally.runs * 2 / 3);
    for with in [
        sensors.with_bounded_sensors,
        sensors.with_plain_in_sequential,
        sensors.with_plain_in_parallel,
        sensors.with_plain_in_root,
        sensors.with_plain_sources,
        sensors.with_plain_destinations,
    ] {
        assert!(with > 500, "{sensors:#?}");
    }
    assert!(sensors.with_dropped_choices > 100 && sensors.dropped_choices > 500);
    assert!(sensors.edges_without_test > 5_000 && sensors.moves_without_test > 1_500);
    assert!(sensors.moves_to_plain > 1_500 && sensors.plain_exits_shut > 5_000);
    assert!(sensors.waits_refused > 500);
    assert_longest_waits_were_met(&tally.longest);
    assert_results_that_leave_the_range_were_met(&tally.range);
}

/// Both machines gave the same number often, for every reason that 28 has, and guards failed by the
/// range with every relation and every kind of transition.
fn assert_results_that_leave_the_range_were_met(range: &RangeTally) {
    for matched in [&range.matched, &range.matched_from_chart] {
        assert!(matched.keys().eq(&[0, 21, 28]), "{range:#?}");
        assert!(matched[&0] > 500_000 && matched[&21] > 2_000 && matched[&28] > 40_000);
    }
    assert!(range.by_assignment > 40_000 && range.by_advance > 1_500, "{range:#?}");
    assert!(range.by_inner_result > 20_000 && range.bound_broken_too > 200, "{range:#?}");
    assert!(range.sums_passed > 500 && range.not_allowed_of_chart > 100, "{range:#?}");
    assert!(range.not_allowed_of_network > 50, "{range:#?}");
    for places in [&range.in_assignments, &range.in_left_sides, &range.in_right_sides] {
        // At the eighth level are constants and variables alone.
        assert!(places.at_level.keys().copied().eq(1..=7), "{range:#?}");
        assert!(places.at_level.values().all(|&count| count > 1_500), "{range:#?}");
        let below = [places.below_0, places.below_quotient, places.below_remainder];
        assert!(below.iter().all(|&count| count > 5_000), "{range:#?}");
    }
    for relation in Relation::ALL {
        assert!(range.guards[&relation] > 5_000, "{range:#?}");
        assert!(range.guards_met_if_wrapped[&relation] > 1_000, "{range:#?}");
    }
    assert!(range.guards_without_signal > 10_000, "{range:#?}");
    assert!(range.guards_of_senders > 5_000 && range.guards_of_receivers > 5_000, "{range:#?}");
}

/// Everything that can decide a longest wait did so often, on either machine.
fn assert_longest_waits_were_met(longest: &LongestTally) {
    assert_eq!(longest.of_charts.len(), Reason::OF_CHARTS.len());
    assert_eq!(longest.of_networks.len(), Reason::ALL.len());
    for count in longest.of_charts.values().chain(longest.of_networks.values()) {
        assert!(*count > 1_000, "{longest:#?}");
    }
    assert!(longest.equal > 50_000);
    // In the network of a chart an urgent location is occupied exactly while moves are owed.
    assert_eq!(longest.while_owed, longest.of_networks[&Reason::Urgent]);
    assert!(longest.inactive_bounds > 10_000 && longest.sensor_bounds > 2_000);
    assert!(longest.waited > 1_000 && longest.one_more_refused > 1_000);
}

#[test]
fn every_clause_holds_on_special_charts() {
    let charts = [
        special::sample_1(),
        special::sample_3(),
        special::dense(),
        special::broadcast_of_self_loops(),
        special::chart_with_edges(1024),
        special::many_equal_choices(),
        special::chart_with_sequential_children(15),
        special::most_advances(),
        special::most_levels(),
        special_sensors::most_sensors(),
        special_completion::deep(),
        special_completion::wide(),
    ];
    let mut most_owed = 0;
    for chart in charts.into_iter().chain(special_sensors::with_sensors()) {
        let machines = machines(chart);
        for seed in 0..5 {
            let tally = run(&machines, seed, CALLS).unwrap_or_else(|failure| panic!("{failure}"));
            most_owed = most_owed.max(tally.most_owed);
        }
    }
    assert_eq!(most_owed, 16);
}

/// Charts with one field changed are odd but may pass: marks that lead nowhere, unused channels.
#[test]
fn every_clause_holds_on_changed_charts() {
    let mut passed = 0;
    for seed in 0..600 {
        let changed = damage_chart(&chart_from_seed(seed), &mut Random::new(seed));
        let Ok(chart) = check(&changed.write()) else {
            continue;
        };
        passed += 1;
        if let Err(failure) = run(&machines(chart), seed, CALLS / 2) {
            panic!("seed {seed}: {failure}");
        }
    }
    assert!(passed > 100, "{passed}");
}

/// How many of the seeds show a fault that was put into the network.
fn seeds_that_show(put_fault: impl Fn(&mut Machines)) -> usize {
    let shows = |&seed: &u64| {
        let mut machines = machines(chart_from_seed(seed));
        put_fault(&mut machines);
        run(&machines, seed, CALLS).is_err()
    };
    (0..300).filter(shows).count()
}

/// The same of charts with sensors.
fn seeds_with_sensors_that_show(put_fault: impl Fn(&mut Machines)) -> usize {
    let shows = |&seed: &u64| {
        let mut machines = machines(chart_from_seed(seed));
        put_fault(&mut machines);
        has_sensors(&machines.chart) && run(&machines, seed, CALLS).is_err()
    };
    (0..400).filter(shows).count()
}

/// Puts the same change into the labels of a chart and of its network, so that the two still agree.
fn change_updates(machines: &mut Machines, change: impl Fn(&mut Update)) {
    let changed = |label: &mut Rc<Label>| Rc::make_mut(label).updates.iter_mut().for_each(&change);
    machines.chart.transitions.iter_mut().for_each(|one| changed(&mut one.label));
    machines.network.edges.iter_mut().for_each(|one| changed(&mut one.label));
}

/// How many seeds show a fault that both machines have, each by the take-up.
fn seeds_whose_take_up_shows(change: impl Fn(&mut Update)) -> usize {
    let shows = |&seed: &u64| {
        let mut machines = machines(chart_from_seed(seed));
        change_updates(&mut machines, &change);
        let failure = run(&machines, seed, CALLS).err();
        failure.is_some_and(|text| text.starts_with("the take-up of the "))
    };
    (0..240).filter(shows).count()
}

#[test]
fn another_numerator_is_noticed() {
    let shown = seeds_whose_take_up_shows(|update| {
        if let Update::Advance(advance) = update {
            advance.numerator ^= 1;
        }
    });
    assert!(shown > 20, "{shown}");
}

#[test]
fn exchanged_variables_are_noticed() {
    let shown = seeds_whose_take_up_shows(|update| {
        if let Update::Advance(advance) = update {
            std::mem::swap(&mut advance.steps, &mut advance.remainder);
        }
    });
    // The pair in the other order is not counted, so its variables would have to stay 0.
    assert!(shown > 20, "{shown}");
}

#[test]
fn a_second_writer_is_noticed() {
    let shown = seeds_whose_take_up_shows(|update| {
        if let Update::Assignment(assignment) = update {
            assignment.variable = (assignment.variable + 1) % 2;
        }
    });
    assert!(shown > 5, "{shown}");
}

/// From zero, n advances by p/q leave the whole part of np/q as long as it is below 2^31. The first
/// that would pass it is refused by both machines.
#[test]
fn take_up_holds_up_to_the_limit_of_the_steps() {
    for (numerator, denominator) in [(65_535, 1), (65_534, 1), (65_535, 2), (62_501, 3)] {
        let advance = Advance { steps: 2, remainder: 0, numerator, denominator };
        let chart = special::one_pick(vec![Update::Advance(advance)]);
        let network = network_of(&chart).unwrap();
        let mut on_chart = chart_machine::start(&chart);
        let mut on_network = network_machine::start(&network);
        for picks in 1u64.. {
            let parts = picks * u64::from(numerator);
            let whole = parts / u64::from(denominator);
            let after_chart = chart_machine::step(&chart, &on_chart, &[0]);
            let after_network = network_machine::step(&network, &on_network, &[0]);
            if whole >= 1 << 31 {
                assert_eq!(after_chart, Err(Refusal::RangeLeft));
                assert_eq!(after_network, Err(Refusal::RangeLeft));
                assert!(picks > 32_000, "{picks}");
                break;
            }
            (on_chart, on_network) = (after_chart.unwrap(), after_network.unwrap());
            let rest = (parts % u64::from(denominator)) as i32;
            assert_eq!(on_chart.values.variables[..3], [rest, 0, whole as i32], "{picks}");
            assert_eq!(on_network.values, on_chart.values);
        }
    }
}

#[test]
fn nested_automata_left_running_are_noticed() {
    let shown = seeds_that_show(|machines| {
        let places = &machines.layout.places;
        machines.network.edges.retain(|edge| {
            let hears = matches!(edge.label.signal, Signal::Receive(_));
            !(hears && places[edge.target] == Place::Idle)
        });
    });
    assert!(shown > 5, "{shown}");
}

#[test]
fn missing_flag_tests_are_noticed() {
    let shown = seeds_that_show(|machines| {
        for edge in &mut machines.network.edges {
            edge.automata_tested = 0;
            edge.values_needed = 0;
        }
    });
    assert!(shown > 5, "{shown}");
}

#[test]
fn unwritten_flags_are_noticed() {
    let shown = seeds_that_show(|machines| {
        for edge in &mut machines.network.edges {
            edge.exits_written = 0;
            edge.values_written = 0;
        }
    });
    assert!(shown > 5, "{shown}");
}

#[test]
fn dropped_bounds_of_parallel_parents_are_noticed() {
    let shown = seeds_that_show(|machines| {
        for (location, place) in machines.network.locations.iter_mut().zip(&machines.layout.places)
        {
            if let Place::Child(child) = place {
                location.bounds = machines.chart.states[*child].bounds;
            }
        }
    });
    assert!(shown > 5, "{shown}");
}

/// The bounds that the location of a parallel child has if those of the states below it do not count.
fn without_states_below(machines: &Machines, child: usize) -> Bounds {
    let mut chart = machines.chart.clone();
    for state in chart.at_or_below(child).into_iter().skip(1) {
        chart.states[state].bounds = Bounds::NONE;
    }
    let layout = Layout::of(&chart);
    layout.locations[layout.location_of_child(child)].bounds
}

/// Sensors' bounds that are carried down, but do not stand where the parallel state is a location.
fn carry_bounds_down_only(machines: &mut Machines) {
    for (location, place) in machines.layout.places.iter().enumerate() {
        if let Place::Child(child) = *place {
            machines.network.locations[location].bounds = without_states_below(machines, child);
        }
    }
}

/// Alternatives that an unmarked sensor, or a plain state that does not share the exit, would drop.
fn keep_every_choice(machines: &mut Machines) {
    let marked = network_of(&with_marked_choices(&machines.chart)).unwrap();
    let edges = &mut machines.network.edges;
    edges.retain(|edge| edge.transition.is_none());
    edges.extend(marked.edges.into_iter().filter(|edge| edge.transition.is_some()));
    edges.sort_by_key(Edge::sort_key);
}

#[test]
fn sensor_bounds_that_are_only_carried_down_are_noticed() {
    let shown = seeds_with_sensors_that_show(carry_bounds_down_only);
    assert!(shown > 10, "{shown}");
}

#[test]
fn choices_that_are_not_dropped_are_noticed() {
    let shown = seeds_with_sensors_that_show(keep_every_choice);
    assert!(shown > 5, "{shown}");
}

/// On small charts every run shows the two.
#[test]
fn both_are_noticed_in_every_run_of_charts_made_by_hand() {
    let shows = |chart: &Chart, put_fault: fn(&mut Machines)| {
        (0..20).all(|seed| {
            let mut machines = machines(chart.clone());
            put_fault(&mut machines);
            run(&machines, seed, CALLS).is_err()
        })
    };
    let (sensor, plain) =
        (special_sensors::sensor_in_a_choice(), special_sensors::plain_in_a_choice());
    for chart in [&special_sensors::plain_between(), &sensor, &plain] {
        assert!(shows(chart, carry_bounds_down_only));
    }
    for chart in [&sensor, &plain] {
        assert!(shows(chart, keep_every_choice));
    }
}

/// Plain states that are at no exit, so that nothing below which they lie is left through them.
#[test]
fn plain_states_that_do_not_count_are_noticed() {
    let shown = seeds_with_sensors_that_show(|machines| {
        let mut chart = machines.chart.clone();
        for plain in plain_states(&chart) {
            for state in chart.at_or_below(plain) {
                chart.states[state].exit_marks = 0;
            }
        }
        machines.layout = Layout::of(&chart);
        machines.network = network_of(&chart).unwrap();
    });
    assert!(shown > 10, "{shown}");
}

/// A plain state at every exit that one of its states is marked with.
#[test]
fn exits_that_one_state_lacks_are_noticed() {
    let shown = seeds_with_sensors_that_show(|machines| {
        let mut chart = machines.chart.clone();
        for plain in plain_states(&chart) {
            let below = chart.at_or_below(plain);
            let marks = below.iter().fold(0, |marks, &one| marks | chart.states[one].exit_marks);
            for state in below {
                let basic = !chart.states[state].is_composite();
                chart.states[state].exit_marks = if basic { marks } else { 0 };
            }
        }
        machines.layout = Layout::of(&chart);
        machines.network = network_of(&chart).unwrap();
    });
    assert!(shown > 10, "{shown}");
}

#[test]
fn bounds_missing_from_pre_and_post_are_noticed() {
    let shown = seeds_that_show(|machines| {
        for location in machines.network.locations.iter_mut().filter(|location| location.urgent) {
            location.bounds = Bounds::NONE;
        }
    });
    assert!(shown > 0, "{shown}");
}

#[test]
fn locations_that_are_not_urgent_are_noticed() {
    let shown = seeds_that_show(|machines| {
        for location in &mut machines.network.locations {
            location.urgent = false;
        }
    });
    assert!(shown > 5, "{shown}");
}

#[test]
fn lost_receivers_are_noticed() {
    let shown = seeds_that_show(|machines| {
        let declared = machines.chart.declared;
        let broadcast = declared.rendezvous..declared.channels();
        machines.network.edges.retain(|edge| match edge.label.signal {
            Signal::Receive(channel) => !broadcast.contains(&channel),
            _ => true,
        });
    });
    assert!(shown > 5, "{shown}");
}

/// A composite state that leaves and enters itself must exit first.
#[test]
fn entering_before_exiting_is_noticed() {
    let states = vec![
        special::state(NONE, Kind::Sequential, 1, 0),
        special::state(0, Kind::Sequential, 1, 0),
        special::state(1, Kind::Basic, 1, 1),
    ];
    let transitions = vec![special::transition(1, 1, Some(0), Some(0), Signal::None)];
    let chart = Chart::new(Version::One, Default::default(), 1, 1, states, transitions);
    let mut machines = machines(chart);
    assert!(run(&machines, 1, CALLS).is_ok());
    // Let post send "enter" and pre send "exit".
    let sends: Vec<usize> = (0..machines.network.edges.len())
        .filter(|&number| {
            let edge = &machines.network.edges[number];
            machines.network.locations[edge.source].urgent
        })
        .collect();
    let [first, second] = sends[..] else {
        panic!("one pre and one post");
    };
    let edges = &mut machines.network.edges;
    let label = Rc::clone(&edges[first].label);
    edges[first].label = Rc::clone(&edges[second].label);
    edges[second].label = label;
    assert!(run(&machines, 1, CALLS).is_err());
}

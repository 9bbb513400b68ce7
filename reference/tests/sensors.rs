//! Basic states directly in parallel ones, and plain parallel states: what the check and flattening
//! make of them, on charts made by hand.

use reference::coverage::sensors::has_sensors;
use reference::generate::charts::chart_from_seed;
use reference::generate::special::{chart_with_sequential_children, state};
use reference::generate::special_sensors::{
    most_sensors, no_sequential_state, plain_between, plain_in_a_choice, sensor_in_a_choice,
    sensors_in_the_root, with_sensors,
};
use reference::model::chart::{Chart, Kind};
use reference::model::chart_machine;
use reference::model::check::check;
use reference::model::flatten::network_of;
use reference::model::label::Signal;
use reference::model::layout::{Layout, Place};
use reference::model::limits::NO_BOUND;
use reference::model::network::{Edge, Network};
use reference::model::network_machine;
use reference::model::plain::Plain;
use reference::model::refusal::Refusal;
use reference::model::version::Version;

fn refusal(chart: &Chart) -> Refusal {
    check(&chart.write()).map(|_| ()).unwrap_err()
}

/// The bound of clock 0 at a place.
fn bound_at(chart: &Chart, place: Place) -> u32 {
    let layout = Layout::of(chart);
    let location = layout.places.iter().position(|&one| one == place).expect("the place is there");
    network_of(chart).unwrap().locations[location].bounds.0[0]
}

/// The edges that bear a transition.
fn bearing(network: &Network, transition: usize) -> Vec<&Edge> {
    network.edges.iter().filter(|edge| edge.transition == Some(transition)).collect()
}

#[test]
fn a_chart_without_a_sequential_state_gets_7_in_its_place() {
    for version in Version::ALL {
        let mut chart = Chart { version, ..no_sequential_state() };
        assert_eq!(refusal(&chart), Refusal::NoSequential);
        // 7 before 8, and 5 before 7.
        chart.states[1].entry_marks = 0;
        assert_eq!(refusal(&chart), Refusal::NoSequential);
        chart.states[3].parent = 1;
        assert_eq!(refusal(&chart), Refusal::Parent);
    }
    // With a basic state in a parallel one 6 is 6.
    let mut many = chart_with_sequential_children(16);
    many.states.extend([state(0, Kind::Parallel, 0, 0), state(34, Kind::Basic, 0, 0)]);
    assert_eq!(refusal(&many), Refusal::SequentialCount);
}

#[test]
fn sensors_pass_in_every_version() {
    for chart in with_sensors().into_iter().chain([most_sensors()]) {
        for version in Version::ALL {
            let chart = Chart { version, ..chart.clone() };
            assert_eq!(check(&chart.write()).as_ref(), Ok(&chart));
        }
    }
    assert_eq!(most_sensors().states.len(), 48);
}

/// The rules hold of a sensor as of any state.
#[test]
fn sensors_keep_the_other_rules() {
    let changed = |change: fn(&mut Chart)| {
        let mut chart = sensor_in_a_choice();
        change(&mut chart);
        refusal(&chart)
    };
    assert_eq!(changed(|chart| chart.states[4].entry_marks = 0), Refusal::EntryMarks);
    assert_eq!(changed(|chart| chart.states[2].exit_marks = 1), Refusal::ExitMarks);
    assert_eq!(changed(|chart| chart.transitions[0].destination = 4), Refusal::TransitionEnds);
    let changed = |change: fn(&mut Chart)| {
        let mut chart = plain_between();
        change(&mut chart);
        refusal(&chart)
    };
    assert_eq!(changed(|chart| chart.transitions[1].exit = None), Refusal::TransitionExit);
    assert_eq!(changed(|chart| chart.transitions[0].entry = None), Refusal::TransitionEntry);
    assert_eq!(changed(|chart| chart.transitions[0].entry = Some(0)), Refusal::TransitionEntry);
}

#[test]
fn sensor_bounds_of_the_root_are_carried_down() {
    let chart = sensors_in_the_root();
    assert_eq!(bound_at(&chart, Place::Child(2)), 3);
    assert_eq!(bound_at(&chart, Place::Idle), NO_BOUND);
    let network = network_of(&chart).unwrap();
    let wait = |ticks| network_machine::wait(&network, &network_machine::start(&network), ticks);
    assert!(wait(3).is_ok());
    assert_eq!(wait(4), Err(Refusal::BoundBroken));
}

#[test]
fn sensor_bounds_stand_where_the_parallel_state_is_a_location() {
    let chart = plain_between();
    for place in [Place::Child(2), Place::Pre(2, 1), Place::Post(3)] {
        assert_eq!(bound_at(&chart, place), 2, "{place:?}");
    }
    for place in [Place::Child(1), Place::Post(1), Place::Post(2)] {
        assert_eq!(bound_at(&chart, place), NO_BOUND, "{place:?}");
    }
    let chart = sensor_in_a_choice();
    assert_eq!(bound_at(&chart, Place::Child(2)), 2);
    assert_eq!(bound_at(&chart, Place::Pre(2, 1)), 2);
    // The region's own location does not carry them: its parallel parent is a location itself.
    assert_eq!(bound_at(&chart, Place::Child(5)), NO_BOUND);
    let chart = plain_in_a_choice();
    assert_eq!(bound_at(&chart, Place::Child(1)), 5);
}

#[test]
fn a_plain_source_has_one_edge_by_a_shared_exit_and_none_by_another() {
    let chart = plain_between();
    let network = network_of(&chart).unwrap();
    for transition in [1, 3] {
        let [edge] = bearing(&network, transition)[..] else {
            panic!("one edge bears transition {transition}");
        };
        assert_eq!((edge.exit_tested, edge.automata_tested, edge.values_needed), (None, 0, 0));
    }
    assert_eq!(Network::read(&network.write()).as_ref(), Ok(&network));
    assert!(bearing(&network, 2).is_empty());
    // Post, its edge and the channel are there all the same; nobody hears either channel.
    let layout = Layout::of(&chart);
    assert_eq!((layout.exit_channel.len(), layout.enter_channel.len()), (2, 1));
    assert_eq!(network.edges.len(), 1 + 1 + 1 + 3 + 1);
    assert_eq!(layout.at, [0, 0, 1, 0, 0, 0, 0]);
}

#[test]
fn a_sensor_that_is_not_marked_drops_the_choice() {
    let mut chart = sensor_in_a_choice();
    let network = network_of(&chart).unwrap();
    let [edge] = bearing(&network, 1)[..] else {
        panic!("one edge bears transition 1");
    };
    assert_eq!((edge.exit_tested, edge.automata_tested), (Some(0), 2));
    assert!(bearing(&network, 2).is_empty());
    chart.states[4].exit_marks = 3;
    assert_eq!(bearing(&network_of(&chart).unwrap(), 2).len(), 1);
}

#[test]
fn a_plain_state_counts_as_a_basic_one_with_the_exits_that_its_states_share() {
    let chart = plain_in_a_choice();
    let plain = Plain::of(&chart);
    assert_eq!([3, 7, 4, 1].map(|state| plain.exits(state)), [1, 1, 3, 0]);
    assert_eq!([3, 7, 4, 1].map(|state| plain.is_fixed(state)), [true, true, true, false]);
    let network = network_of(&chart).unwrap();
    // Left by exit 0 it tests the automaton whose child is plain, and nothing of the other plain state.
    let [edge] = bearing(&network, 2)[..] else {
        panic!("one edge bears transition 2");
    };
    assert_eq!((edge.exit_tested, edge.automata_tested), (Some(0), 2));
    // By exit 1 the other plain state drops the choice of the basic child, which is marked.
    assert!(bearing(&network, 3).is_empty());
    let mut shared = chart.clone();
    shared.states[9].exit_marks = 3;
    let shared = network_of(&shared).unwrap();
    let [edge] = bearing(&shared, 3)[..] else {
        panic!("one edge bears transition 3 once the exit is shared");
    };
    assert_eq!((edge.exit_tested, edge.automata_tested), (Some(1), 2));
    // A child with one sensor so marked hears the exit, though it is never left by it.
    let layout = Layout::of(&chart);
    let heard = layout.exit_channel[&(1, 1)];
    let hears = |edge: &&Edge| {
        edge.label.signal == Signal::Receive(heard) && edge.source == layout.location_of_child(3)
    };
    assert_eq!(network.edges.iter().filter(hears).count(), 1);
}

/// Where no parallel state has a basic child, nothing is plain, and own bounds are a state's own.
#[test]
fn without_sensors_nothing_is_plain() {
    let charts = (0..400).map(chart_from_seed).filter(|chart| !has_sensors(chart));
    let mut seen = 0;
    for chart in charts {
        seen += 1;
        let plain = Plain::of(&chart);
        for (number, state) in chart.states.iter().enumerate() {
            assert_eq!(plain.is_fixed(number), state.kind == Kind::Basic);
            assert_eq!(plain.exits(number), state.exit_marks);
            assert_eq!(*plain.own_bounds(number), state.bounds);
        }
        let network = network_of(&chart).unwrap();
        let no_test = |edge: &&Edge| edge.exit_tested.is_some() && edge.automata_tested == 0;
        assert_eq!(network.edges.iter().filter(no_test).count(), 0);
    }
    assert!(seen > 150, "{seen}");
}

/// 255 as the exit tested exactly where the set that is tested is empty.
#[test]
fn the_exit_is_tested_exactly_where_an_automaton_is() {
    for seed in 0..400 {
        let network = network_of(&chart_from_seed(seed)).unwrap();
        for edge in &network.edges {
            assert_eq!(edge.exit_tested.is_some(), edge.automata_tested != 0, "seed {seed}");
        }
    }
}

/// The file `samples/sensors.chart`.
#[test]
fn the_sensors_sample() {
    let chart = check(include_bytes!("../../samples/sensors.chart")).unwrap();
    let network = network_of(&chart).unwrap();
    assert_eq!((network.automata, network.locations.len(), network.edges.len()), (2, 12, 14));
    // The weft feeler bounds weaving.
    let weaving = chart_machine::step(&chart, &chart_machine::start(&chart), &[0]).unwrap();
    assert!(chart_machine::wait(&chart, &weaving, 6).is_ok());
    assert_eq!(chart_machine::wait(&chart, &weaving, 7), Err(Refusal::BoundBroken));
    // The light curtain keeps exit 1 shut, and exit 0 is open while the shed is closed.
    assert!(chart_machine::step(&chart, &weaving, &[3]).is_ok());
    assert_eq!(chart_machine::step(&chart, &weaving, &[4]), Err(Refusal::Inactive));
    assert!(bearing(&network, 4).is_empty());
    let open = chart_machine::step(&chart, &weaving, &[1]).unwrap();
    assert_eq!(chart_machine::step(&chart, &open, &[3]), Err(Refusal::Inactive));
    // On the network, as in samples/runs: weaving and its urgent move, a wait too long, the stop.
    let mut on_network = network_machine::start(&network);
    for list in [&[0][..], &[4, 9]] {
        on_network = network_machine::step(&network, &on_network, list).unwrap();
    }
    let late = network_machine::wait(&network, &on_network, 7);
    assert_eq!(late, Err(Refusal::BoundBroken));
    for list in [&[2][..], &[6, 10], &[1], &[5], &[3], &[8]] {
        on_network = network_machine::step(&network, &on_network, list).unwrap();
    }
    assert_eq!(on_network, network_machine::start(&network));
    assert_eq!(bearing(&network, 6)[0].exit_tested, None);
}

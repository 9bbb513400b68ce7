//! The longest wait of both machines: worked cases, each answer tried by waits, and readings of it that
//! are wrong and have to be noticed.

mod committed;

use reference::coverage::longest_reason::Reason;
use reference::coverage::longest_tally::LongestTally;
use reference::forms::request::{Request, Success};
use reference::generate::charts::chart_from_seed;
use reference::generate::longest::{chart_longest_requests, network_longest_requests};
use reference::generate::random::Random;
use reference::generate::special::{one_loop, sample_3, state};
use reference::generate::walk::{chart_requests, network_requests};
use reference::model::chart::{Chart, Kind, State};
use reference::model::chart_machine::{self, active_bounds, ChartConfiguration};
use reference::model::check::check;
use reference::model::flatten::network_of;
use reference::model::label::{Declared, Label, Signal};
use reference::model::limits::{LARGEST, NONE, NO_BOUND};
use reference::model::network::Network;
use reference::model::network_machine::{self, occupied_bounds, NetworkConfiguration};
use reference::model::refusal::Refusal;
use reference::model::values::{ticks_left, Bounds};
use reference::model::version::Version;
use reference::runs::longest::{is_longest_of_chart, is_longest_of_network, LongestWaits};
use reference::runs::moment::Machines;
use reference::runs::side_by_side::run_both_lists;

use committed::vectors;

/// A loop with so many clocks, and these bounds on the first of its basic state.
fn with_bounds(clocks: usize, bounds: &[u32]) -> Chart {
    let declared = Declared { clocks, ..Declared::default() };
    let mut chart = one_loop(Version::One, declared, Label::of_signal(Signal::None));
    chart.states[1].bounds.0[..bounds.len()].copy_from_slice(bounds);
    chart
}

/// The answer of both machines, the clocks being these at the start, or 17 and 26.
fn answer(chart: &Chart, clocks: &[u32]) -> Option<u32> {
    let network = network_of(chart).unwrap();
    let mut on_chart = chart_machine::start(chart);
    let mut on_network = network_machine::start(&network);
    on_chart.values.clocks[..clocks.len()].copy_from_slice(clocks);
    on_network.values.clocks = on_chart.values.clocks;
    let of_chart = chart_machine::longest_wait(chart, &on_chart);
    let of_network = network_machine::longest_wait(&network, &on_network);
    match (of_chart, of_network) {
        (Ok(ticks), Ok(same)) if ticks == same => Some(ticks),
        (Err(Refusal::ChartConfiguration), Err(Refusal::NetworkConfiguration)) => None,
        other => panic!("{other:?}"),
    }
}

#[test]
fn one_test_tells_the_ticks_left() {
    assert_eq!(ticks_left(3, 0), Some(3));
    assert_eq!(ticks_left(3, 3), Some(0));
    assert_eq!(ticks_left(3, 4), None);
    assert_eq!(ticks_left(0, 0), Some(0));
    assert_eq!(ticks_left(LARGEST, 5), Some(LARGEST - 5));
    // No bound leaves what the limit leaves.
    assert_eq!(ticks_left(NO_BOUND, 5), Some(LARGEST - 5));
    assert_eq!(ticks_left(NO_BOUND, LARGEST), Some(0));
    assert_eq!(ticks_left(NO_BOUND, LARGEST + 1), None);
}

#[test]
fn bounds_and_limits() {
    // S4: a bound of 3.
    let bounded = with_bounds(1, &[3]);
    assert_eq!(
        [0, 2, 3, 4].map(|clock| answer(&bounded, &[clock])),
        [Some(3), Some(1), Some(0), None]
    );
    let free = with_bounds(1, &[]);
    let clocks = [0, 1, LARGEST - 1, LARGEST, LARGEST + 1, u32::MAX];
    let expected = [Some(LARGEST), Some(LARGEST - 1), Some(1), Some(0), None, None];
    assert_eq!(clocks.map(|clock| answer(&free, &[clock])), expected);
    // The least counts, of bounds and of limits, whichever clock has it.
    let both = with_bounds(2, &[NO_BOUND, 9]);
    assert_eq!(answer(&both, &[0, 2]), Some(7));
    assert_eq!(answer(&both, &[LARGEST - 4, 2]), Some(4));
    assert_eq!(answer(&both, &[LARGEST - 8, 2]), Some(7));
    // Without a clock there is no limit; a clock that is not declared has to be 0.
    assert_eq!(answer(&with_bounds(0, &[]), &[]), Some(u32::MAX));
    assert_eq!(answer(&with_bounds(0, &[]), &[1]), None);
}

/// The bounds of all active states count, and no others.
#[test]
fn all_active_states_count() {
    let mut states = vec![
        state(NONE, Kind::Parallel, 1, 0),
        state(0, Kind::Sequential, 1, 0),
        state(1, Kind::Basic, 1, 0),
        state(1, Kind::Basic, 0, 0),
        state(0, Kind::Basic, 1, 0),
    ];
    for (state, bound) in states.iter_mut().zip([30, 20, 10, 1, 15]) {
        state.bounds.0[0] = bound;
    }
    let mut chart = chart_of(states);
    for (state, left) in [(2, 15), (4, 20), (1, 30), (0, LARGEST)] {
        let before = answer(&chart, &[]).unwrap();
        assert!(before < left);
        chart.states[state].bounds = Bounds::NONE;
        assert_eq!(answer(&chart, &[]), Some(left));
    }
}

fn chart_of(states: Vec<State>) -> Chart {
    let declared = Declared { clocks: 1, ..Declared::default() };
    let chart = Chart::new(Version::One, declared, 1, 0, states, Vec::new());
    check(&chart.write()).expect("the chart passes")
}

/// At an urgent location it is 0, and not refused; its bounds and 26 come first.
#[test]
fn urgent_locations() {
    let mut network = network_of(&sample_3()).unwrap();
    let start = network_machine::start(&network);
    assert_eq!(network_machine::longest_wait(&network, &start), Ok(u32::MAX));
    let mut urgent = network_machine::step(&network, &start, &[0]).unwrap();
    assert_eq!(network_machine::longest_wait(&network, &urgent), Ok(0));
    network.declared.clocks = 1;
    assert_eq!(network_machine::longest_wait(&network, &urgent), Ok(0));
    urgent.values.clocks[0] = LARGEST + 1;
    let refused = Err(Refusal::NetworkConfiguration);
    assert_eq!(network_machine::longest_wait(&network, &urgent), refused);
    urgent.values.clocks[0] = 6;
    network.locations[3].bounds.0[0] = 5;
    assert_eq!(network_machine::longest_wait(&network, &urgent), refused);
}

/// On the configurations met in runs, on wild ones and on bad ones.
#[test]
fn each_answer_is_exact() {
    let mut tally = LongestTally::default();
    let (mut refused_charts, mut refused_networks) = (0, 0);
    for seed in 0..1_000 {
        let mut random = Random::new(seed);
        let chart = chart_from_seed(seed);
        let network = network_of(&chart).unwrap();
        let run = chart_requests(&chart, 20, &mut random);
        let mut requests = chart_longest_requests(&chart, &run, &mut random);
        let run = network_requests(&network, 20, &mut random);
        requests.extend(network_longest_requests(&network, &run, &mut random));
        for request in requests {
            match (&request, request.answer()) {
                (Request::ChartLongest(_, given), Ok(Success::Longest(ticks))) => {
                    assert!(is_longest_of_chart(&chart, given, ticks), "seed {seed}: {given:?}");
                    tally.count_of_chart(&chart, given, ticks);
                }
                (Request::NetworkLongest(_, given), Ok(Success::Longest(ticks))) => {
                    let exact = is_longest_of_network(&network, given, ticks);
                    assert!(exact, "seed {seed}: {given:?}");
                    tally.count_of_network(&network, given, ticks);
                }
                (Request::ChartLongest(_, given), Err(Refusal::ChartConfiguration)) => {
                    let wait = chart_machine::wait(&chart, given, 1);
                    assert_eq!(wait, Err(Refusal::ChartConfiguration));
                    refused_charts += 1;
                }
                (Request::NetworkLongest(_, given), Err(Refusal::NetworkConfiguration)) => {
                    let wait = network_machine::wait(&network, given, 1);
                    assert_eq!(wait, Err(Refusal::NetworkConfiguration));
                    refused_networks += 1;
                }
                other => panic!("seed {seed}: {other:?}"),
            }
        }
    }
    println!("{tally:#?}");
    println!("refused: {refused_charts} of charts, {refused_networks} of networks");
    assert!(refused_charts > 1_000 && refused_networks > 1_000);
    assert_eq!(tally.of_charts.len(), Reason::OF_CHARTS.len());
    assert_eq!(tally.of_networks.len(), Reason::ALL.len());
    for count in tally.of_charts.values().chain(tally.of_networks.values()) {
        assert!(*count > 400, "{tally:#?}");
    }
    assert!(tally.inactive_bounds > 10_000);
}

/// The files `samples/take_up.chart` and `samples/sensors.chart`, as `samples/runs` has them.
#[test]
fn the_samples() {
    let chart = check(include_bytes!("../../samples/take_up.chart")).unwrap();
    let longest = |given: &ChartConfiguration| chart_machine::longest_wait(&chart, given);
    let threading = chart_machine::start(&chart);
    assert_eq!(longest(&threading), Ok(LARGEST));
    let open = chart_machine::step(&chart, &threading, &[0]).unwrap();
    assert_eq!(longest(&open), Ok(4));
    let later = chart_machine::wait(&chart, &open, 3).unwrap();
    assert_eq!(longest(&later), Ok(1));
    let beat = chart_machine::step(&chart, &later, &[1]).unwrap();
    assert_eq!(longest(&beat), Ok(0));

    let chart = check(include_bytes!("../../samples/sensors.chart")).unwrap();
    let network = network_of(&chart).unwrap();
    let weaving = chart_machine::step(&chart, &chart_machine::start(&chart), &[0]).unwrap();
    assert_eq!(chart_machine::longest_wait(&chart, &weaving), Ok(6));
    let owing = network_machine::step(&network, &network_machine::start(&network), &[0]).unwrap();
    assert_eq!(network_machine::longest_wait(&network, &owing), Ok(0));
    let settled = network_machine::step(&network, &owing, &[4, 9]).unwrap();
    let later = network_machine::wait(&network, &settled, 2).unwrap();
    assert_eq!(network_machine::longest_wait(&network, &later), Ok(4));
    let later = chart_machine::wait(&chart, &weaving, 2).unwrap();
    assert_eq!(chart_machine::longest_wait(&chart, &later), Ok(4));
}

// Readings that are wrong.

/// What the bounds that are joined leave if the limit does not count.
fn without_limit(bounds: &Bounds, clocks: &[u32]) -> u32 {
    let bounded = bounds.0.iter().zip(clocks).filter(|(&bound, _)| bound != NO_BOUND);
    bounded.map(|(bound, clock)| bound - clock).min().unwrap_or(u32::MAX)
}

fn clocks_of<'a>(chart: &Chart, given: &'a ChartConfiguration) -> &'a [u32] {
    &given.values.clocks[..chart.declared.clocks]
}

fn clocks_of_network<'a>(network: &Network, given: &'a NetworkConfiguration) -> &'a [u32] {
    &given.values.clocks[..network.declared.clocks]
}

const ONE_TOO_MANY: LongestWaits = LongestWaits {
    of_chart: |chart, given| Ok(chart_machine::longest_wait(chart, given)?.saturating_add(1)),
    of_network: |network, given| {
        Ok(network_machine::longest_wait(network, given)?.saturating_add(1))
    },
};

const ONE_TOO_FEW: LongestWaits = LongestWaits {
    of_chart: |chart, given| Ok(chart_machine::longest_wait(chart, given)?.saturating_sub(1)),
    of_network: |network, given| {
        Ok(network_machine::longest_wait(network, given)?.saturating_sub(1))
    },
};

const NO_LIMIT: LongestWaits = LongestWaits {
    of_chart: |chart, given| {
        chart_machine::longest_wait(chart, given)?;
        Ok(without_limit(&active_bounds(chart, given), clocks_of(chart, given)))
    },
    of_network: |network, given| match network_machine::longest_wait(network, given)? {
        0 => Ok(0),
        _ => {
            let clocks = clocks_of_network(network, given);
            Ok(without_limit(&occupied_bounds(network, given), clocks))
        }
    },
};

/// The limit counts though there is no clock.
const ALWAYS_A_LIMIT: LongestWaits = LongestWaits {
    of_chart: |chart, given| Ok(chart_machine::longest_wait(chart, given)?.min(LARGEST)),
    of_network: |network, given| Ok(network_machine::longest_wait(network, given)?.min(LARGEST)),
};

/// An urgent location does not end waits.
const NOT_URGENT: LongestWaits = LongestWaits {
    of_network: |network, given| {
        network_machine::longest_wait(network, given)?;
        let clocks = clocks_of_network(network, given);
        Ok(occupied_bounds(network, given).ticks_left(clocks).expect("bounds are kept"))
    },
    ..LongestWaits::RIGHT
};

/// The bounds of inactive states and of locations that are not occupied count.
const ALL_BOUNDS: LongestWaits = LongestWaits {
    of_chart: |chart, given| {
        chart_machine::longest_wait(chart, given)?;
        let all = Bounds::joined(chart.states.iter().map(|state| &state.bounds));
        Ok(all.ticks_left(clocks_of(chart, given)).unwrap_or(0))
    },
    of_network: |network, given| {
        let right = network_machine::longest_wait(network, given)?;
        let all = Bounds::joined(network.locations.iter().map(|location| &location.bounds));
        Ok(right.min(all.ticks_left(clocks_of_network(network, given)).unwrap_or(0)))
    },
};

/// The bounds of basic states count, and none of those above them.
const BASIC_BOUNDS: LongestWaits = LongestWaits {
    of_chart: |chart, given| {
        chart_machine::longest_wait(chart, given)?;
        let mut basic = chart.clone();
        let composite = basic.states.iter_mut().filter(|state| state.is_composite());
        composite.for_each(|state| state.bounds = Bounds::NONE);
        chart_machine::longest_wait(&basic, given)
    },
    ..LongestWaits::RIGHT
};

/// A bound is refused when it is reached, not when it is broken.
const REACHED_IS_BROKEN: LongestWaits = LongestWaits {
    of_chart: |chart, given| match chart_machine::longest_wait(chart, given)? {
        0 => Err(Refusal::ChartConfiguration),
        ticks => Ok(ticks),
    },
    of_network: |network, given| match network_machine::longest_wait(network, given)? {
        0 if !network_machine::urgent_is_occupied(network, given) => {
            Err(Refusal::NetworkConfiguration)
        }
        ticks => Ok(ticks),
    },
};

const WRONG: [(&str, LongestWaits); 8] = [
    ("one tick too many", ONE_TOO_MANY),
    ("one tick too few", ONE_TOO_FEW),
    ("no limit", NO_LIMIT),
    ("always a limit", ALWAYS_A_LIMIT),
    ("not urgent", NOT_URGENT),
    ("all bounds", ALL_BOUNDS),
    ("bounds of basic states", BASIC_BOUNDS),
    ("reached is broken", REACHED_IS_BROKEN),
];

/// The runs of both machines notice each of them, though both machines may have it.
#[test]
fn wrong_readings_are_noticed_in_runs() {
    for (name, wrong) in WRONG {
        let shows = |&seed: &u64| {
            let mut machines = Machines::of(chart_from_seed(seed)).unwrap();
            machines.longest = wrong;
            run_both_lists(&machines, 30, &mut Random::new(seed)).is_err()
        };
        let shown = (0..200).filter(shows).count();
        println!("{name}: noticed on {shown} charts of 200");
        assert!(shown > 10, "{name}: {shown}");
    }
}

/// A program that reads it so does not pass the vectors.
#[test]
fn wrong_readings_fail_the_vectors() {
    for (form, requests) in vectors() {
        for (name, wrong) in WRONG {
            let (mut charts, mut networks) = (0, 0);
            for request in &requests {
                match request {
                    Request::ChartLongest(file, given) => {
                        let answer = check(file).and_then(|chart| (wrong.of_chart)(&chart, given));
                        charts += u64::from(answer.map(Success::Longest) != request.answer());
                    }
                    Request::NetworkLongest(file, given) => {
                        let read = Network::read(file);
                        let answer = read.and_then(|network| (wrong.of_network)(&network, given));
                        networks += u64::from(answer.map(Success::Longest) != request.answer());
                    }
                    _ => {}
                }
            }
            println!("{form}: {name} fails {charts} requests of charts, {networks} of networks");
            let [of_chart, of_network] = [name != "not urgent", name != "bounds of basic states"];
            assert_eq!(charts > 0, of_chart, "{form}: {name}");
            assert_eq!(networks > 0, of_network, "{form}: {name}");
        }
    }
}

//! The proved implementation gives the same answers, on networks by both sets of its functions. A
//! refused call changes nothing that was lent, flattening nothing after the network, a longest wait
//! nothing but the ticks, and a count of weft breaks not the list, which `proved` tests.

mod committed;

use reference::forms::request::Request;
use reference::generate::breaks::all_short_requests;
use reference::generate::charts::chart_from_seed;
use reference::generate::completion::completion_requests;
use reference::generate::random::Random;
use reference::generate::special;
use reference::generate::special_breaks::{at_both_ends, long_lists, MILLION};
use reference::generate::special_completion::completion_charts;
use reference::generate::special_sensors;
use reference::model::refusal::Refusal;
use reference::runs::compare::Agreed;
use reference::runs::proved;

use committed::vectors;

#[test]
fn every_vector_agrees() {
    let mut agreed = Agreed::default();
    for request in vectors().into_iter().flat_map(|(_, requests)| requests) {
        agreed.compare(&request);
    }
    println!("{agreed}");
}

#[test]
fn runs_and_damaged_files_agree() {
    let mut agreed = Agreed::default();
    for seed in 0..400 {
        agreed.compare_seed(seed, 20);
    }
    println!("{agreed}");
    assert!(agreed.refused_with(Refusal::RangeLeft) > 1_000);
}

#[test]
fn charts_at_the_limits_agree() {
    let mut agreed = Agreed::default();
    let mut random = Random::new(1);
    let charts = [
        special::largest(),
        special::dense(),
        special::many_equal_choices(),
        special::chart_with_edges(1024),
        special::chart_with_edges(1025),
        special::most_alternatives(),
        special::most_advances(),
        special::most_levels(),
        special_sensors::most_sensors(),
    ];
    for chart in charts.into_iter().chain(special_sensors::with_sensors()) {
        agreed.compare_chart(&chart, 40, &mut random);
    }
    agreed.compare_chart(&special::longest_network(), 1, &mut random);
    let refused = special_sensors::no_sequential_state().write();
    agreed.compare(&Request::Check(refused.clone()));
    agreed.compare(&Request::Flatten(refused.clone(), 1_000));
    agreed.compare(&Request::ChartStart(refused));
    println!("{agreed}");
}

/// A byte other than 0 and 1 for a state is 17, after the refusals of the check, and what was lent stays as
/// it was.
#[test]
fn bytes_of_active_states_agree() {
    let mut agreed = Agreed::default();
    let charts = [special::sample_1(), special::dense(), special_sensors::most_sensors()];
    for chart in charts.into_iter().chain((0..40).map(chart_from_seed)) {
        agreed.compare_run_with_bytes(&chart, 10, &mut Random::new(1));
    }
    println!("{agreed}");
    assert!(agreed.refused_with(Refusal::ChartConfiguration) > 100_000);
    let by_check = Refusal::ALL.into_iter().filter(|refusal| refusal.number() <= 14);
    assert!(by_check.map(|refusal| agreed.refused_with(refusal)).sum::<u64>() > 100_000);
}

/// Every basic state of the deep and of the wide chart lacks exits in turn.
#[test]
fn completion_agrees() {
    let mut agreed = Agreed::default();
    let mut random = Random::new(1);
    for (_, chart) in completion_charts() {
        for request in completion_requests(&chart) {
            agreed.compare(&request);
        }
        agreed.compare_chart(&chart, 40, &mut random);
    }
    println!("{agreed}");
    assert!(agreed.refused_with(Refusal::Inactive) > 10_000);
    assert!(agreed.refused_with(Refusal::NotAllowed) > 10_000);
}

#[test]
fn weft_breaks_agree() {
    let mut agreed = Agreed::default();
    agreed.compare_breaks(50_000, &mut Random::new(1));
    for request in all_short_requests(5, 5) {
        agreed.compare(&request);
    }
    println!("{agreed}");
    assert!(agreed.refused_with(Refusal::WeftBreaks) > 10_000);
}

/// Of lists of a million ticks, as they are and with a fall at the end.
#[test]
fn weft_breaks_of_long_lists_agree() {
    let mut lists = long_lists();
    lists.push(("both ends", at_both_ends(MILLION as u32 / 2)));
    lists.push(("equal at the front", vec![0; MILLION]));
    lists.push(("equal at the end", vec![u32::MAX; MILLION]));
    for (name, mut ticks) in lists {
        for window in [0, 1, 2, 1_000, 100_000, 10_000_000, u32::MAX] {
            assert_agree(name, &ticks, window);
        }
        ticks[MILLION - 2] = ticks[MILLION - 1].max(1);
        ticks[MILLION - 1] = ticks[MILLION - 2] - 1;
        for window in [1, u32::MAX] {
            assert_agree(name, &ticks, window);
        }
    }
}

/// Says which list it is: the request itself is too long to be printed.
fn assert_agree(name: &str, ticks: &[u32], window: u32) {
    let request = Request::WeftBreaks(ticks.to_vec(), window);
    assert_eq!(proved::answer(&request), request.answer(), "{name}, window {window}");
}

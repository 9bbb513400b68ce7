//! The vector file for programs: what is in the repository is what is written, and it covers every
//! refusal, every kind of guard, relation, signal and place, both versions with every kind of
//! advance and every fault of one, sensors and plain parallel states at every place, longest waits
//! decided by everything that can decide one, results that leave the range at every place, steps that ask
//! whether deep and wide composite states are completed, and weft breaks.

use std::fs;
use std::path::Path;
use std::sync::OnceLock;

use reference::coverage::features::Counts;
use reference::coverage::longest_reason::Reason;
use reference::forms::binary::{
    answer_to_lines, any_request_to_bytes, requests_from_bytes, AnyRequest,
};
use reference::forms::request::Request;
use reference::generate::completion::few_completion_requests;
use reference::generate::faulty::{all_faulty, Faulty};
use reference::model::refusal::Refusal;
use reference::runs::vector_files::{
    vector_file, Part, VectorFile, MOST_INPUT_BYTES, MOST_OUTPUT_BYTES, MOST_TICKS, WINDOW,
};

/// The file, written once for all tests.
fn file() -> &'static VectorFile {
    static FILE: OnceLock<VectorFile> = OnceLock::new();
    FILE.get_or_init(vector_file)
}

fn part(name: &str) -> &'static Part {
    file().parts.iter().find(|part| part.name == name).expect("the part is written")
}

/// All requests, in their order.
fn requests() -> Vec<AnyRequest> {
    requests_from_bytes(&file().input()).expect("whole requests")
}

fn assert_covered(counts: &Counts, wanted: impl IntoIterator<Item = String>) {
    let missing: Vec<String> =
        wanted.into_iter().filter(|feature| !counts.contains_key(feature)).collect();
    assert!(missing.is_empty(), "missing: {missing:#?}");
}

fn refusals(operation: &str, numbers: impl IntoIterator<Item = u8>) -> Vec<String> {
    numbers.into_iter().map(|number| format!("{operation}: refusal {number}")).collect()
}

/// The names of all kinds of guard with all relations.
fn guards() -> Vec<String> {
    let relations = ["Less", "AtMost", "Greater", "AtLeast", "Equal", "Different"];
    ["Data", "Clock", "Difference"]
        .iter()
        .flat_map(|kind| relations.iter().map(move |relation| format!("{kind} {relation}")))
        .collect()
}

fn guards_both_ways(operation: &str) -> Vec<String> {
    guards()
        .iter()
        .flat_map(|guard| {
            [true, false].map(|truth| format!("{operation}: guard {guard} is {truth}"))
        })
        .collect()
}

fn parts(operation: &str, parts: &[&str]) -> Vec<String> {
    parts.iter().map(|part| format!("{operation}: {part}")).collect()
}

const LABEL_PARTS: [&str; 12] = [
    "signal none",
    "signal send",
    "signal receive",
    "expression code 0",
    "expression code 1",
    "expression code 2",
    "expression code 3",
    "expression code 4",
    "expression code 5",
    "expression code 6",
    "several assignments",
    "resets",
];

const ADVANCES: [&str; 10] = [
    "advance",
    "advance, numerator 0",
    "advance, numerator 1",
    "advance, numerator 65535",
    "advance, denominator 1",
    "advance, denominator 2",
    "advance, denominator 65535",
    "assignment before advance",
    "advance before assignment",
    "several advances",
];

/// What an advance meets and does in an accepted step.
const ADVANCES_MADE: [&str; 6] = [
    "advance with a negative remainder",
    "advance with the least remainder",
    "advance with a remainder above the denominator",
    "advance with a sum that passes the range",
    "advance with steps that reach an end of the range",
    "advance with negative steps",
];

/// Every fault of an advance or of the version, with the number that it gets.
fn faults(operation: &str, number: impl Fn(&Faulty) -> Refusal) -> Vec<String> {
    let name =
        |one: &Faulty| format!("{operation}: refusal {} by {}", number(one).number(), one.name);
    all_faulty().iter().map(name).collect()
}

/// The sensors and plain parallel states of a chart.
const SENSORS: [&str; 11] = [
    "sensor with bounds, with marks",
    "sensor with bounds, without marks",
    "sensor without bounds, with marks",
    "sensor without bounds, without marks",
    "sensor in the root",
    "plain in a sequential state",
    "plain in a parallel state",
    "plain in a sequential root",
    "plain in a parallel root",
    "plain source",
    "plain destination",
];

/// What flattening makes of them.
const FLATTENED_SENSORS: [&str; 9] = [
    "sensor's bound at a parallel state",
    "sensor's bound carried down",
    "sensor's bound in pre",
    "sensor's bound in post",
    "choice dropped",
    "edge to post that tests no exit",
    "plain source without an edge",
    "plain at no exit",
    "plain at an exit",
];

const SETS: [&str; 6] = [
    "set without signal",
    "set on a rendezvous channel",
    "set on a broadcast channel, 0 receivers",
    "set on a broadcast channel, 1 receivers",
    "set on a broadcast channel, 2 receivers",
    "set on a broadcast channel, 3 or more receivers",
];

/// Longest waits by what decides them.
fn longest_waits(operation: &str, reasons: &[Reason]) -> Vec<String> {
    reasons.iter().map(|reason| format!("{operation}: {}", reason.name())).collect()
}

#[test]
fn the_repository_has_the_file_as_written() {
    let folder = Path::new(env!("CARGO_MANIFEST_DIR")).join("vectors");
    assert!(fs::read(folder.join("requests.stdin")).unwrap() == file().input());
    assert!(fs::read_to_string(folder.join("requests.stdout")).unwrap() == file().output());
}

#[test]
fn the_file_can_be_read_and_answered() {
    let requests = requests();
    let count: usize = file().parts.iter().map(|part| part.requests).sum();
    assert_eq!(requests.len(), count);
    let again: Vec<u8> = requests.iter().flat_map(any_request_to_bytes).collect();
    assert!(again == file().input());
    assert!(requests.iter().map(answer_to_lines).collect::<String>() == file().output());
}

#[test]
fn the_chosen_requests_are_few_enough() {
    for part in file().parts.iter().filter(|part| part.name != "largest") {
        assert!(part.input.len() <= MOST_INPUT_BYTES);
        assert!(part.output.len() <= MOST_OUTPUT_BYTES);
    }
}

#[test]
fn the_largest_request_passes_the_end_of_what_is_read_first() {
    let mut at = 0;
    let mut across = 0;
    for request in requests() {
        let next = at + any_request_to_bytes(&request).len();
        if at < WINDOW && WINDOW < next {
            across = next - at;
        }
        at = next;
    }
    assert_eq!(across, part("largest").input.len());
    // And what follows passes the end of as much again.
    assert!(at > 2 * WINDOW);
}

#[test]
fn the_chart_requests_cover_everything() {
    let counts = &part("chart").counts;
    assert_covered(counts, refusals("check", 1..=14));
    assert_covered(counts, parts("check", &["ok"]));
    assert_covered(counts, parts("check", &LABEL_PARTS));
    assert_covered(counts, parts("chart start", &["ok"]));
    for operation in ["check", "chart start", "chart step", "chart wait", "chart longest wait"] {
        assert_covered(counts, parts(operation, &["version 1", "version 2"]));
    }
    assert_covered(counts, parts("check", &ADVANCES));
    assert_covered(counts, parts("chart step", &ADVANCES));
    assert_covered(counts, parts("chart step", &ADVANCES_MADE));
    assert_covered(counts, faults("check", |one| one.chart_refusal));
    assert_covered(counts, faults("chart start", |one| one.chart_refusal));
    assert_covered(counts, refusals("chart step", (17..=21).chain([28])));
    assert_covered(counts, guards_both_ways("chart step"));
    assert_covered(counts, parts("chart step", &LABEL_PARTS));
    assert_covered(counts, parts("chart step", &SETS));
    let ends = ["from Basic", "from Sequential", "from Parallel"];
    assert_covered(counts, parts("chart step", &ends));
    let ends = ["to Basic", "to Sequential", "to Parallel", "composite self-loop"];
    assert_covered(counts, parts("chart step", &ends));
    assert_covered(counts, refusals("chart wait", [17, 21, 22]));
    assert_covered(counts, parts("chart wait", &["ok"]));
    assert_covered(counts, parts("check", &SENSORS));
    assert_covered(counts, parts("chart start", &["sensors"]));
    let sensors = ["from plain", "to plain", "exit shut by a sensor"];
    assert_covered(counts, parts("chart step", &sensors));
    assert_covered(counts, parts("chart step", &["refused by a sensor's bound"]));
    assert_covered(counts, parts("chart wait", &["refused by a sensor's bound"]));
    assert_covered(counts, refusals("chart longest wait", (1..=14).chain([17])));
    assert_covered(counts, longest_waits("chart longest wait", Reason::OF_CHARTS));
    let inactive = [
        "by a bound, though an inactive state has a smaller bound",
        "by a limit, though an inactive state has a smaller bound",
        "by a sensor's bound",
    ];
    assert_covered(counts, parts("chart longest wait", &inactive));
}

#[test]
fn the_flatten_requests_cover_everything() {
    let counts = &part("flatten").counts;
    assert_covered(counts, refusals("flatten", 1..=16));
    assert_covered(counts, parts("flatten", &LABEL_PARTS));
    assert_covered(counts, parts("flatten", &SENSORS));
    assert_covered(counts, parts("flatten", &FLATTENED_SENSORS));
    assert_covered(counts, parts("flatten", &["version 1", "version 2"]));
    assert_covered(counts, parts("flatten", &ADVANCES));
    assert_covered(counts, faults("flatten", |one| one.chart_refusal));
    assert_covered(counts, guards().iter().map(|guard| format!("flatten: guard {guard}")));
    assert_covered(counts, parts("flatten", &["has idle", "has child", "has pre", "has post"]));
    let alternatives = [
        "0 alternatives",
        "1 alternatives",
        "2 alternatives",
        "3 alternatives",
        "4 or more alternatives",
    ];
    assert_covered(counts, parts("flatten", &alternatives));
    let flags = [
        "flag test of 0: true, of 1: false",
        "flag test of 0: false, of 1: true",
        "flag test of 0: true, of 1: true",
        "flag written 0",
        "flag written 1",
    ];
    assert_covered(counts, parts("flatten", &flags));
}

#[test]
fn the_network_requests_cover_everything() {
    let counts = &part("network").counts;
    for operation in ["network start", "network step", "network wait", "network longest wait"] {
        assert_covered(counts, refusals(operation, [24, 25]));
        assert_covered(counts, parts(operation, &["ok", "version 1", "version 2"]));
    }
    assert_covered(counts, parts("network step", &ADVANCES));
    assert_covered(counts, parts("network step", &ADVANCES_MADE));
    assert_covered(counts, faults("network start", |one| one.network_refusal));
    assert_covered(counts, refusals("network step", [18, 19, 20, 21, 26, 27, 28]));
    assert_covered(counts, refusals("network wait", [21, 22, 26, 27]));
    assert_covered(counts, refusals("network longest wait", [26]));
    assert_covered(counts, longest_waits("network longest wait", &Reason::ALL));
    let elsewhere = [
        "by a bound, though a location elsewhere has a smaller bound",
        "by a limit, though a location elsewhere has a smaller bound",
        "0, an urgent location alone",
    ];
    assert_covered(counts, parts("network longest wait", &elsewhere));
    assert_covered(counts, guards_both_ways("network step"));
    assert_covered(counts, parts("network step", &LABEL_PARTS));
    assert_covered(counts, parts("network step", &SETS));
    let places = ["idle", "child", "pre", "post"];
    let leaves = places.map(|place| format!("network step: leaves {place}"));
    let reaches = places.map(|place| format!("network step: reaches {place}"));
    assert_covered(counts, leaves);
    assert_covered(counts, reaches);
    assert_covered(counts, parts("network step", &["edge to post that tests no exit"]));
    let flags = [
        "flag test false",
        "flag test of 0: true, of 1: false",
        "flag test of 0: false, of 1: true",
        "flag written 0",
        "flag written 1",
    ];
    assert_covered(counts, parts("network step", &flags));
}

#[test]
fn the_runs_cover_everything() {
    let counts = &part("side by side").counts;
    assert_covered(counts, refusals("side by side", 1..=15));
    assert_covered(counts, parts("side by side", &["version 1", "version 2"]));
    assert_covered(counts, parts("side by side", &["move with an advance"]));
    let sensors = ["move that tests no exit", "move to plain", "wait refused by a sensor's bound"];
    assert_covered(counts, parts("side by side", &sensors));
    assert_covered(counts, faults("side by side", |one| one.chart_refusal));
    let refused = |call, numbers: &[u8]| -> Vec<String> {
        numbers.iter().map(|number| format!("side by side: {call} refused {number}")).collect()
    };
    assert_covered(counts, refused("step", &[18, 19, 20, 21, 27, 28]));
    assert_covered(counts, refused("step without a number", &[18]));
    assert_covered(counts, refused("step of too many numbers", &[18]));
    assert_covered(counts, refused("wait", &[21, 22, 27]));
    let moves = [
        "flattened",
        "most edges",
        "step ok",
        "wait ok",
        "move of 1 edges with 1 transitions",
        "move of 2 edges with 2 transitions",
        "move of 3 or more edges with 3 or more transitions",
        "transitions in another order than their edges",
        "urgent move of 2 edges",
        "urgent move of 3 or more edges",
        "0 chart calls read",
        "10 or more chart calls read",
    ];
    assert_covered(counts, parts("side by side", &moves));
    for owed in ["0", "1", "2", "3 or more"] {
        assert_covered(counts, [format!("side by side: move, {owed} owed")]);
        assert_covered(counts, [format!("side by side: urgent move, {owed} still owed")]);
    }
}

/// What a step has of results that leave the range.
fn range_parts() -> Vec<String> {
    let mut all: Vec<String> = [
        "28 by an assignment",
        "28 by an advance",
        "28 by steps above the range",
        "28 by steps below the range",
        "28 by another update than the first",
        "28 by an inner result, the value being inside",
        "28 where a bound is broken too",
        "20 where an update would leave the range",
        "guard of a transition without signal without a value, which wrapped ones would meet",
        "guard of a sender without a value, which wrapped ones would meet",
        "guard of a receiver without a value, which wrapped ones would meet",
        "accepted without a receiver whose guard has no value",
        "accepted with a result at an end of the range",
    ]
    .map(String::from)
    .to_vec();
    for place in ["28", "guard, left side", "guard, right side"] {
        all.extend((2..=4).map(|code| format!("{place} by code {code}")));
        all.extend((1..=7).map(|level| format!("{place} at level {level}")));
        let below = ["a product by 0", "a quotient", "a remainder"];
        all.extend(below.map(|of| format!("{place} below {of}")));
    }
    for guard in guards().iter().filter(|guard| guard.starts_with("Data")) {
        all.push(format!("guard {guard} without a value"));
        all.push(format!("guard {guard} without a value, which wrapped ones would meet"));
    }
    for version in [1, 2] {
        all.extend(["28", "20", "guard"].map(|kind| format!("{kind} in version {version}")));
    }
    all
}

#[test]
fn the_requests_near_the_ends_of_the_range_cover_everything() {
    let counts = &part("range").counts;
    for operation in ["chart step", "network step"] {
        let wanted = range_parts().into_iter().map(|part| format!("{operation}: {part}"));
        assert_covered(counts, wanted);
    }
}

/// `tests/completion.rs` has wrong completions that these requests notice.
#[test]
fn the_requests_for_completion_cover_everything() {
    let part = part("completion");
    assert_eq!(part.requests, few_completion_requests().len());
    assert_covered(&part.counts, refusals("chart step", [19, 20]));
    let sets = [
        "set without signal",
        "set on a broadcast channel, 0 receivers",
        "set on a broadcast channel, 1 receivers",
        "set on a broadcast channel, 3 or more receivers",
    ];
    assert_covered(&part.counts, parts("chart step", &sets));
    let sources = ["from Parallel", "from plain", "exit shut by a sensor"];
    assert_covered(&part.counts, parts("chart step", &sources));
}

/// `tests/weft_breaks.rs` names every kind of list and of window that has to be there, and has wrong
/// readings that these requests notice.
#[test]
fn the_requests_to_count_weft_breaks_cover_everything() {
    let part = part("breaks");
    assert_covered(&part.counts, refusals("weft breaks", [29]));
    assert_covered(&part.counts, parts("weft breaks", &["ok"]));
    let requests = requests_from_bytes(&part.input).expect("whole requests");
    let lengths = requests.iter().map(|request| match request {
        AnyRequest::One(Request::WeftBreaks(ticks, _)) => ticks.len(),
        other => panic!("{other:?}"),
    });
    assert_eq!(lengths.max(), Some(MOST_TICKS));
}

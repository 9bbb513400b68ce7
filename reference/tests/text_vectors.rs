//! The requests and answers of the repository, of which two other implementations agree on most.

use std::collections::BTreeSet;

use reference::coverage::features::{features, operation_name, Features};
use reference::coverage::longest_reason::Reason;
use reference::forms::request::Request;
use reference::forms::text::{answer_line, request_from_text, request_to_text, MALFORMED};
use reference::generate::faulty::all_faulty;
use reference::generate::special_sensors;
use reference::model::chart::Chart;
use reference::model::refusal::Refusal;

const REQUESTS: &str = include_str!("../vectors/text.requests");
const ANSWERS: &str = include_str!("../vectors/text.answers");

#[test]
fn every_answer_agrees() {
    assert_eq!(REQUESTS.lines().count(), ANSWERS.lines().count());
    for (number, (request, answer)) in REQUESTS.lines().zip(ANSWERS.lines()).enumerate() {
        assert_eq!(answer_line(request), answer, "line {}", number + 1);
    }
}

#[test]
fn every_operation_and_refusal_is_there() {
    let operations: BTreeSet<&str> =
        REQUESTS.lines().filter_map(|line| line.split(' ').next()).collect();
    assert_eq!(operations.len(), 11);
    let answers: BTreeSet<&str> =
        ANSWERS.lines().filter_map(|line| line.split(' ').next()).collect();
    assert!(answers.contains("0") && answers.contains("ok"));
    for refusal in Refusal::ALL {
        assert!(answers.contains(refusal.number().to_string().as_str()), "{refusal:?}");
    }
}

#[test]
fn both_versions_and_every_fault_of_an_advance_are_there() {
    let answer = |request: &Request| {
        let line = request_to_text(request);
        let found = REQUESTS.lines().zip(ANSWERS.lines()).find(|(other, _)| *other == line);
        found.unwrap_or_else(|| panic!("{line}")).1
    };
    for one in all_faulty() {
        let number = one.chart_refusal.number().to_string();
        assert_eq!(answer(&Request::Check(one.chart)), number, "{}", one.name);
        let number = one.network_refusal.number().to_string();
        assert_eq!(answer(&Request::NetworkStart(one.network)), number, "{}", one.name);
    }
    let accepted = REQUESTS
        .lines()
        .zip(ANSWERS.lines())
        .filter(|(_, answer)| answer.starts_with("ok") || *answer == "0");
    let kinds: BTreeSet<(String, u8)> = accepted
        .map(|(line, _)| request_from_text(line).expect("a request"))
        .filter_map(|request| Some((operation_name(&request).to_string(), request.file()?[0])))
        .collect();
    // Ten operations have a file, in two versions.
    assert_eq!(kinds.len(), 10 * 2, "{kinds:?}");
}

#[test]
fn sensors_and_a_chart_without_a_sequential_state_are_there() {
    let answer = |chart: Chart| {
        let line = request_to_text(&Request::Check(chart.write()));
        let found = REQUESTS.lines().zip(ANSWERS.lines()).find(|(other, _)| *other == line);
        found.unwrap_or_else(|| panic!("{line}")).1
    };
    assert_eq!(answer(special_sensors::no_sequential_state()), "7");
    for chart in special_sensors::with_sensors() {
        assert_eq!(answer(chart), "0");
    }
    assert_eq!(answer(special_sensors::most_sensors()), "0");
}

/// Each refusal that a longest wait can get, and everything that can decide one.
#[test]
fn longest_waits_of_every_kind_are_there() {
    let mut found = Features::new();
    for line in REQUESTS.lines().filter(|line| line.contains("max ")) {
        found.extend(features(&request_from_text(line).expect("a request"), None));
    }
    let refusals = |operation: &str, numbers: &[u8]| -> Vec<String> {
        numbers.iter().map(|number| format!("{operation}: refusal {number}")).collect()
    };
    let reasons = |operation: &str, reasons: &[Reason]| -> Vec<String> {
        reasons.iter().map(|reason| format!("{operation}: {}", reason.name())).collect()
    };
    let wanted = [
        refusals("chart longest wait", &[1, 2, 3, 4, 5, 6, 7, 8, 9, 10, 11, 12, 13, 14, 17]),
        refusals("network longest wait", &[24, 25, 26]),
        reasons("chart longest wait", Reason::OF_CHARTS),
        reasons("network longest wait", &Reason::ALL),
        vec!["chart longest wait: by a sensor's bound".to_string()],
    ];
    let missing: Vec<String> =
        wanted.concat().into_iter().filter(|feature| !found.contains(feature)).collect();
    assert!(missing.is_empty(), "{missing:#?}");
}

#[test]
fn requests_are_written_as_they_are_read() {
    for line in REQUESTS.lines() {
        let request = request_from_text(line).expect("a request");
        assert_eq!(request_to_text(&request), line);
    }
}

#[test]
fn other_lines_are_malformed() {
    for line in ["", "check", "check 0", "check 0g", "cstep - A= -", "nwait - L=1;F=1;V=1;C=1 1"] {
        assert_eq!(answer_line(line), MALFORMED, "{line:?}");
    }
    // A longest wait is asked for without ticks.
    let line = REQUESTS.lines().find(|line| line.starts_with("cmax ")).expect("a longest wait");
    assert_eq!(answer_line(&format!("{line} 1")), MALFORMED);
}

#[test]
fn great_numbers_are_unknown_numbers_and_long_buffers() {
    let with_list = |list: &str| {
        let line = REQUESTS
            .lines()
            .zip(ANSWERS.lines())
            .find(|(request, answer)| request.starts_with("cstep") && answer.starts_with("ok"))
            .map(|(request, _)| request)
            .expect("an accepted step");
        let (start, _) = line.rsplit_once(' ').expect("a list at the end");
        answer_line(&format!("{start} {list}"))
    };
    assert_eq!(with_list("70000"), "18");
    assert_eq!(with_list("0,99999999999"), "18");
    let chart = "0100250300000000010001\
                 05ff0100010005000000010005000000000000090102ffff00ff000000";
    let chart = chart.replace(' ', "");
    assert!(answer_line(&format!("flatten {chart} 99999999999")).starts_with("ok 01"));
    assert_eq!(answer_line(&format!("flatten {chart} 41")), "16");
}

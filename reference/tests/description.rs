//! Charts and networks as text: what is written is read back to the same bytes, and mistakes are
//! named with their line.

use reference::forms::description::{assemble, disassemble};
use reference::forms::text::request_from_text;
use reference::generate::charts::chart_from_seed;
use reference::model::chart::Chart;
use reference::model::check::check;
use reference::model::flatten::network_of;
use reference::model::network::Network;
use reference::model::refusal::Refusal;
use reference::model::version::Version;

const REQUESTS: &str = include_str!("../vectors/text.requests");

#[test]
fn every_file_of_the_vectors_that_reads_comes_back() {
    let (mut charts, mut networks) = (0, 0);
    for line in REQUESTS.lines() {
        let request = request_from_text(line).expect("a request");
        let Some(file) = request.file() else {
            continue;
        };
        charts += usize::from(Chart::read(file).is_ok());
        networks += usize::from(Network::read(file).is_ok());
        if let Some(text) = disassemble(file) {
            assert_eq!(assemble(&text).as_deref(), Ok(file), "{text}");
        }
    }
    assert!(charts > 100 && networks > 30, "{charts} {networks}");
}

#[test]
fn generated_charts_and_their_networks_come_back() {
    for seed in 0..300 {
        let chart = chart_from_seed(seed);
        let file = chart.write();
        let text = disassemble(&file).expect("a chart");
        assert_eq!(assemble(&text), Ok(file), "{text}");
        if let Ok(network) = network_of(&chart) {
            let file = network.write();
            let text = disassemble(&file).expect("a network");
            assert_eq!(assemble(&text), Ok(file), "{text}");
        }
    }
}

#[test]
fn the_samples_are_what_their_texts_say_and_pass() {
    let samples: [(&str, &[u8]); 7] = [
        (
            include_str!("../../samples/one_step.txt"),
            include_bytes!("../../samples/one_step.chart"),
        ),
        (include_str!("../../samples/nested.txt"), include_bytes!("../../samples/nested.chart")),
        (include_str!("../../samples/take_up.txt"), include_bytes!("../../samples/take_up.chart")),
        (include_str!("../../samples/regions.txt"), include_bytes!("../../samples/regions.chart")),
        (
            include_str!("../../samples/fractional.txt"),
            include_bytes!("../../samples/fractional.chart"),
        ),
        (include_str!("../../samples/sensors.txt"), include_bytes!("../../samples/sensors.chart")),
        (include_str!("../../samples/counter.txt"), include_bytes!("../../samples/counter.chart")),
    ];
    for (text, file) in samples {
        assert_eq!(assemble(text).as_deref(), Ok(file), "{text}");
        assert!(check(file).is_ok_and(|chart| network_of(&chart).is_ok()), "{text}");
    }
}

#[test]
fn comments_and_empty_lines_are_left_out() {
    let plain = "chart clocks 0 variables 0 rendezvous 0 broadcast 0 entries 1 exits 0\n\
                 state 0 sequential in none entries 0\n\
                 state 1 basic in 0 entries 0\n";
    let commented = plain
        .replace("state 1", "\n# the only child\n  state  1")
        .replace("exits 0", "exits 0 # none");
    assert_eq!(assemble(&commented), assemble(plain));
    assert!(assemble(plain).is_ok_and(|file| Chart::read(&file).is_ok()));
}

#[test]
fn a_mistake_is_named_with_its_line() {
    let first = "chart clocks 1 variables 1 rendezvous 0 broadcast 0 entries 1 exits 0\n";
    let cases = [
        ("", "line 1: the text ends too early"),
        ("loom", "line 1: 'loom' is neither 'chart' nor 'network'"),
        ("chart clocks 256", "line 1: '256' is not a number from 0 to 255"),
        ("state 1 basic in 0", "line 2: the number here is 0, not 1"),
        ("state 0 round in 0", "line 2: 'round' is neither basic, sequential nor parallel"),
        ("state 0 basic under 0", "line 2: 'in' is expected, not 'under'"),
        ("state 0 basic in 0 bounds c8 <= 1", "line 2: 'c8' is not a number from 0 to 7"),
        ("transition 0 from 0 to 1 when v0 ~ 1", "line 2: '~' is no relation"),
        ("transition 0 from 0 to 1 when (v0 / 1) < 1", "line 2: '/' is no operation"),
        ("transition 0 from 0 to 1 do v0 := x", "line 2: 'x' is no signed 32-bit constant"),
        ("transition 0 from 0 to 1 do v0 := 1 2", "line 2: '2' is not expected"),
        ("transition 0 from 0 to", "line 2: a word is missing"),
        ("transition 0 from +0 to 1", "line 2: '+0' is not a number from 0 to 254"),
        (
            "transition 0 from 0 to 1 do advance v0 rest v1 by 7/3",
            "line 2: version 1 has no advance",
        ),
        ("chart version 3 clocks 0", "line 1: there is no version 3"),
        ("network version 0 clocks 0", "line 1: there is no version 0"),
        ("chart version 256 clocks 0", "line 1: '256' is not a number from 0 to 255"),
    ];
    for (text, mistake) in cases {
        let starts = text.starts_with("state") || text.starts_with("transition");
        let whole = if starts { format!("{first}{text}") } else { text.to_string() };
        let found = assemble(&whole).expect_err("a mistake").to_string();
        assert_eq!(found, mistake, "{text}");
    }
}

#[test]
fn mistakes_in_an_advance_are_named() {
    let first = "chart version 2 clocks 0 variables 2 rendezvous 0 broadcast 0 entries 1 exits 0\n";
    let cases = [
        ("advance", "a word is missing"),
        ("advance v16 rest v1 by 7/3", "'v16' is not a number from 0 to 15"),
        ("advance v0 by 7/3", "'rest' is expected, not 'by'"),
        ("advance v0 rest v1 7/3", "'by' is expected, not '7'"),
        ("advance v0 rest v1 by 7", "'/' is expected, not the end of the line"),
        ("advance v0 rest v1 by 65536/3", "'65536' is not a number from 0 to 65535"),
        ("advance v0 rest v1 by 7/65536", "'65536' is not a number from 0 to 65535"),
        ("advance v0 rest v1 by 7/-3", "'-3' is not a number from 0 to 65535"),
        ("advance v0 rest v1 by 7/3 v1 := 2", "'v1' is not expected"),
    ];
    for (words, mistake) in cases {
        let text = format!("{first}transition 0 from 0 to 1 do {words}");
        let found = assemble(&text).expect_err("a mistake").to_string();
        assert_eq!(found, format!("line 2: {mistake}"), "{words}");
    }
}

/// What the check judges is no mistake of the text: a denominator of 0, one variable for both.
#[test]
fn texts_of_version_2() {
    let text = |version: &str, words: &str| {
        format!(
            "chart{version} clocks 0 variables 3 rendezvous 0 broadcast 0 entries 1 exits 0\n\
             state 0 sequential in none entries 0\n\
             state 1 basic in 0 entries 0\n\
             transition 0 from 1 to 1{words}\n"
        )
    };
    let judged = |version: &str, words: &str| {
        check(&assemble(&text(version, words)).expect("a file")).map(|chart| chart.version)
    };
    let advance = " do advance v0 rest v1 by 7/3 ; v2 := (v2 + 1)";
    assert_eq!(judged(" version 2", advance), Ok(Version::Two));
    assert_eq!(judged(" version 2", &advance.replace("7/3", "7 / 3")), Ok(Version::Two));
    assert_eq!(judged(" version 2", ""), Ok(Version::Two));
    assert_eq!(judged(" version 1", ""), Ok(Version::One));
    assert_eq!(judged("", ""), Ok(Version::One));
    assert_eq!(judged(" version 2", &advance.replace("7/3", "7/0")), Err(Refusal::ChartField));
    assert_eq!(judged(" version 2", &advance.replace("v1", "v0")), Err(Refusal::Assignments));
    assert_eq!(judged(" version 2", &advance.replace("v1", "v3")), Err(Refusal::ChartField));
    // The version is written where it is not 1.
    for version in ["", " version 2"] {
        let whole = text(version, if version.is_empty() { "" } else { advance });
        assert_eq!(disassemble(&assemble(&whole).unwrap()), Some(whole));
    }
    let named = text(" version 1", "");
    assert_eq!(disassemble(&assemble(&named).unwrap()), Some(text("", "")));
}

#[test]
fn what_its_counts_cannot_say_is_a_mistake() {
    let mut text =
        "chart clocks 0 variables 0 rendezvous 0 broadcast 0 entries 1 exits 0\n".to_string();
    for number in 0..256 {
        text += &format!("state {number} basic in 0\n");
    }
    assert_eq!(
        assemble(&text).expect_err("a mistake").to_string(),
        "line 257: more than 255 states"
    );
}

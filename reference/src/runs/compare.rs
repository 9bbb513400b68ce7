//! Requests answered by this implementation and by the proved one, those on networks by both sets
//! of its functions. The first on which they differ stops the program.

use std::collections::{BTreeMap, BTreeSet};
use std::fmt;

use crate::coverage::features::operation_name;
use crate::forms::request::{Request, Success};
use crate::forms::text::request_to_text;
use crate::generate::breaks::breaks_requests;
use crate::generate::charts::chart_from_seed;
use crate::generate::damage::{damage_chart, damage_file, Form};
use crate::generate::longest::{chart_longest_requests, network_longest_requests};
use crate::generate::random::Random;
use crate::generate::range::{chart_end_requests, network_end_requests};
use crate::generate::walk::{chart_requests, network_requests};
use crate::model::chart::Chart;
use crate::model::chart_machine;
use crate::model::check::check;
use crate::model::flatten::network_of;
use crate::model::limits::STATES;
use crate::model::network::Network;
use crate::model::network_machine;
use crate::model::refusal::Refusal;
use crate::runs::proved;

/// How many answers agreed, for each operation.
#[derive(Default)]
pub struct Agreed {
    accepted: BTreeMap<&'static str, u64>,
    refused: BTreeMap<&'static str, u64>,
    /// How many were refused, for each number.
    numbers: BTreeMap<u8, u64>,
}

impl Agreed {
    pub fn total(&self) -> u64 {
        self.accepted.values().chain(self.refused.values()).sum()
    }

    /// How many answers with this number agreed.
    pub fn refused_with(&self, refusal: Refusal) -> u64 {
        self.numbers.get(&refusal.number()).copied().unwrap_or(0)
    }

    pub fn compare(&mut self, request: &Request) {
        let expected = request.answer();
        let answer = proved::answer(request);
        for given in proved::answer_in_place(request).iter().chain([&answer]) {
            if *given != expected {
                panic!("{given:?} to\n{}", request_to_text(request));
            }
        }
        self.count(request, &answer);
    }

    fn count(&mut self, request: &Request, answer: &Result<Success, Refusal>) {
        if let Err(refusal) = answer {
            *self.numbers.entry(refusal.number()).or_insert(0) += 1;
        }
        let counts = if answer.is_ok() { &mut self.accepted } else { &mut self.refused };
        *counts.entry(operation_name(request)).or_insert(0) += 1;
    }

    /// A chart, runs of it and of its network, longest waits and steps with variables at the ends of
    /// the range along them, and damaged files: some 19 times `count` requests.
    pub fn compare_chart(&mut self, chart: &Chart, count: usize, random: &mut Random) {
        let file = chart.write();
        self.compare(&Request::Check(file.clone()));
        let run = chart_requests(chart, count, random);
        let longest = chart_longest_requests(chart, &run, random);
        let ends = chart_end_requests(chart, &run, random);
        for request in run.iter().chain(&longest).chain(&ends) {
            self.compare(request);
        }
        self.compare_flattening(&file, random);
        for _ in 0..count {
            let damaged = damage_file(Form::Chart, &file, random);
            self.compare(&Request::Check(damaged.clone()));
            self.compare(&Request::ChartStart(damaged.clone()));
            let start = chart_machine::start(chart);
            self.compare(&Request::ChartLongest(damaged.clone(), start));
            self.compare(&Request::Flatten(damaged, random.below(6_000) as u32));
            let damaged = damage_chart(chart, random).write();
            self.compare(&Request::Check(damaged.clone()));
            self.compare_flattening(&damaged, random);
        }
        if let Ok(network) = network_of(chart) {
            self.compare_network(&network, count, random);
        }
    }

    /// Flattening of a file into buffers that just fit, are too short, and are longer.
    fn compare_flattening(&mut self, file: &[u8], random: &mut Random) {
        let length = match check(file).and_then(|chart| network_of(&chart)) {
            Ok(network) => network.write().len(),
            Err(_) => 0,
        };
        let shorter = random.below(length + 1);
        let longer = length + random.below(300);
        for room in [length, length.saturating_sub(1), shorter, longer] {
            self.compare(&Request::Flatten(file.to_vec(), room as u32));
        }
    }

    fn compare_network(&mut self, network: &Network, count: usize, random: &mut Random) {
        let file = network.write();
        let run = network_requests(network, count, random);
        let longest = network_longest_requests(network, &run, random);
        let ends = network_end_requests(network, &run, random);
        for request in run.iter().chain(&longest).chain(&ends) {
            self.compare(request);
        }
        for _ in 0..count {
            let damaged = damage_file(Form::Network, &file, random);
            self.compare(&Request::NetworkStart(damaged.clone()));
            let start = network_machine::start(network);
            self.compare(&Request::NetworkLongest(damaged, start));
        }
    }

    /// The requests of a run of a chart, of its file and of damaged ones, lent bytes that are neither 0 nor 1.
    pub fn compare_run_with_bytes(&mut self, chart: &Chart, count: usize, random: &mut Random) {
        let run = chart_requests(chart, count, random);
        let longest = chart_longest_requests(chart, &run, random);
        for request in run.iter().chain(&longest) {
            self.compare_bytes(request);
            let damaged = damage_file(Form::Chart, &chart.write(), random);
            self.compare_bytes(&with_file(request, damaged));
        }
    }

    /// A request with a chart's configuration, where in turn each state, active or not and declared or not,
    /// has a byte that is neither 0 nor 1. It is refused as the check refuses the file, else with 17; a start
    /// is answered as ever. Other requests are left out.
    fn compare_bytes(&mut self, request: &Request) {
        let (given, expected) = match request {
            Request::ChartStart(_) => ([false; STATES], request.answer()),
            Request::ChartStep(file, given, _)
            | Request::ChartWait(file, given, _)
            | Request::ChartLongest(file, given) => {
                let refusal = check(file).err().unwrap_or(Refusal::ChartConfiguration);
                (given.active, Err(refusal))
            }
            _ => return,
        };
        for place in 0..STATES {
            for byte in [2, 3, 128, 255] {
                let mut active = given.map(u8::from);
                active[place] = byte;
                let answer = proved::answer_with_bytes(request, active);
                if answer != expected {
                    let request = request_to_text(request);
                    panic!("{answer:?} with {byte} for state {place} to\n{request}");
                }
                self.count(request, &answer);
            }
        }
    }

    /// So many random lists of weft breaks.
    pub fn compare_breaks(&mut self, count: usize, random: &mut Random) {
        for request in breaks_requests(count, random) {
            self.compare(&request);
        }
    }

    /// The chart of a seed with what `compare_chart` makes of it, and lists of weft breaks.
    pub fn compare_seed(&mut self, seed: u64, count: usize) {
        let mut random = Random::new(seed);
        self.compare_chart(&chart_from_seed(seed), count, &mut random);
        self.compare_breaks(count, &mut random);
    }
}

/// A request with a chart's configuration, of another file.
fn with_file(request: &Request, other: Vec<u8>) -> Request {
    let mut request = request.clone();
    if let Request::ChartStart(file)
    | Request::ChartStep(file, ..)
    | Request::ChartWait(file, ..)
    | Request::ChartLongest(file, ..) = &mut request
    {
        *file = other;
    }
    request
}

impl fmt::Display for Agreed {
    fn fmt(&self, formatter: &mut fmt::Formatter) -> fmt::Result {
        writeln!(formatter, "{:<20}{:>12}{:>12}", "operation", "accepted", "refused")?;
        let names: BTreeSet<_> = self.accepted.keys().chain(self.refused.keys()).collect();
        for name in names {
            let accepted = self.accepted.get(name).unwrap_or(&0);
            let refused = self.refused.get(name).unwrap_or(&0);
            writeln!(formatter, "{name:<20}{accepted:>12}{refused:>12}")?;
        }
        writeln!(formatter, "refused, by number: {:?}", self.numbers)?;
        write!(formatter, "{} calls agreed", self.total())
    }
}

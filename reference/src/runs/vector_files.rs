//! The vector file for programs: requests as bytes, and the lines that are the right output.

use crate::coverage::features::{features, run_features, Counts, Features};
use crate::coverage::range_features::range_features;
use crate::forms::binary::{answer_to_lines, any_request_to_bytes, AnyRequest};
use crate::forms::request::Request;
use crate::forms::run_request::RunRequest;
use crate::generate::breaks::breaks_requests;
use crate::generate::charts::{chart_from_wish, Wish};
use crate::generate::completion::few_completion_requests;
use crate::generate::damage::{advance_places, damage_chart, damage_file, Form};
use crate::generate::faulty::{self, all_faulty, Faulty};
use crate::generate::longest::{chart_longest_requests, network_longest_requests};
use crate::generate::random::Random;
use crate::generate::range::{chart_end_requests, network_end_requests};
use crate::generate::special;
use crate::generate::special_breaks::{self, at_both_ends, denser};
use crate::generate::special_range::{self, Example};
use crate::generate::special_sensors;
use crate::generate::walk::{chart_requests, network_requests};
use crate::model::chart::{Chart, ROOT};
use crate::model::chart_machine::{self, ChartConfiguration};
use crate::model::check::check;
use crate::model::expression::Expression;
use crate::model::flatten::network_of;
use crate::model::guard::{Guard, Relation};
use crate::model::layout::Layout;
use crate::model::limits::{ADVANCE_BYTES, LIST};
use crate::model::network_machine::{self, NetworkConfiguration};
use crate::model::update::{Advance, Update};
use crate::model::values::Values;
use crate::runs::moment::{Call, Machines};
use crate::runs::side_by_side::random_network_list;

/// How many bytes the program holds at a time.
pub const WINDOW: usize = 131_072;

/// Most bytes of the requests of one part that are chosen. Three with each feature fit: the part on
/// charts, with the requests for longest waits, has some 114,000 bytes. Input may have any length, since
/// a program reads it through a window; but the largest request follows the part on charts and has to
/// begin in the first window, so this is less than `WINDOW`.
pub const MOST_INPUT_BYTES: usize = 120_000;

/// Most bytes of the answers to them.
pub const MOST_OUTPUT_BYTES: usize = 300_000;

/// How many requests with one feature are wanted.
const WANTED_OF_EACH: usize = 3;

/// Longer networks are not looked at.
const MOST_NETWORK_BYTES: usize = 4_000;

/// How many charts the requests are chosen from.
const CHARTS: u64 = 400;

/// How many requests to count weft breaks are taken as they come, and how many more are chosen from.
const BREAKS_AS_THEY_COME: usize = 100;
const BREAKS: usize = 20_000;

/// Most ticks of one of them.
pub const MOST_TICKS: usize = 4_096;

/// The input of the program and the output that is right, part by part.
pub struct VectorFile {
    pub parts: Vec<Part>,
}

impl VectorFile {
    pub fn input(&self) -> Vec<u8> {
        self.parts.iter().flat_map(|part| part.input.iter().copied()).collect()
    }

    pub fn output(&self) -> String {
        self.parts.iter().map(|part| part.output.as_str()).collect()
    }
}

/// Requests of one kind, and the answers.
pub struct Part {
    pub name: &'static str,
    pub input: Vec<u8>,
    pub output: String,
    /// How many requests the input has, and how many have each feature.
    pub requests: usize,
    pub counts: Counts,
}

/// A request that may be chosen, the lines that answer it, and its features.
struct Candidate {
    input: Vec<u8>,
    output: String,
    features: Features,
    taken: bool,
}

impl Candidate {
    fn new(request: Request) -> Candidate {
        Candidate::of(request, None)
    }

    /// With the layout of the network, which came from a chart.
    fn with_layout(request: Request, layout: &Layout) -> Candidate {
        Candidate::of(request, Some(layout))
    }

    fn of(request: Request, layout: Option<&Layout>) -> Candidate {
        let features = features(&request, layout);
        Candidate::answered(&AnyRequest::One(request), features)
    }

    /// Chosen by what it exercises of results that leave the range.
    fn of_range(request: Request) -> Candidate {
        let features = range_features(&request);
        Candidate::answered(&AnyRequest::One(request), features)
    }

    fn of_run(file: Vec<u8>, calls: Vec<Call>) -> Candidate {
        let request = RunRequest { file, calls };
        let features = run_features(&request);
        Candidate::answered(&AnyRequest::Run(request), features)
    }

    fn answered(request: &AnyRequest, features: Features) -> Candidate {
        Candidate {
            input: any_request_to_bytes(request),
            output: answer_to_lines(request),
            features,
            taken: false,
        }
    }
}

/// The requests that may be chosen, by the part that they belong to.
#[derive(Default)]
struct Candidates {
    chart: Vec<Candidate>,
    flatten: Vec<Candidate>,
    network: Vec<Candidate>,
    runs: Vec<Candidate>,
    range: Vec<Candidate>,
    breaks: Vec<Candidate>,
}

/// The vector file. It is the same at every call.
pub fn vector_file() -> VectorFile {
    let mut random = Random::new(0x5645_4354);
    let candidates = all_candidates(&mut random);
    let mut charts = changed_bytes(&special::dense().write(), 200, &mut random);
    let dense_network = network_of(&special::dense()).map(|network| network.write());
    let mut networks = changed_bytes(&dense_network.unwrap_or_default(), 100, &mut random);
    let advance = special::one_pick(vec![Update::Advance(faulty::ADVANCE)]);
    charts.extend(changed_advance(Form::Chart, &advance.write()));
    let advance_network = network_of(&advance).map(|network| network.write());
    networks.extend(changed_advance(Form::Network, &advance_network.unwrap_or_default()));
    let checks = charts.iter().cloned().map(Request::Check).collect();
    let flattens = charts.into_iter().map(|file| Request::Flatten(file, 65_536)).collect();
    let starts = networks.into_iter().map(Request::NetworkStart).collect();
    VectorFile {
        parts: vec![
            choose("chart", checks, candidates.chart),
            largest(),
            choose("flatten", flattens, candidates.flatten),
            choose("network", starts, candidates.network),
            choose("side by side", Vec::new(), candidates.runs),
            choose("range", Vec::new(), candidates.range),
            choose("completion", few_completion_requests(), Vec::new()),
            choose("breaks", fixed_breaks(), candidates.breaks),
        ],
    }
}

fn all_candidates(random: &mut Random) -> Candidates {
    let mut all = Candidates::default();
    let mut charts = special_charts();
    charts.extend((0..CHARTS).map(|seed| chart_from_wish(&small_wish(seed), seed)));
    let mut longest_random = Random::new(0x4C4F_4E47);
    for one in &charts {
        add_chart_candidates(one, &mut all.chart, random, &mut longest_random);
        add_flatten_candidates(one, &mut all.flatten, random);
        add_network_candidates(one, &mut all.network, random, &mut longest_random);
    }
    let mut run_random = Random::new(0x5349_4445);
    for one in &charts {
        add_run_candidates(one, &mut all.runs, &mut run_random);
    }
    let mut range_random = Random::new(0x454E_4453);
    for one in &charts {
        add_range_candidates(one, &mut all.range, &mut range_random);
    }
    for one in special_range::examples() {
        add_example_candidates(&one, &mut all.range);
    }
    let mut breaks_random = Random::new(0x4252_4541);
    all.breaks.extend(breaks_requests(BREAKS, &mut breaks_random).into_iter().map(Candidate::new));
    for guard in all_guards() {
        add_guard_candidates(guard, &mut all.chart, &mut all.network);
    }
    add_advance_candidates(&mut all);
    for one in all_faulty() {
        add_faulty_candidates(&one, &mut all);
    }
    all
}

/// A chart of nearly as many bytes as there can be. It stands so that the end of what a program
/// reads first, `WINDOW` bytes, falls into its file.
fn largest() -> Part {
    let mut part = Part::new("largest");
    part.push(&Candidate::new(Request::ChartStart(special::largest().write())));
    part
}

fn special_charts() -> Vec<Chart> {
    let mut charts = vec![
        special::sample_1(),
        special::sample_3(),
        special::dense(),
        special::broadcast_of_self_loops(),
        special::chart_with_edges(1024),
        special::chart_with_edges(1025),
        special::many_equal_choices(),
        special::nested_channel(),
        special::chart_with_sequential_children(15),
        special::chart_with_sequential_children(16),
        special_sensors::no_sequential_state(),
    ];
    charts.extend(special_sensors::with_sensors());
    charts
}

/// Wishes for charts that are small enough for many requests to fit.
fn small_wish(seed: u64) -> Wish {
    let wish = Wish::from_seed(seed);
    // Two advances in one label need four variables.
    let variables = if wish.version.has_advances() { 4 } else { 3 };
    Wish {
        states: wish.states.min(14),
        sensors: wish.sensors.min(7),
        transitions: wish.transitions.min(8),
        entries: wish.entries.min(3),
        exits: wish.exits.min(2),
        clocks: wish.clocks.min(2),
        variables: wish.variables.min(variables),
        rendezvous: wish.rendezvous.min(1),
        broadcast: wish.broadcast.min(1),
        ..wish
    }
}

/// Requests for longest waits have random numbers of their own, so that the others stay as they are.
fn add_chart_candidates(
    chart: &Chart,
    list: &mut Vec<Candidate>,
    random: &mut Random,
    longest_random: &mut Random,
) {
    let file = chart.write();
    list.push(Candidate::new(Request::Check(file.clone())));
    if check(&file).is_err() {
        // The root alone is active; the file is refused before that is looked at.
        let active = std::array::from_fn(|state| state == ROOT);
        let given = ChartConfiguration { active, values: Values::default() };
        list.push(Candidate::new(Request::ChartLongest(file, given)));
        return;
    }
    let run = chart_requests(chart, 30, random);
    let longest = chart_longest_requests(chart, &run, longest_random);
    list.extend(run.into_iter().chain(longest).map(Candidate::new));
    let start = chart_machine::start(chart);
    for _ in 0..6 {
        let damaged = damage_chart(chart, random).write();
        list.push(Candidate::new(Request::Check(damaged.clone())));
        list.push(Candidate::new(Request::ChartStart(damaged.clone())));
        list.push(Candidate::new(Request::ChartStep(damaged.clone(), start, vec![0])));
        list.push(Candidate::new(Request::ChartWait(damaged.clone(), start, 1)));
        list.push(Candidate::new(Request::ChartLongest(damaged, start)));
        let damaged = damage_file(Form::Chart, &file, random);
        list.push(Candidate::new(Request::Check(damaged.clone())));
        list.push(Candidate::new(Request::ChartStart(damaged.clone())));
        list.push(Candidate::new(Request::ChartLongest(damaged, start)));
    }
}

fn add_flatten_candidates(chart: &Chart, list: &mut Vec<Candidate>, random: &mut Random) {
    let mut add = |file: Vec<u8>, room: usize| {
        list.push(Candidate::new(Request::Flatten(file, room as u32)));
    };
    let file = chart.write();
    match check(&file).and_then(|chart| network_of(&chart)) {
        Err(_) => add(file, 65_536),
        Ok(network) => {
            let length = network.write().len();
            add(file.clone(), length);
            add(file.clone(), length - 1);
            add(file.clone(), 65_536);
            for _ in 0..6 {
                add(damage_chart(chart, random).write(), 65_536);
                add(damage_file(Form::Chart, &file, random), 65_536);
            }
        }
    }
}

fn add_network_candidates(
    chart: &Chart,
    list: &mut Vec<Candidate>,
    random: &mut Random,
    longest_random: &mut Random,
) {
    let Ok(network) = check(&chart.write()).and_then(|chart| network_of(&chart)) else {
        return;
    };
    let file = network.write();
    if file.len() > MOST_NETWORK_BYTES {
        return;
    }
    let layout = Layout::of(chart);
    let start = network_machine::start(&network);
    let run = network_requests(&network, 40, random);
    let longest = network_longest_requests(&network, &run, longest_random);
    for request in run.into_iter().chain(longest) {
        list.push(Candidate::with_layout(request, &layout));
    }
    for _ in 0..4 {
        let damaged = damage_file(Form::Network, &file, random);
        for request in [
            Request::NetworkStart(damaged.clone()),
            Request::NetworkStep(damaged.clone(), start, vec![0]),
            Request::NetworkWait(damaged.clone(), start, 1),
            Request::NetworkLongest(damaged, start),
        ] {
            list.push(Candidate::new(request));
        }
    }
}

/// Runs of a chart and its network, and of charts that are refused.
fn add_run_candidates(chart: &Chart, list: &mut Vec<Candidate>, random: &mut Random) {
    let file = chart.write();
    let Ok(machines) = check(&file).and_then(Machines::of) else {
        list.push(Candidate::of_run(file, vec![Call::Wait(1)]));
        return;
    };
    list.push(Candidate::of_run(file.clone(), Vec::new()));
    let too_many = (0..=LIST as u16).collect();
    list.push(Candidate::of_run(file.clone(), vec![Call::Step(too_many)]));
    for calls in [6, 12, 24] {
        let calls = random_network_list(&machines, calls, random);
        list.push(Candidate::of_run(file.clone(), calls));
    }
    let calls = random_network_list(&machines, 2, random);
    for _ in 0..4 {
        list.push(Candidate::of_run(damage_chart(chart, random).write(), calls.clone()));
        list.push(Candidate::of_run(damage_file(Form::Chart, &file, random), calls.clone()));
    }
}

/// Steps of a chart and of its network with variables at the ends of the range.
fn add_range_candidates(chart: &Chart, list: &mut Vec<Candidate>, random: &mut Random) {
    let Ok(network) = check(&chart.write()).and_then(|chart| network_of(&chart)) else {
        return;
    };
    let run = chart_requests(chart, 12, random);
    let mut requests = chart_end_requests(chart, &run, random);
    if network.write().len() <= MOST_NETWORK_BYTES {
        let run = network_requests(&network, 12, random);
        requests.extend(network_end_requests(&network, &run, random));
    }
    list.extend(requests.into_iter().map(Candidate::of_range));
}

/// A step made by hand, on both machines.
fn add_example_candidates(example: &Example, list: &mut Vec<Candidate>) {
    let Example { chart, values, list: numbers } = example;
    let Ok(network) = network_of(chart) else {
        return;
    };
    let values = *values;
    let given = ChartConfiguration { values, ..chart_machine::start(chart) };
    let request = Request::ChartStep(chart.write(), given, numbers.clone());
    list.push(Candidate::of_range(request));
    let given = NetworkConfiguration { values, ..network_machine::start(&network) };
    let request = Request::NetworkStep(network.write(), given, numbers.clone());
    list.push(Candidate::of_range(request));
}

/// Requests to count weft breaks that are not chosen: those made by hand, some as they come, and long
/// lists, accepted and with a fall at the very end.
fn fixed_breaks() -> Vec<Request> {
    let examples = special_breaks::examples().into_iter();
    let mut requests: Vec<Request> =
        examples.map(|one| Request::WeftBreaks(one.ticks, one.window)).collect();
    requests.extend(breaks_requests(BREAKS_AS_THEY_COME, &mut Random::new(0x5745_4654)));
    requests.push(Request::WeftBreaks(denser(MOST_TICKS), 1_000));
    let mut falling = at_both_ends(MOST_TICKS as u32 / 2);
    requests.push(Request::WeftBreaks(falling.clone(), 1_500));
    falling[MOST_TICKS - 1] -= 2;
    requests.push(Request::WeftBreaks(falling, 1_500));
    requests
}

/// Every kind of guard with every relation, each against 2.
fn all_guards() -> Vec<Guard> {
    let of_relation = |relation: Relation| {
        let left = Expression::Variable(0);
        let right = Expression::Constant(2);
        [
            Guard::Data { relation, left, right },
            Guard::Clock { clock: 0, relation, constant: 2 },
            Guard::Difference { first: 0, second: 1, relation, constant: 2 },
        ]
    };
    Relation::ALL.into_iter().flat_map(of_relation).collect()
}

/// A guarded rendezvous on both machines, with values less than, equal to and greater than 2.
fn add_guard_candidates(guard: Guard, charts: &mut Vec<Candidate>, networks: &mut Vec<Candidate>) {
    let chart = special::rendezvous_with_swap(guard);
    let Ok(network) = network_of(&chart) else {
        return;
    };
    for value in 1..=3 {
        let mut values = Values::default();
        values.variables[..2].copy_from_slice(&[value, 7]);
        values.clocks[..2].copy_from_slice(&[value as u32 + 1, 1]);
        if matches!(chart.transitions[0].label.guards[0], Guard::Clock { .. }) {
            values.clocks[0] = value as u32;
        }
        let given = ChartConfiguration { values, ..chart_machine::start(&chart) };
        charts.push(Candidate::new(Request::ChartStep(chart.write(), given, vec![0, 1])));
        let given = NetworkConfiguration { values, ..network_machine::start(&network) };
        networks.push(Candidate::new(Request::NetworkStep(network.write(), given, vec![0, 1])));
    }
}

/// An advance with ratios at the ends of their ranges, on both machines, with steps and remainders
/// at the ends of theirs.
fn add_advance_candidates(all: &mut Candidates) {
    let ratios = [(0, 1), (0, 7), (1, 1), (7, 3), (1, 65_535), (65_535, 1), (65_535, 65_535)];
    let pairs = [
        (0, 0),
        (5, -1),
        (-9, 2),
        (2, 70_000),
        (0, i32::MAX),
        (0, i32::MIN),
        (i32::MAX, 0),
        (i32::MAX, i32::MAX),
        (i32::MIN, i32::MIN),
    ];
    for (numerator, denominator) in ratios {
        let advance = Advance { numerator, denominator, ..faulty::ADVANCE };
        let before = Update::assignment(2, Expression::Variable(advance.steps));
        let chart = special::one_pick(vec![before, Update::Advance(advance)]);
        let Ok(network) = network_of(&chart) else {
            continue;
        };
        for (steps, remainder) in pairs {
            let mut values = Values::default();
            values.variables[..2].copy_from_slice(&[steps, remainder]);
            let given = ChartConfiguration { values, ..chart_machine::start(&chart) };
            let request = Request::ChartStep(chart.write(), given, vec![0]);
            all.chart.push(Candidate::new(request));
            let given = NetworkConfiguration { values, ..network_machine::start(&network) };
            let request = Request::NetworkStep(network.write(), given, vec![0]);
            all.network.push(Candidate::new(request));
        }
    }
}

/// A fault of an advance or of the version, met by every operation. What the fault is, is a
/// feature too.
fn add_faulty_candidates(faulty: &Faulty, all: &mut Candidates) {
    let named = |mut candidate: Candidate| {
        let features = candidate.features.iter().map(|one| format!("{one} by {}", faulty.name));
        let features: Vec<String> = features.collect();
        candidate.features.extend(features);
        candidate
    };
    let file = &faulty.chart;
    all.chart.push(named(Candidate::new(Request::Check(file.clone()))));
    all.chart.push(named(Candidate::new(Request::ChartStart(file.clone()))));
    all.flatten.push(named(Candidate::new(Request::Flatten(file.clone(), 65_536))));
    all.runs.push(named(Candidate::of_run(file.clone(), Vec::new())));
    let file = &faulty.network;
    all.network.push(named(Candidate::new(Request::NetworkStart(file.clone()))));
}

/// Copies of a file with one advance, each with one of its bytes changed.
fn changed_advance(form: Form, file: &[u8]) -> Vec<Vec<u8>> {
    let place = advance_places(form, file)[0];
    let changed = (place..place + ADVANCE_BYTES).map(|place| {
        let mut damaged = file.to_vec();
        damaged[place] ^= 0xFF;
        damaged
    });
    changed.collect()
}

/// Copies of a file, each with one byte changed: at every place of it, or at `most` places spread
/// over it.
fn changed_bytes(file: &[u8], most: usize, random: &mut Random) -> Vec<Vec<u8>> {
    let count = file.len().min(most);
    (0..count)
        .map(|index| {
            let mut damaged = file.to_vec();
            let place = index * file.len() / count;
            damaged[place] = match random.below(3) {
                0 => damaged[place].wrapping_add(1),
                1 => damaged[place] ^ 0x80,
                _ => damaged[place] ^ 0xFF,
            };
            damaged
        })
        .collect()
}

/// Takes the fixed requests, and of the candidates, those first that are shortest together with
/// their answer, those that have a feature of which not enough were taken yet: first one of each, then more.
fn choose(name: &'static str, fixed: Vec<Request>, mut candidates: Vec<Candidate>) -> Part {
    let mut part = Part::new(name);
    for request in fixed {
        part.take(&mut Candidate::new(request));
    }
    candidates.sort_by_key(|candidate| candidate.input.len() + candidate.output.len());
    for enough in 1..=WANTED_OF_EACH {
        for candidate in candidates.iter_mut().filter(|candidate| !candidate.taken) {
            let too_few = |feature| part.counts.get(feature).is_none_or(|&count| count < enough);
            if candidate.features.iter().any(too_few) {
                part.take(candidate);
            }
        }
    }
    part
}

impl Part {
    fn new(name: &'static str) -> Part {
        Part { name, input: Vec::new(), output: String::new(), requests: 0, counts: Counts::new() }
    }

    /// Adds a request if there is room for it.
    fn take(&mut self, candidate: &mut Candidate) {
        let input_fits = self.input.len() + candidate.input.len() <= MOST_INPUT_BYTES;
        let output_fits = self.output.len() + candidate.output.len() <= MOST_OUTPUT_BYTES;
        if input_fits && output_fits {
            self.push(candidate);
            candidate.taken = true;
        }
    }

    fn push(&mut self, candidate: &Candidate) {
        self.input.extend(&candidate.input);
        self.output.push_str(&candidate.output);
        self.requests += 1;
        for feature in &candidate.features {
            *self.counts.entry(feature.clone()).or_insert(0) += 1;
        }
    }
}

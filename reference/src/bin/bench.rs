//! Times every operation on a small, an ordinary and the largest input, on one with many advances, on one
//! with many sensors and on one with expressions of the most levels, flattening on more, steps that ask
//! most often whether a composite state is completed, and counts of weft breaks, and prints four tables.
//!
//! `bench [operations] [flattening] [completion] [breaks]`: the tables that are named, or all of them.
//!
//! Each operation reads its file anew, as its description says. Implementations are compared in
//! one run over the same inputs: the first of the list is this one; with the feature `proved` the
//! other is the proved one, and the tables give the ratio of its times to the first. A size whose
//! chart one of them refuses, as a library from before there were sensors does, is left out, and so is
//! an operation that they answer differently, as one from before there were longest waits does.

use std::cell::LazyCell;
use std::env;
use std::hint::black_box;
use std::process::ExitCode;
use std::time::{Duration, Instant};

use reference::coverage::features::operation_name;
use reference::forms::request::{Request, Success};
use reference::generate::charts::{chart_from_wish, Wish};
use reference::generate::random::Random;
use reference::generate::special;
use reference::generate::special_breaks::{long_lists, MILLION};
use reference::generate::special_completion::{broadcast_step, completion_charts, plain_step};
use reference::generate::special_sensors;
use reference::generate::walk::{chart_requests, network_requests};
use reference::model::chart::Chart;
use reference::model::check::check;
use reference::model::flatten::{flatten, network_of};
use reference::model::refusal::Refusal;
use reference::model::weft_breaks::{weft_breaks, Breaks};
#[cfg(feature = "proved")]
use reference::runs::proved;

/// Something that answers requests, flattens into a buffer, and counts weft breaks.
struct Implementation {
    name: &'static str,
    answer: fn(&Request) -> Result<Success, Refusal>,
    flatten: fn(&[u8], &mut [u8]) -> Result<usize, Refusal>,
    weft_breaks: fn(&[u32], u32) -> Result<Breaks, Refusal>,
}

const IMPLEMENTATIONS: &[Implementation] = &[
    Implementation { name: "reference", answer: Request::answer, flatten, weft_breaks },
    #[cfg(feature = "proved")]
    Implementation {
        name: "proved",
        answer: proved::answer,
        flatten: proved::flatten,
        weft_breaks: proved::weft_breaks,
    },
];

/// About how long one measurement takes at least, and how many rounds of them there are. The
/// shortest counts: a short one is seldom interrupted by other programs.
const LEAST_TIME: Duration = Duration::from_millis(1);
const ROUNDS: usize = 200;

/// How many rounds there are of a count of weft breaks, of which one takes milliseconds and more.
const BREAKS_ROUNDS: usize = 25;

/// The windows in which weft breaks are counted.
const WINDOWS: [u32; 5] = [1, 1_000, 100_000, 10_000_000, u32::MAX];

/// The names of the tables, in the order in which they are printed.
const TABLES: [&str; 4] = ["operations", "flattening", "completion", "breaks"];

fn main() -> ExitCode {
    let asked: Vec<String> = env::args().skip(1).collect();
    if asked.iter().any(|name| !TABLES.contains(&name.as_str())) {
        eprintln!("usage: bench [operations] [flattening] [completion] [breaks]");
        return ExitCode::from(2);
    }
    let is_asked = |table: &&str| asked.is_empty() || asked.iter().any(|name| name == table);
    // Made where a table needs them, and once for both.
    let sizes = LazyCell::new(sizes);
    for (number, table) in TABLES.into_iter().filter(is_asked).enumerate() {
        if number > 0 {
            println!();
        }
        match table {
            "operations" => time_operations(&sizes),
            "flattening" => time_flattening(&sizes),
            "completion" => time_completion(),
            _ => time_breaks(),
        }
    }
    ExitCode::SUCCESS
}

/// The charts of the first two tables.
fn sizes() -> Vec<(&'static str, Chart)> {
    let mut charts = vec![
        ("small", special::sample_3()),
        ("ordinary", ordinary()),
        ("largest", special::largest()),
        ("advances", special::most_advances()),
        ("sensors", special_sensors::most_sensors()),
        ("levels", special::most_levels()),
    ];
    charts.retain(|(size, chart)| passes_everywhere(size, chart));
    charts
}

/// Whether every implementation accepts a chart. If not, it is said which one refuses it.
fn passes_everywhere(size: &str, chart: &Chart) -> bool {
    let request = Request::Check(chart.write());
    let answers = IMPLEMENTATIONS.iter().map(|one| (one.name, (one.answer)(&request)));
    let refusing = answers.filter_map(|(name, answer)| Some((name, answer.err()?)));
    let refusing: Vec<(&str, Refusal)> = refusing.collect();
    for (name, refusal) in &refusing {
        println!("{size} is left out: {name} refuses the chart with {}", refusal.number());
    }
    refusing.is_empty()
}

/// Every operation but flattening.
fn time_operations(charts: &[(&str, Chart)]) {
    print_heading("operation");
    let sizes: Vec<(&str, Vec<Request>)> =
        charts.iter().map(|(size, chart)| (*size, inputs(chart))).collect();
    for operation in 0..sizes[0].1.len() {
        for (size, requests) in &sizes {
            let request = &requests[operation];
            time_request(operation_name(request), size, request);
        }
    }
}

/// Steps of charts whose transitions all have composite sources, beside the check, which every step
/// makes first.
fn time_completion() {
    let mut charts = completion_charts().to_vec();
    charts.retain(|(size, chart)| passes_everywhere(size, chart));
    print_heading("completion");
    for (size, chart) in &charts {
        time_request("check", size, &Request::Check(chart.write()));
        time_request("step", size, &plain_step(chart));
        time_request("broadcast", size, &broadcast_step(chart));
    }
}

/// The heading of a table with a request in each row.
fn print_heading(name: &str) {
    println!("{name:<22}{:<10}{:>8}{}", "size", "bytes", heading());
}

/// A row: the times of one request, if all give the same answer.
fn time_request(name: &str, size: &str, request: &Request) {
    let file = request.file().unwrap_or_default();
    print!("{name:<22}{size:<10}{:>8}", file.len());
    if IMPLEMENTATIONS.iter().any(|one| (one.answer)(request) != request.answer()) {
        println!("  left out: the answers differ");
        return;
    }
    print_times(&times(ROUNDS, IMPLEMENTATIONS.len(), |number| {
        let _ = black_box((IMPLEMENTATIONS[number].answer)(black_box(request)));
    }));
    println!();
}

/// Flattening into a buffer that just fits, beside a copy of as many bytes.
fn time_flattening(sizes: &[(&str, Chart)]) {
    let more = [
        ("1,024 edges", special::chart_with_edges(1024)),
        ("refused", special::most_alternatives()),
        ("longest", special::longest_network()),
    ];
    let columns = format!("{:<22}{:>8}{:>10}", "flatten", "bytes", "network");
    println!("{columns}{}{:>15}{:>8}", heading(), "copy ns", "ratio");
    for (size, chart) in sizes.iter().chain(&more) {
        let file = chart.write();
        let network = network_of(chart).map_or(Vec::new(), |network| network.write());
        let mut buffer = vec![0; network.len()];
        print!("{size:<22}{:>8}{:>10}", file.len(), network.len());
        let count = IMPLEMENTATIONS.len() + 1;
        let all = times(ROUNDS, count, |number| match IMPLEMENTATIONS.get(number) {
            Some(implementation) => {
                let _ = (implementation.flatten)(black_box(&file), black_box(&mut buffer));
            }
            None => black_box(&mut buffer).copy_from_slice(black_box(&network)),
        });
        let (copy, flatten_times) = all.split_last().expect("there is the copy");
        print_times(flatten_times);
        if network.is_empty() {
            println!("{:>15}{:>8}", "-", "-");
        } else {
            println!("{copy:>15.0}{:>8.1}", flatten_times[flatten_times.len() - 1] / copy);
        }
    }
}

/// Counts of weft breaks beside a plain sum of the same list, which reads every tick once: the last
/// implementation's time is given as a multiple of the sum's.
fn time_breaks() {
    let (last, others) = IMPLEMENTATIONS.split_last().expect("there is one");
    println!("breaks: a count of weft breaks in {MILLION} ticks, beside a plain sum of the ticks");
    print!("{:<10}{:>12}{:>15}", "list", "window", "sum ns");
    print!("{:>15}{:>15}", format!("{} ns", last.name), format!("{}/sum", last.name));
    println_columns(others.iter().map(|one| format!("{} ns", one.name)));
    for (name, ticks) in long_lists() {
        for window in WINDOWS {
            print!("{name:<10}{window:>12}");
            time_breaks_of(&ticks, window);
        }
    }
}

/// The rest of a row, if all give the same answer. The last implementation and the sum take turns, and the
/// others come after them: a search all over the list leaves the processor's caches such that a pass right
/// after it, with two places in the list, takes up to twice as long as otherwise.
fn time_breaks_of(ticks: &[u32], window: u32) {
    let expected = weft_breaks(ticks, window);
    if IMPLEMENTATIONS.iter().any(|one| (one.weft_breaks)(ticks, window) != expected) {
        println!("  left out: the answers differ");
        return;
    }
    let count = |one: &Implementation| {
        let _ = black_box((one.weft_breaks)(black_box(ticks), black_box(window)));
    };
    let (last, others) = IMPLEMENTATIONS.split_last().expect("there is one");
    let pair = times(BREAKS_ROUNDS, 2, |number| match number {
        0 => count(last),
        _ => {
            black_box(sum(black_box(ticks)));
        }
    });
    print!("{:>15.0}{:>15.0}{:>15.2}", pair[1], pair[0], pair[0] / pair[1]);
    let alone = times(BREAKS_ROUNDS, others.len(), |number| count(&others[number]));
    println_columns(alone.iter().map(|time| format!("{time:.0}")));
}

/// The rest of a line.
fn println_columns(columns: impl Iterator<Item = String>) {
    println!("{}", columns.map(|column| format!("{column:>15}")).collect::<String>());
}

/// Other than `+`, which is checked here in release too, this is compiled as an ordinary sum. It does not
/// wrap: a list of fewer than 2 to the power of 32 ticks has a sum of 64 bits.
#[inline(never)]
fn sum(ticks: &[u32]) -> u64 {
    ticks.iter().fold(0, |sum, &tick| sum.wrapping_add(u64::from(tick)))
}

/// The headings of the columns with the implementations' times.
fn heading() -> String {
    let columns = IMPLEMENTATIONS.iter().enumerate().map(|(number, implementation)| {
        let ratio = if number > 0 { format!("{:>8}", "ratio") } else { String::new() };
        format!("{:>15}{ratio}", format!("{} ns", implementation.name))
    });
    columns.collect()
}

/// The implementations' times, each but the first with its ratio to the first.
fn print_times(times: &[f64]) {
    print!("{:>15.0}", times[0]);
    for time in &times[1..] {
        print!("{time:>15.0}{:>8.2}", time / times[0]);
    }
}

/// The shortest mean time of one call of each of some in so many rounds, in nanoseconds; `call` makes a
/// call of the one with that number. They take turns, so that a machine whose speed changes favours none.
fn times(rounds: usize, count: usize, mut call: impl FnMut(usize)) -> Vec<f64> {
    let mut time_of = |number: usize, calls: u32| {
        let start = Instant::now();
        for _ in 0..calls {
            call(number);
        }
        start.elapsed()
    };
    let mut calls_within_least_time = |number: usize| {
        let first = time_of(number, 1).min(time_of(number, 1));
        (LEAST_TIME.as_nanos() / first.as_nanos().max(1)).max(1) as u32
    };
    let calls: Vec<u32> = (0..count).map(&mut calls_within_least_time).collect();
    let mut shortest = vec![f64::INFINITY; count];
    for _ in 0..rounds {
        for (number, shortest) in shortest.iter_mut().enumerate() {
            let mean = time_of(number, calls[number]).as_nanos() as f64 / f64::from(calls[number]);
            *shortest = shortest.min(mean);
        }
    }
    shortest
}

/// A chart of 48 states and up to 64 transitions in which both machines can step and wait.
fn ordinary() -> Chart {
    let wish = Wish {
        states: 48,
        sequential: 12,
        children: 6,
        transitions: 64,
        bounds: 5,
        ..Wish::ORDINARY
    };
    (0..)
        .map(|seed| chart_from_wish(&wish, seed))
        .find(|chart| accepted(chart).is_some())
        .expect("some seed gives one")
}

/// One accepted request of every operation but flattening.
fn inputs(chart: &Chart) -> Vec<Request> {
    accepted(chart).expect("both machines can step and wait")
}

/// One accepted request of every operation but flattening, where both machines can step and wait.
fn accepted(chart: &Chart) -> Option<Vec<Request>> {
    let file = chart.write();
    check(&file).ok()?;
    let network = network_of(chart).ok()?;
    let mut random = Random::new(1);
    let mut requests = vec![Request::Check(file)];
    let mut runs = chart_requests(chart, 60, &mut random);
    runs.extend(network_requests(&network, 60, &mut random));
    for wanted in
        ["chart start", "chart step", "chart wait", "network start", "network step", "network wait"]
    {
        let found = runs
            .iter()
            .find(|request| operation_name(request) == wanted && request.answer().is_ok())?;
        requests.push(found.clone());
        // The longest wait in the configuration of the wait.
        match found {
            Request::ChartWait(file, given, _) => {
                requests.push(Request::ChartLongest(file.clone(), *given));
            }
            Request::NetworkWait(file, given, _) => {
                requests.push(Request::NetworkLongest(file.clone(), *given));
            }
            _ => {}
        }
    }
    Some(requests)
}

//! Runs charts and their networks side by side, every clause of the demand tested after every call, and
//! prints how much was covered.
//!
//! `runs [--runs N] [--seed S]`: at least N runs (50,000 if it is left out), two of each chart of the
//! seeds from S (0) on, of which half have sensors and half have numbers at the ends of the range. The
//! first clause that fails stops it with status 1.

use std::env;
use std::process::ExitCode;

use reference::coverage::tally::Tally;
use reference::generate::charts::chart_from_seed;
use reference::generate::random::Random;
use reference::runs::moment::Machines;
use reference::runs::side_by_side::run_both_lists;

/// Calls of each run.
const CALLS: usize = 40;

fn main() -> ExitCode {
    let Some((runs, first_seed)) = options(&env::args().skip(1).collect::<Vec<String>>()) else {
        eprintln!("usage: runs [--runs N] [--seed S]");
        return ExitCode::from(2);
    };
    let mut tally = Tally::default();
    let mut seed = first_seed;
    while tally.runs < runs {
        // A chart whose network would have too many edges has no run.
        if let Ok(machines) = Machines::of(chart_from_seed(seed)) {
            match run_both_lists(&machines, CALLS, &mut Random::new(seed)) {
                Ok(one) => tally.add(&one),
                Err(failure) => {
                    eprintln!("seed {seed}: {failure}");
                    return ExitCode::FAILURE;
                }
            }
        }
        seed += 1;
    }
    let Tally { network_calls, chart_calls, moves, urgent_moves, waits, .. } = tally;
    println!("{network_calls} network calls, {chart_calls} chart calls");
    println!("{moves} moves with transitions, {urgent_moves} urgent moves, {waits} waits");
    println!("{:#?}", tally.sensors);
    println!("{:#?}", tally.longest);
    println!("{:#?}", tally.range);
    println!(
        "every clause holds on {} runs, of the seeds {first_seed} to {}",
        tally.runs,
        seed - 1
    );
    ExitCode::SUCCESS
}

/// The number of runs and the first seed.
fn options(arguments: &[String]) -> Option<(u64, u64)> {
    let (mut runs, mut seed) = (50_000, 0);
    for pair in arguments.chunks(2) {
        let [name, value] = pair else {
            return None;
        };
        let number: u64 = value.parse().ok()?;
        match name.as_str() {
            "--runs" if number > 0 => runs = number,
            "--seed" => seed = number,
            _ => return None,
        }
    }
    Some((runs, seed))
}

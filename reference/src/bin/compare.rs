//! Compares the proved implementation with this one on random requests and prints how many agreed.
//!
//! `compare [--calls N] [--seed S]`: at least N calls (100,000 if it is left out), on the charts and the
//! lists of weft breaks of the seeds from S (0) on. The first difference stops it with status 101 and
//! prints the request.

use std::env;
use std::process::ExitCode;

use reference::runs::compare::Agreed;

/// Requests of each kind for one seed.
const REQUESTS: usize = 20;

fn main() -> ExitCode {
    let Some((calls, first_seed)) = options(&env::args().skip(1).collect::<Vec<String>>()) else {
        eprintln!("usage: compare [--calls N] [--seed S]");
        return ExitCode::from(2);
    };
    let mut agreed = Agreed::default();
    let mut seed = first_seed;
    while agreed.total() < calls {
        agreed.compare_seed(seed, REQUESTS);
        seed += 1;
    }
    println!("{agreed} on the charts and lists of the seeds {first_seed} to {}", seed - 1);
    ExitCode::SUCCESS
}

/// The number of calls and the first seed.
fn options(arguments: &[String]) -> Option<(u64, u64)> {
    let (mut calls, mut seed) = (100_000, 0);
    for pair in arguments.chunks(2) {
        let [name, value] = pair else {
            return None;
        };
        let number: u64 = value.parse().ok()?;
        match name.as_str() {
            "--calls" if number > 0 => calls = number,
            "--seed" => seed = number,
            _ => return None,
        }
    }
    Some((calls, seed))
}

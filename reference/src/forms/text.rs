//! Requests and answers as lines of text. README.md describes the form.

use crate::forms::request::{Request, Success};
use crate::model::chart_machine::ChartConfiguration;
use crate::model::limits::{AUTOMATA, CLOCKS, STATES, VARIABLES};
use crate::model::network_machine::NetworkConfiguration;
use crate::model::refusal::Refusal;
use crate::model::values::Values;
use crate::model::weft_breaks::Breaks;

/// What is answered to a line that is no request.
pub const MALFORMED: &str = "malformed";

/// The answer to one line.
pub fn answer_line(line: &str) -> String {
    match request_from_text(line) {
        Some(request) => answer_to_text(&request.answer()),
        None => MALFORMED.to_string(),
    }
}

pub fn request_from_text(line: &str) -> Option<Request> {
    let fields: Vec<&str> = line.split(' ').collect();
    Some(match fields[..] {
        ["check", file] => Request::Check(file_from_text(file)?),
        ["flatten", file, room] => {
            // No network is longer than the greatest 32-bit number.
            let room: u64 = room.parse().ok()?;
            Request::Flatten(file_from_text(file)?, room.min(u64::from(u32::MAX)) as u32)
        }
        ["cstart", file] => Request::ChartStart(file_from_text(file)?),
        ["cstep", file, configuration, list] => Request::ChartStep(
            file_from_text(file)?,
            chart_configuration_from_text(configuration)?,
            list_from_text(list)?,
        ),
        ["cwait", file, configuration, ticks] => Request::ChartWait(
            file_from_text(file)?,
            chart_configuration_from_text(configuration)?,
            ticks.parse().ok()?,
        ),
        ["cmax", file, configuration] => Request::ChartLongest(
            file_from_text(file)?,
            chart_configuration_from_text(configuration)?,
        ),
        ["nstart", file] => Request::NetworkStart(file_from_text(file)?),
        ["nstep", file, configuration, list] => Request::NetworkStep(
            file_from_text(file)?,
            network_configuration_from_text(configuration)?,
            list_from_text(list)?,
        ),
        ["nwait", file, configuration, ticks] => Request::NetworkWait(
            file_from_text(file)?,
            network_configuration_from_text(configuration)?,
            ticks.parse().ok()?,
        ),
        ["nmax", file, configuration] => Request::NetworkLongest(
            file_from_text(file)?,
            network_configuration_from_text(configuration)?,
        ),
        ["window", window, ticks] => {
            Request::WeftBreaks(ticks_from_text(ticks)?, window.parse().ok()?)
        }
        _ => return None,
    })
}

pub fn request_to_text(request: &Request) -> String {
    let file = file_to_text(request.file().unwrap_or_default());
    match request {
        Request::Check(_) => format!("check {file}"),
        Request::Flatten(_, room) => format!("flatten {file} {room}"),
        Request::ChartStart(_) => format!("cstart {file}"),
        Request::ChartStep(_, configuration, list) => {
            let configuration = chart_configuration_to_text(configuration);
            format!("cstep {file} {configuration} {}", list_to_text(list))
        }
        Request::ChartWait(_, configuration, ticks) => {
            format!("cwait {file} {} {ticks}", chart_configuration_to_text(configuration))
        }
        Request::ChartLongest(_, configuration) => {
            format!("cmax {file} {}", chart_configuration_to_text(configuration))
        }
        Request::NetworkStart(_) => format!("nstart {file}"),
        Request::NetworkStep(_, configuration, list) => {
            let configuration = network_configuration_to_text(configuration);
            format!("nstep {file} {configuration} {}", list_to_text(list))
        }
        Request::NetworkWait(_, configuration, ticks) => {
            format!("nwait {file} {} {ticks}", network_configuration_to_text(configuration))
        }
        Request::NetworkLongest(_, configuration) => {
            format!("nmax {file} {}", network_configuration_to_text(configuration))
        }
        Request::WeftBreaks(ticks, window) => format!("window {window} {}", list_to_text(ticks)),
    }
}

pub fn answer_to_text(answer: &Result<Success, Refusal>) -> String {
    match answer {
        Ok(Success::Passed) => "0".to_string(),
        Ok(Success::Flattened(network)) => format!("ok {}", file_to_text(network)),
        Ok(Success::Chart(new)) => format!("ok {}", chart_configuration_to_text(new)),
        Ok(Success::Network(new)) => format!("ok {}", network_configuration_to_text(new)),
        Ok(Success::Longest(ticks)) => format!("ok {ticks}"),
        Ok(Success::Breaks(breaks)) => breaks_to_text(breaks),
        Err(refusal) => refusal.number().to_string(),
    }
}

/// As both forms have it.
pub fn breaks_to_text(breaks: &Breaks) -> String {
    format!("ok {} {}", breaks.count, breaks.first)
}

/// Bytes in hexadecimal; `-` stands for no byte.
fn file_to_text(file: &[u8]) -> String {
    if file.is_empty() {
        return "-".to_string();
    }
    hexadecimal(file)
}

pub fn hexadecimal(bytes: &[u8]) -> String {
    bytes.iter().map(|byte| format!("{byte:02x}")).collect()
}

fn file_from_text(text: &str) -> Option<Vec<u8>> {
    if text == "-" {
        return Some(Vec::new());
    }
    let digits: Option<Vec<u8>> =
        text.chars().map(|digit| digit.to_digit(16).map(|value| value as u8)).collect();
    let digits = digits.filter(|digits| digits.len() % 2 == 0)?;
    Some(digits.chunks(2).map(|pair| pair[0] * 16 + pair[1]).collect())
}

/// Numbers with commas; `-` stands for no number.
fn list_to_text<T: std::fmt::Display>(list: &[T]) -> String {
    if list.is_empty() {
        return "-".to_string();
    }
    with_commas(list)
}

fn list_from_text(text: &str) -> Option<Vec<u16>> {
    if text == "-" {
        return Some(Vec::new());
    }
    // A number past 16 bits is as unknown as the greatest of 16 bits.
    let number = |text: &str| -> Option<u16> {
        let number: u64 = text.parse().ok()?;
        Some(number.min(u64::from(u16::MAX)) as u16)
    };
    text.split(',').map(number).collect()
}

/// A number past 32 bits is no tick, and its line no request.
fn ticks_from_text(text: &str) -> Option<Vec<u32>> {
    if text == "-" {
        return Some(Vec::new());
    }
    text.split(',').map(|tick| tick.parse().ok()).collect()
}

fn chart_configuration_to_text(configuration: &ChartConfiguration) -> String {
    let active: Vec<usize> = (0..STATES).filter(|&state| configuration.active[state]).collect();
    format!("A={};{}", with_commas(&active), values_to_text(&configuration.values))
}

fn chart_configuration_from_text(text: &str) -> Option<ChartConfiguration> {
    let [states, variables, clocks] = parts(text, ["A=", "V=", "C="])?;
    let mut active = [false; STATES];
    if !states.is_empty() {
        for number in states.split(',') {
            *active.get_mut(number.parse::<usize>().ok()?)? = true;
        }
    }
    Some(ChartConfiguration { active, values: values_from_text(variables, clocks)? })
}

fn network_configuration_to_text(configuration: &NetworkConfiguration) -> String {
    format!(
        "L={};F={};{}",
        with_commas(&configuration.locations),
        with_commas(&configuration.flags),
        values_to_text(&configuration.values)
    )
}

fn network_configuration_from_text(text: &str) -> Option<NetworkConfiguration> {
    let [locations, flags, variables, clocks] = parts(text, ["L=", "F=", "V=", "C="])?;
    Some(NetworkConfiguration {
        locations: numbers_from_text::<u8, AUTOMATA>(locations)?,
        flags: numbers_from_text::<u8, AUTOMATA>(flags)?,
        values: values_from_text(variables, clocks)?,
    })
}

fn values_to_text(values: &Values) -> String {
    format!("V={};C={}", with_commas(&values.variables), with_commas(&values.clocks))
}

fn values_from_text(variables: &str, clocks: &str) -> Option<Values> {
    Some(Values {
        variables: numbers_from_text::<i32, VARIABLES>(variables)?,
        clocks: numbers_from_text::<u32, CLOCKS>(clocks)?,
    })
}

/// The parts of a configuration, each without its name.
fn parts<'a, const N: usize>(text: &'a str, names: [&str; N]) -> Option<[&'a str; N]> {
    let parts: Vec<&str> = text.split(';').collect();
    let parts: [&str; N] = parts.try_into().ok()?;
    let mut contents = [""; N];
    for index in 0..N {
        contents[index] = parts[index].strip_prefix(names[index])?;
    }
    Some(contents)
}

fn numbers_from_text<T: std::str::FromStr, const N: usize>(text: &str) -> Option<[T; N]> {
    let numbers: Option<Vec<T>> = text.split(',').map(|number| number.parse().ok()).collect();
    numbers?.try_into().ok()
}

pub fn with_commas<T: std::fmt::Display>(numbers: &[T]) -> String {
    numbers.iter().map(|number| number.to_string()).collect::<Vec<_>>().join(",")
}

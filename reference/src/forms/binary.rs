//! Requests as bytes, for programs that read them one after the other, and the lines that such
//! programs print. README.md describes the layout.

use std::borrow::Cow;

use crate::forms::request::{Request, Success};
use crate::forms::run_request::{Read, RunAnswer, RunRequest, View};
use crate::forms::text::{breaks_to_text, hexadecimal, with_commas};
use crate::model::chart_machine::ChartConfiguration;
use crate::model::limits::{AUTOMATA, CLOCKS, STATES, VARIABLES};
use crate::model::network_machine::NetworkConfiguration;
use crate::model::reader::{Fault, Reader};
use crate::model::refusal::Refusal;
use crate::model::values::Values;
use crate::runs::moment::Call;

/// The operation that runs a chart and its network side by side.
const RUN: u8 = 8;

/// How many bytes a tick of weft breaks has.
const TICK_BYTES: usize = 4;

/// A request to one machine, or to run both.
#[derive(Clone, PartialEq, Eq, Debug)]
pub enum AnyRequest {
    One(Request),
    Run(RunRequest),
}

/// The bytes of one request.
pub fn any_request_to_bytes(request: &AnyRequest) -> Vec<u8> {
    match request {
        AnyRequest::One(request) => request_to_bytes(request),
        AnyRequest::Run(request) => run_request_to_bytes(request),
    }
}

/// The lines that answer a request, each with its line feed.
pub fn answer_to_lines(request: &AnyRequest) -> String {
    match request {
        AnyRequest::One(request) => answer_to_line(&request.answer()) + "\n",
        AnyRequest::Run(request) => run_answer_to_lines(&request.answer()),
    }
}

/// The bytes of a request to one machine.
fn request_to_bytes(request: &Request) -> Vec<u8> {
    let mut bytes = head_to_bytes(operation(request), &content(request));
    match request {
        Request::Check(_) | Request::ChartStart(_) | Request::NetworkStart(_) => {}
        Request::Flatten(_, room) => bytes.extend(room.to_be_bytes()),
        Request::ChartStep(_, configuration, list) => {
            bytes.extend(chart_configuration_to_bytes(configuration));
            list_to_bytes(list, &mut bytes);
        }
        Request::ChartWait(_, configuration, ticks) => {
            bytes.extend(chart_configuration_to_bytes(configuration));
            bytes.extend(ticks.to_be_bytes());
        }
        Request::NetworkStep(_, configuration, list) => {
            bytes.extend(network_configuration_to_bytes(configuration));
            list_to_bytes(list, &mut bytes);
        }
        Request::NetworkWait(_, configuration, ticks) => {
            bytes.extend(network_configuration_to_bytes(configuration));
            bytes.extend(ticks.to_be_bytes());
        }
        Request::ChartLongest(_, configuration) => {
            bytes.extend(chart_configuration_to_bytes(configuration));
        }
        Request::NetworkLongest(_, configuration) => {
            bytes.extend(network_configuration_to_bytes(configuration));
        }
        Request::WeftBreaks(_, window) => bytes.extend(window.to_be_bytes()),
    }
    bytes
}

/// What the place of the file holds: the file, or the ticks of weft breaks.
fn content(request: &Request) -> Cow<'_, [u8]> {
    match request {
        Request::WeftBreaks(ticks, _) => ticks.iter().flat_map(|tick| tick.to_be_bytes()).collect(),
        _ => Cow::Borrowed(request.file().unwrap_or_default()),
    }
}

/// The bytes of a request to run both machines.
fn run_request_to_bytes(request: &RunRequest) -> Vec<u8> {
    let mut bytes = head_to_bytes(RUN, &request.file);
    bytes.extend((request.calls.len() as u16).to_be_bytes());
    for call in &request.calls {
        match call {
            Call::Step(list) => {
                bytes.push(0);
                list_to_bytes(list, &mut bytes);
            }
            Call::Wait(ticks) => {
                bytes.push(1);
                bytes.extend(ticks.to_be_bytes());
            }
        }
    }
    bytes
}

/// What every request starts with: the operation, and the content with its length.
fn head_to_bytes(operation: u8, content: &[u8]) -> Vec<u8> {
    let mut bytes = vec![operation];
    bytes.extend((content.len() as u32).to_be_bytes());
    bytes.extend(content);
    bytes
}

/// The number of a request's operation.
pub fn operation(request: &Request) -> u8 {
    match request {
        Request::Check(_) => 0,
        Request::Flatten(..) => 1,
        Request::ChartStart(_) => 2,
        Request::ChartStep(..) => 3,
        Request::ChartWait(..) => 4,
        Request::NetworkStart(_) => 5,
        Request::NetworkStep(..) => 6,
        Request::NetworkWait(..) => 7,
        // 8 is RUN.
        Request::ChartLongest(..) => 9,
        Request::NetworkLongest(..) => 10,
        Request::WeftBreaks(..) => 11,
    }
}

/// All requests of an input, or none if the input is not made of whole requests.
pub fn requests_from_bytes(input: &[u8]) -> Option<Vec<AnyRequest>> {
    let mut reader = Reader::new(input);
    let mut requests = Vec::new();
    while reader.end().is_err() {
        requests.push(request_from_reader(&mut reader).ok()?);
    }
    Some(requests)
}

fn head_from_reader(reader: &mut Reader) -> Result<(u8, Vec<u8>), Fault> {
    let operation = reader.byte()?;
    let length = reader.four_bytes()?;
    Ok((operation, reader.take(length as usize)?.to_vec()))
}

fn request_from_reader(reader: &mut Reader) -> Result<AnyRequest, Fault> {
    let (operation, file) = head_from_reader(reader)?;
    Ok(AnyRequest::One(match operation {
        0 => Request::Check(file),
        1 => Request::Flatten(file, reader.four_bytes()?),
        2 => Request::ChartStart(file),
        3 => Request::ChartStep(file, chart_configuration(reader)?, list_from_reader(reader)?),
        4 => Request::ChartWait(file, chart_configuration(reader)?, reader.four_bytes()?),
        5 => Request::NetworkStart(file),
        6 => Request::NetworkStep(file, network_configuration(reader)?, list_from_reader(reader)?),
        7 => Request::NetworkWait(file, network_configuration(reader)?, reader.four_bytes()?),
        9 => Request::ChartLongest(file, chart_configuration(reader)?),
        10 => Request::NetworkLongest(file, network_configuration(reader)?),
        11 => Request::WeftBreaks(whole_ticks(&file), reader.four_bytes()?),
        RUN => return Ok(AnyRequest::Run(RunRequest { file, calls: calls_from_reader(reader)? })),
        _ => return Err(Fault::Field),
    }))
}

/// The ticks of weft breaks. Bytes after the last whole one are ignored.
fn whole_ticks(bytes: &[u8]) -> Vec<u32> {
    let (ticks, _) = bytes.as_chunks::<TICK_BYTES>();
    ticks.iter().map(|&tick| u32::from_be_bytes(tick)).collect()
}

fn calls_from_reader(reader: &mut Reader) -> Result<Vec<Call>, Fault> {
    let count = reader.two_bytes()?;
    (0..count).map(|_| call_from_reader(reader)).collect()
}

fn call_from_reader(reader: &mut Reader) -> Result<Call, Fault> {
    Ok(match reader.byte()? {
        0 => Call::Step(list_from_reader(reader)?),
        1 => Call::Wait(reader.four_bytes()?),
        _ => return Err(Fault::Field),
    })
}

/// The line that answers a request, without its line feed.
fn answer_to_line(answer: &Result<Success, Refusal>) -> String {
    match answer {
        Ok(Success::Passed) => "ok".to_string(),
        Ok(Success::Flattened(network)) => {
            format!("ok {} {:08x}", network.len(), checksum(network))
        }
        Ok(Success::Chart(new)) => {
            format!("ok {}", hexadecimal(&chart_configuration_to_bytes(new)))
        }
        Ok(Success::Network(new)) => {
            format!("ok {}", hexadecimal(&network_configuration_to_bytes(new)))
        }
        Ok(Success::Longest(ticks)) => format!("ok {ticks}"),
        Ok(Success::Breaks(breaks)) => breaks_to_text(breaks),
        Err(refusal) => refusal.number().to_string(),
    }
}

/// The lines that answer a request to run both machines, each with its line feed.
fn run_answer_to_lines(answer: &RunAnswer) -> String {
    let views = answer.views.iter().map(view_to_line);
    let lines = std::iter::once(answer_to_line(&answer.flattened)).chain(views);
    lines.map(|line| line + "\n").collect()
}

fn view_to_line(view: &View) -> String {
    let answer = match view.refusal {
        None => "ok".to_string(),
        Some(refusal) => refusal.number().to_string(),
    };
    let network = hexadecimal(&network_configuration_to_bytes(&view.network));
    let read = match &view.read {
        Read::Nothing => "none".to_string(),
        Read::Start => "start".to_string(),
        Read::Call(Call::Step(list)) => format!("step {}", with_commas(list)),
        Read::Call(Call::Wait(ticks)) => format!("wait {ticks}"),
    };
    let chart = hexadecimal(&chart_configuration_to_bytes(&view.chart));
    format!("{answer} {network} {read} {chart} {}", view.owed)
}

/// FNV-1a with 32 bits.
pub fn checksum(bytes: &[u8]) -> u32 {
    bytes
        .iter()
        .fold(0x811C_9DC5, |hash: u32, &byte| (hash ^ u32::from(byte)).wrapping_mul(0x0100_0193))
}

fn chart_configuration_to_bytes(configuration: &ChartConfiguration) -> Vec<u8> {
    let mut bytes: Vec<u8> = configuration.active.iter().map(|&active| u8::from(active)).collect();
    values_to_bytes(&configuration.values, &mut bytes);
    bytes
}

fn chart_configuration(reader: &mut Reader) -> Result<ChartConfiguration, Fault> {
    let mut active = [false; STATES];
    for state in &mut active {
        *state = reader.truth()?;
    }
    Ok(ChartConfiguration { active, values: values_from_reader(reader)? })
}

fn network_configuration_to_bytes(configuration: &NetworkConfiguration) -> Vec<u8> {
    let mut bytes = configuration.locations.to_vec();
    bytes.extend(configuration.flags);
    values_to_bytes(&configuration.values, &mut bytes);
    bytes
}

fn network_configuration(reader: &mut Reader) -> Result<NetworkConfiguration, Fault> {
    let mut locations = [0; AUTOMATA];
    let mut flags = [0; AUTOMATA];
    locations.copy_from_slice(reader.take(AUTOMATA)?);
    flags.copy_from_slice(reader.take(AUTOMATA)?);
    Ok(NetworkConfiguration { locations, flags, values: values_from_reader(reader)? })
}

fn values_to_bytes(values: &Values, bytes: &mut Vec<u8>) {
    for variable in values.variables {
        bytes.extend(variable.to_be_bytes());
    }
    for clock in values.clocks {
        bytes.extend(clock.to_be_bytes());
    }
}

fn values_from_reader(reader: &mut Reader) -> Result<Values, Fault> {
    let mut variables = [0; VARIABLES];
    let mut clocks = [0; CLOCKS];
    for variable in &mut variables {
        *variable = reader.four_bytes()? as i32;
    }
    for clock in &mut clocks {
        *clock = reader.four_bytes()?;
    }
    Ok(Values { variables, clocks })
}

fn list_to_bytes(list: &[u16], bytes: &mut Vec<u8>) {
    bytes.extend((list.len() as u16).to_be_bytes());
    for number in list {
        bytes.extend(number.to_be_bytes());
    }
}

fn list_from_reader(reader: &mut Reader) -> Result<Vec<u16>, Fault> {
    let count = reader.two_bytes()?;
    (0..count).map(|_| reader.two_bytes()).collect()
}

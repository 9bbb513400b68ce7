//! The proved implementation, called through its C functions: those of `crates/library`, and for
//! networks also those that a board calls, `crates/network_in_place`.
//!
//! A function answers 0, or the number of the refusal, and then leaves what was lent as it was. What is
//! lent only to be read is passed by a pointer too, and where it is tested that it stays as it is, not
//! as a reference: Rust may take for granted that nothing is written through one.

use crate::forms::request::{Request, Success};
use crate::model::chart_machine::ChartConfiguration;
use crate::model::limits::{AUTOMATA, CLOCKS, STATES, VARIABLES};
use crate::model::network_machine::NetworkConfiguration;
use crate::model::refusal::Refusal;
use crate::model::values::Values;
use crate::model::weft_breaks::Breaks;

/// Declares C functions, and for each a Rust function of the same name that gives its refusal. A parameter
/// is told by its kind:
/// - `[T]` and `mut [T]`: a slice to be read and one to be written, and `*[T]`: one to be read that is no
///   reference; C takes a pointer and a number of elements;
/// - `chart` and `network`: a configuration; C takes a pointer to each of its parts;
/// - any other is a type, which C takes as it is.
macro_rules! c_functions {
    ($($name:ident($($parameters:tt)*);)*) => {
        $(c_functions! { @ $name [$($parameters)*,] [] [] })*
    };
    (@ $name:ident [] [$($rust:tt)*] [$($c:ty = $value:expr;)*]) => {
        unsafe fn $name($($rust)*) -> Result<(), Refusal> {
            extern "C" {
                fn $name($(_: $c),*) -> u8;
            }
            accepted(unsafe { $name($($value),*) })
        }
    };
    (@ $name:ident [$one:ident: [$of:ty], $($more:tt)*] [$($rust:tt)*] [$($c:tt)*]) => {
        c_functions! { @ $name [$($more)*] [$($rust)* $one: &[$of],]
            [$($c)* *const $of = $one.as_ptr(); usize = $one.len();] }
    };
    (@ $name:ident [$one:ident: mut [$of:ty], $($more:tt)*] [$($rust:tt)*] [$($c:tt)*]) => {
        c_functions! { @ $name [$($more)*] [$($rust)* $one: &mut [$of],]
            [$($c)* *mut $of = $one.as_mut_ptr(); usize = $one.len();] }
    };
    (@ $name:ident [$one:ident: *[$of:ty], $($more:tt)*] [$($rust:tt)*] [$($c:tt)*]) => {
        c_functions! { @ $name [$($more)*] [$($rust)* $one: *const [$of],]
            [$($c)* *const $of = $one.cast(); usize = $one.len();] }
    };
    (@ $name:ident [$one:ident: chart, $($more:tt)*] [$($rust:tt)*] [$($c:tt)*]) => {
        c_functions! { @ $name [$($more)*] [$($rust)* $one: &mut LentChart,]
            [$($c)* &mut [u8; STATES] = &mut $one.active;
                &mut [i32; VARIABLES] = &mut $one.values.variables;
                &mut [u32; CLOCKS] = &mut $one.values.clocks;] }
    };
    (@ $name:ident [$one:ident: network, $($more:tt)*] [$($rust:tt)*] [$($c:tt)*]) => {
        c_functions! { @ $name [$($more)*] [$($rust)* $one: &mut NetworkConfiguration,]
            [$($c)* &mut [u8; AUTOMATA] = &mut $one.locations;
                &mut [u8; AUTOMATA] = &mut $one.flags;
                &mut [i32; VARIABLES] = &mut $one.values.variables;
                &mut [u32; CLOCKS] = &mut $one.values.clocks;] }
    };
    (@ $name:ident [$one:ident: $type:ty, $($more:tt)*] [$($rust:tt)*] [$($c:tt)*]) => {
        c_functions! { @ $name [$($more)*] [$($rust)* $one: $type,] [$($c)* $type = $one;] }
    };
}

c_functions! {
    figrummy_check_chart(file: [u8]);
    figrummy_flatten(file: [u8], out: mut [u8], size: &mut usize);
    figrummy_start_chart(file: [u8], given: chart);
    figrummy_step_chart(file: [u8], given: chart, list: [u16]);
    figrummy_wait_chart(file: [u8], given: chart, ticks: u32);
    figrummy_longest_wait_chart(file: [u8], given: chart, ticks: &mut u32);
    figrummy_start_network(file: [u8], given: network);
    figrummy_step_network(file: [u8], given: network, list: [u16]);
    figrummy_wait_network(file: [u8], given: network, ticks: u32);
    figrummy_longest_wait_network(file: [u8], given: network, ticks: &mut u32);
    figrummy_start_in_place(file: [u8], given: &mut LentBoard);
    figrummy_step_in_place(file: [u8], given: &mut LentBoard, list: [u16]);
    figrummy_wait_in_place(file: [u8], given: &mut LentBoard, ticks: u32);
    figrummy_longest_wait_in_place(file: [u8], given: &mut LentBoard, ticks: &mut u32);
    figrummy_weft_breaks(ticks: *[u32], window: u32, most: &mut usize, first: &mut u32);
}

/// What the number that a function answers says.
fn accepted(number: u8) -> Result<(), Refusal> {
    if number == 0 {
        return Ok(());
    }
    let found = Refusal::ALL.into_iter().find(|refusal| refusal.number() == number);
    Err(found.expect("the number of a refusal"))
}

/// A chart's configuration as it is lent: a byte for each state, 1 if it is active and else 0.
#[derive(Clone, Copy, PartialEq)]
struct LentChart {
    active: [u8; STATES],
    values: Values,
}

impl From<LentChart> for ChartConfiguration {
    fn from(lent: LentChart) -> ChartConfiguration {
        assert!(lent.active.iter().all(|&byte| byte <= 1), "a byte that is neither 0 nor 1");
        ChartConfiguration { active: lent.active.map(|byte| byte == 1), values: lent.values }
    }
}

/// A network's configuration as a board keeps it.
#[repr(C)]
#[derive(Clone, Copy, PartialEq)]
struct LentBoard {
    locations: [u8; AUTOMATA],
    flags: [u8; AUTOMATA],
    variables: [i32; VARIABLES],
    clocks: [u32; CLOCKS],
}

impl From<NetworkConfiguration> for LentBoard {
    fn from(given: NetworkConfiguration) -> LentBoard {
        let NetworkConfiguration { locations, flags, values: Values { variables, clocks } } = given;
        LentBoard { locations, flags, variables, clocks }
    }
}

impl From<LentBoard> for NetworkConfiguration {
    fn from(lent: LentBoard) -> NetworkConfiguration {
        let LentBoard { locations, flags, variables, clocks } = lent;
        NetworkConfiguration { locations, flags, values: Values { variables, clocks } }
    }
}

/// The answer. A refused call changes nothing that was lent, which is tested here.
pub fn answer(request: &Request) -> Result<Success, Refusal> {
    match request {
        Request::Check(file) => unsafe { figrummy_check_chart(file) }.map(|()| Success::Passed),
        Request::Flatten(file, room) => on_buffer(file, *room as usize),
        Request::ChartStart(_) => answer_with_bytes(request, [1; STATES]),
        Request::ChartStep(_, given, _)
        | Request::ChartWait(_, given, _)
        | Request::ChartLongest(_, given) => answer_with_bytes(request, given.active.map(u8::from)),
        Request::NetworkStart(file) => {
            on_network(LENT_NETWORK, |lent| unsafe { figrummy_start_network(file, lent) })
        }
        Request::NetworkStep(file, given, list) => {
            on_network(*given, |lent| unsafe { figrummy_step_network(file, lent, list) })
        }
        Request::NetworkWait(file, given, ticks) => {
            on_network(*given, |lent| unsafe { figrummy_wait_network(file, lent, *ticks) })
        }
        Request::NetworkLongest(file, given) => longest(*given, |lent, ticks| unsafe {
            figrummy_longest_wait_network(file, lent, ticks)
        }),
        Request::WeftBreaks(ticks, window) => on_ticks(ticks, *window),
    }
}

/// The answer to a request with a chart's configuration, where these bytes are lent for the active states.
pub fn answer_with_bytes(request: &Request, active: [u8; STATES]) -> Result<Success, Refusal> {
    let lent = |values: Values| LentChart { active, values };
    match request {
        Request::ChartStart(file) => {
            on_chart(lent(LENT_VALUES), |lent| unsafe { figrummy_start_chart(file, lent) })
        }
        Request::ChartStep(file, given, list) => {
            on_chart(lent(given.values), |lent| unsafe { figrummy_step_chart(file, lent, list) })
        }
        Request::ChartWait(file, given, ticks) => {
            on_chart(lent(given.values), |lent| unsafe { figrummy_wait_chart(file, lent, *ticks) })
        }
        Request::ChartLongest(file, given) => longest(lent(given.values), |lent, ticks| unsafe {
            figrummy_longest_wait_chart(file, lent, ticks)
        }),
        other => panic!("{other:?} has no configuration of a chart"),
    }
}

/// The answer of the functions that move a network's configuration on in place; none to other
/// requests. Here too a refused call must change nothing that was lent.
pub fn answer_in_place(request: &Request) -> Option<Result<Success, Refusal>> {
    Some(match request {
        Request::NetworkStart(file) => {
            on_network(LENT_NETWORK, |lent| unsafe { figrummy_start_in_place(file, lent) })
        }
        Request::NetworkStep(file, given, list) => {
            on_network(*given, |lent| unsafe { figrummy_step_in_place(file, lent, list) })
        }
        Request::NetworkWait(file, given, ticks) => {
            on_network(*given, |lent| unsafe { figrummy_wait_in_place(file, lent, *ticks) })
        }
        Request::NetworkLongest(file, given) => {
            longest(LentBoard::from(*given), |lent, ticks| unsafe {
                figrummy_longest_wait_in_place(file, lent, ticks)
            })
        }
        _ => return None,
    })
}

/// What is lent to a start: no value that a start gives.
const LENT_VALUES: Values = Values { variables: [-7; VARIABLES], clocks: [7; CLOCKS] };
const LENT_NETWORK: NetworkConfiguration =
    NetworkConfiguration { locations: [77; AUTOMATA], flags: [77; AUTOMATA], values: LENT_VALUES };

/// The length that is lent to a flattening: that of no network.
const LENT_SIZE: usize = usize::MAX;

/// The count that is lent to a count of weft breaks: that of no list.
const LENT_COUNT: usize = usize::MAX;

/// The ticks that are lent to a longest wait, more than any clock leaves and not what none leaves, and the
/// tick that is lent to a count of weft breaks.
const LENT_TICKS: u32 = 0xA5A5_A5A5;

/// What was lent to a call, as the call left it. A refused call must leave it as it was.
fn lend<T: Clone + PartialEq>(
    given: T,
    call: impl FnOnce(&mut T) -> Result<(), Refusal>,
) -> Result<T, Refusal> {
    let mut lent = given.clone();
    let answer = call(&mut lent);
    assert!(answer.is_ok() || lent == given, "a refused call changed what was lent");
    answer.map(|()| lent)
}

/// A call that is lent a chart's configuration.
fn on_chart(
    given: LentChart,
    call: impl FnOnce(&mut LentChart) -> Result<(), Refusal>,
) -> Result<Success, Refusal> {
    lend(given, call).map(|lent| Success::Chart(lent.into()))
}

/// A call that is lent a network's configuration, in the form that it takes.
fn on_network<T: Clone + PartialEq>(
    given: NetworkConfiguration,
    call: impl FnOnce(&mut T) -> Result<(), Refusal>,
) -> Result<Success, Refusal>
where
    T: From<NetworkConfiguration>,
    NetworkConfiguration: From<T>,
{
    lend(T::from(given), call).map(|lent| Success::Network(lent.into()))
}

/// A call for a longest wait. It is lent a configuration, which must stay as it is, and where the ticks go.
fn longest<T: Clone + PartialEq>(
    given: T,
    call: impl FnOnce(&mut T, &mut u32) -> Result<(), Refusal>,
) -> Result<Success, Refusal> {
    let (left, ticks) = lend((given.clone(), LENT_TICKS), |(lent, ticks)| call(lent, ticks))?;
    assert!(left == given, "a longest wait changed the configuration");
    Ok(Success::Longest(ticks))
}

/// Flattens a chart file into a lent buffer and returns the length of the network file.
pub fn flatten(file: &[u8], buffer: &mut [u8]) -> Result<usize, Refusal> {
    lend(LENT_SIZE, |size| unsafe { figrummy_flatten(file, buffer, size) })
}

/// A flattening into a buffer of this length. What it leaves after the network, or everywhere if
/// it is refused, is compared with what was lent.
fn on_buffer(file: &[u8], room: usize) -> Result<Success, Refusal> {
    let lent_byte = |place: usize| place as u8 ^ 0x5A;
    let mut buffer: Vec<u8> = (0..room).map(lent_byte).collect();
    let flattened = flatten(file, &mut buffer);
    let kept = *flattened.as_ref().unwrap_or(&0);
    let unchanged = (kept..room).all(|place| buffer[place] == lent_byte(place));
    assert!(unchanged, "bytes that are not the network's were changed");
    buffer.truncate(flattened?);
    Ok(Success::Flattened(buffer))
}

/// The most weft breaks in a window.
pub fn weft_breaks(ticks: &[u32], window: u32) -> Result<Breaks, Refusal> {
    unsafe { breaks_at(ticks, window) }
}

/// Of a list that must be there, but is no reference.
unsafe fn breaks_at(ticks: *const [u32], window: u32) -> Result<Breaks, Refusal> {
    let (count, first) = lend((LENT_COUNT, LENT_TICKS), |(count, first)| unsafe {
        figrummy_weft_breaks(ticks, window, count, first)
    })?;
    Ok(Breaks { count, first })
}

/// A count of weft breaks in a copy of the list, which must stay as it is.
fn on_ticks(ticks: &[u32], window: u32) -> Result<Success, Refusal> {
    let mut lent = ticks.to_vec();
    let pointer: *mut [u32] = lent.as_mut_slice();
    let answer = unsafe { breaks_at(pointer, window) };
    assert!(lent == ticks, "a count of weft breaks changed the list");
    answer.map(Success::Breaks)
}

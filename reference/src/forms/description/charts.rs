//! Charts as text: the counts in the first line, then a line for each state and each transition.

use std::rc::Rc;

use super::labels;
use super::lines::{marks_to_text, Line, Lines};
use super::Mistake;
use crate::model::chart::{Chart, Kind, State, Transition};
use crate::model::label::Declared;
use crate::model::limits::NONE;
use crate::model::version::Version;

const KINDS: [&str; 3] = ["basic", "sequential", "parallel"];
const LAST_NUMBER: u32 = NONE as u32 - 1;
/// States and transitions are counted by a byte.
const MOST_RECORDS: usize = 255;
/// The length of what follows the first three bytes has two bytes.
const MOST_BYTES: usize = 65_535 + 3;

pub fn to_text(chart: &Chart) -> String {
    let declared = &chart.declared;
    let mut text = format!(
        "chart{} clocks {} variables {} rendezvous {} broadcast {} entries {} exits {}\n",
        version_to_text(chart.version),
        declared.clocks,
        declared.variables,
        declared.rendezvous,
        declared.broadcast,
        chart.entries,
        chart.exits
    );
    for (number, state) in chart.states.iter().enumerate() {
        text += &format!("state {number} {}\n", state_to_text(state));
    }
    for (number, transition) in chart.transitions.iter().enumerate() {
        text += &format!("transition {number} {}\n", transition_to_text(transition));
    }
    text
}

fn state_to_text(state: &State) -> String {
    let mut text = KINDS[state.kind as usize].to_string();
    text += &match state.parent {
        NONE => " in none".to_string(),
        parent => format!(" in {parent}"),
    };
    if state.entry_marks != 0 {
        text += &format!(" entries {}", marks_to_text(state.entry_marks));
    }
    if state.exit_marks != 0 {
        text += &format!(" exits {}", marks_to_text(u16::from(state.exit_marks)));
    }
    text + &labels::bounds_to_text(&state.bounds)
}

fn transition_to_text(transition: &Transition) -> String {
    let mut text = format!("from {} to {}", transition.source, transition.destination);
    if let Some(exit) = transition.exit {
        text += &format!(" exit {exit}");
    }
    if let Some(entry) = transition.entry {
        text += &format!(" entry {entry}");
    }
    text + &labels::to_text(&transition.label)
}

/// The chart of a text whose first line is read up to `chart`.
pub fn from_lines(mut first: Line, mut lines: Lines) -> Result<Chart, Mistake> {
    let version = version_from_line(&mut first)?;
    let declared = declared_from_line(&mut first)?;
    first.expect("entries")?;
    let entries = first.number(u32::from(NONE))? as usize;
    first.expect("exits")?;
    let exits = first.number(u32::from(NONE))? as usize;
    first.end()?;
    let (mut states, mut transitions) = (Vec::new(), Vec::new());
    while let Some(mut line) = lines.next_if_any() {
        if transitions.is_empty() && line.takes("state") {
            line.place(states.len())?;
            line.at_most(states.len() + 1, MOST_RECORDS, "states")?;
            states.push(state_from_line(&mut line)?);
        } else {
            line.expect("transition")?;
            line.place(transitions.len())?;
            line.at_most(transitions.len() + 1, MOST_RECORDS, "transitions")?;
            transitions.push(transition_from_line(&mut line, version)?);
        }
    }
    let chart = Chart::new(version, declared, entries, exits, states, transitions);
    lines.at_most(chart.write().len(), MOST_BYTES, "bytes in a chart")?;
    Ok(chart)
}

/// ` version 2`, which charts and networks share; nothing for the first version.
pub fn version_to_text(version: Version) -> String {
    if version == Version::default() {
        return String::new();
    }
    format!(" version {}", version.number())
}

/// The first version where none is written.
pub fn version_from_line(line: &mut Line) -> Result<Version, Mistake> {
    if !line.takes("version") {
        return Ok(Version::default());
    }
    let number = line.number(u32::from(u8::MAX))? as u8;
    Version::of_number(number).ok_or_else(|| line.mistake(format!("there is no version {number}")))
}

/// `clocks 1 variables 2 rendezvous 0 broadcast 1`, which charts and networks share.
pub fn declared_from_line(line: &mut Line) -> Result<Declared, Mistake> {
    let mut counts = [0; 4];
    for (count, name) in counts.iter_mut().zip(["clocks", "variables", "rendezvous", "broadcast"]) {
        line.expect(name)?;
        *count = line.number(u32::from(NONE))? as usize;
    }
    let [clocks, variables, rendezvous, broadcast] = counts;
    Ok(Declared { clocks, variables, rendezvous, broadcast })
}

fn state_from_line(line: &mut Line) -> Result<State, Mistake> {
    let word = line.word()?;
    let Some(kind) = KINDS.iter().position(|name| *name == word) else {
        return Err(line.mistake(format!("'{word}' is neither basic, sequential nor parallel")));
    };
    line.expect("in")?;
    let parent = line.byte_or_none()?;
    let entry_marks = if line.takes("entries") { line.marks(16)? } else { 0 };
    let exit_marks = if line.takes("exits") { line.marks(8)? as u8 } else { 0 };
    let bounds = labels::bounds_from_line(line)?;
    line.end()?;
    Ok(State { parent, kind: Kind::ALL[kind], entry_marks, exit_marks, bounds })
}

fn transition_from_line(line: &mut Line, version: Version) -> Result<Transition, Mistake> {
    line.expect("from")?;
    let source = line.number(LAST_NUMBER)? as usize;
    line.expect("to")?;
    let destination = line.number(LAST_NUMBER)? as usize;
    let exit = optional(line, "exit")?;
    let entry = optional(line, "entry")?;
    let label = Rc::new(labels::from_line(line, version)?);
    Ok(Transition { source, destination, exit, entry, label })
}

/// A number after its name, if the name is there.
pub fn optional(line: &mut Line, name: &str) -> Result<Option<usize>, Mistake> {
    if !line.takes(name) {
        return Ok(None);
    }
    Ok(Some(line.number(LAST_NUMBER)? as usize))
}

//! Labels, guards and bounds as text:
//! `send 3 reset c0,c1 when v0 < 3 and c0 <= 5 and c0 - c1 >= 2 do v0 := v1 ; v1 := v0`, and from
//! version 2 on `do advance v0 rest v1 by 7/3 ; v2 := v0`.

use super::expressions;
use super::lines::Line;
use super::Mistake;
use crate::model::guard::{Guard, Relation};
use crate::model::label::{Label, Signal};
use crate::model::limits::{CLOCKS, LARGEST, NONE, NO_BOUND, VARIABLES};
use crate::model::update::{Advance, Update};
use crate::model::values::Bounds;
use crate::model::version::Version;

const LAST_CLOCK: u32 = CLOCKS as u32 - 1;
const LAST_VARIABLE: u32 = VARIABLES as u32 - 1;
/// Guards and assignments are counted by a byte.
const MOST_PARTS: usize = 255;
/// The length of an edge's record has two bytes, and ten bytes stand before its label.
const MOST_BYTES: usize = 65_535 - 10;
const RELATIONS: [&str; 6] = ["<", "<=", ">", ">=", "=", "!="];

/// The words of a label, each part with a space before it.
pub fn to_text(label: &Label) -> String {
    let mut text = match label.signal {
        Signal::None => String::new(),
        Signal::Send(channel) => format!(" send {channel}"),
        Signal::Receive(channel) => format!(" receive {channel}"),
    };
    if label.resets != 0 {
        let clocks: Vec<String> = (0..CLOCKS)
            .filter(|clock| label.resets >> clock & 1 == 1)
            .map(|clock| format!("c{clock}"))
            .collect();
        text += &format!(" reset {}", clocks.join(","));
    }
    for (number, guard) in label.guards.iter().enumerate() {
        text += if number == 0 { " when " } else { " and " };
        text += &guard_to_text(guard);
    }
    for (number, update) in label.updates.iter().enumerate() {
        text += if number == 0 { " do " } else { " ; " };
        text += &update_to_text(update);
    }
    text
}

fn update_to_text(update: &Update) -> String {
    match update {
        Update::Assignment(assignment) => {
            format!("v{} := {}", assignment.variable, expressions::to_text(&assignment.expression))
        }
        Update::Advance(Advance { steps, remainder, numerator, denominator }) => {
            format!("advance v{steps} rest v{remainder} by {numerator}/{denominator}")
        }
    }
}

fn guard_to_text(guard: &Guard) -> String {
    let sign = |relation: &Relation| RELATIONS[*relation as usize];
    match guard {
        Guard::Data { relation, left, right } => {
            format!(
                "{} {} {}",
                expressions::to_text(left),
                sign(relation),
                expressions::to_text(right)
            )
        }
        Guard::Clock { clock, relation, constant } => {
            format!("c{clock} {} {constant}", sign(relation))
        }
        Guard::Difference { first, second, relation, constant } => {
            format!("c{first} - c{second} {} {constant}", sign(relation))
        }
    }
}

/// The rest of a line in a text of this version.
pub fn from_line(line: &mut Line, version: Version) -> Result<Label, Mistake> {
    let mut label = Label::of_signal(signal(line)?);
    if line.takes("reset") {
        loop {
            label.resets |= 1 << line.lettered('c', LAST_CLOCK)?;
            if !line.takes(",") {
                break;
            }
        }
    }
    if line.takes("when") {
        label.guards.push(guard(line)?);
        while line.takes("and") {
            label.guards.push(guard(line)?);
        }
    }
    if line.takes("do") {
        label.updates.push(update(line, version)?);
        while line.takes(";") {
            label.updates.push(update(line, version)?);
        }
    }
    line.end()?;
    line.at_most(label.guards.len(), MOST_PARTS, "guards")?;
    line.at_most(label.updates.len(), MOST_PARTS, "assignments")?;
    let mut bytes = Vec::new();
    label.write(&mut bytes);
    line.at_most(bytes.len(), MOST_BYTES, "bytes in a label")?;
    Ok(label)
}

fn signal(line: &mut Line) -> Result<Signal, Mistake> {
    let last_channel = u32::from(NONE) - 1;
    if line.takes("send") {
        return Ok(Signal::Send(line.number(last_channel)? as usize));
    }
    if line.takes("receive") {
        return Ok(Signal::Receive(line.number(last_channel)? as usize));
    }
    Ok(Signal::None)
}

fn guard(line: &mut Line) -> Result<Guard, Mistake> {
    if !line.peek().is_some_and(|word| word.starts_with('c')) {
        let left = expressions::from_line(line)?;
        let relation = relation(line)?;
        return Ok(Guard::Data { relation, left, right: expressions::from_line(line)? });
    }
    let clock = line.lettered('c', LAST_CLOCK)? as usize;
    if line.takes("-") {
        let second = line.lettered('c', LAST_CLOCK)? as usize;
        let relation = relation(line)?;
        return Ok(Guard::Difference {
            first: clock,
            second,
            relation,
            constant: line.number(LARGEST)?,
        });
    }
    let relation = relation(line)?;
    Ok(Guard::Clock { clock, relation, constant: line.number(LARGEST)? })
}

fn relation(line: &mut Line) -> Result<Relation, Mistake> {
    let word = line.word()?;
    match RELATIONS.iter().position(|sign| *sign == word) {
        Some(number) => Ok(Relation::ALL[number]),
        None => Err(line.mistake(format!("'{word}' is no relation"))),
    }
}

fn update(line: &mut Line, version: Version) -> Result<Update, Mistake> {
    if line.takes("advance") {
        if !version.has_advances() {
            let number = version.number();
            return Err(line.mistake(format!("version {number} has no advance")));
        }
        return Ok(Update::Advance(advance(line)?));
    }
    let variable = line.lettered('v', LAST_VARIABLE)? as usize;
    line.expect(":=")?;
    Ok(Update::assignment(variable, expressions::from_line(line)?))
}

/// What follows `advance`: `v0 rest v1 by 7/3`. The check judges a denominator of 0.
fn advance(line: &mut Line) -> Result<Advance, Mistake> {
    let steps = line.lettered('v', LAST_VARIABLE)? as usize;
    line.expect("rest")?;
    let remainder = line.lettered('v', LAST_VARIABLE)? as usize;
    line.expect("by")?;
    let numerator = line.number(u32::from(u16::MAX))? as u16;
    line.expect("/")?;
    let denominator = line.number(u32::from(u16::MAX))? as u16;
    Ok(Advance { steps, remainder, numerator, denominator })
}

/// `bounds c0 <= 3 , c2 <= 7`, with a space before it; nothing where no clock is bounded.
pub fn bounds_to_text(bounds: &Bounds) -> String {
    let bounded: Vec<String> = bounds
        .0
        .iter()
        .enumerate()
        .filter(|(_, &bound)| bound != NO_BOUND)
        .map(|(clock, bound)| format!("c{clock} <= {bound}"))
        .collect();
    if bounded.is_empty() {
        return String::new();
    }
    format!(" bounds {}", bounded.join(", "))
}

pub fn bounds_from_line(line: &mut Line) -> Result<Bounds, Mistake> {
    let mut bounds = Bounds::NONE;
    if line.takes("bounds") {
        loop {
            let clock = line.lettered('c', LAST_CLOCK)? as usize;
            line.expect("<=")?;
            bounds.0[clock] = line.number(LARGEST)?;
            if !line.takes(",") {
                break;
            }
        }
    }
    Ok(bounds)
}

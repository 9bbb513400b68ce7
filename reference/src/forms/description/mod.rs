//! Charts and networks as text that a person writes: a line for each count, state, transition,
//! location and edge. docs/TEXT.md describes the form.

pub mod charts;
pub mod expressions;
pub mod labels;
pub mod lines;
pub mod networks;

use crate::model::chart::Chart;
use crate::model::network::Network;

/// What is wrong with a text, and in which line, counted from 1.
#[derive(Clone, PartialEq, Eq, Debug)]
pub struct Mistake {
    pub line: usize,
    pub message: String,
}

impl std::fmt::Display for Mistake {
    fn fmt(&self, formatter: &mut std::fmt::Formatter) -> std::fmt::Result {
        write!(formatter, "line {}: {}", self.line, self.message)
    }
}

/// The file that a text describes, chart or network.
pub fn assemble(text: &str) -> Result<Vec<u8>, Mistake> {
    let mut lines = lines::Lines::new(text);
    let mut first = lines.next_line()?;
    match first.word()? {
        "chart" => Ok(charts::from_lines(first, lines)?.write()),
        "network" => Ok(networks::from_lines(first, lines)?.write()),
        other => Err(first.mistake(format!("'{other}' is neither 'chart' nor 'network'"))),
    }
}

/// The text of a file that reads as a chart or, if it does not, as a network.
pub fn disassemble(file: &[u8]) -> Option<String> {
    if let Ok(chart) = Chart::read(file) {
        return Some(charts::to_text(&chart));
    }
    Network::read(file).ok().map(|network| networks::to_text(&network))
}

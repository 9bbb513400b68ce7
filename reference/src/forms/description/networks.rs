//! Networks as text: the counts in the first line, then a line for each location and each edge.

use std::rc::Rc;

use super::charts::{declared_from_line, optional, version_from_line, version_to_text};
use super::labels;
use super::lines::{marks_to_text, Line, Lines};
use super::Mistake;
use crate::model::limits::NONE;
use crate::model::network::{Edge, Location, Network};
use crate::model::version::Version;

const LAST_NUMBER: u32 = NONE as u32 - 1;
/// Locations are counted by a byte, edges by two.
const MOST_LOCATIONS: usize = 255;
const MOST_EDGES: usize = 65_535;

pub fn to_text(network: &Network) -> String {
    let declared = &network.declared;
    let mut text = format!(
        "network{} clocks {} variables {} rendezvous {} broadcast {} automata {}\n",
        version_to_text(network.version),
        declared.clocks,
        declared.variables,
        declared.rendezvous,
        declared.broadcast,
        network.automata
    );
    for (number, location) in network.locations.iter().enumerate() {
        text += &format!("location {number} {}\n", location_to_text(location));
    }
    for (number, edge) in network.edges.iter().enumerate() {
        text += &format!("edge {number} {}\n", edge_to_text(edge));
    }
    text
}

fn location_to_text(location: &Location) -> String {
    let urgent = if location.urgent { " urgent" } else { "" };
    let initial = if location.initial { " initial" } else { "" };
    format!(
        "of {}{urgent}{initial}{}",
        location.automaton,
        labels::bounds_to_text(&location.bounds)
    )
}

fn edge_to_text(edge: &Edge) -> String {
    let mut text = format!("from {} to {}", edge.source, edge.target);
    if let Some(transition) = edge.transition {
        text += &format!(" transition {transition}");
    }
    if let Some(exit) = edge.exit_tested {
        text += &format!(" exit {exit}");
    }
    for (name, marks) in [
        ("tests", edge.automata_tested),
        ("needs", edge.values_needed),
        ("writes", u16::from(edge.exits_written)),
        ("values", u16::from(edge.values_written)),
    ] {
        if marks != 0 {
            text += &format!(" {name} {}", marks_to_text(marks));
        }
    }
    text + &labels::to_text(&edge.label)
}

/// The network of a text whose first line is read up to `network`.
pub fn from_lines(mut first: Line, mut lines: Lines) -> Result<Network, Mistake> {
    let version = version_from_line(&mut first)?;
    let declared = declared_from_line(&mut first)?;
    first.expect("automata")?;
    let automata = first.number(u32::from(NONE))? as usize;
    first.end()?;
    let (mut locations, mut edges) = (Vec::new(), Vec::new());
    while let Some(mut line) = lines.next_if_any() {
        if edges.is_empty() && line.takes("location") {
            line.place(locations.len())?;
            line.at_most(locations.len() + 1, MOST_LOCATIONS, "locations")?;
            locations.push(location_from_line(&mut line)?);
        } else {
            line.expect("edge")?;
            line.place(edges.len())?;
            line.at_most(edges.len() + 1, MOST_EDGES, "edges")?;
            edges.push(edge_from_line(&mut line, version)?);
        }
    }
    Ok(Network { version, declared, automata, locations, edges })
}

fn location_from_line(line: &mut Line) -> Result<Location, Mistake> {
    line.expect("of")?;
    let automaton = line.number(LAST_NUMBER)? as usize;
    let urgent = line.takes("urgent");
    let initial = line.takes("initial");
    let bounds = labels::bounds_from_line(line)?;
    line.end()?;
    Ok(Location { automaton, urgent, initial, bounds })
}

fn edge_from_line(line: &mut Line, version: Version) -> Result<Edge, Mistake> {
    line.expect("from")?;
    let source = line.number(LAST_NUMBER)? as usize;
    line.expect("to")?;
    let target = line.number(LAST_NUMBER)? as usize;
    let transition = optional(line, "transition")?;
    let exit_tested = optional(line, "exit")?;
    let automata_tested = named_marks(line, "tests", 16)?;
    let values_needed = named_marks(line, "needs", 16)?;
    let exits_written = named_marks(line, "writes", 8)? as u8;
    let values_written = named_marks(line, "values", 8)? as u8;
    let label = Rc::new(labels::from_line(line, version)?);
    Ok(Edge {
        source,
        target,
        transition,
        exit_tested,
        automata_tested,
        values_needed,
        exits_written,
        values_written,
        label,
    })
}

/// The marks after a name, none if it is not there.
fn named_marks(line: &mut Line, name: &str, width: u32) -> Result<u16, Mistake> {
    if line.takes(name) {
        line.marks(width)
    } else {
        Ok(0)
    }
}

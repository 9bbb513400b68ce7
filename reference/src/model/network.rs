//! Networks of automata: locations, edges between locations of one automaton, and flags.

use std::rc::Rc;

use crate::model::label::{Declared, Label};
use crate::model::limits::{
    lowest_bits, AUTOMATA, CLOCKS, EDGES, EXITS, LOCATIONS, NETWORK_BROADCAST, NETWORK_HEADER,
    NETWORK_RENDEZVOUS, NONE, TRANSITIONS, VARIABLES,
};
use crate::model::reader::{in_range, Fault, Reader};
use crate::model::refusal::Refusal;
use crate::model::values::Bounds;
use crate::model::version::Version;

#[derive(Clone, PartialEq, Eq, Debug)]
pub struct Location {
    pub automaton: usize,
    pub urgent: bool,
    pub initial: bool,
    pub bounds: Bounds,
}

#[derive(Clone, PartialEq, Eq, Debug)]
pub struct Edge {
    pub source: usize,
    pub target: usize,
    /// The number of the chart's transition; none for the edges that flattening adds.
    pub transition: Option<usize>,
    /// The exit whose flags are tested.
    pub exit_tested: Option<usize>,
    /// Bit i for automaton i.
    pub automata_tested: u16,
    /// Bit i is the value that the flag of automaton i must have.
    pub values_needed: u16,
    /// Bit e when the flag of the edge's own automaton for exit e is written.
    pub exits_written: u8,
    /// Bit e is the value written.
    pub values_written: u8,
    pub label: Rc<Label>,
}

impl Edge {
    /// The fields by which edges ascend, 255 standing for none.
    pub fn sort_key(&self) -> (usize, usize, usize, u16, usize) {
        let none = usize::from(NONE);
        (
            self.source,
            self.target,
            self.transition.unwrap_or(none),
            self.automata_tested,
            self.label.signal.channel().unwrap_or(none),
        )
    }
}

#[derive(Clone, PartialEq, Eq, Debug)]
pub struct Network {
    pub version: Version,
    pub declared: Declared,
    pub automata: usize,
    pub locations: Vec<Location>,
    pub edges: Vec<Edge>,
}

impl Network {
    /// Reads a file and checks it: refusals 24 and 25.
    pub fn read(file: &[u8]) -> Result<Network, Refusal> {
        let network = Network::read_file(file).map_err(|fault| match fault {
            Fault::Length => Refusal::NetworkLength,
            Fault::Field => Refusal::NetworkField,
        })?;
        if network.is_consistent() {
            Ok(network)
        } else {
            Err(Refusal::NetworkField)
        }
    }

    /// Every fault of the header is one of length.
    fn read_file(file: &[u8]) -> Result<Network, Fault> {
        let mut reader = Reader::new(file);
        let version = Version::of_number(reader.byte()?).ok_or(Fault::Length)?;
        let length_fits = reader.four_bytes()? as usize == file.len() - 5;
        let automata = usize::from(reader.byte()?);
        let location_count = usize::from(reader.byte()?);
        let edge_count = usize::from(reader.two_bytes()?);
        let declared = Declared {
            clocks: usize::from(reader.byte()?),
            variables: usize::from(reader.byte()?),
            rendezvous: usize::from(reader.byte()?),
            broadcast: usize::from(reader.byte()?),
        };
        let counts_fit = (1..=AUTOMATA).contains(&automata)
            && (1..=LOCATIONS).contains(&location_count)
            && edge_count <= EDGES
            && declared.clocks <= CLOCKS
            && declared.variables <= VARIABLES
            && declared.rendezvous <= NETWORK_RENDEZVOUS
            && declared.broadcast <= NETWORK_BROADCAST;
        if !length_fits || !counts_fit {
            return Err(Fault::Length);
        }
        let mut locations = Vec::with_capacity(location_count);
        for _ in 0..location_count {
            let mut record = reader.short_record()?;
            locations.push(Location::read(&mut record, automata, declared.clocks)?);
            record.end()?;
        }
        let mut edges = Vec::with_capacity(edge_count);
        for _ in 0..edge_count {
            let mut record = reader.long_record()?;
            edges.push(Edge::read(&mut record, version, automata, location_count, &declared)?);
            record.end()?;
        }
        reader.end()?;
        Ok(Network { version, declared, automata, locations, edges })
    }

    /// The rest of 25: one initial location for each automaton, edges within one automaton,
    /// strictly ascending edges, and rule 13.
    fn is_consistent(&self) -> bool {
        let mut initial = [0; AUTOMATA];
        for location in self.locations.iter().filter(|location| location.initial) {
            initial[location.automaton] += 1;
        }
        let within_one_automaton = |edge: &Edge| {
            self.locations[edge.source].automaton == self.locations[edge.target].automaton
        };
        initial[..self.automata].iter().all(|&count| count == 1)
            && self.edges.iter().all(within_one_automaton)
            && self.edges.windows(2).all(|pair| pair[0].sort_key() < pair[1].sort_key())
            && self.edges.iter().all(|edge| edge.label.assigns_properly())
    }

    /// The file of this network.
    pub fn write(&self) -> Vec<u8> {
        let mut bytes = Vec::with_capacity(NETWORK_HEADER + 8 * self.locations.len());
        bytes.push(self.version.number());
        bytes.extend([0; 4]);
        bytes.extend([self.automata as u8, self.locations.len() as u8]);
        bytes.extend((self.edges.len() as u16).to_be_bytes());
        bytes.extend([
            self.declared.clocks as u8,
            self.declared.variables as u8,
            self.declared.rendezvous as u8,
            self.declared.broadcast as u8,
        ]);
        for location in &self.locations {
            location.write(self.declared.clocks, &mut bytes);
        }
        for edge in &self.edges {
            edge.write(&mut bytes);
        }
        let length = (bytes.len() - 5) as u32;
        bytes[1..5].copy_from_slice(&length.to_be_bytes());
        bytes
    }
}

impl Location {
    fn read(record: &mut Reader, automata: usize, clocks: usize) -> Result<Location, Fault> {
        Ok(Location {
            automaton: record.byte_below(automata)?,
            urgent: record.truth()?,
            initial: record.truth()?,
            bounds: Bounds::read(record, clocks)?,
        })
    }

    fn write(&self, clocks: usize, bytes: &mut Vec<u8>) {
        bytes.push((3 + 4 * clocks) as u8);
        bytes.extend([self.automaton as u8, u8::from(self.urgent), u8::from(self.initial)]);
        self.bounds.write(clocks, bytes);
    }
}

impl Edge {
    fn read(
        record: &mut Reader,
        version: Version,
        automata: usize,
        locations: usize,
        declared: &Declared,
    ) -> Result<Edge, Fault> {
        let source = record.byte_below(locations)?;
        let target = record.byte_below(locations)?;
        let transition = record.optional_byte_below(TRANSITIONS)?;
        let exit_tested = record.optional_byte_below(EXITS)?;
        let automata_tested = record.two_bytes()?;
        in_range(u32::from(automata_tested) & !lowest_bits(automata) == 0)?;
        in_range(exit_tested.is_some() || automata_tested == 0)?;
        let values_needed = record.two_bytes()?;
        in_range(values_needed & !automata_tested == 0)?;
        let exits_written = record.byte()?;
        let values_written = record.byte()?;
        in_range(values_written & !exits_written == 0)?;
        let label = Rc::new(Label::read(record, version, declared)?);
        Ok(Edge {
            source,
            target,
            transition,
            exit_tested,
            automata_tested,
            values_needed,
            exits_written,
            values_written,
            label,
        })
    }

    fn write(&self, bytes: &mut Vec<u8>) {
        let length_place = bytes.len();
        bytes.extend([0; 2]);
        let number_or_none = |number: Option<usize>| number.map_or(NONE, |value| value as u8);
        bytes.extend([
            self.source as u8,
            self.target as u8,
            number_or_none(self.transition),
            number_or_none(self.exit_tested),
        ]);
        bytes.extend(self.automata_tested.to_be_bytes());
        bytes.extend(self.values_needed.to_be_bytes());
        bytes.extend([self.exits_written, self.values_written]);
        self.label.write(bytes);
        let length = (bytes.len() - length_place - 2) as u16;
        bytes[length_place..length_place + 2].copy_from_slice(&length.to_be_bytes());
    }
}

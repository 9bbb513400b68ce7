//! Charts: a tree of states, transitions between children of one sequential state.

use std::rc::Rc;

use crate::model::label::{Declared, Label};
use crate::model::limits::{
    lowest_bits, CHANNELS, CHART_BYTES, CHART_HEADER, CLOCKS, ENTRIES, EXITS, FEWEST_STATES, NONE,
    STATES, TRANSITIONS, VARIABLES,
};
use crate::model::reader::{in_range, Fault, Reader};
use crate::model::refusal::Refusal;
use crate::model::values::Bounds;
use crate::model::version::Version;

/// The number of the root.
pub const ROOT: usize = 0;
/// The number of the main entry.
pub const MAIN_ENTRY: usize = 0;

#[derive(Clone, Copy, PartialEq, Eq, Debug)]
pub enum Kind {
    Basic,
    /// Exactly one child is active.
    Sequential,
    /// Every child is active.
    Parallel,
}

impl Kind {
    pub const ALL: [Kind; 3] = [Kind::Basic, Kind::Sequential, Kind::Parallel];
}

#[derive(Clone, PartialEq, Eq, Debug)]
pub struct State {
    /// As on file: 255 for the root.
    pub parent: u8,
    pub kind: Kind,
    /// Bit i for entry i.
    pub entry_marks: u16,
    /// Bit i for exit i.
    pub exit_marks: u8,
    pub bounds: Bounds,
}

impl State {
    pub fn is_composite(&self) -> bool {
        self.kind != Kind::Basic
    }

    pub fn has_entry(&self, entry: usize) -> bool {
        self.entry_marks & (1 << entry) != 0
    }

    pub fn has_exit(&self, exit: usize) -> bool {
        self.exit_marks & (1 << exit) != 0
    }
}

#[derive(Clone, PartialEq, Eq, Debug)]
pub struct Transition {
    pub source: usize,
    pub destination: usize,
    pub exit: Option<usize>,
    pub entry: Option<usize>,
    pub label: Rc<Label>,
}

#[derive(Clone, PartialEq, Eq, Debug)]
pub struct Chart {
    pub version: Version,
    pub declared: Declared,
    pub entries: usize,
    pub exits: usize,
    pub states: Vec<State>,
    pub transitions: Vec<Transition>,
    /// The children of each state, ascending. Found from the parents.
    pub children: Vec<Vec<usize>>,
}

impl Chart {
    pub fn new(
        version: Version,
        declared: Declared,
        entries: usize,
        exits: usize,
        states: Vec<State>,
        transitions: Vec<Transition>,
    ) -> Chart {
        let mut children = vec![Vec::new(); states.len()];
        for (number, state) in states.iter().enumerate() {
            if let Some(list) = children.get_mut(usize::from(state.parent)) {
                list.push(number);
            }
        }
        Chart { version, declared, entries, exits, states, transitions, children }
    }

    /// The parent of a state; none for the root. Asked of charts that pass rule 5.
    pub fn parent(&self, state: usize) -> Option<usize> {
        let parent = self.states[state].parent;
        (parent != NONE).then_some(usize::from(parent))
    }

    /// The sequential state whose children a transition joins. Asked of charts that pass rule 10.
    pub fn parent_of_transition(&self, transition: usize) -> usize {
        usize::from(self.states[self.transitions[transition].source].parent)
    }

    /// Whether the first state lies strictly below the second.
    pub fn is_below(&self, state: usize, above: usize) -> bool {
        let mut next = self.parent(state);
        while let Some(current) = next {
            if current == above {
                return true;
            }
            next = self.parent(current);
        }
        false
    }

    /// The states at or below a state, each parent before its children.
    pub fn at_or_below(&self, state: usize) -> Vec<usize> {
        let mut found = vec![state];
        let mut next = 0;
        while next < found.len() {
            found.extend(&self.children[found[next]]);
            next += 1;
        }
        found
    }

    /// The states that entering `state` by `entry` makes active, each parent before its children.
    pub fn entered(&self, state: usize, entry: usize) -> Vec<usize> {
        let mut found = vec![state];
        let mut next = 0;
        while next < found.len() {
            let current = found[next];
            match self.states[current].kind {
                Kind::Basic => {}
                Kind::Sequential => found.extend(self.marked_child(current, entry)),
                Kind::Parallel => found.extend(&self.children[current]),
            }
            next += 1;
        }
        found
    }

    /// The one child of a sequential state that has the entry mark.
    pub fn marked_child(&self, sequential: usize, entry: usize) -> Option<usize> {
        self.children[sequential].iter().copied().find(|&child| self.states[child].has_entry(entry))
    }

    /// Reads a file: refusals 1 to 4.
    pub fn read(file: &[u8]) -> Result<Chart, Refusal> {
        if file.len() < CHART_HEADER || file.len() > CHART_BYTES {
            return Err(Refusal::ChartHeader);
        }
        let version = Version::of_number(file[0]).ok_or(Refusal::ChartHeader)?;
        if usize::from(u16::from_be_bytes([file[1], file[2]])) != file.len() - 3 {
            return Err(Refusal::ChartHeader);
        }
        let counts = Counts::from_header(file).ok_or(Refusal::ChartCount)?;
        let mut reader = Reader::new(&file[CHART_HEADER..]);
        Chart::read_records(&mut reader, version, &counts).map_err(|fault| match fault {
            Fault::Length => Refusal::ChartLength,
            Fault::Field => Refusal::ChartField,
        })
    }

    fn read_records(
        reader: &mut Reader,
        version: Version,
        counts: &Counts,
    ) -> Result<Chart, Fault> {
        let mut states = Vec::with_capacity(counts.states);
        for _ in 0..counts.states {
            let mut record = reader.short_record()?;
            states.push(State::read(&mut record, counts)?);
            record.end()?;
        }
        let mut transitions = Vec::with_capacity(counts.transitions);
        for _ in 0..counts.transitions {
            let mut record = reader.long_record()?;
            transitions.push(Transition::read(&mut record, version, counts)?);
            record.end()?;
        }
        reader.end()?;
        let Counts { declared, entries, exits, .. } = *counts;
        Ok(Chart::new(version, declared, entries, exits, states, transitions))
    }

    /// The file of this chart.
    pub fn write(&self) -> Vec<u8> {
        let mut bytes = vec![
            self.version.number(),
            0,
            0,
            self.states.len() as u8,
            self.declared.clocks as u8,
            self.declared.variables as u8,
            self.declared.rendezvous as u8,
            self.declared.broadcast as u8,
            self.entries as u8,
            self.exits as u8,
            self.transitions.len() as u8,
        ];
        for state in &self.states {
            let mut record = vec![state.parent, state.kind as u8];
            record.extend(state.entry_marks.to_be_bytes());
            record.push(state.exit_marks);
            state.bounds.write(self.declared.clocks, &mut record);
            bytes.push(record.len() as u8);
            bytes.extend(record);
        }
        for transition in &self.transitions {
            let number_or_none = |number: Option<usize>| number.map_or(NONE, |value| value as u8);
            let mut record = vec![
                transition.source as u8,
                transition.destination as u8,
                number_or_none(transition.exit),
                number_or_none(transition.entry),
            ];
            transition.label.write(&mut record);
            bytes.extend((record.len() as u16).to_be_bytes());
            bytes.extend(record);
        }
        let length = (bytes.len() - 3) as u16;
        bytes[1..3].copy_from_slice(&length.to_be_bytes());
        bytes
    }
}

/// The counts of a chart's header.
struct Counts {
    states: usize,
    declared: Declared,
    entries: usize,
    exits: usize,
    transitions: usize,
}

impl Counts {
    /// None if a count is outside its range. The file has a whole header.
    fn from_header(file: &[u8]) -> Option<Counts> {
        let count = |place: usize| usize::from(file[place]);
        let counts = Counts {
            states: count(3),
            declared: Declared {
                clocks: count(4),
                variables: count(5),
                rendezvous: count(6),
                broadcast: count(7),
            },
            entries: count(8),
            exits: count(9),
            transitions: count(10),
        };
        let in_range = (FEWEST_STATES..=STATES).contains(&counts.states)
            && counts.declared.clocks <= CLOCKS
            && counts.declared.variables <= VARIABLES
            && counts.declared.channels() <= CHANNELS
            && (1..=ENTRIES).contains(&counts.entries)
            && counts.exits <= EXITS
            && counts.transitions <= TRANSITIONS;
        in_range.then_some(counts)
    }
}

impl State {
    fn read(record: &mut Reader, counts: &Counts) -> Result<State, Fault> {
        // A parent is never out of range here: rule 5 judges it.
        let parent = record.byte()?;
        let kind = Kind::ALL[record.byte_below(Kind::ALL.len())?];
        let entry_marks = record.two_bytes()?;
        in_range(u32::from(entry_marks) & !lowest_bits(counts.entries) == 0)?;
        let exit_marks = record.byte()?;
        in_range(u32::from(exit_marks) & !lowest_bits(counts.exits) == 0)?;
        let bounds = Bounds::read(record, counts.declared.clocks)?;
        Ok(State { parent, kind, entry_marks, exit_marks, bounds })
    }
}

impl Transition {
    fn read(record: &mut Reader, version: Version, counts: &Counts) -> Result<Transition, Fault> {
        Ok(Transition {
            source: record.byte_below(counts.states)?,
            destination: record.byte_below(counts.states)?,
            exit: record.optional_byte_below(counts.exits)?,
            entry: record.optional_byte_below(counts.entries)?,
            label: Rc::new(Label::read(record, version, &counts.declared)?),
        })
    }
}

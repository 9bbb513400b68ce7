//! What transitions and edges have in common: signal, resets, guards and updates.

use crate::model::guard::Guard;
use crate::model::limits::{lowest_bits, NONE};
use crate::model::reader::{in_range, Fault, Reader};
use crate::model::update::Update;
use crate::model::values::Values;
use crate::model::version::Version;

/// The numbers of clocks, variables and channels that a chart or network declares.
#[derive(Clone, Copy, PartialEq, Eq, Debug, Default)]
pub struct Declared {
    pub clocks: usize,
    pub variables: usize,
    /// Rendezvous channels have the first numbers.
    pub rendezvous: usize,
    pub broadcast: usize,
}

impl Declared {
    pub fn channels(&self) -> usize {
        self.rendezvous + self.broadcast
    }
}

#[derive(Clone, Copy, PartialEq, Eq, Debug)]
pub enum Signal {
    None,
    Send(usize),
    Receive(usize),
}

impl Signal {
    pub fn read(reader: &mut Reader, channels: usize) -> Result<Signal, Fault> {
        match reader.byte()? {
            0 => {
                in_range(reader.byte()? == NONE)?;
                Ok(Signal::None)
            }
            1 => Ok(Signal::Send(reader.byte_below(channels)?)),
            2 => Ok(Signal::Receive(reader.byte_below(channels)?)),
            _ => Err(Fault::Field),
        }
    }

    pub fn write(&self, bytes: &mut Vec<u8>) {
        match self {
            Signal::None => bytes.extend([0, NONE]),
            Signal::Send(channel) => bytes.extend([1, *channel as u8]),
            Signal::Receive(channel) => bytes.extend([2, *channel as u8]),
        }
    }

    pub fn channel(&self) -> Option<usize> {
        match self {
            Signal::None => None,
            Signal::Send(channel) | Signal::Receive(channel) => Some(*channel),
        }
    }
}

/// The part of a transition or edge record from the signal on.
#[derive(Clone, PartialEq, Eq, Debug)]
pub struct Label {
    pub signal: Signal,
    /// Bit i is set when clock i is reset.
    pub resets: u8,
    pub guards: Vec<Guard>,
    /// The assignments and advances, which are counted together.
    pub updates: Vec<Update>,
}

impl Label {
    /// A label that has a signal only.
    pub fn of_signal(signal: Signal) -> Label {
        Label { signal, resets: 0, guards: Vec::new(), updates: Vec::new() }
    }

    pub fn read(
        reader: &mut Reader,
        version: Version,
        declared: &Declared,
    ) -> Result<Label, Fault> {
        let signal = Signal::read(reader, declared.channels())?;
        let resets = reader.byte()?;
        in_range(u32::from(resets) & !lowest_bits(declared.clocks) == 0)?;
        let guard_count = reader.byte()?;
        let update_count = reader.byte()?;
        let mut guards = Vec::new();
        for _ in 0..guard_count {
            guards.push(Guard::read(reader, declared)?);
        }
        let mut updates = Vec::new();
        for _ in 0..update_count {
            updates.push(Update::read(reader, version, declared.variables)?);
        }
        Ok(Label { signal, resets, guards, updates })
    }

    pub fn write(&self, bytes: &mut Vec<u8>) {
        self.signal.write(bytes);
        bytes.extend([self.resets, self.guards.len() as u8, self.updates.len() as u8]);
        for guard in &self.guards {
            guard.write(bytes);
        }
        for update in &self.updates {
            update.write(bytes);
        }
    }

    pub fn guards_hold(&self, values: &Values) -> bool {
        self.guards.iter().all(|guard| guard.holds(values))
    }

    /// Rule 13: a receiver assigns nothing, and no variable is assigned twice. Both variables of
    /// an advance count as assigned.
    pub fn assigns_properly(&self) -> bool {
        if matches!(self.signal, Signal::Receive(_)) {
            return self.updates.is_empty();
        }
        let mut assigned = 0u32;
        for variable in self.updates.iter().flat_map(Update::written) {
            let bit = 1 << variable;
            if assigned & bit != 0 {
                return false;
            }
            assigned |= bit;
        }
        true
    }

    /// Writes this label's resets and updates into `new`, or gives none if an update leaves the range.
    /// All updates read `old`.
    pub fn apply(&self, old: &Values, new: &mut Values) -> Option<()> {
        for update in &self.updates {
            update.apply(&old.variables, &mut new.variables)?;
        }
        for (clock, value) in new.clocks.iter_mut().enumerate() {
            if self.resets & (1 << clock) != 0 {
                *value = 0;
            }
        }
        Some(())
    }
}

//! The values of variables and clocks, and bounds on clocks.

use crate::model::limits::{CLOCKS, LARGEST, NO_BOUND, VARIABLES};
use crate::model::reader::{in_range, Fault, Reader};

/// The variables and clocks of a configuration. Those not declared are 0.
#[derive(Clone, Copy, PartialEq, Eq, Debug, Default)]
pub struct Values {
    pub variables: [i32; VARIABLES],
    pub clocks: [u32; CLOCKS],
}

impl Values {
    /// Whether undeclared values are 0 and no declared clock is past its limit.
    pub fn fit(&self, variables: usize, clocks: usize) -> bool {
        self.variables[variables..].iter().all(|&value| value == 0)
            && self.clocks[clocks..].iter().all(|&value| value == 0)
            && self.clocks[..clocks].iter().all(|&value| value <= LARGEST)
    }

    /// The values after this many ticks, or none if there are no ticks or a declared clock
    /// would pass its limit.
    pub fn after_ticks(&self, clocks: usize, ticks: u32) -> Option<Values> {
        if ticks == 0 {
            return None;
        }
        let mut later = *self;
        for clock in &mut later.clocks[..clocks] {
            *clock = clock.checked_add(ticks).filter(|&value| value <= LARGEST)?;
        }
        Some(later)
    }
}

/// One bound for each clock: the clock must be at most this. Undeclared clocks have no bound.
#[derive(Clone, Copy, PartialEq, Eq, Debug)]
pub struct Bounds(pub [u32; CLOCKS]);

impl Bounds {
    pub const NONE: Bounds = Bounds([NO_BOUND; CLOCKS]);

    pub fn read(reader: &mut Reader, clocks: usize) -> Result<Bounds, Fault> {
        let mut bounds = Bounds::NONE;
        for bound in &mut bounds.0[..clocks] {
            *bound = reader.four_bytes()?;
            in_range(*bound <= LARGEST || *bound == NO_BOUND)?;
        }
        Ok(bounds)
    }

    pub fn write(&self, clocks: usize, bytes: &mut Vec<u8>) {
        for bound in &self.0[..clocks] {
            bytes.extend(bound.to_be_bytes());
        }
    }

    /// Joining keeps the least bound of each clock. No bound is the greatest number.
    pub fn join(&self, other: &Bounds) -> Bounds {
        let mut joined = *self;
        for (bound, &another) in joined.0.iter_mut().zip(&other.0) {
            *bound = (*bound).min(another);
        }
        joined
    }

    /// All of these joined.
    pub fn joined<'a>(all: impl Iterator<Item = &'a Bounds>) -> Bounds {
        all.fold(Bounds::NONE, |joined, bounds| joined.join(bounds))
    }

    /// The ticks that are left under the bounds of these clocks, the first ones, or none if one is
    /// broken. Without a clock nothing ends a wait but the 32 bits of its ticks.
    pub fn ticks_left(&self, clocks: &[u32]) -> Option<u32> {
        // None is less than any number.
        let left = self.0.iter().zip(clocks).map(|(&bound, &clock)| ticks_left(bound, clock));
        left.min().unwrap_or(Some(u32::MAX))
    }
}

/// The one test of a bound: the ticks that are left until the clock reaches it, or none if the bound
/// is broken. Where there is no bound, the limit of clocks is left.
pub fn ticks_left(bound: u32, clock: u32) -> Option<u32> {
    bound.min(LARGEST).checked_sub(clock)
}

//! What a weaver relies on of fractional take-up: from the start, while nothing else writes the pair
//! of an advance by p/q, n of them leave the whole part of np/q in the steps and np mod q in the
//! remainder. While that whole part is below 2,147,483,648 the advance is not refused for its own
//! sake; the first that would pass it is.

use crate::coverage::range::leaves;
use crate::model::label::Label;
use crate::model::limits::{LARGEST, VARIABLES};
use crate::model::update::{Advance, Update};
use crate::model::values::Values;

/// The advances that alone write their two variables: every update in these labels that writes one
/// of the two is that advance in the same terms.
pub fn sole_advances<'a>(labels: impl Iterator<Item = &'a Label>) -> Vec<Advance> {
    let updates: Vec<&Update> = labels.flat_map(|label| &label.updates).collect();
    let mut advances: Vec<Advance> =
        updates.iter().filter_map(|update| update.as_advance().copied()).collect();
    advances.sort();
    advances.dedup();
    let leaves_alone = |update: &Update, advance: &Advance| {
        update.written().all(|variable| !advance.writes(variable))
    };
    advances.retain(|advance| {
        let sole = |update: &&Update| {
            update.as_advance() == Some(advance) || leaves_alone(update, advance)
        };
        updates.iter().all(sole)
    });
    advances
}

/// How often each of some advances was made since the start.
#[derive(Clone, Debug)]
pub struct TakeUps {
    made: Vec<(Advance, u64)>,
}

impl TakeUps {
    pub fn none_made(advances: &[Advance]) -> TakeUps {
        TakeUps { made: advances.iter().map(|&advance| (advance, 0)).collect() }
    }

    /// Counts the advances of a label whose transition or edge was in an accepted step. They are
    /// known by their variables, so that one in other terms would show.
    pub fn count(&mut self, label: &Label) {
        for advance in label.updates.iter().filter_map(Update::as_advance) {
            for (sole, times) in &mut self.made {
                let same_pair = (sole.steps, sole.remainder) == (advance.steps, advance.remainder);
                *times += u64::from(same_pair);
            }
        }
    }

    /// Whether the variables are as they have to be after so many advances.
    pub fn hold(&self, variables: &[i32; VARIABLES]) -> bool {
        self.made.iter().all(|(advance, times)| {
            let parts = times * u64::from(advance.numerator);
            let denominator = u64::from(advance.denominator);
            i64::from(variables[advance.steps]) == (parts / denominator) as i64
                && i64::from(variables[advance.remainder]) == (parts % denominator) as i64
        })
    }

    /// Whether each of the advances, where a label would make it once more, leaves the range exactly if
    /// the whole part passes it.
    pub fn leave_in_time(&self, label: &Label, values: &Values) -> bool {
        label.updates.iter().all(|update| {
            let counted = self.made.iter().find(|(sole, _)| update.as_advance() == Some(sole));
            counted.is_none_or(|(advance, times)| {
                let parts = (times + 1) * u64::from(advance.numerator);
                let passes = parts / u64::from(advance.denominator) > u64::from(LARGEST);
                leaves(update, values) == passes
            })
        })
    }

    /// How many of the advances were made at all.
    pub fn used(&self) -> u64 {
        self.made.iter().filter(|(_, times)| *times > 0).count() as u64
    }

    /// How often the one that was made most often was made.
    pub fn most_made(&self) -> u64 {
        self.made.iter().map(|(_, times)| *times).max().unwrap_or(0)
    }
}

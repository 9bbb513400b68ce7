//! The assignments and advances of charts made from a seed.

use crate::generate::charts::{one_expression, Wish};
use crate::generate::random::Random;
use crate::generate::range::{end_number, most_levels};
use crate::model::expression::Expression;
use crate::model::limits::LEVELS;
use crate::model::update::{Advance, Update};

/// What the labels of one chart may write.
pub struct Writable {
    /// Advances that alone write their two variables in the whole chart.
    take_ups: Vec<Advance>,
    /// The other variables.
    free: Vec<usize>,
}

impl Writable {
    pub fn of(wish: &Wish, random: &mut Random) -> Writable {
        let mut free: Vec<usize> = (0..wish.variables).collect();
        let mut take_ups = Vec::new();
        let wanted = if wish.version.has_advances() { wish.take_ups } else { 0 };
        while take_ups.len() < wanted && free.len() >= 2 {
            take_ups.push(one_advance(&mut free, random));
        }
        Writable { take_ups, free }
    }

    /// The updates of one label, which rule 13 allows.
    pub fn updates(&self, wish: &Wish, random: &mut Random) -> Vec<Update> {
        if wish.version.has_advances() && random.chance(wish.advances) {
            self.with_advances(wish, random)
        } else {
            self.assignments(wish, random)
        }
    }

    fn with_advances(&self, wish: &Wish, random: &mut Random) -> Vec<Update> {
        let mut advances: Vec<Advance> =
            self.take_ups.iter().copied().filter(|_| random.chance(60)).collect();
        let mut free = self.free.clone();
        if free.len() >= 2 && random.chance(50) {
            advances.push(one_advance(&mut free, random));
        }
        let mut list: Vec<Update> = advances.iter().copied().map(Update::Advance).collect();
        if !free.is_empty() && random.chance(60) {
            let variable = random.pick(&free);
            // It may read the pair of an advance beside it, before or after which it stands.
            let expression = if !advances.is_empty() && random.chance(50) {
                let Advance { steps, remainder, .. } = random.pick(&advances);
                Expression::Variable(random.pick(&[steps, remainder]))
            } else {
                assigned_expression(wish, random, 4)
            };
            let place = random.below(list.len() + 1);
            list.insert(place, Update::assignment(variable, expression));
        }
        list
    }

    fn assignments(&self, wish: &Wish, random: &mut Random) -> Vec<Update> {
        if self.free.is_empty() {
            return Vec::new();
        }
        let first = random.pick(&self.free);
        let second = random.pick(&self.free);
        if first != second && random.chance(40) {
            // A swap: each reads the old value of the other.
            return vec![
                Update::assignment(first, Expression::Variable(second)),
                Update::assignment(second, Expression::Variable(first)),
            ];
        }
        let levels = if random.chance(10) { LEVELS } else { 4 };
        let mut list = vec![Update::assignment(first, assigned_expression(wish, random, levels))];
        if first != second {
            list.push(Update::assignment(second, assigned_expression(wish, random, 3)));
        }
        list
    }
}

/// Where numbers at the ends of the range are wanted, some are assigned as they are, so that
/// variables have them.
fn assigned_expression(wish: &Wish, random: &mut Random, ordinary: usize) -> Expression {
    if wish.ends > 0 && random.chance(40) {
        return Expression::Constant(end_number(random));
    }
    let levels = most_levels(wish, random, ordinary);
    one_expression(wish, random, levels)
}

/// An advance on two of the variables, which are taken from the list.
pub fn one_advance(free: &mut Vec<usize>, random: &mut Random) -> Advance {
    let steps = free.swap_remove(random.below(free.len()));
    let remainder = free.swap_remove(random.below(free.len()));
    let numerator = match random.below(6) {
        0 => 0,
        1 => u16::MAX,
        2 => random.bits() as u16,
        _ => random.between(1, 12) as u16,
    };
    let denominator = match random.below(6) {
        0 => 1,
        1 => u16::MAX,
        2 => random.between(1, usize::from(u16::MAX)) as u16,
        _ => random.between(2, 9) as u16,
    };
    Advance { steps, remainder, numerator, denominator }
}

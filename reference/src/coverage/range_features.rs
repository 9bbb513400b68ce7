//! What a request for a step exercises of results that leave the range, in words.

use crate::coverage::features::{guard_name, operation_name, Features};
use crate::coverage::range::{
    chart_without_updates, has_no_value, holds_by, label_leaves, leaves, leaves_inside_only,
    leavings, network_without_updates, WRAPPED,
};
use crate::forms::request::Request;
use crate::model::chart_machine;
use crate::model::check::check;
use crate::model::expression::Expression;
use crate::model::guard::Guard;
use crate::model::label::{Label, Signal};
use crate::model::network::Network;
use crate::model::network_machine;
use crate::model::refusal::Refusal;
use crate::model::update::{Advance, Update};
use crate::model::values::Values;

/// What a step met.
struct Met<'a> {
    values: &'a Values,
    /// The labels of the list whose source is active or occupied.
    named: Vec<&'a Label>,
    /// The others whose source is active or occupied.
    others: Vec<&'a Label>,
    /// Whether the step breaks a bound if it gets so far.
    breaks_bound: bool,
}

/// The features of a request for a step.
pub fn range_features(request: &Request) -> Features {
    let mut found = Features::new();
    match request {
        Request::ChartStep(file, given, list) => {
            let Ok(chart) = check(file) else {
                return found;
            };
            let bare = chart_machine::step(&chart_without_updates(&chart), given, list);
            let active = chart.transitions.iter().enumerate();
            let active = active.filter(|(_, one)| given.active[one.source]);
            let labels = active.map(|(number, one)| (number, &*one.label));
            let met = Met::of(labels, list, &given.values, bare.err());
            met.add(request.answer().err(), &mut found);
        }
        Request::NetworkStep(file, given, list) => {
            let Ok(network) = Network::read(file) else {
                return found;
            };
            let bare = network_machine::step(&network_without_updates(&network), given, list);
            let occupied = network.edges.iter().enumerate().filter(|(_, edge)| {
                let automaton = network.locations[edge.source].automaton;
                usize::from(given.locations[automaton]) == edge.source
            });
            let labels = occupied.map(|(number, edge)| (number, &*edge.label));
            let met = Met::of(labels, list, &given.values, bare.err());
            met.add(request.answer().err(), &mut found);
        }
        _ => {}
    }
    let Some([version, ..]) = request.file() else {
        return found;
    };
    let name = operation_name(request);
    let of_version = |feature: &String| {
        let kind = ["28", "guard", "20"].into_iter().find(|kind| feature.starts_with(kind));
        kind.map(|kind| format!("{kind} in version {version}"))
    };
    let versions: Features = found.iter().filter_map(of_version).collect();
    found.into_iter().chain(versions).map(|feature| format!("{name}: {feature}")).collect()
}

impl<'a> Met<'a> {
    fn of(
        labels: impl Iterator<Item = (usize, &'a Label)>,
        list: &[u16],
        values: &'a Values,
        bare: Option<Refusal>,
    ) -> Met<'a> {
        let (mut named, mut others) = (Vec::new(), Vec::new());
        for (number, label) in labels {
            let is_named = list.iter().any(|&one| usize::from(one) == number);
            if is_named { &mut named } else { &mut others }.push(label);
        }
        Met { values, named, others, breaks_bound: bare == Some(Refusal::BoundBroken) }
    }

    fn add(&self, refusal: Option<Refusal>, found: &mut Features) {
        match refusal {
            Some(Refusal::RangeLeft) => self.add_refused(found),
            Some(Refusal::NotAllowed) => {
                if self.named.iter().any(|label| label_leaves(label, self.values)) {
                    found.insert("20 where an update would leave the range".to_string());
                }
            }
            Some(Refusal::Inactive) => self.add_guards(found),
            None => self.add_accepted(found),
            Some(_) => {}
        }
    }

    /// Why a step is refused with 28.
    fn add_refused(&self, found: &mut Features) {
        if self.breaks_bound {
            found.insert("28 where a bound is broken too".to_string());
        }
        for label in &self.named {
            for (number, update) in label.updates.iter().enumerate() {
                if !leaves(update, self.values) {
                    continue;
                }
                if number > 0 && !leaves(&label.updates[0], self.values) {
                    found.insert("28 by another update than the first".to_string());
                }
                if leaves_inside_only(update, self.values) {
                    found.insert("28 by an inner result, the value being inside".to_string());
                }
                match update {
                    Update::Assignment(one) => {
                        found.insert("28 by an assignment".to_string());
                        self.add_places("28", &one.expression, found);
                    }
                    Update::Advance(advance) => self.add_advance(advance, found),
                }
            }
        }
    }

    fn add_advance(&self, advance: &Advance, found: &mut Features) {
        let above = advance.exact_steps(&self.values.variables) > 0;
        found.insert("28 by an advance".to_string());
        found.insert(format!("28 by steps {} the range", if above { "above" } else { "below" }));
    }

    /// Which operations of an expression leave the range, and where they stand.
    fn add_places(&self, name: &str, expression: &Expression, found: &mut Features) {
        for leaving in leavings(expression, &self.values.variables) {
            found.insert(format!("{name} by code {}", leaving.code));
            found.insert(format!("{name} at level {}", leaving.level));
            let below = [
                ("a product by 0", leaving.below_0),
                ("a quotient", leaving.below_quotient),
                ("a remainder", leaving.below_remainder),
            ];
            let below = below.into_iter().filter(|(_, is_below)| *is_below);
            found.extend(below.map(|(of, _)| format!("{name} below {of}")));
        }
    }

    /// The guards by which alone a step is refused with 19, if they have no value.
    fn add_guards(&self, found: &mut Features) {
        let guards = || self.named.iter().flat_map(|label| &label.guards);
        if !guards().all(|guard| guard.holds(self.values) || has_no_value(guard, self.values)) {
            return;
        }
        for label in &self.named {
            for guard in label.guards.iter().filter(|guard| has_no_value(guard, self.values)) {
                self.add_guard(guard, label.signal, found);
            }
        }
    }

    fn add_guard(&self, guard: &Guard, signal: Signal, found: &mut Features) {
        let (name, whom) = (guard_name(guard), of_whom(signal));
        found.insert(format!("guard {name} without a value"));
        if holds_by(WRAPPED, guard, self.values) {
            found.insert(format!("guard {name} without a value, which wrapped ones would meet"));
            found.insert(format!("guard {whom} without a value, which wrapped ones would meet"));
        }
        if let Guard::Data { left, right, .. } = guard {
            self.add_places("guard, left side", left, found);
            self.add_places("guard, right side", right, found);
        }
    }

    /// What an accepted step has of results near the ends.
    fn add_accepted(&self, found: &mut Features) {
        let is_sent = |signal: Signal| match signal {
            Signal::Receive(channel) => {
                self.named.iter().any(|label| label.signal == Signal::Send(channel))
            }
            _ => false,
        };
        let lacks_value = |label: &&&Label| {
            label.guards.iter().any(|guard| {
                has_no_value(guard, self.values) && holds_by(WRAPPED, guard, self.values)
            })
        };
        let mut receivers = self.others.iter().filter(|label| is_sent(label.signal));
        if receivers.find(lacks_value).is_some() {
            found.insert("accepted without a receiver whose guard has no value".to_string());
        }
        for update in self.named.iter().flat_map(|label| &label.updates) {
            if let Update::Assignment(one) = update {
                let value = one.expression.value(&self.values.variables);
                if one.expression.levels() > 1 && [Some(i32::MAX), Some(i32::MIN)].contains(&value)
                {
                    found.insert("accepted with a result at an end of the range".to_string());
                }
            }
        }
    }
}

fn of_whom(signal: Signal) -> &'static str {
    match signal {
        Signal::None => "of a transition without signal",
        Signal::Send(_) => "of a sender",
        Signal::Receive(_) => "of a receiver",
    }
}

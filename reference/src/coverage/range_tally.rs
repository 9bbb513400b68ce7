//! How much of results that leave the range runs met, to see that they covered enough.

use std::collections::BTreeMap;

use crate::coverage::range::{
    chart_without_updates, has_no_value, holds_by, label_leaves, leaves, leaves_inside_only,
    leavings, WRAPPED,
};
use crate::model::chart::Chart;
use crate::model::chart_machine::{self, ChartConfiguration};
use crate::model::expression::Expression;
use crate::model::guard::{Guard, Relation};
use crate::model::label::{Label, Signal};
use crate::model::network_machine::NetworkConfiguration;
use crate::model::refusal::Refusal;
use crate::model::update::Update;
use crate::model::values::Values;
use crate::runs::moment::Machines;

/// Counts, each over some runs. Where a clause is tested after every call, each test counts.
#[derive(Clone, PartialEq, Eq, Debug, Default)]
pub struct RangeTally {
    /// Lists of edges that got as far as their updates while none was owed, by the number that both
    /// machines gave, 0 for those accepted.
    pub matched: BTreeMap<u8, u64>,
    /// Lists of transitions of which that was found from the chart's answer, in the same way.
    pub matched_from_chart: BTreeMap<u8, u64>,
    /// Of those with 28: by an assignment, by an advance, by the result of an inner operation alone,
    /// and where a bound would be broken too.
    pub by_assignment: u64,
    pub by_advance: u64,
    pub by_inner_result: u64,
    pub bound_broken_too: u64,
    /// The operations that leave the range, in those assignments and on each side of guards.
    pub in_assignments: PlaceTally,
    pub in_left_sides: PlaceTally,
    pub in_right_sides: PlaceTally,
    /// Accepted moves with an advance whose sum of remainder and numerator passes the range.
    pub sums_passed: u64,
    /// Calls refused with 20 where an update would leave the range, of each machine.
    pub not_allowed_of_chart: u64,
    pub not_allowed_of_network: u64,
    /// Guards of transitions with an active source that do not hold because of the range, by the
    /// relation, and of those the ones that wrapped numbers would meet.
    pub guards: BTreeMap<Relation, u64>,
    pub guards_met_if_wrapped: BTreeMap<Relation, u64>,
    /// The same guards by the transition: without signal, of senders, of receivers.
    pub guards_without_signal: u64,
    pub guards_of_senders: u64,
    pub guards_of_receivers: u64,
}

/// Where operations that leave the range stand.
#[derive(Clone, PartialEq, Eq, Debug, Default)]
pub struct PlaceTally {
    pub at_level: BTreeMap<usize, u64>,
    /// In an argument of a product by 0, of a quotient, and of a remainder.
    pub below_0: u64,
    pub below_quotient: u64,
    pub below_remainder: u64,
}

impl PlaceTally {
    fn count(&mut self, expression: &Expression, values: &Values) {
        for leaving in leavings(expression, &values.variables) {
            add_one(&mut self.at_level, leaving.level);
            self.below_0 += u64::from(leaving.below_0);
            self.below_quotient += u64::from(leaving.below_quotient);
            self.below_remainder += u64::from(leaving.below_remainder);
        }
    }

    fn add(&mut self, other: &PlaceTally) {
        add_counts(&mut self.at_level, &other.at_level);
        self.below_0 += other.below_0;
        self.below_quotient += other.below_quotient;
        self.below_remainder += other.below_remainder;
    }
}

fn add_one<K: Ord>(counts: &mut BTreeMap<K, u64>, key: K) {
    *counts.entry(key).or_insert(0) += 1;
}

fn add_counts<K: Ord + Copy>(counts: &mut BTreeMap<K, u64>, others: &BTreeMap<K, u64>) {
    for (&key, count) in others {
        *counts.entry(key).or_insert(0) += count;
    }
}

impl RangeTally {
    pub fn add(&mut self, other: &RangeTally) {
        add_counts(&mut self.matched, &other.matched);
        add_counts(&mut self.matched_from_chart, &other.matched_from_chart);
        self.by_assignment += other.by_assignment;
        self.by_advance += other.by_advance;
        self.by_inner_result += other.by_inner_result;
        self.in_assignments.add(&other.in_assignments);
        self.in_left_sides.add(&other.in_left_sides);
        self.in_right_sides.add(&other.in_right_sides);
        self.bound_broken_too += other.bound_broken_too;
        self.sums_passed += other.sums_passed;
        self.not_allowed_of_chart += other.not_allowed_of_chart;
        self.not_allowed_of_network += other.not_allowed_of_network;
        add_counts(&mut self.guards, &other.guards);
        add_counts(&mut self.guards_met_if_wrapped, &other.guards_met_if_wrapped);
        self.guards_without_signal += other.guards_without_signal;
        self.guards_of_senders += other.guards_of_senders;
        self.guards_of_receivers += other.guards_of_receivers;
    }

    /// Counts a list of transitions that is matched by one of edges, with the number that both get.
    pub fn count_matched(
        &mut self,
        machines: &Machines,
        given: &ChartConfiguration,
        list: &[u16],
        number: u8,
    ) {
        add_one(&mut self.matched, number);
        let labels = machines.chart_labels(list);
        if number == Refusal::RangeLeft.number() {
            let bound_broken = machines.range.breaks_bound(given, list);
            self.count_range_left(&labels, &given.values, bound_broken);
        } else if number == 0 {
            self.count_accepted(&labels, &given.values);
        }
    }

    pub fn count_matched_from_chart(&mut self, number: u8) {
        add_one(&mut self.matched_from_chart, number);
    }

    /// Counts why the updates of these labels, which are those of one list, are refused with 28.
    fn count_range_left(&mut self, labels: &[&Label], values: &Values, bound_broken: bool) {
        self.bound_broken_too += u64::from(bound_broken);
        let updates = labels.iter().flat_map(|label| &label.updates);
        for update in updates.filter(|update| leaves(update, values)) {
            match update {
                Update::Advance(_) => self.by_advance += 1,
                Update::Assignment(one) => {
                    self.by_assignment += 1;
                    self.in_assignments.count(&one.expression, values);
                }
            }
            self.by_inner_result += u64::from(leaves_inside_only(update, values));
        }
    }

    /// Counts the advances of an accepted list.
    fn count_accepted(&mut self, labels: &[&Label], values: &Values) {
        let updates = labels.iter().flat_map(|label| &label.updates);
        let passes = |update: &&Update| {
            let advance = update.as_advance();
            advance.is_some_and(|one| i32::try_from(one.sum(&values.variables)).is_err())
        };
        self.sums_passed += u64::from(updates.filter(passes).count() > 0);
    }

    /// Counts a list of transitions that the chart refuses.
    pub fn count_refused_of_chart(
        &mut self,
        machines: &Machines,
        given: &ChartConfiguration,
        list: &[u16],
        refusal: Refusal,
    ) {
        let leaves = refusal == Refusal::NotAllowed
            && any_leaves(machines.chart_labels(list), &given.values);
        self.not_allowed_of_chart += u64::from(leaves);
    }

    /// Counts a list of edges that the network refuses.
    pub fn count_refused_of_network(
        &mut self,
        machines: &Machines,
        given: &NetworkConfiguration,
        list: &[u16],
        refusal: Refusal,
    ) {
        let leaves = refusal == Refusal::NotAllowed
            && any_leaves(machines.network_labels(list), &given.values);
        self.not_allowed_of_network += u64::from(leaves);
    }

    /// Counts the guards that do not hold because of the range, of transitions whose source is active.
    pub fn count_active_guards(&mut self, chart: &Chart, given: &ChartConfiguration) {
        for transition in &chart.transitions {
            if given.active[transition.source] {
                self.count_guards(&transition.label, &given.values);
            }
        }
    }

    fn count_guards(&mut self, label: &Label, values: &Values) {
        for guard in label.guards.iter().filter(|guard| has_no_value(guard, values)) {
            let Guard::Data { relation, left, right } = guard else {
                continue;
            };
            self.in_left_sides.count(left, values);
            self.in_right_sides.count(right, values);
            add_one(&mut self.guards, *relation);
            if holds_by(WRAPPED, guard, values) {
                add_one(&mut self.guards_met_if_wrapped, *relation);
            }
            match label.signal {
                Signal::None => self.guards_without_signal += 1,
                Signal::Send(_) => self.guards_of_senders += 1,
                Signal::Receive(_) => self.guards_of_receivers += 1,
            }
        }
    }
}

/// What the counts are made from, of one chart: it without updates, which tells whether a bound is
/// broken where 28 is answered.
pub struct RangeFacts {
    bare: Chart,
}

impl RangeFacts {
    pub fn of(chart: &Chart) -> RangeFacts {
        RangeFacts { bare: chart_without_updates(chart) }
    }

    /// Whether a list that the chart refuses with 28 breaks a bound too.
    pub fn breaks_bound(&self, given: &ChartConfiguration, list: &[u16]) -> bool {
        chart_machine::step(&self.bare, given, list) == Err(Refusal::BoundBroken)
    }
}

/// Whether some update of these labels would leave the range.
fn any_leaves(labels: Vec<&Label>, values: &Values) -> bool {
    labels.into_iter().any(|label| label_leaves(label, values))
}

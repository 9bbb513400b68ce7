//! Files that each have one fault of an advance or of the version.

use crate::generate::damage::{advance_places, Form};
use crate::generate::special::{one_loop, one_pick};
use crate::model::chart::Chart;
use crate::model::expression::Expression;
use crate::model::flatten::network_of;
use crate::model::label::{Declared, Label, Signal};
use crate::model::limits::ADVANCE_BYTES;
use crate::model::refusal::Refusal;
use crate::model::update::{Advance, Update};
use crate::model::version::Version;

/// A chart file and a network file with one fault, and how they are refused.
pub struct Faulty {
    pub name: &'static str,
    pub chart: Vec<u8>,
    pub chart_refusal: Refusal,
    pub network: Vec<u8>,
    pub network_refusal: Refusal,
}

/// What every fault below is put into: an advance of v0 with the remainder v1 by 7/3.
pub const ADVANCE: Advance = Advance { steps: 0, remainder: 1, numerator: 7, denominator: 3 };

/// Every fault that an advance can have, and versions that there are not.
pub fn all_faulty() -> Vec<Faulty> {
    let mut list = wrong_versions();
    list.extend(wrong_fields());
    list.extend(assigned_twice());
    list
}

fn network_file(chart: &Chart) -> Vec<u8> {
    network_of(chart).expect("few edges").write()
}

/// A change of one field, given the file and the place of its advance.
type Change = fn(&mut [u8], usize);

fn changed(
    name: &'static str,
    change: Change,
    chart_refusal: Refusal,
    network_refusal: Refusal,
) -> Faulty {
    let good = one_pick(vec![Update::Advance(ADVANCE)]);
    let with_change = |form: Form, mut file: Vec<u8>| {
        let place = advance_places(form, &file)[0];
        change(&mut file, place);
        file
    };
    Faulty {
        name,
        chart: with_change(Form::Chart, good.write()),
        chart_refusal,
        network: with_change(Form::Network, network_file(&good)),
        network_refusal,
    }
}

fn wrong_versions() -> Vec<Faulty> {
    let wrong: [(&str, Change); 2] =
        [("version 0", |file, _| file[0] = 0), ("version 3", |file, _| file[0] = 3)];
    wrong
        .into_iter()
        .map(|(name, change)| changed(name, change, Refusal::ChartHeader, Refusal::NetworkLength))
        .collect()
}

fn wrong_fields() -> Vec<Faulty> {
    // Three variables are declared.
    let wrong: [(&str, Change); 4] = [
        ("an advance in version 1", |file, _| file[0] = 1),
        ("steps out of range", |file, place| file[place + 1] = 3),
        ("remainder out of range", |file, place| file[place + 2] = 3),
        ("denominator 0", |file, place| file[place + 5..place + ADVANCE_BYTES].fill(0)),
    ];
    wrong
        .into_iter()
        .map(|(name, change)| changed(name, change, Refusal::ChartField, Refusal::NetworkField))
        .collect()
}

/// What rule 13 refuses.
fn assigned_twice() -> Vec<Faulty> {
    let advance = Update::Advance(ADVANCE);
    let assignment = |variable: usize| Update::assignment(variable, Expression::Variable(2));
    let other = |steps, remainder| Update::Advance(Advance { steps, remainder, ..ADVANCE });
    let receiver = Label { updates: vec![advance.clone()], ..Label::of_signal(Signal::Receive(0)) };
    let declared = Declared { variables: 3, broadcast: 1, ..Declared::default() };
    let charts = [
        ("one variable for steps and remainder", one_pick(vec![other(1, 1)])),
        ("steps assigned too", one_pick(vec![advance.clone(), assignment(0)])),
        ("remainder assigned too", one_pick(vec![assignment(1), advance.clone()])),
        ("two advances of one remainder", one_pick(vec![advance.clone(), other(2, 1)])),
        ("steps of one advance, remainder of another", one_pick(vec![advance, other(2, 0)])),
        ("a receiver with an advance", one_loop(Version::Two, declared, receiver)),
    ];
    charts
        .into_iter()
        .map(|(name, chart)| Faulty {
            name,
            chart: chart.write(),
            chart_refusal: Refusal::Assignments,
            network: network_file(&chart),
            network_refusal: Refusal::NetworkField,
        })
        .collect()
}

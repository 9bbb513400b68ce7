//! Damage to files, charts, configurations and lists, made from a seed.

use std::rc::Rc;

use crate::generate::random::Random;
use crate::model::chart::{Chart, Kind, State};
use crate::model::chart_machine::ChartConfiguration;
use crate::model::expression::Expression;
use crate::model::label::{Label, Signal};
use crate::model::limits::{
    ADVANCE_BYTES, AUTOMATA, CHART_HEADER, LARGEST, LIST, NETWORK_HEADER, STATES,
};
use crate::model::network::Network;
use crate::model::network_machine::NetworkConfiguration;
use crate::model::update::{Advance, Update};
use crate::model::values::Values;
use crate::model::version::Version;

/// The two forms of files.
#[derive(Clone, Copy, PartialEq, Eq, Debug)]
pub enum Form {
    Chart,
    Network,
}

impl Form {
    fn header(self) -> usize {
        match self {
            Form::Chart => CHART_HEADER,
            Form::Network => NETWORK_HEADER,
        }
    }

    /// The place of the first count.
    fn first_count(self) -> usize {
        match self {
            Form::Chart => 3,
            Form::Network => 5,
        }
    }

    /// How many variables the header of an undamaged file declares.
    fn variables(self, file: &[u8]) -> u8 {
        match self {
            Form::Chart => file[5],
            Form::Network => file[10],
        }
    }

    /// The labels of an undamaged file.
    fn labels(self, file: &[u8]) -> Vec<Rc<Label>> {
        match self {
            Form::Chart => Chart::read(file)
                .map(|chart| chart.transitions.into_iter().map(|one| one.label).collect()),
            Form::Network => Network::read(file)
                .map(|network| network.edges.into_iter().map(|one| one.label).collect()),
        }
        .expect("an undamaged file")
    }

    /// Makes the header's length right for the file.
    pub fn correct_length(self, file: &mut [u8]) {
        let first = self.first_count();
        if file.len() < first {
            return;
        }
        let length = (file.len() - first) as u32;
        let bytes = length.to_be_bytes();
        file[1..first].copy_from_slice(&bytes[4 - (first - 1)..]);
    }
}

/// Where a record's length stands and how many bytes it has.
#[derive(Clone, Copy, PartialEq, Eq, Debug)]
pub struct LengthField {
    pub place: usize,
    pub bytes: usize,
}

/// The length fields of an undamaged file.
pub fn length_fields(form: Form, file: &[u8]) -> Vec<LengthField> {
    let (short, long) = match form {
        Form::Chart => (usize::from(file[3]), usize::from(file[10])),
        Form::Network => {
            (usize::from(file[6]), usize::from(u16::from_be_bytes([file[7], file[8]])))
        }
    };
    let mut fields = Vec::new();
    let mut place = form.header();
    for _ in 0..short {
        fields.push(LengthField { place, bytes: 1 });
        place += 1 + usize::from(file[place]);
    }
    for _ in 0..long {
        fields.push(LengthField { place, bytes: 2 });
        place += 2 + usize::from(u16::from_be_bytes([file[place], file[place + 1]]));
    }
    fields
}

/// The places of the first bytes of all advances of an undamaged file. Updates stand at the end of
/// their record, so they are found from there.
pub fn advance_places(form: Form, file: &[u8]) -> Vec<usize> {
    let mut places = Vec::new();
    let records = length_fields(form, file).into_iter().filter(|field| field.bytes == 2);
    for (field, label) in records.zip(form.labels(file)) {
        let length = u16::from_be_bytes([file[field.place], file[field.place + 1]]);
        let mut place = field.place + 2 + usize::from(length);
        for update in label.updates.iter().rev() {
            let mut bytes = Vec::new();
            update.write(&mut bytes);
            place -= bytes.len();
            if update.as_advance().is_some() {
                places.push(place);
            }
        }
    }
    places
}

/// The file with one byte changed.
pub fn change_byte(file: &[u8], random: &mut Random) -> Vec<u8> {
    let mut damaged = file.to_vec();
    let place = random.below(file.len());
    damaged[place] = another_byte(damaged[place], random);
    damaged
}

/// The file with another version, one that there is or one that there is not.
pub fn change_version(file: &[u8], random: &mut Random) -> Vec<u8> {
    let mut damaged = file.to_vec();
    let others: Vec<u8> =
        (0..=Version::ALL.len() as u8 + 1).filter(|&one| one != file[0]).collect();
    damaged[0] = random.pick(&others);
    damaged
}

/// The file with one field of an advance changed, often to what is out of range; if it has no
/// advance, with any byte changed.
pub fn change_advance(form: Form, file: &[u8], random: &mut Random) -> Vec<u8> {
    let places = advance_places(form, file);
    if places.is_empty() {
        return change_byte(file, random);
    }
    let place = random.pick(&places);
    let mut damaged = file.to_vec();
    match random.below(6) {
        // The first variable that is not declared.
        0 => damaged[place + random.between(1, 2)] = form.variables(file),
        // One variable for both.
        1 => damaged[place + 2] = damaged[place + 1],
        // No denominator.
        2 => damaged[place + 5..place + ADVANCE_BYTES].fill(0),
        _ => {
            let byte = &mut damaged[place + random.below(ADVANCE_BYTES)];
            *byte = another_byte(*byte, random);
        }
    }
    damaged
}

/// The file with one count of its header changed.
pub fn change_count(form: Form, file: &[u8], random: &mut Random) -> Vec<u8> {
    let mut damaged = file.to_vec();
    let place = random.between(form.first_count(), form.header() - 1);
    damaged[place] = another_byte(damaged[place], random);
    damaged
}

/// The file cut off, the header's length as it was or made right.
pub fn cut_off(form: Form, file: &[u8], correct: bool, random: &mut Random) -> Vec<u8> {
    let mut damaged = file[..random.below(file.len())].to_vec();
    if correct {
        form.correct_length(&mut damaged);
    }
    damaged
}

/// The file with bytes after its end, the header's length made right.
pub fn add_bytes(form: Form, file: &[u8], random: &mut Random) -> Vec<u8> {
    let mut damaged = file.to_vec();
    for _ in 0..random.between(1, 4) {
        damaged.push(random.byte());
    }
    form.correct_length(&mut damaged);
    damaged
}

/// The file with one byte more or less in its midst, the header's length made right.
pub fn shift_bytes(form: Form, file: &[u8], random: &mut Random) -> Vec<u8> {
    let mut damaged = file.to_vec();
    let place = random.between(form.first_count(), file.len() - 1);
    if random.chance(50) {
        damaged.remove(place);
    } else {
        damaged.insert(place, random.byte());
    }
    form.correct_length(&mut damaged);
    damaged
}

/// The file with one record's length one more or one less.
pub fn change_record_length(form: Form, file: &[u8], random: &mut Random) -> Vec<u8> {
    let mut damaged = file.to_vec();
    let field = random.pick(&length_fields(form, file));
    let last = field.place + field.bytes - 1;
    // No length in use ends in 00 or FF here by more than chance; a wrap is damage as well.
    damaged[last] = if random.chance(50) {
        damaged[last].wrapping_add(1)
    } else {
        damaged[last].wrapping_sub(1)
    };
    damaged
}

/// One of the kinds of damage above.
pub fn damage_file(form: Form, file: &[u8], random: &mut Random) -> Vec<u8> {
    match random.below(10) {
        0..=2 => change_byte(file, random),
        3 => change_count(form, file, random),
        4 => cut_off(form, file, random.chance(70), random),
        5 => add_bytes(form, file, random),
        6 => shift_bytes(form, file, random),
        7 => change_version(file, random),
        8 => change_advance(form, file, random),
        _ => change_record_length(form, file, random),
    }
}

fn another_byte(byte: u8, random: &mut Random) -> u8 {
    match random.below(6) {
        0 => byte.wrapping_add(1),
        1 => byte.wrapping_sub(1),
        2 => byte ^ (1 << random.below(8)),
        3 => byte ^ 0xFF,
        4 => byte ^ 0x80,
        _ => byte.wrapping_add(random.between(1, 255) as u8),
    }
}

/// A chart with one field changed to another that can be read, so that rules 5 to 14 judge it.
pub fn damage_chart(chart: &Chart, random: &mut Random) -> Chart {
    let mut states = chart.states.clone();
    let mut transitions = chart.transitions.clone();
    let count = states.len();
    let state = random.below(count);
    if transitions.is_empty() || random.chance(45) {
        match random.below(6) {
            0 => states[state].parent = random.below(count + 1) as u8,
            1 => states[state].kind = random.pick(&Kind::ALL),
            2 => states[state].entry_marks ^= 1 << random.below(chart.entries),
            3 if chart.exits > 0 => states[state].exit_marks ^= 1 << random.below(chart.exits),
            4 if random.chance(40) => make_parallel(&mut states),
            _ => states.truncate(count - 1),
        }
        transitions.retain(|one| one.source < states.len() && one.destination < states.len());
    } else {
        let number = random.below(transitions.len());
        let one = &mut transitions[number];
        match random.below(6) {
            0 => one.source = random.below(count),
            1 => one.destination = random.below(count),
            2 => one.exit = one_or_none(chart.exits, random),
            3 => one.entry = one_or_none(chart.entries, random),
            4 => one.label = Rc::new(with_signal(&one.label, chart, random)),
            _ => one.label = Rc::new(with_update(&one.label, chart, random)),
        }
    }
    Chart::new(chart.version, chart.declared, chart.entries, chart.exits, states, transitions)
}

/// Leaves no sequential state.
fn make_parallel(states: &mut [State]) {
    for state in states.iter_mut().filter(|state| state.kind == Kind::Sequential) {
        state.kind = Kind::Parallel;
    }
}

fn one_or_none(count: usize, random: &mut Random) -> Option<usize> {
    (count > 0 && random.chance(60)).then(|| random.below(count))
}

fn with_signal(label: &Label, chart: &Chart, random: &mut Random) -> Label {
    let mut label = label.clone();
    if chart.declared.channels() > 0 {
        let channel = random.below(chart.declared.channels());
        label.signal =
            if random.chance(50) { Signal::Send(channel) } else { Signal::Receive(channel) };
    }
    label
}

/// With an assignment more, or an advance whose two variables may be one.
fn with_update(label: &Label, chart: &Chart, random: &mut Random) -> Label {
    let mut label = label.clone();
    if chart.declared.variables > 0 {
        let variable = random.below(chart.declared.variables);
        label.updates.push(if chart.version.has_advances() && random.chance(60) {
            let remainder = random.below(chart.declared.variables);
            let advance = Advance { steps: variable, remainder, numerator: 3, denominator: 2 };
            Update::Advance(advance)
        } else {
            Update::assignment(variable, Expression::Constant(1))
        });
    }
    label
}

/// A chart configuration with one part changed.
pub fn damage_chart_configuration(
    configuration: &ChartConfiguration,
    random: &mut Random,
) -> ChartConfiguration {
    let mut damaged = *configuration;
    if random.chance(60) {
        let state = random.below(STATES);
        damaged.active[state] = !damaged.active[state];
    } else {
        damaged.values = damage_values(&damaged.values, random);
    }
    damaged
}

/// A network configuration with one part changed.
pub fn damage_network_configuration(
    configuration: &NetworkConfiguration,
    random: &mut Random,
) -> NetworkConfiguration {
    let mut damaged = *configuration;
    let automaton = random.below(AUTOMATA);
    match random.below(4) {
        0 => damaged.flags[automaton] ^= 1 << random.below(8),
        1 => damaged.locations[automaton] = random.byte(),
        2 => {
            let location = damaged.locations[automaton];
            damaged.locations[automaton] = another_byte(location, random);
        }
        _ => damaged.values = damage_values(&damaged.values, random),
    }
    damaged
}

/// The values with declared variables that are negative, large or near a limit.
pub fn wild_values(values: &Values, variables: usize, random: &mut Random) -> Values {
    let mut wild = *values;
    for variable in &mut wild.variables[..variables] {
        *variable = match random.below(6) {
            0 => i32::MIN,
            1 => i32::MAX,
            2 => random.bits() as i32,
            3 => -(random.between(1, 70_000) as i32),
            4 => random.between(0, 70_000) as i32,
            _ => *variable,
        };
    }
    wild
}

fn damage_values(values: &Values, random: &mut Random) -> Values {
    let mut damaged = *values;
    if random.chance(40) {
        damaged.variables[random.below(damaged.variables.len())] = random.bits() as i32;
    } else {
        let clock = random.below(damaged.clocks.len());
        damaged.clocks[clock] = match random.below(4) {
            0 => LARGEST,
            1 => LARGEST + 1,
            2 => u32::MAX,
            _ => random.between(0, 40) as u32,
        };
    }
    damaged
}

/// A list of numbers that is often not allowed. `list` fits one of the three cases or is empty,
/// `active` are the active numbers, and numbers less than `known` are known.
pub fn damage_list(list: &[u16], active: &[u16], known: usize, random: &mut Random) -> Vec<u16> {
    let mut damaged = list.to_vec();
    match random.below(6) {
        // One missing.
        0 if !damaged.is_empty() => {
            damaged.remove(random.below(damaged.len()));
        }
        // One more.
        1 if known > 0 => {
            damaged.push(random.below(known) as u16);
            in_order(&mut damaged);
        }
        // Some active numbers.
        2 if !active.is_empty() => {
            damaged = (0..random.between(1, 3)).map(|_| random.pick(active)).collect();
            in_order(&mut damaged);
        }
        // Not ascending.
        3 => damaged.extend(list),
        // Unknown.
        4 => damaged.push(known as u16),
        // Any numbers, perhaps too many.
        _ => {
            let length = random.below(LIST + 3);
            damaged = (0..length).map(|_| random.below(known + 1) as u16).collect();
            in_order(&mut damaged);
        }
    }
    damaged
}

fn in_order(list: &mut Vec<u16>) {
    list.sort_unstable();
    list.dedup();
}

/// The ticks of a wait: in one of `cases` cases 0, in one any number, in one more than a few, and
/// else a few.
pub fn random_ticks(cases: usize, random: &mut Random) -> u32 {
    match random.below(cases) {
        0 => 0,
        1 => random.bits() as u32,
        2 => random.between(5, 40) as u32,
        _ => random.between(1, 4) as u32,
    }
}

//! Damaged files, configurations and lists: nothing panics, every answer is one that the
//! operation may give, and where the damage decides the number, it is that number.

use std::collections::BTreeMap;

use reference::forms::request::{Request, Success};
use reference::generate::charts::{chart_from_seed, chart_from_wish, Wish};
use reference::generate::damage::{
    add_bytes, advance_places, change_advance, change_record_length, change_version, cut_off,
    damage_chart, damage_file, Form,
};
use reference::generate::faulty;
use reference::generate::random::Random;
use reference::generate::special;
use reference::generate::walk::{chart_requests, network_requests};
use reference::model::chart_machine;
use reference::model::check::check;
use reference::model::expression::Expression;
use reference::model::flatten::{flatten, network_of};
use reference::model::limits::{ADVANCE_BYTES, CHART_HEADER, NETWORK_HEADER};
use reference::model::network::Network;
use reference::model::network_machine;
use reference::model::refusal::Refusal;
use reference::model::update::Update;
use reference::model::version::Version;

/// How often each answer was given, 0 standing for acceptance.
type Numbers = BTreeMap<u8, u64>;

fn count<T>(numbers: &mut Numbers, answer: &Result<T, Refusal>) -> u8 {
    let number = match answer {
        Ok(_) => 0,
        Err(refusal) => refusal.number(),
    };
    *numbers.entry(number).or_insert(0) += 1;
    number
}

/// Flattens into a buffer whose content is known, and tests that only the network is written.
fn flatten_with_care(file: &[u8], room: usize) -> Result<usize, Refusal> {
    let filled: Vec<u8> = (0..room).map(|place| place as u8 ^ 0x5A).collect();
    let mut buffer = filled.clone();
    let answer = flatten(file, &mut buffer);
    let written = answer.unwrap_or(0);
    assert!(buffer[written..] == filled[written..]);
    if let Ok(length) = answer {
        assert!(Network::read(&buffer[..length]).is_ok());
    }
    answer
}

#[test]
fn damaged_chart_files() {
    let mut numbers = Numbers::new();
    for seed in 0..1_500 {
        let mut random = Random::new(seed);
        let file = chart_from_seed(seed).write();
        for _ in 0..20 {
            let damaged = damage_file(Form::Chart, &file, &mut random);
            let answer = check(&damaged);
            let number = count(&mut numbers, &answer);
            assert!(number <= 14);
            // A file that passes is exactly the one that its chart is written as.
            if let Ok(chart) = answer {
                assert!(chart.write() == damaged);
            }
            if random.chance(10) {
                let room = random.below(6_000);
                let flattened = flatten_with_care(&damaged, room);
                match number {
                    0 => assert!(flattened.is_ok() || flattened == Err(Refusal::BufferLength)),
                    _ => assert_eq!(flattened.unwrap_err().number(), number),
                }
            }
        }
    }
    println!("damaged chart files: {numbers:?}");
    for number in [0, 1, 2, 3, 4, 5, 7, 8, 9, 10, 11, 12, 13] {
        assert!(numbers.contains_key(&number), "{number}");
    }
}

#[test]
fn damage_that_decides_the_number_of_a_chart() {
    for seed in 0..1_000 {
        let mut random = Random::new(seed);
        let file = chart_from_seed(seed).write();
        let refusal = |damaged: &[u8]| check(damaged).map(|_| ()).unwrap_err();
        let cut = cut_off(Form::Chart, &file, false, &mut random);
        assert_eq!(refusal(&cut), Refusal::ChartHeader);
        let cut = cut_off(Form::Chart, &file, true, &mut random);
        let expected =
            if cut.len() < CHART_HEADER { Refusal::ChartHeader } else { Refusal::ChartLength };
        assert_eq!(refusal(&cut), expected, "seed {seed}");
        assert_eq!(refusal(&add_bytes(Form::Chart, &file, &mut random)), Refusal::ChartLength);
        let changed = change_record_length(Form::Chart, &file, &mut random);
        assert_eq!(refusal(&changed), Refusal::ChartLength, "seed {seed}");
        for place in 0..3 {
            let mut changed = file.clone();
            changed[place] ^= 1 << random.below(8);
            assert_eq!(refusal(&changed), Refusal::ChartHeader);
        }
        for (place, wrong) in
            [(3, 49), (3, 1), (4, 9), (5, 17), (6, 17), (7, 17), (8, 0), (9, 9), (10, 65)]
        {
            let mut changed = file.clone();
            changed[place] = wrong;
            assert_eq!(refusal(&changed), Refusal::ChartCount);
        }
    }
}

#[test]
fn damage_that_decides_the_number_of_a_network() {
    for seed in 0..600 {
        let mut random = Random::new(seed);
        let file = network_of(&chart_from_seed(seed)).unwrap().write();
        let refusal = |damaged: &[u8]| Network::read(damaged).map(|_| ()).unwrap_err();
        let damaged_files = [
            cut_off(Form::Network, &file, false, &mut random),
            cut_off(Form::Network, &file, true, &mut random),
            add_bytes(Form::Network, &file, &mut random),
            change_record_length(Form::Network, &file, &mut random),
        ];
        for damaged in damaged_files {
            assert_eq!(refusal(&damaged), Refusal::NetworkLength, "seed {seed}");
        }
        for (place, wrong) in [
            (0, 0),
            (0, 3),
            (5, 0),
            (5, 17),
            (6, 193),
            (7, 5),
            (9, 9),
            (10, 17),
            (11, 17),
            (12, 145),
        ] {
            let mut changed = file.clone();
            changed[place] = wrong;
            assert_eq!(refusal(&changed), Refusal::NetworkLength);
        }
        // The automaton of the first location.
        let mut changed = file.clone();
        changed[NETWORK_HEADER + 1] = 16;
        assert_eq!(refusal(&changed), Refusal::NetworkField);
    }
}

/// How a chart is judged whose only advance has these bytes. It has three variables, and v2 is
/// assigned beside the advance.
fn judged(advance: &[u8]) -> Result<(), Refusal> {
    let (steps, remainder) = (advance[1], advance[2]);
    if steps > 2 || remainder > 2 || advance[5..] == [0, 0] {
        return Err(Refusal::ChartField);
    }
    if steps == remainder || steps == 2 || remainder == 2 {
        return Err(Refusal::Assignments);
    }
    Ok(())
}

/// Every byte of an advance but the first, changed to every other value. Without the first it is
/// an assignment, and no expression goes with its bytes.
#[test]
fn every_byte_of_an_advance() {
    let before = Update::assignment(2, Expression::Variable(0));
    let chart = special::one_pick(vec![before, Update::Advance(faulty::ADVANCE)]);
    let (file, network) = (chart.write(), network_of(&chart).unwrap().write());
    let place = advance_places(Form::Chart, &file)[0];
    let network_place = advance_places(Form::Network, &network)[0];
    for (offset, value) in (0..ADVANCE_BYTES).flat_map(|one| (0..=255).map(move |byte| (one, byte)))
    {
        let (mut changed, mut changed_network) = (file.clone(), network.clone());
        changed[place + offset] = value;
        changed_network[network_place + offset] = value;
        let answer = check(&changed).map(|_| ());
        let network_answer = Network::read(&changed_network).map(|_| ());
        if offset == 0 && value != 255 {
            assert!(answer.is_err() && network_answer.is_err(), "{value}");
            continue;
        }
        let wanted = judged(&changed[place..place + ADVANCE_BYTES]);
        assert_eq!(answer, wanted, "byte {offset} is {value}");
        let wanted = wanted.map_err(|_| Refusal::NetworkField);
        assert_eq!(network_answer, wanted, "byte {offset} is {value}");
    }
}

#[test]
fn damaged_advances_and_versions() {
    let (mut charts, mut networks) = (Numbers::new(), Numbers::new());
    for seed in (0..1_000).filter(|&seed| chart_from_seed(seed).version == Version::Two) {
        let mut random = Random::new(seed);
        let chart = chart_from_seed(seed);
        let network = network_of(&chart).unwrap().write();
        let has_advances = !advance_places(Form::Chart, &chart.write()).is_empty();
        for _ in 0..10 {
            let damaged = change_version(&chart.write(), &mut random);
            let number = count(&mut charts, &check(&damaged));
            // Version 1 has no advances, and there are no versions but 1 and 2.
            let wanted = match damaged[0] {
                1 if has_advances => 4,
                1 => 0,
                _ => 1,
            };
            assert_eq!(number, wanted, "seed {seed}");
            if has_advances {
                let damaged = change_advance(Form::Chart, &chart.write(), &mut random);
                let number = count(&mut charts, &check(&damaged));
                assert!([0, 3, 4, 13].contains(&number), "seed {seed}: {number}");
            }
            if !advance_places(Form::Network, &network).is_empty() {
                let damaged = change_advance(Form::Network, &network, &mut random);
                count(&mut networks, &Network::read(&damaged));
            }
        }
    }
    println!("damaged advances: charts {charts:?}, networks {networks:?}");
    for number in [0, 1, 3, 4, 13] {
        assert!(charts.contains_key(&number), "{number}");
    }
    for number in [0, 24, 25] {
        assert!(networks.contains_key(&number), "{number}");
    }
}

#[test]
fn damaged_network_files() {
    let mut numbers = Numbers::new();
    for seed in 0..600 {
        let mut random = Random::new(seed);
        let file = network_of(&chart_from_seed(seed)).unwrap().write();
        for _ in 0..20 {
            let damaged = damage_file(Form::Network, &file, &mut random);
            let answer = Network::read(&damaged);
            let number = count(&mut numbers, &answer);
            assert!([0, 24, 25].contains(&number));
            if let Ok(network) = answer {
                assert!(network.write() == damaged);
                // It runs by its own rules.
                for request in network_requests(&network, 6, &mut random) {
                    let _ = request.answer();
                }
            }
        }
    }
    println!("damaged network files: {numbers:?}");
    assert_eq!(numbers.len(), 3);
}

#[test]
fn charts_with_one_wrong_field() {
    let mut numbers = Numbers::new();
    for seed in 0..4_000 {
        let mut random = Random::new(seed);
        let chart = chart_from_seed(seed);
        for _ in 0..5 {
            let damaged = damage_chart(&chart, &mut random).write();
            let answer = check(&damaged);
            count(&mut numbers, &answer);
            // Any chart that passes can be flattened, and both its machines start.
            if let Ok(chart) = answer {
                let network = network_of(&chart).unwrap();
                assert_eq!(Network::read(&network.write()).as_ref(), Ok(&network));
                let start = network_machine::start(&network);
                assert!(network_machine::is_configuration(&network, &start));
                let start = chart_machine::start(&chart);
                assert!(chart_machine::is_configuration(&chart, &start));
            }
        }
    }
    count(&mut numbers, &check(&special::chart_with_sequential_children(16).write()));
    println!("charts with one wrong field: {numbers:?}");
    for number in [0, 5, 6, 7, 8, 9, 10, 11, 12, 13, 14] {
        assert!(numbers.contains_key(&number), "{number}");
    }
}

#[test]
fn damaged_configurations_and_lists() {
    let mut chart_numbers = Numbers::new();
    let mut network_numbers = Numbers::new();
    for seed in 0..800 {
        let mut random = Random::new(seed);
        let chart = chart_from_seed(seed);
        for request in chart_requests(&chart, 30, &mut random) {
            let answer = request.answer();
            let number = count(&mut chart_numbers, &answer);
            match request {
                Request::ChartStep(..) => {
                    assert!([0, 17, 18, 19, 20, 21, 28].contains(&number));
                }
                Request::ChartWait(..) => assert!([0, 17, 21, 22].contains(&number)),
                _ => assert_eq!(number, 0),
            }
            // What is accepted is a configuration that the next call accepts.
            if let Ok(Success::Chart(new)) = answer {
                assert!(chart_machine::is_configuration(&chart, &new));
            }
        }
        let network = network_of(&chart).unwrap();
        for request in network_requests(&network, 30, &mut random) {
            let answer = request.answer();
            let number = count(&mut network_numbers, &answer);
            match request {
                Request::NetworkStep(..) => {
                    assert!([0, 18, 19, 20, 21, 26, 27, 28].contains(&number));
                }
                Request::NetworkWait(..) => assert!([0, 21, 22, 26, 27].contains(&number)),
                _ => assert_eq!(number, 0),
            }
            if let Ok(Success::Network(new)) = answer {
                assert!(network_machine::is_configuration(&network, &new));
            }
        }
    }
    println!("chart requests: {chart_numbers:?}");
    println!("network requests: {network_numbers:?}");
    assert_eq!(chart_numbers.len(), 8);
    assert_eq!(network_numbers.len(), 9);
}

#[test]
fn random_bytes() {
    let mut random = Random::new(77);
    for _ in 0..20_000 {
        let length = random.below(60);
        let mut file: Vec<u8> = (0..length).map(|_| random.byte()).collect();
        let _ = check(&file);
        let _ = Network::read(&file);
        // With a right header more is read.
        if file.len() >= NETWORK_HEADER {
            file[0] = random.between(1, 2) as u8;
            let form = if random.chance(50) { Form::Chart } else { Form::Network };
            form.correct_length(&mut file);
            if form == Form::Chart {
                file[3..CHART_HEADER].copy_from_slice(&[2, 1, 1, 1, 1, 2, 2, 1]);
            } else {
                file[5..NETWORK_HEADER].copy_from_slice(&[1, 1, 0, 1, 1, 1, 1, 1]);
            }
            let _ = check(&file);
            let _ = Network::read(&file);
        }
    }
}

#[test]
fn refusals_16_and_15_by_room() {
    for seed in 0..300 {
        let chart = chart_from_wish(&Wish::ORDINARY, seed);
        let file = chart.write();
        let length = network_of(&chart).unwrap().write().len();
        assert_eq!(flatten_with_care(&file, length), Ok(length));
        assert_eq!(flatten_with_care(&file, length + 9), Ok(length));
        assert_eq!(flatten_with_care(&file, length - 1), Err(Refusal::BufferLength));
        assert_eq!(flatten_with_care(&file, 0), Err(Refusal::BufferLength));
    }
    let too_many = special::chart_with_edges(1025).write();
    assert_eq!(flatten_with_care(&too_many, 0), Err(Refusal::EdgeCount));
    assert_eq!(flatten_with_care(&too_many, 100_000), Err(Refusal::EdgeCount));
}

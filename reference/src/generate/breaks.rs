//! Random requests to count weft breaks: lists without a tick, of one and of some, dense and sparse, with
//! equal ticks and at both ends of the range; windows about the differences in the list, by which it shows
//! where a window ends; and lists in which a tick falls.

use crate::forms::request::Request;
use crate::generate::random::Random;

/// Random requests.
pub fn breaks_requests(count: usize, random: &mut Random) -> Vec<Request> {
    (0..count).map(|_| breaks_request(random)).collect()
}

/// One of them.
fn breaks_request(random: &mut Random) -> Request {
    let mut ticks = ascending_ticks(random);
    let window = any_window(&ticks, random);
    match random.below(100) {
        0..=11 => let_fall(&mut ticks, random),
        12..=14 => mix(&mut ticks, random),
        _ => {}
    }
    Request::WeftBreaks(ticks, window)
}

/// Ticks of a random kind, ascending.
fn ascending_ticks(random: &mut Random) -> Vec<u32> {
    let count = any_count(random);
    let top = any_top(random);
    let mut ticks: Vec<u32> = match random.below(8) {
        0 => vec![any_tick(random); count],
        1 => (0..count).map(|_| random.below(top) as u32).collect(),
        2 => (0..count).map(|_| u32::MAX - random.below(top) as u32).collect(),
        3 => (0..count).map(|_| at_an_end(top, random)).collect(),
        4 => (0..count).map(|_| random.bits() as u32).collect(),
        5 => evenly_apart(count, random),
        6 => in_groups(count, top, random),
        _ => (0..count).map(|_| any_tick(random)).collect(),
    };
    ticks.sort_unstable();
    ticks
}

fn any_count(random: &mut Random) -> usize {
    match random.below(20) {
        0 => 0,
        1 | 2 => 1,
        3 | 4 => 2,
        5..=13 => random.between(3, 8),
        14..=18 => random.between(9, 40),
        _ => random.between(41, 200),
    }
}

/// A number that ticks are below, if they lie densely.
fn any_top(random: &mut Random) -> usize {
    random.pick(&[2, 4, 10, 30, 100, 1_000, 100_000])
}

/// A tick at an end of the range, or anywhere.
fn any_tick(random: &mut Random) -> u32 {
    match random.below(4) {
        0 => random.pick(&[0, 1, 2, u32::MAX - 2, u32::MAX - 1, u32::MAX]),
        1 | 2 => at_an_end(30, random),
        _ => random.bits() as u32,
    }
}

fn at_an_end(top: usize, random: &mut Random) -> u32 {
    let distance = random.below(top) as u32;
    if random.chance(50) {
        distance
    } else {
        u32::MAX - distance
    }
}

/// Many windows have the most breaks. The last tick may be the greatest there is.
fn evenly_apart(count: usize, random: &mut Random) -> Vec<u32> {
    let step = random.between(1, 12) as u32;
    let length = count.saturating_sub(1) as u32 * step;
    let first = random.pick(&[0, 7, 1 << 31, u32::MAX - length]);
    (0..count as u32).map(|number| first + number * step).collect()
}

/// Ticks that lie close to one of a few.
fn in_groups(count: usize, top: usize, random: &mut Random) -> Vec<u32> {
    let groups: Vec<u32> = (0..random.between(2, 5)).map(|_| any_tick(random)).collect();
    let near = |random: &mut Random| {
        let distance = random.below(top) as u32;
        random.pick(&groups).saturating_add(distance)
    };
    (0..count).map(|_| near(random)).collect()
}

/// Two ticks fit in one window just if it is longer than their difference, so windows are chosen near one.
fn any_window(ticks: &[u32], random: &mut Random) -> u32 {
    match random.below(16) {
        0 => 0,
        1 | 2 => random.between(1, 2) as u32,
        3 | 4 => random.between(3, 30) as u32,
        5 => u32::MAX - random.below(3) as u32,
        6 => (1 << 31) - 1 + random.below(3) as u32,
        7 => random.bits() as u32,
        _ if ticks.is_empty() => random.between(0, 3) as u32,
        _ => {
            let difference = random.pick(ticks).abs_diff(random.pick(ticks));
            difference.saturating_add(random.below(4) as u32).saturating_sub(1)
        }
    }
}

/// Puts one tick below the one before it: the second, the last, or any. Those after it are not below
/// either, so it is the only fall. A list in which no tick can be put so stays as it is.
fn let_fall(ticks: &mut [u32], random: &mut Random) {
    let places: Vec<usize> = (1..ticks.len()).filter(|&place| ticks[place - 1] > 0).collect();
    let (Some(&front), Some(&end)) = (places.first(), places.last()) else {
        return;
    };
    let place = match random.below(4) {
        0 => front,
        1 => end,
        _ => random.pick(&places),
    };
    let before = ticks[place - 1];
    ticks[place] = match random.below(3) {
        0 => before - 1,
        1 => 0,
        _ => random.below(before as usize) as u32,
    };
}

/// Leaves the ticks in no order.
fn mix(ticks: &mut [u32], random: &mut Random) {
    for place in 0..ticks.len() {
        ticks.swap(place, random.below(ticks.len()));
    }
}

/// Every list of at most `most` of the ticks below `top`, in any order, from 0 on and up to the greatest
/// tick there is, with every window up to two ticks more than these are.
pub fn all_short_requests(most: usize, top: u32) -> Vec<Request> {
    let mut requests = Vec::new();
    for list in all_lists(most, top) {
        let at_end: Vec<u32> = list.iter().map(|tick| u32::MAX - (top - 1) + tick).collect();
        for window in 0..=top + 2 {
            requests.push(Request::WeftBreaks(list.clone(), window));
            requests.push(Request::WeftBreaks(at_end.clone(), window));
        }
    }
    requests
}

/// Every list of at most `most` of the ticks below `top`, in any order.
fn all_lists(most: usize, top: u32) -> Vec<Vec<u32>> {
    let mut lists = vec![Vec::new()];
    let mut longest = lists.clone();
    for _ in 0..most {
        let longer = longest
            .iter()
            .flat_map(|list: &Vec<u32>| (0..top).map(move |tick| [&list[..], &[tick]].concat()));
        longest = longer.collect();
        lists.extend(longest.iter().cloned());
    }
    lists
}

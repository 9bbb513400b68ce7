//! What a request to count weft breaks exercises, in words.

use crate::coverage::features::Features;
use crate::model::weft_breaks::{weft_breaks, Breaks};

/// From so many ticks on, a list is a long one.
const LONG: usize = 1_000;

/// Something in words, and whether it holds.
type Case = (&'static str, bool);

/// Of these ticks and this window.
pub fn add(ticks: &[u32], window: u32, found: &mut Features) {
    let cases = match weft_breaks(ticks, window) {
        Err(_) => refused(ticks, window),
        Ok(_) if ticks.is_empty() => [lists(ticks), windows(window)].concat(),
        Ok(breaks) => {
            let answered = [places, by_one_tick, ends].map(|of| of(ticks, window, breaks)).concat();
            [lists(ticks), windows(window), answered].concat()
        }
    };
    let met = cases.into_iter().filter(|(_, holds)| *holds);
    found.extend(met.map(|(name, _)| name.to_string()));
}

/// Why 29 is answered.
fn refused(ticks: &[u32], window: u32) -> Vec<Case> {
    let falls = places_of_falls(ticks);
    let several = ticks.len() > 1;
    let mut cases = vec![
        ("29, a window of 0 and no tick", window == 0 && ticks.is_empty()),
        ("29, a window of 0 and one tick", window == 0 && ticks.len() == 1),
        ("29, a window of 0 and several ticks", window == 0 && several && falls.is_empty()),
        ("29, a window of 0 and a fall", window == 0 && !falls.is_empty()),
        ("29, several falls", window > 0 && falls.len() > 1),
        ("29, a long list", ticks.len() >= LONG),
    ];
    if let (1.., [place]) = (window, &falls[..]) {
        cases.extend(one_fall(ticks, *place, window));
    }
    cases
}

/// What the only fall of a list is, to the tick at this place.
fn one_fall(ticks: &[u32], place: usize, window: u32) -> Vec<Case> {
    let [before, after] = [ticks[place - 1], ticks[place]];
    let (is_first, is_last) = (place == 1, place + 1 == ticks.len());
    vec![
        ("29, two ticks", is_first && is_last),
        ("29, a fall at the front", is_first && !is_last),
        ("29, a fall in the middle", !is_first && !is_last),
        ("29, a fall at the end", !is_first && is_last),
        ("29, a fall after the window with the most", is_after_most(ticks, place, window)),
        ("29, a fall by 1", before - after == 1),
        ("29, a fall to 0", after == 0),
        ("29, a fall from the greatest tick", before == u32::MAX),
        ("29, a fall from the greatest tick to 0", before == u32::MAX && after == 0),
    ]
}

/// The places of the ticks that are smaller than the one before them.
fn places_of_falls(ticks: &[u32]) -> Vec<usize> {
    (1..ticks.len()).filter(|&place| ticks[place] < ticks[place - 1]).collect()
}

/// Whether, of the ticks before this place, several are in one window and others after it.
fn is_after_most(ticks: &[u32], place: usize, window: u32) -> bool {
    let front = &ticks[..place];
    weft_breaks(front, window).is_ok_and(|breaks| {
        let end = u64::from(breaks.first) + u64::from(window);
        breaks.count > 1 && front.last().is_some_and(|&last| u64::from(last) >= end)
    })
}

/// What an accepted list is.
fn lists(ticks: &[u32]) -> Vec<Case> {
    let several = ticks.len() > 1;
    let ends = ticks.first().zip(ticks.last());
    vec![
        ("no tick", ticks.is_empty()),
        ("one tick", ticks.len() == 1),
        ("two ticks", ticks.len() == 2),
        ("a long list", ticks.len() >= LONG),
        ("all ticks equal", several && ends.is_some_and(|(first, last)| first == last)),
        ("the least and the greatest tick", ends == Some((&0, &u32::MAX))),
        ("one tick, 0", ticks == [0]),
        ("one tick, the greatest", ticks == [u32::MAX]),
    ]
}

/// What the window of an accepted request is.
fn windows(window: u32) -> Vec<Case> {
    vec![
        ("a window of 1", window == 1),
        ("a window of 2", window == 2),
        ("a window of 3 to 30", (3..=30).contains(&window)),
        ("a window that a signed number does not hold", i32::try_from(window).is_err()),
        ("the greatest window", window == u32::MAX),
    ]
}

/// Which breaks the window that is answered has.
fn places(ticks: &[u32], window: u32, breaks: Breaks) -> Vec<Case> {
    let Breaks { count, first } = breaks;
    let place = ticks.partition_point(|&tick| tick < first);
    let inside = &ticks[place..place + count];
    let starts = starts_with_most(ticks, window, count);
    let several = ticks.len() > 1;
    let some = count > 1 && count < ticks.len();
    let equal = |pair: &[u32]| pair[0] == pair[1];
    vec![
        ("it has every break", several && count == ticks.len()),
        ("it has one break of several", several && count == 1),
        ("it has some breaks", some),
        ("it is at the front of the list", some && place == 0),
        ("it is in the middle of the list", some && place > 0 && place + count < ticks.len()),
        ("it is at the end of the list", some && place + count == ticks.len()),
        ("two windows with the most", starts == 2),
        ("three or more windows with the most", starts > 2),
        ("two windows with the most, neither at the front", starts == 2 && place > 0),
        ("equal breaks at its first tick", count > 1 && equal(&inside[..2])),
        ("equal breaks inside", count > 3 && inside[1..count - 1].windows(2).any(equal)),
    ]
}

/// How many different ticks begin a window with so many breaks.
fn starts_with_most(ticks: &[u32], window: u32, most: usize) -> usize {
    let mut starts = ticks.to_vec();
    starts.dedup();
    let has_most = |&start: &u32| {
        let end = u64::from(start) + u64::from(window);
        let before = ticks.partition_point(|&tick| tick < start);
        ticks.partition_point(|&tick| u64::from(tick) < end) - before == most
    };
    starts.iter().filter(|start| has_most(start)).count()
}

/// What is at the last tick of the window that is answered and at the one after it, and what would be
/// answered if windows were one tick longer or shorter.
fn by_one_tick(ticks: &[u32], window: u32, breaks: Breaks) -> Vec<Case> {
    let Breaks { count, first } = breaks;
    let end = u64::from(first) + u64::from(window);
    let breaks_at = |wanted: u64| ticks.iter().filter(|&&tick| u64::from(tick) == wanted).count();
    let longer = window.checked_add(1).and_then(|longer| weft_breaks(ticks, longer).ok());
    let shorter = weft_breaks(ticks, window - 1).ok();
    vec![
        ("a break at its last tick", window > 1 && breaks_at(end - 1) > 0),
        ("equal breaks at its last tick", window > 1 && breaks_at(end - 1) > 1),
        ("a break at the tick after it", breaks_at(end) > 0),
        ("more in a longer window", longer.is_some_and(|other| other.count > count)),
        ("elsewhere in a longer window", longer.is_some_and(|other| other.first != first)),
        ("fewer in a shorter window", shorter.is_some_and(|other| other.count < count)),
        ("elsewhere in a shorter window", shorter.is_some_and(|other| other.first != first)),
    ]
}

/// Where the window that is answered lies in the range of ticks.
fn ends(ticks: &[u32], window: u32, breaks: Breaks) -> Vec<Case> {
    let Breaks { count, first } = breaks;
    let last = u64::from(first) + u64::from(window) - 1;
    let greatest = u64::from(u32::MAX);
    let several = count > 1;
    vec![
        ("it begins at 0", several && first == 0),
        ("it begins at the greatest tick", several && first == u32::MAX),
        ("it ends at the greatest tick", several && last == greatest),
        ("it ends after the greatest tick", several && last > greatest),
        ("it ends after the greatest tick, where a break is", {
            several && last > greatest && ticks.last() == Some(&u32::MAX)
        }),
        ("it ends after the greatest tick, breaks being in front of it", {
            several && last > greatest && ticks[0] < first
        }),
    ]
}

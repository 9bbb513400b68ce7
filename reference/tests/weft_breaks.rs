//! Weft breaks in a window: examples by hand, the definition over all windows wherever they begin, lists of
//! a million ticks, both forms of a request, and readings of it that are wrong and have to be noticed.

mod committed;

use reference::coverage::features::{features, Features};
use reference::forms::binary::{any_request_to_bytes, requests_from_bytes, AnyRequest};
use reference::forms::request::{Request, Success};
use reference::forms::text::{answer_line, request_to_text, MALFORMED};
use reference::generate::breaks::{all_short_requests, breaks_requests};
use reference::generate::random::Random;
use reference::generate::special_breaks::{
    at_both_ends, denser, evenly_apart, examples, long_lists, Example, APART, MILLION,
};
use reference::model::refusal::Refusal;
use reference::model::weft_breaks::{weft_breaks, Breaks};

use committed::vectors;

/// The greatest tick, and the one before it.
const END: u32 = u32::MAX;
const BEFORE_END: u32 = END - 1;

type Answer = Result<Breaks, Refusal>;

fn breaks(count: usize, first: u32) -> Answer {
    Ok(Breaks { count, first })
}

const REFUSED: Answer = Err(Refusal::WeftBreaks);

/// How many of the ticks lie in the window that begins at a tick, which need not be one of them.
fn count_in(ticks: &[u32], begin: u64, window: u32) -> usize {
    let inside = begin..begin + u64::from(window);
    ticks.iter().filter(|&&tick| inside.contains(&u64::from(tick))).count()
}

fn is_refused(ticks: &[u32], window: u32) -> bool {
    window == 0 || ticks.windows(2).any(|pair| pair[1] < pair[0])
}

/// The definition, over all windows that begin at `from` or later, where none that begins earlier has a
/// break. Nor has one that begins after the last.
fn by_definition(ticks: &[u32], window: u32, from: u64) -> Answer {
    if is_refused(ticks, window) {
        return REFUSED;
    }
    let Some(&last) = ticks.last() else {
        return breaks(0, 0);
    };
    let counts = (from..=u64::from(last)).map(|begin| count_in(ticks, begin, window));
    let most = counts.max().expect("a window begins at the last tick");
    let has_most = |&&tick: &&u32| count_in(ticks, u64::from(tick), window) == most;
    let first = ticks.iter().filter(has_most).min().expect("one at a break has the most");
    breaks(most, *first)
}

#[test]
fn examples_by_hand() {
    for Example { ticks, window, answer } in examples() {
        assert_eq!(weft_breaks(&ticks, window), answer, "{ticks:?} {window}");
    }
}

/// Every list of at most `most` of the ticks below `top`, ascending.
fn ascending_lists(most: usize, top: u32) -> Vec<Vec<u32>> {
    let mut lists: Vec<Vec<u32>> = vec![Vec::new()];
    let mut longest = lists.clone();
    for _ in 0..most {
        let longer = longest.iter().flat_map(|list| {
            let last = *list.last().unwrap_or(&0);
            (last..top).map(move |tick| [&list[..], &[tick]].concat())
        });
        longest = longer.collect();
        lists.extend(longest.iter().cloned());
    }
    lists
}

/// Each at the front of the range, where every window is looked at, and at its end.
#[test]
fn every_short_ascending_list_keeps_the_definition() {
    let top = 8;
    let lists = ascending_lists(6, top);
    assert_eq!(lists.len(), 3_003);
    let shift = END - (top - 1);
    for list in &lists {
        let shifted: Vec<u32> = list.iter().map(|tick| shift + tick).collect();
        for window in 0..=top + 2 {
            let expected = by_definition(list, window, 0);
            assert_eq!(weft_breaks(list, window), expected, "{list:?} {window}");
            let expected = by_definition(&shifted, window, u64::from(shift - window));
            assert_eq!(weft_breaks(&shifted, window), expected, "{shifted:?} {window}");
        }
    }
}

/// In any order, so that most are refused.
#[test]
fn every_short_list_keeps_the_definition() {
    let mut refused = 0;
    let requests = all_short_requests(5, 5);
    for request in &requests {
        let Request::WeftBreaks(ticks, window) = request else {
            panic!("{request:?}");
        };
        let from = ticks.iter().min().map_or(0, |&least| least.saturating_sub(*window));
        let expected = by_definition(ticks, *window, u64::from(from));
        assert_eq!(weft_breaks(ticks, *window), expected, "{request:?}");
        refused += usize::from(expected.is_err());
    }
    assert!(refused > requests.len() / 2 && requests.len() - refused > 3_000);
}

/// Where a window moves up, it gets a break only as it comes to end at one. So, of all windows, those that
/// end at a break suffice, or begin at 0 if they would begin before it.
#[test]
fn random_lists_keep_the_definition() {
    let mut found = Features::new();
    for request in breaks_requests(20_000, &mut Random::new(1)) {
        found.extend(features(&request, None));
        let Request::WeftBreaks(ticks, window) = request else {
            panic!("{request:?}");
        };
        let Ok(answer) = weft_breaks(&ticks, window) else {
            assert!(is_refused(&ticks, window), "{ticks:?} {window}");
            continue;
        };
        assert!(!is_refused(&ticks, window), "{ticks:?} {window}");
        let begins = |&tick: &u32| (u64::from(tick) + 1).saturating_sub(u64::from(window));
        let most = ticks.iter().map(|tick| count_in(&ticks, begins(tick), window)).max();
        assert_eq!(answer.count, most.unwrap_or(0), "{ticks:?} {window}");
        let has_most = |tick: &&u32| count_in(&ticks, u64::from(**tick), window) == answer.count;
        let first = ticks.iter().find(has_most).copied();
        assert_eq!(answer.first, first.unwrap_or(0), "{ticks:?} {window}");
    }
    assert_covered("random", &found);
}

/// The vectors of both forms have every kind of request, and those of the binary form long lists too.
#[test]
fn every_kind_is_in_the_vectors() {
    for (form, requests) in vectors() {
        let of_breaks = requests.iter().filter(|one| matches!(one, Request::WeftBreaks(..)));
        let found: Features = of_breaks.flat_map(|request| features(request, None)).collect();
        assert_covered(form, &found);
        let long = ["weft breaks: a long list", "weft breaks: 29, a long list"];
        assert!(form == "text" || long.iter().all(|&feature| found.contains(feature)));
    }
}

fn assert_covered(form: &str, found: &Features) {
    let missing: Vec<String> =
        wanted().into_iter().filter(|feature| !found.contains(feature)).collect();
    assert!(missing.is_empty(), "{form}: {missing:#?}");
}

/// Every kind of request, but for long lists.
fn wanted() -> Vec<String> {
    let refused = [
        "a window of 0 and no tick",
        "a window of 0 and one tick",
        "a window of 0 and several ticks",
        "a window of 0 and a fall",
        "two ticks",
        "a fall at the front",
        "a fall in the middle",
        "a fall at the end",
        "a fall after the window with the most",
        "a fall by 1",
        "a fall to 0",
        "a fall from the greatest tick",
        "a fall from the greatest tick to 0",
        "several falls",
    ];
    let accepted = [
        "no tick",
        "one tick",
        "two ticks",
        "all ticks equal",
        "the least and the greatest tick",
        "one tick, 0",
        "one tick, the greatest",
        "a window of 1",
        "a window of 2",
        "a window of 3 to 30",
        "a window that a signed number does not hold",
        "the greatest window",
        "it has every break",
        "it has one break of several",
        "it has some breaks",
        "it is at the front of the list",
        "it is in the middle of the list",
        "it is at the end of the list",
        "two windows with the most",
        "three or more windows with the most",
        "two windows with the most, neither at the front",
        "equal breaks at its first tick",
        "equal breaks at its last tick",
        "equal breaks inside",
        "a break at its last tick",
        "a break at the tick after it",
        "more in a longer window",
        "elsewhere in a longer window",
        "fewer in a shorter window",
        "elsewhere in a shorter window",
        "it begins at 0",
        "it begins at the greatest tick",
        "it ends at the greatest tick",
        "it ends after the greatest tick",
        "it ends after the greatest tick, where a break is",
        "it ends after the greatest tick, breaks being in front of it",
    ];
    let refused = refused.map(|feature| format!("weft breaks: 29, {feature}"));
    let accepted = accepted.map(|feature| format!("weft breaks: {feature}"));
    refused.into_iter().chain(accepted).collect()
}

#[test]
fn a_million_ticks_all_equal() {
    for tick in [0, 2_000_000_000, END] {
        for window in [1, 2, 1_000, END] {
            assert_eq!(weft_breaks(&vec![tick; MILLION], window), breaks(MILLION, tick));
        }
    }
}

#[test]
fn a_million_ticks_all_apart() {
    let ticks = evenly_apart(MILLION);
    assert_eq!(ticks.last(), Some(&4_293_995_706));
    let answers = [
        (1, 1),
        (APART, 1),
        (APART + 1, 2),
        (100_000, 24),
        (10_000_000, 2_329),
        (4_293_995_706, 999_999),
        (4_293_995_707, MILLION),
        (END, MILLION),
    ];
    for (window, count) in answers {
        assert_eq!(weft_breaks(&ticks, window), breaks(count, 0), "{window}");
    }
}

#[test]
fn a_million_ticks_at_both_ends() {
    let ticks = at_both_ends(500_000);
    assert_eq!(ticks.len(), MILLION);
    let answers = [
        (1, 1),
        (2, 2),
        (499_999, 499_999),
        (500_000, 500_000),
        (4_294_467_296, 500_000),
        (4_294_467_297, 500_001),
        (BEFORE_END, 999_998),
        (END, 999_999),
    ];
    for (window, count) in answers {
        assert_eq!(weft_breaks(&ticks, window), breaks(count, 0), "{window}");
    }
    // No window has both the least and the greatest tick.
    let mut ticks = vec![0; 500_000];
    ticks.resize(MILLION, END);
    for window in [1, 1_000, END] {
        assert_eq!(weft_breaks(&ticks, window), breaks(500_000, 0), "{window}");
    }
    ticks[499_999] = END;
    for window in [1, 1_000, END] {
        assert_eq!(weft_breaks(&ticks, window), breaks(500_001, END), "{window}");
    }
    ticks[499_998] = 1;
    assert_eq!(weft_breaks(&ticks, END), breaks(500_002, 1));
}

#[test]
fn a_million_ticks_that_grow_denser() {
    let ticks = denser(MILLION);
    assert_eq!([ticks[0], ticks[1]], [975_883, 984_471]);
    // 4,294 millionths of the square of 15 are less than 1, and of that of 16 more.
    assert_eq!(weft_breaks(&ticks, 1), breaks(16, END));
    assert_eq!(weft_breaks(&ticks, END), breaks(MILLION, 975_883));
    for (name, ticks) in long_lists() {
        assert_eq!(ticks.len(), MILLION, "{name}");
        assert!(weft_breaks(&ticks, 1_000).is_ok(), "{name}");
    }
}

#[test]
fn a_fall_among_a_million_ticks() {
    for place in [1, 500_000, MILLION - 1] {
        let mut ticks = evenly_apart(MILLION);
        ticks[place] = ticks[place - 1];
        assert!(weft_breaks(&ticks, 1).is_ok());
        ticks[place - 1] += 1;
        assert_eq!(weft_breaks(&ticks, 1), REFUSED, "{place}");
        assert_eq!(weft_breaks(&ticks, END), REFUSED, "{place}");
    }
    assert_eq!(weft_breaks(&evenly_apart(MILLION), 0), REFUSED);
}

#[test]
fn the_text_form() {
    for (line, answer) in [
        ("window 5 3,7", "ok 2 3"),
        ("window 4 3,7", "ok 1 3"),
        ("window 4294967295 0,4294967295,4294967295", "ok 2 4294967295"),
        ("window 1 -", "ok 0 0"),
        ("window 0 -", "29"),
        ("window 5 7,3", "29"),
    ] {
        assert_eq!(answer_line(line), answer, "{line}");
    }
    for line in [
        "window",
        "window 5",
        "window 5 ",
        "window 5 3,",
        "window 5 3 7",
        "window -1 3",
        "window - 3",
        "window 4294967296 3",
        "window 5 4294967296",
        "window 5 3,-1",
    ] {
        assert_eq!(answer_line(line), MALFORMED, "{line:?}");
    }
    let request = Request::WeftBreaks(vec![3, 7], 5);
    assert_eq!(request_to_text(&request), "window 5 3,7");
}

/// A length that is no multiple of four leaves bytes that are no tick.
#[test]
fn the_binary_form() {
    let request = AnyRequest::One(Request::WeftBreaks(vec![1, BEFORE_END], 5));
    let bytes = [11, 0, 0, 0, 8, 0, 0, 0, 1, 255, 255, 255, 254, 0, 0, 0, 5];
    assert_eq!(any_request_to_bytes(&request), bytes);
    assert_eq!(requests_from_bytes(&bytes), Some(vec![request.clone()]));
    for more in 1..4 {
        let mut longer = bytes.to_vec();
        longer[4] += more;
        longer.splice(13..13, (0..more).map(|_| 255));
        assert_eq!(requests_from_bytes(&longer), Some(vec![request.clone()]));
    }
    // Without the window, and with too few ticks.
    assert_eq!(requests_from_bytes(&bytes[..16]), None);
    assert_eq!(requests_from_bytes(&bytes[..9]), None);
    let none = [11, 0, 0, 0, 0, 0, 0, 0, 5];
    let request = AnyRequest::One(Request::WeftBreaks(Vec::new(), 5));
    assert_eq!(requests_from_bytes(&none), Some(vec![request]));
}

/// A wrong reading of the order.
type Wrong = fn(&[u32], u32) -> Answer;

/// The right refusals, and what a reading of the rest gives where there are ticks.
fn where_right(
    ticks: &[u32],
    window: u32,
    reading: impl FnOnce(&[u32], u64) -> (usize, u32),
) -> Answer {
    let right = weft_breaks(ticks, window)?;
    if ticks.is_empty() {
        return Ok(right);
    }
    let (count, first) = reading(ticks, u64::from(window));
    breaks(count, first)
}

/// The first of the ticks that have the most by this count of each, given its place.
fn first_with_most(ticks: &[u32], count: impl Fn(usize) -> usize) -> (usize, u32) {
    let most = (0..ticks.len()).map(&count).max().unwrap_or(0);
    let place = (0..ticks.len()).find(|&place| count(place) == most).unwrap_or(0);
    (most, ticks[place])
}

/// How many of the ticks from a place on are less than some number.
fn count_below(ticks: &[u32], place: usize, end: u64) -> usize {
    ticks[place..].iter().filter(|&&tick| u64::from(tick) < end).count()
}

const ONE_TICK_TOO_LONG: Wrong = |ticks, window| {
    where_right(ticks, window, |ticks, window| {
        first_with_most(ticks, |at| count_below(ticks, at, u64::from(ticks[at]) + window + 1))
    })
};

const ONE_TICK_TOO_SHORT: Wrong = |ticks, window| {
    where_right(ticks, window, |ticks, window| {
        first_with_most(ticks, |at| {
            count_below(ticks, at, u64::from(ticks[at]) + (window - 1).max(1))
        })
    })
};

/// The first tick after the window has 32 bits.
const END_WRAPS: Wrong = |ticks, window| {
    where_right(ticks, window, |ticks, window| {
        let end = |at: usize| u64::from(ticks[at].wrapping_add(window as u32));
        first_with_most(ticks, |at| count_below(ticks, at, end(at)))
    })
};

/// The first tick after the window is no more than the greatest there is, which so is never counted.
const END_STOPS: Wrong = |ticks, window| {
    where_right(ticks, window, |ticks, window| {
        let end = |at: usize| (u64::from(ticks[at]) + window).min(u64::from(END));
        first_with_most(ticks, |at| count_below(ticks, at, end(at)))
    })
};

/// Windows that pass the end of the range do not count.
const WHOLE_WINDOWS: Wrong = |ticks, window| {
    where_right(ticks, window, |ticks, window| {
        let end = |at: usize| u64::from(ticks[at]) + window;
        let whole = |at: usize| end(at) <= u64::from(END) + 1;
        first_with_most(ticks, |at| if whole(at) { count_below(ticks, at, end(at)) } else { 0 })
    })
};

/// The window is a signed number, and so are differences.
const SIGNED: Wrong = |ticks, window| {
    where_right(ticks, window, |ticks, window| {
        first_with_most(ticks, |at| {
            let inside = |tick: &&u32| ((**tick - ticks[at]) as i32) < window as u32 as i32;
            ticks[at..].iter().filter(inside).count()
        })
    })
};

const LATEST: Wrong = |ticks, window| {
    where_right(ticks, window, |ticks, window| {
        let count = |at: usize| count_below(ticks, at, u64::from(ticks[at]) + window);
        let (most, _) = first_with_most(ticks, count);
        let last = (0..ticks.len()).rfind(|&at| count(at) == most).unwrap_or(0);
        (most, ticks[last])
    })
};

/// The last break of the window and not its first tick.
const LAST_BREAK: Wrong = |ticks, window| {
    let right = weft_breaks(ticks, window)?;
    let end = u64::from(right.first) + u64::from(window);
    let last = ticks.iter().rev().find(|&&tick| u64::from(tick) < end);
    breaks(right.count, *last.unwrap_or(&0))
};

/// The earliest window with the most, wherever it begins.
const ANYWHERE: Wrong = |ticks, window| {
    where_right(ticks, window, |ticks, window| {
        let count = |at: usize| count_below(ticks, at, u64::from(ticks[at]) + window);
        let (most, first) = first_with_most(ticks, count);
        let place = ticks.iter().position(|&tick| tick == first).unwrap_or(0);
        let last = u64::from(ticks[place + most - 1]);
        (most, (last + 1).saturating_sub(window) as u32)
    })
};

const EQUAL_ONCE: Wrong = |ticks, window| {
    where_right(ticks, window, |ticks, window| {
        let mut once = ticks.to_vec();
        once.dedup();
        first_with_most(&once, |at| count_below(&once, at, u64::from(once[at]) + window))
    })
};

/// Windows begin at multiples of their length, and at the first break of one.
const MULTIPLES: Wrong = |ticks, window| {
    where_right(ticks, window, |ticks, window| {
        let part = |tick: u32| u64::from(tick) / window;
        first_with_most(ticks, |at| {
            ticks[at..].iter().filter(|&&tick| part(tick) == part(ticks[at])).count()
        })
    })
};

/// The next window begins after the last break of the one before.
const APART_FROM_EACH_OTHER: Wrong = |ticks, window| {
    where_right(ticks, window, |ticks, window| {
        let mut most = (0, 0);
        let mut at = 0;
        while at < ticks.len() {
            let count = count_below(ticks, at, u64::from(ticks[at]) + window);
            if count > most.0 {
                most = (count, ticks[at]);
            }
            at += count;
        }
        most
    })
};

/// A window counts only when a break after it has been met.
const CLOSED_WINDOWS: Wrong = |ticks, window| {
    where_right(ticks, window, |ticks, window| {
        let end = |at: usize| u64::from(ticks[at]) + window;
        let closed = |at: usize| ticks.last().is_some_and(|&last| u64::from(last) >= end(at));
        first_with_most(ticks, |at| if closed(at) { count_below(ticks, at, end(at)) } else { 1 })
    })
};

const EMPTY_IS_REFUSED: Wrong =
    |ticks, window| if ticks.is_empty() { REFUSED } else { weft_breaks(ticks, window) };

const EMPTY_IS_ACCEPTED: Wrong =
    |ticks, window| if ticks.is_empty() { breaks(0, 0) } else { weft_breaks(ticks, window) };

const ONE_TICK_IS_ACCEPTED: Wrong =
    |ticks, window| if let [tick] = ticks { breaks(1, *tick) } else { weft_breaks(ticks, window) };

const NO_WINDOW_IS_ACCEPTED: Wrong =
    |ticks, window| if window == 0 { breaks(0, 0) } else { weft_breaks(ticks, window) };

const EQUAL_IS_REFUSED: Wrong = |ticks, window| {
    if ticks.windows(2).any(|pair| pair[0] == pair[1]) {
        return REFUSED;
    }
    weft_breaks(ticks, window)
};

/// The ticks up to the first fall among those that are compared, or all of them.
fn up_to_fall(ticks: &[u32], compared: std::ops::Range<usize>) -> &[u32] {
    let fall = compared.into_iter().find(|&at| at > 0 && ticks[at] < ticks[at - 1]);
    &ticks[..fall.unwrap_or(ticks.len())]
}

const FALLS_ARE_SORTED: Wrong = |ticks, window| {
    let mut sorted = ticks.to_vec();
    sorted.sort_unstable();
    weft_breaks(&sorted, window)
};

const STOPS_AT_A_FALL: Wrong =
    |ticks, window| weft_breaks(up_to_fall(ticks, 0..ticks.len()), window);

/// The second tick is not compared with the first.
const FIRST_FALL_IS_MISSED: Wrong = |ticks, window| match ticks {
    [first, second, ..] if second < first => weft_breaks(&ticks[1..], window),
    _ => weft_breaks(ticks, window),
};

/// The last tick is not compared with the one before it.
const LAST_FALL_IS_MISSED: Wrong = |ticks, window| match ticks {
    [front @ .., last] if front.last().is_some_and(|before| last < before) => {
        weft_breaks(front, window)
    }
    _ => weft_breaks(ticks, window),
};

/// A tick is compared with the first alone.
const COMPARED_WITH_FIRST: Wrong = |ticks, window| match ticks {
    [first, rest @ ..] if rest.iter().all(|tick| tick >= first) => FALLS_ARE_SORTED(ticks, window),
    _ => weft_breaks(ticks, window),
};

const WRONG: [(&str, Wrong); 23] = [
    ("one tick too long", ONE_TICK_TOO_LONG),
    ("one tick too short", ONE_TICK_TOO_SHORT),
    ("the end wraps", END_WRAPS),
    ("the end stops", END_STOPS),
    ("whole windows", WHOLE_WINDOWS),
    ("signed", SIGNED),
    ("latest", LATEST),
    ("last break", LAST_BREAK),
    ("anywhere", ANYWHERE),
    ("equal ticks once", EQUAL_ONCE),
    ("multiples", MULTIPLES),
    ("apart from each other", APART_FROM_EACH_OTHER),
    ("closed windows", CLOSED_WINDOWS),
    ("no tick is refused", EMPTY_IS_REFUSED),
    ("no tick is accepted", EMPTY_IS_ACCEPTED),
    ("one tick is accepted", ONE_TICK_IS_ACCEPTED),
    ("a window of 0 is accepted", NO_WINDOW_IS_ACCEPTED),
    ("equal ticks are refused", EQUAL_IS_REFUSED),
    ("falls are sorted", FALLS_ARE_SORTED),
    ("stops at a fall", STOPS_AT_A_FALL),
    ("the first fall is missed", FIRST_FALL_IS_MISSED),
    ("the last fall is missed", LAST_FALL_IS_MISSED),
    ("compared with the first", COMPARED_WITH_FIRST),
];

/// How many requests a wrong reading answers wrongly.
fn noticed(requests: &[Request], wrong: Wrong) -> usize {
    let differs = |request: &&Request| match request {
        Request::WeftBreaks(ticks, window) => {
            wrong(ticks, *window).map(Success::Breaks) != request.answer()
        }
        _ => false,
    };
    requests.iter().filter(differs).count()
}

#[test]
fn wrong_readings_are_noticed_by_random_requests() {
    let requests = breaks_requests(2_000, &mut Random::new(2));
    for (name, wrong) in WRONG {
        let count = noticed(&requests, wrong);
        println!("{name}: {count} of 2,000");
        assert!(count > 3, "{name}: {count}");
    }
}

/// A program that reads it so does not pass the vectors.
#[test]
fn wrong_readings_fail_the_vectors() {
    for (form, requests) in vectors() {
        for (name, wrong) in WRONG {
            let count = noticed(&requests, wrong);
            println!("{form}: {name} fails {count} requests");
            assert!(count > 0, "{form}: {name}");
        }
    }
}

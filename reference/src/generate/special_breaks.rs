//! Lists of weft breaks made by hand: requests with the answer that is known of each, and long lists.

use crate::generate::random::Random;
use crate::model::refusal::Refusal;
use crate::model::weft_breaks::Breaks;

/// The greatest tick, and the one before it.
const END: u32 = u32::MAX;
const BEFORE_END: u32 = END - 1;

/// Ticks, a window, and how many breaks it has at most, with its first tick; none if 29 is answered.
type Row = (&'static [u32], u32, Option<(usize, u32)>);

/// A request made by hand, and its answer.
pub struct Example {
    pub ticks: Vec<u32>,
    pub window: u32,
    pub answer: Result<Breaks, Refusal>,
}

pub fn examples() -> Vec<Example> {
    let example = |(ticks, window, answer): Row| Example {
        ticks: ticks.to_vec(),
        window,
        answer: answer.map(|(count, first)| Breaks { count, first }).ok_or(Refusal::WeftBreaks),
    };
    [ACCEPTED, AT_THE_END, REFUSED].concat().into_iter().map(example).collect()
}

const ACCEPTED: &[Row] = &[
    // No break, whatever the window.
    (&[], 1, Some((0, 0))),
    (&[], END, Some((0, 0))),
    (&[0], 1, Some((1, 0))),
    (&[7], END, Some((1, 7))),
    // Two breaks fit in a window that is longer than their difference.
    (&[3, 7], 4, Some((1, 3))),
    (&[3, 7], 5, Some((2, 3))),
    (&[0, 1], 1, Some((1, 0))),
    (&[0, 1], 2, Some((2, 0))),
    // Equal ticks are separate breaks.
    (&[5, 5], 1, Some((2, 5))),
    (&[0, 0, 0], 1, Some((3, 0))),
    (&[1, 2, 2, 3], 1, Some((2, 2))),
    (&[1, 2, 2, 3], 2, Some((3, 1))),
    (&[1, 4, 4, 4, 9, 9], 1, Some((3, 4))),
    (&[1, 4, 4, 4, 9, 9], 6, Some((5, 4))),
    (&[1, 4, 4, 4, 9, 9], 9, Some((6, 1))),
    // The most at the front, in the middle and at the end.
    (&[1, 2, 3, 9, 20], 3, Some((3, 1))),
    (&[1, 9, 10, 11, 20], 3, Some((3, 9))),
    (&[1, 9, 18, 19, 20], 3, Some((3, 18))),
    (&[1, 9, 19, 20, 20], 2, Some((3, 19))),
    // Of several windows with the most, the earliest.
    (&[1, 3, 5], 1, Some((1, 1))),
    (&[1, 2, 5, 6], 2, Some((2, 1))),
    (&[1, 5, 6, 9, 10], 2, Some((2, 5))),
    (&[1, 5, 5, 9, 9, 9, 14, 14, 14], 1, Some((3, 9))),
    (&[0, 1, 2, 3], 3, Some((3, 0))),
    // The earliest that begins at a break: the one from 3 to 7 has both breaks too.
    (&[4, 6], 5, Some((2, 4))),
    // Not windows that begin at a multiple of their length.
    (&[3, 4, 9, 13], 4, Some((2, 3))),
    (&[2, 5, 7, 8, 11], 5, Some((3, 5))),
];

/// Near the greatest tick: the window's last tick may need 33 bits.
const AT_THE_END: &[Row] = &[
    (&[END], 1, Some((1, END))),
    (&[END], END, Some((1, END))),
    (&[END, END], 1, Some((2, END))),
    (&[0, END], END, Some((1, 0))),
    (&[0, BEFORE_END], END, Some((2, 0))),
    (&[1, END], END, Some((2, 1))),
    (&[0, 1, END], END, Some((2, 0))),
    (&[0, 1, END, END], END, Some((3, 1))),
    (&[0, 0, END, END, END], END, Some((3, END))),
    (&[1, 2, BEFORE_END, END], 1, Some((1, 1))),
    (&[1, BEFORE_END, END], 2, Some((2, BEFORE_END))),
    (&[1, BEFORE_END, END], 3, Some((2, BEFORE_END))),
    (&[1, 2, BEFORE_END, END, END], 5, Some((3, BEFORE_END))),
    (&[0, 1, 2, END - 5, END - 3, BEFORE_END, END], 5, Some((3, 0))),
    (&[0, 1, 2, END - 5, END - 3, BEFORE_END, END], 6, Some((4, END - 5))),
    (&[0, 1, 2, END - 5, END - 3, BEFORE_END, END], END - 5, Some((4, END - 5))),
    (&[0, 1, 2, END - 5, END - 3, BEFORE_END, END], BEFORE_END, Some((5, 0))),
    (&[0, 1, 2, END - 5, END - 3, BEFORE_END, END], END, Some((6, 0))),
    (&[10, 11, END - 100, END - 10, END - 4], 4_000_000_000, Some((3, END - 100))),
    (&[10, 11, END - 100, END - 10, END - 4], END - 109, Some((3, 10))),
    (&[0, 1 << 31, END], 1 << 31, Some((2, 1 << 31))),
    (&[0, 1 << 31, END], (1 << 31) + 1, Some((2, 0))),
];

const REFUSED: &[Row] = &[
    (&[], 0, None),
    (&[0], 0, None),
    (&[7, 7], 0, None),
    (&[1, 2, 3], 0, None),
    (&[2, 1], 0, None),
    (&[1, 0], 1, None),
    (&[END, BEFORE_END], END, None),
    (&[END, 0], 2, None),
    (&[0, END, 0], END, None),
    (&[5, 4, 6, 7], 3, None),
    (&[1, 5, 4, 7], 3, None),
    (&[1, 5, 6, 5], 3, None),
    (&[1, 1, 1, 1, 90, 89], 2, None),
    (&[1, 1, 1, 1, 90, 91, 0], 2, None),
    (&[1, 50, 90, 49, 91, 92, 92, 92], 2, None),
    (&[4, 3, 2, 1], 9, None),
];

/// How many ticks a long list has.
pub const MILLION: usize = 1_000_000;

/// A name, and ticks that ascend.
pub type NamedList = (&'static str, Vec<u32>);

/// The distance of ticks that are evenly spread over the whole range, if there are a million.
pub const APART: u32 = 4_294;

/// All equal, evenly apart, spread at random over the whole range and over a small part of it, and denser
/// and denser towards the end of the range.
pub fn long_lists() -> Vec<NamedList> {
    let mut random = Random::new(0x5745_4654);
    vec![
        ("equal", vec![2_000_000_000; MILLION]),
        ("apart", evenly_apart(MILLION)),
        ("spread", spread(MILLION, 1 << 32, &mut random)),
        ("crowded", spread(MILLION, 100_000, &mut random)),
        ("denser", denser(MILLION)),
    ]
}

/// From 0 on.
pub fn evenly_apart(count: usize) -> Vec<u32> {
    (0..count as u32).map(|number| number * APART).collect()
}

/// Random ticks below a number.
fn spread(count: usize, top: usize, random: &mut Random) -> Vec<u32> {
    let mut ticks: Vec<u32> = (0..count).map(|_| random.below(top) as u32).collect();
    ticks.sort_unstable();
    ticks
}

/// The distance to the greatest tick falls with the square of the number of ticks that are left: a million
/// ticks begin near 0.
pub fn denser(count: usize) -> Vec<u32> {
    let distance = |left: u64| left * left * u64::from(APART) / MILLION as u64;
    (0..count as u64).rev().map(|left| END - distance(left) as u32).collect()
}

/// One half from 0 on, the other up to the greatest tick, all one tick apart.
pub fn at_both_ends(half: u32) -> Vec<u32> {
    (0..half).chain(END - (half - 1)..=END).collect()
}

//! The most weft breaks within a window of consecutive ticks.

use crate::model::refusal::Refusal;

/// How many breaks a window has at most, and the first tick of the earliest window that has so many and
/// begins at a break. Both are 0 where there is no break.
#[derive(Clone, Copy, PartialEq, Eq, Debug, Default)]
pub struct Breaks {
    pub count: usize,
    pub first: u32,
}

/// Counts the breaks at these ticks, which may not fall, in windows of this many ticks, which may not be
/// none: refusal 29.
///
/// A window that is moved up to its first break loses none, so those that begin at a break suffice. Each
/// is looked at by itself.
pub fn weft_breaks(ticks: &[u32], window: u32) -> Result<Breaks, Refusal> {
    if window == 0 || !ticks.is_sorted() {
        return Err(Refusal::WeftBreaks);
    }
    let mut most = Breaks::default();
    for (place, &first) in ticks.iter().enumerate() {
        let count = count_from(&ticks[place..], first, window);
        if count > most.count {
            most = Breaks { count, first };
        }
    }
    Ok(most)
}

/// How many of these ticks, the first of which begins the window, lie in it. Equal ones before them are
/// left out, which is no fault: the window that counts them too was looked at earlier. The first tick
/// after the window may need 33 bits.
fn count_from(ticks: &[u32], first: u32, window: u32) -> usize {
    let end = u64::from(first) + u64::from(window);
    ticks.partition_point(|&tick| u64::from(tick) < end)
}

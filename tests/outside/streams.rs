//! Conformance, the monitor and the generator, from the whole stream each time: the windows are summed anew at each tick.

use crate::pair::Pair;
use crate::subject::{LIMIT, LOST, NO_COUNT, PASSED, TOO_FEW, TOO_MANY};

pub fn sum(counts: &[u32]) -> u64 {
    counts.iter().map(|&count| u64::from(count)).sum()
}

/// The windows that end the stream with their sums, the shortest first: one more tick back each.
fn ending_windows(stream: &[u32]) -> impl Iterator<Item = (usize, u64)> + '_ {
    let sums = stream.iter().rev().scan(0, |total, &count| {
        *total += u64::from(count);
        Some(*total)
    });
    (1..).zip(sums)
}

/// Whether every window inside the stream keeps its figures: all places, all lengths.
pub fn conforms(pair: &Pair, stream: &[u32]) -> bool {
    (1..=pair.horizon()).all(|window| {
        let kept = |counts: &[u32]| pair.least(window) <= sum(counts) && pair.ceiling(window).is_none_or(|most| sum(counts) <= most);
        stream.windows(window).all(kept)
    })
}

/// What one pair says of the last tick of the stream.
pub fn verdict(pair: &Pair, stream: &[u32]) -> u32 {
    for (window, total) in ending_windows(stream).take(pair.horizon()) {
        if pair.ceiling(window).is_some_and(|most| total > most) {
            return TOO_MANY + window as u32;
        }
        if total < pair.least(window) {
            return TOO_FEW + window as u32;
        }
    }
    PASSED
}

/// How near a tick comes to the figures: the smallest margin of the windows that end there, and the shortest window that has it. Where
/// none is judged both are 0.
#[derive(Clone, Copy, Default, PartialEq)]
pub struct Margin {
    pub smallest: i64,
    pub window: u32,
}

/// The margin of a window with this sum: the smaller of ceiling minus sum and sum minus least, and the latter where there are no ceilings.
fn sum_margin(pair: &Pair, window: usize, total: u64) -> i64 {
    let least = total as i64 - pair.least(window) as i64;
    pair.ceiling(window).map_or(least, |most| least.min(most as i64 - total as i64))
}

/// That of the window of so many ticks that ends the stream.
pub fn window_margin(pair: &Pair, stream: &[u32], window: usize) -> i64 {
    sum_margin(pair, window, sum(&stream[stream.len() - window..]))
}

/// The margin of the last tick of the stream. Of the windows that have the same one, the shortest is the least in the order of pairs.
pub fn margin(pair: &Pair, stream: &[u32]) -> Margin {
    ending_windows(stream)
        .take(pair.horizon())
        .map(|(window, total)| (sum_margin(pair, window, total), window as u32))
        .min()
        .map_or(Margin::default(), |(smallest, window)| Margin { smallest, window })
}

/// A monitor's verdict on the last tick of the stream. The closed figures have a say only where those as given pass it, and none where
/// there are no ceilings: any conforming stream goes on with counts that are large enough.
pub fn ruling(given: &Pair, closed: &Pair, stream: &[u32]) -> u32 {
    match verdict(given, stream) {
        PASSED if !given.unlimited() && verdict(closed, stream) != PASSED => LOST,
        found => found,
    }
}

/// The range: the smallest and the largest count that could follow the stream, or nothing where none could. Without ceilings the largest
/// is the limit of a figure.
pub fn range(pair: &Pair, stream: &[u32]) -> Option<(u32, u32)> {
    let mut lo = 0;
    let mut hi = i64::from(if pair.unlimited() { LIMIT } else { u32::MAX });
    // The window of one tick has nothing before its last tick, and each other the window that is shorter by one.
    let shorter = [(0, 0)].into_iter().chain(ending_windows(stream));
    for (ticks, before) in shorter.take(pair.horizon()) {
        let (window, before) = (ticks + 1, before as i64);
        lo = lo.max(pair.least(window) as i64 - before);
        hi = pair.ceiling(window).map_or(hi, |most| hi.min(most as i64 - before));
    }
    if lo <= hi {
        Some((lo as u32, hi as u32))
    } else {
        None
    }
}

/// The count that a choice stands for between lo and hi.
pub fn chosen(lo: u32, hi: u32, choice: u32) -> u32 {
    let counts = u64::from(hi) - u64::from(lo) + 1;
    (u64::from(lo) + u64::from(choice) % counts) as u32
}

/// What is sent for a list of choices. Where there is no count the stream stays as it was.
pub fn sent(pair: &Pair, choices: &[u32]) -> Vec<u32> {
    let mut stream = Vec::new();
    let mut list = Vec::new();
    for &choice in choices {
        match range(pair, &stream) {
            None => list.push(NO_COUNT),
            Some((lo, hi)) => {
                stream.push(chosen(lo, hi, choice));
                list.push(chosen(lo, hi, choice));
            }
        }
    }
    list
}

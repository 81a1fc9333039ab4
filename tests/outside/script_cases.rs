//! Pairs to open on, with streams of counts and lists of choices for them.

use crate::pair::{closed, Pair};
use crate::pairs;
use crate::random::Rng;
use crate::streams::{chosen, range, sent};
use crate::subject::{LIMIT, LONGEST_HORIZON, NO_COUNT};

pub const LONGEST_SCRIPT: usize = 600;

/// Short mostly.
pub fn horizon(rng: &mut Rng) -> usize {
    match rng.below(100) {
        0..=1 => pairs::long_horizon(rng),
        2..=5 => rng.length(13, 64),
        _ => rng.length(1, 12),
    }
}

/// A pair to open a monitor on: any, one with long streams, or the closure of one.
fn pair(rng: &mut Rng) -> Pair {
    let horizon = horizon(rng);
    match rng.below(4) {
        0 => pairs::any(rng, horizon),
        1 => pairs::lasting(rng, horizon),
        _ => {
            let pair = pairs::lasting(rng, horizon);
            closed(&pair)
        }
    }
}

/// One fault that an opening is refused for.
pub fn spoil(rng: &mut Rng, pair: &mut Pair) {
    match rng.below(5) {
        0 => pair.upper.clear(),
        1 => pair.upper.resize(rng.length(257, 300), 1),
        2 => pair.lower.push(0),
        3 => pair.lower.truncate(pair.lower.len().saturating_sub(1)),
        _ => {
            let list = if rng.one_in(2) { &mut pair.upper } else { &mut pair.lower };
            let place = rng.length(0, list.len().saturating_sub(1));
            if let Some(figure) = list.get_mut(place) {
                *figure = rng.pick(&[LIMIT + 1, u32::MAX]);
            }
        }
    }
}

pub fn choices(rng: &mut Rng, length: usize) -> Vec<u32> {
    let end = rng.pick(&[1, 2, 3, 10, u32::MAX]);
    (0..length)
        .map(|_| if rng.one_in(30) { u32::MAX - rng.below(2) } else { rng.below(end) })
        .collect()
}

/// Counts that keep the pair for as long as it can be kept, then anything.
fn kept_counts(rng: &mut Rng, pair: &Pair, length: usize) -> Vec<u32> {
    let list = choices(rng, length);
    let mut counts = sent(pair, &list);
    for count in counts.iter_mut().filter(|count| **count == NO_COUNT) {
        *count = rng.below(5);
    }
    counts
}

/// A count a little or far away from the one that keeps the pair.
fn off(rng: &mut Rng, count: u32) -> u32 {
    match rng.below(6) {
        0..=1 => count.saturating_add(rng.between(1, 3)),
        2..=3 => count.saturating_sub(rng.between(1, 3)),
        4 => 0,
        _ => rng.pick(&[LIMIT, LIMIT + 1, 1 << 31, u32::MAX - 1, u32::MAX]),
    }
}

/// Such counts, a few of them off; or any.
pub fn counts(rng: &mut Rng, pair: &Pair, length: usize) -> Vec<u32> {
    if rng.one_in(8) {
        let end = rng.pick(&[2, 4, 20, u32::MAX]);
        return (0..length).map(|_| rng.below(end)).collect();
    }
    let mut list = kept_counts(rng, pair, length);
    for _ in 0..rng.below(4) {
        if length > 0 {
            let place = rng.length(0, length - 1);
            list[place] = off(rng, list[place]);
        }
    }
    list
}

/// Figures for one window only, a long one often, and counts that repeat after its length, so that every sum of that window is the
/// same; then one count that is off.
fn one_window(rng: &mut Rng) -> (Pair, Vec<u32>) {
    let horizon = if rng.one_in(8) { LONGEST_HORIZON } else { rng.length(1, 40) };
    let window = if rng.one_in(3) { rng.length(1, horizon) } else { horizon };
    let period: Vec<u32> = (0..window).map(|_| rng.below(5)).collect();
    let total: u32 = period.iter().sum();
    let mut pair = Pair::loose(horizon);
    pair.upper[window - 1] = total + rng.below(2);
    pair.lower[window - 1] = total.saturating_sub(rng.below(2));
    let length = horizon + rng.length(0, 60);
    let mut counts: Vec<u32> = period.iter().copied().cycle().take(length).collect();
    let place = rng.length(0, length - 1);
    counts[place] = off(rng, counts[place]);
    (pair, counts)
}

/// Where a stream lies between lo and hi.
#[derive(Clone, Copy)]
enum Lean {
    Low,
    High,
    Anywhere,
}

/// A stream that keeps the closure until it strays.
struct Course {
    length: usize,
    /// The first tick at which it may stray, if some count there does. None is lost after tick H - 2 (`lost` says why).
    start: usize,
    burst_ticks: usize,
    burst: Lean,
    after: Lean,
}

fn course(rng: &mut Rng, horizon: usize) -> Course {
    let last = horizon - 2;
    let between = rng.length(0, last);
    Course {
        length: horizon + rng.length(0, 40),
        start: rng.pick(&[0, last, between, between]),
        burst_ticks: rng.length(0, 4),
        burst: rng.pick(&[Lean::Low, Lean::High]),
        after: rng.pick(&[Lean::Low, Lean::High, Lean::Anywhere, Lean::Anywhere]),
    }
}

/// A count that keeps the pair and not its closure, next to what the closure allows or farther away; now and then one that keeps
/// neither. Nothing where there is none.
fn stray(rng: &mut Rng, given: (u32, u32), closed: (u32, u32)) -> Option<u32> {
    if rng.one_in(6) {
        let below = given.0 > 0 && rng.one_in(2);
        return Some(if below { given.0 - 1 } else { given.1 + 1 });
    }
    let mut counts = Vec::new();
    if given.0 < closed.0 {
        counts.extend([closed.0 - 1, rng.between(given.0, closed.0 - 1)]);
    }
    if closed.1 < given.1 {
        counts.extend([closed.1 + 1, rng.between(closed.1 + 1, given.1)]);
    }
    if counts.is_empty() {
        None
    } else {
        Some(rng.pick(&counts))
    }
}

/// The counts of a course. What follows the tick at which it strays is not judged any more, whatever it is.
fn straying(rng: &mut Rng, pair: &Pair, course: &Course) -> Vec<u32> {
    let closed = closed(pair);
    let mut counts = Vec::new();
    while let Some((lo, hi)) = range(&closed, &counts) {
        let may_stray = counts.len() >= course.start;
        let given = range(pair, &counts).filter(|_| may_stray);
        let strayed = given.and_then(|given| stray(rng, given, (lo, hi)));
        let lean = if counts.len() < course.burst_ticks {
            course.burst
        } else {
            course.after
        };
        counts.push(strayed.unwrap_or_else(|| match lean {
            Lean::Low => lo,
            Lean::High => hi,
            Lean::Anywhere => chosen(lo, hi, rng.any()),
        }));
        if strayed.is_some() || counts.len() == course.length {
            break;
        }
    }
    counts.resize_with(course.length, || rng.below(5));
    counts
}

/// An unclosed pair, and a stream that is lost somewhere if it can be.
fn lost_somewhere(rng: &mut Rng) -> (Pair, Vec<u32>) {
    let horizon = match rng.below(100) {
        0..=4 => pairs::long_horizon(rng),
        5..=16 => rng.length(13, 64),
        _ => rng.length(2, 12),
    };
    let mut course = course(rng, horizon);
    let pair = if rng.one_in(if horizon > 12 { 3 } else { 6 }) {
        (course.burst_ticks, course.burst, course.after) = (1, Lean::High, Lean::Low);
        pairs::burst(rng, horizon)
    } else {
        pairs::unclosed(rng, horizon)
    };
    let counts = straying(rng, &pair, &course);
    (pair, counts)
}

/// A pair and counts for a monitor on it.
pub fn for_monitor(rng: &mut Rng) -> (Pair, Vec<u32>) {
    match rng.below(20) {
        0..=1 => one_window(rng),
        2..=8 => lost_somewhere(rng),
        _ => {
            let pair = pair(rng);
            let length = rng.length(0, LONGEST_SCRIPT);
            let script = counts(rng, &pair, length);
            (pair, script)
        }
    }
}

/// A pair to open a generator on. Most are closures; of those with one figure off some still are, and of the others few.
fn generator_pair(rng: &mut Rng) -> Pair {
    let horizon = horizon(rng);
    match rng.below(20) {
        0..=11 => pairs::closure_of_any(rng, horizon),
        12..=15 => pairs::one_figure_off(rng, horizon),
        16..=17 => pairs::unclosed(rng, horizon.max(2)),
        _ => pairs::any(rng, horizon),
    }
}

/// The closure of figures for one window, and maybe for a single tick; choices so small that the least of a long window is what tells.
fn generator_window(rng: &mut Rng) -> (Pair, Vec<u32>) {
    let (mut pair, counts) = one_window(rng);
    if rng.one_in(2) {
        pair.upper[0] = pair.upper[0].min(rng.below(8));
    }
    let end = rng.pick(&[2, 3, 7]);
    let script = counts.iter().map(|_| rng.below(end)).collect();
    (closed(&pair), script)
}

/// A pair and choices for a generator on it.
pub fn for_generator(rng: &mut Rng) -> (Pair, Vec<u32>) {
    if rng.one_in(10) {
        return generator_window(rng);
    }
    let pair = generator_pair(rng);
    let length = rng.length(0, LONGEST_SCRIPT);
    let script = choices(rng, length);
    (pair, script)
}

//! Pairs without ceilings to try: leasts of several kinds, and anything at all in the list of ceilings.

use crate::pair::{closed, Pair};
use crate::random::Rng;
use crate::subject::{LEAST_LIMIT, LIMIT, LONGEST_HORIZON};

/// Numbers that set the mark: all but 0 do.
const MARKS: &[u32] = &[1, 1, 1, 2, 256, 65_536, 1 << 31, u32::MAX];

/// What stands in the list of ceilings: it must have no effect, whether it is small, above the limit, or below the leasts.
fn rubbish(rng: &mut Rng, lower: &[u32]) -> Vec<u32> {
    let kind = rng.below(5);
    let entry = |&least: &u32| match kind {
        0 => rng.any(),
        1 => u32::MAX,
        2 => rng.pick(&[0, 1, LIMIT, LIMIT + 1, u32::MAX]),
        3 => least.saturating_sub(1),
        _ => rng.below(20),
    };
    lower.iter().map(entry).collect()
}

fn with_rubbish(rng: &mut Rng, lower: Vec<u32>) -> Pair {
    let upper = rubbish(rng, &lower);
    let mark = rng.pick(MARKS);
    Pair { upper, lower, mark }
}

/// Small leasts in no order.
fn small(rng: &mut Rng, horizon: usize) -> Vec<u32> {
    let most = rng.pick(&[1, 2, 5, 20]);
    let divisor = rng.pick(&[1, 2, 4]);
    (0..horizon).map(|_| rng.below(most + 1) / divisor).collect()
}

/// A least for a few windows, and none for the others, as sporadic buses have them.
fn few(rng: &mut Rng, horizon: usize) -> Vec<u32> {
    let end = rng.pick(&[4, 40, 9_000, LEAST_LIMIT + 1]);
    let mut lower = vec![0; horizon];
    for _ in 0..rng.between(1, 4) {
        lower[rng.length(0, horizon - 1)] = rng.below(end);
    }
    lower
}

/// Leasts about a common rate, a little below it: sums of parts count for many windows.
fn about_a_rate(rng: &mut Rng, horizon: usize) -> Vec<u32> {
    let ticks = rng.between(1, 16) as usize;
    let events = rng.below(40) as usize * rng.pick(&[1, 1, 100]);
    let slack = rng.pick(&[1, 2, 4, 100]);
    let least = |window: usize| ((window * events / ticks) as u32).saturating_sub(rng.below(slack)).min(LEAST_LIMIT);
    (1..=horizon).map(least).collect()
}

/// The same least for the first windows, and none after them: as many rounds as there can be.
fn first_windows(rng: &mut Rng, horizon: usize) -> Vec<u32> {
    let least = rng.pick(&[1, 7, LEAST_LIMIT]);
    let last = rng.length(1, 3.min(horizon));
    (1..=horizon).map(|window| if window <= last { least } else { 0 }).collect()
}

/// Nothing but the smallest and the largest leasts that can be closed.
fn extremes(rng: &mut Rng, horizon: usize) -> Vec<u32> {
    (0..horizon).map(|_| rng.pick(&[0, 0, 1, LEAST_LIMIT - 1, LEAST_LIMIT])).collect()
}

/// Growing leasts, none in the first half of the windows: these are their own closure, whatever they are.
fn late(rng: &mut Rng, horizon: usize) -> Vec<u32> {
    let end = rng.pick(&[9, 70_000, LIMIT + 1]);
    let mut lower: Vec<u32> = (1..=horizon)
        .map(|window| if 2 * window > horizon { rng.below(end) } else { 0 })
        .collect();
    lower.sort_unstable();
    if rng.one_in(3) {
        lower[horizon - 1] = LIMIT;
    }
    lower
}

/// A least for the longest window alone, which a stream of few messages a tick does not keep by itself.
pub fn longest_window(rng: &mut Rng) -> Pair {
    let horizon = if rng.one_in(4) { LONGEST_HORIZON } else { rng.length(1, 40) };
    let mut lower = vec![0; horizon];
    lower[horizon - 1] = rng.between(1, 3 * horizon as u32);
    with_rubbish(rng, lower)
}

/// Leasts so small that every past can be tried.
pub fn tiny(rng: &mut Rng, horizon: usize) -> Pair {
    let most = rng.pick(if horizon > 3 { &[1, 2, 2] } else { &[1, 2, 3] });
    let lower = (0..horizon).map(|_| rng.below(most + 1) * rng.below(2)).collect();
    with_rubbish(rng, lower)
}

/// Leasts that closing takes.
fn closable(rng: &mut Rng, horizon: usize) -> Vec<u32> {
    match rng.below(10) {
        0..=2 => small(rng, horizon),
        3..=5 => few(rng, horizon),
        6..=7 => about_a_rate(rng, horizon),
        8 => first_windows(rng, horizon),
        _ => extremes(rng, horizon),
    }
}

/// A closure, of which some leasts may be above what closing takes.
pub fn closure_of_any(rng: &mut Rng, horizon: usize) -> Pair {
    let lower = closable(rng, horizon);
    closed(&with_rubbish(rng, lower))
}

/// A closure with one least higher or lower by one: that of the first window, of the last, or of any. It may pass the limit.
pub fn one_least_off(rng: &mut Rng, horizon: usize) -> Pair {
    let mut pair = closure_of_any(rng, horizon);
    let between = rng.length(0, horizon - 1);
    let place = rng.pick(&[0, horizon - 1, between, between]);
    let less = pair.lower[place] > 0 && rng.one_in(2);
    pair.lower[place] = if less { pair.lower[place] - 1 } else { pair.lower[place] + 1 };
    pair
}

/// One of those that closing takes, closed or not.
pub fn to_close(rng: &mut Rng, horizon: usize) -> Pair {
    let lower = match rng.below(6) {
        0 => closure_of_any(rng, horizon).lower,
        1 => one_least_off(rng, horizon).lower,
        _ => closable(rng, horizon),
    };
    with_rubbish(rng, lower.iter().map(|&least| least.min(LEAST_LIMIT)).collect())
}

/// One of those on which a monitor opens, and a generator if it is closed: leasts up to the limit of a figure.
pub fn to_open(rng: &mut Rng, horizon: usize) -> Pair {
    let lower = match rng.below(12) {
        0..=3 => return closure_of_any(rng, horizon),
        4..=5 => return one_least_off(rng, horizon),
        6..=8 => late(rng, horizon),
        9 => (0..horizon).map(|_| rng.between(0, LIMIT) / rng.pick(&[1, 300, 60_000])).collect(),
        _ => closable(rng, horizon),
    };
    with_rubbish(rng, lower)
}

/// A least above a limit, or at it; and anything in the list of ceilings.
pub fn at_limit(rng: &mut Rng, pair: &mut Pair) {
    let figure = rng.pick(&[LEAST_LIMIT, LEAST_LIMIT + 1, LIMIT, LIMIT + 1, LIMIT + 1, u32::MAX]);
    if !pair.lower.is_empty() {
        let place = rng.length(0, pair.lower.len() - 1);
        pair.lower[place] = figure;
    }
}

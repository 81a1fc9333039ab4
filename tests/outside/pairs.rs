//! Pairs with ceilings to try, each within the limits of a pair. Lists that are refused before any figure counts are made where they are
//! used; pairs without ceilings are in `unlimited_pairs`.

use crate::pair::{closed, closure, Pair};
use crate::random::Rng;
use crate::subject::{LIMIT, LONGEST_HORIZON};

pub fn long_horizon(rng: &mut Rng) -> usize {
    if rng.one_in(3) {
        LONGEST_HORIZON
    } else {
        rng.length(65, LONGEST_HORIZON)
    }
}

/// Dense small figures in no order: they cross often.
fn small(rng: &mut Rng, horizon: usize) -> Pair {
    let most = rng.pick(&[1, 2, 3, 5, 9, 20]);
    let divisor = rng.pick(&[1, 1, 2, 4]);
    let mut pair = Pair::filled(horizon, 0, 0);
    for window in 0..horizon {
        pair.upper[window] = rng.below(most + 1) + rng.below(window as u32 + 1);
        pair.lower[window] = rng.below(most + 1) / divisor;
    }
    pair
}

/// Figures about a common rate, a little looser on either side: there is a closure mostly, and many figures count for it.
fn about_a_rate(rng: &mut Rng, horizon: usize) -> Pair {
    let ticks = u64::from(rng.between(1, 16));
    let events = u64::from(rng.below(40)) * rng.pick(&[1, 1, 1, 1_000, 20_000]);
    let slack = rng.pick(&[0, 1, 1, 3, 10, 1_000]) + 1;
    let tighter = u64::from(rng.one_in(6));
    let mut pair = Pair::filled(horizon, 0, 0);
    for window in 1..=horizon {
        let share = window as u64 * events;
        pair.set_upper(window, share.div_ceil(ticks) + u64::from(rng.below(slack)));
        pair.set_lower(window, (share / ticks + tighter).saturating_sub(u64::from(rng.below(slack))));
    }
    pair
}

/// Growing curves, as the theory has them.
fn increasing(rng: &mut Rng, horizon: usize) -> Pair {
    let most = rng.pick(&[2, 4, 10, 500, 60_000]);
    let mut pair = Pair::filled(horizon, 0, 0);
    let (mut upper, mut lower) = (u64::from(rng.below(most)), 0);
    for window in 1..=horizon {
        upper += u64::from(rng.below(most));
        lower += u64::from(rng.below(most / 2));
        pair.set_upper(window, upper);
        pair.set_lower(window, lower);
    }
    pair
}

/// A pair as a text with few records gives it.
fn from_constraints(rng: &mut Rng, horizon: usize) -> Pair {
    let most = rng.pick(&[4, 12, 300, 65_536]);
    let mut named = vec![None; horizon];
    named[horizon - 1] = Some(rng.below(most));
    for _ in 0..rng.below(4) {
        named[rng.length(0, horizon - 1)] = Some(rng.below(most));
    }
    let smallest = named.iter().flatten().copied().min().unwrap_or(0);
    let mut pair = Pair::filled(horizon, 0, 0);
    for window in 1..=horizon {
        pair.set_upper(window, named[window - 1].map_or(u64::from(smallest) * window as u64, u64::from));
        if named[window - 1].is_some() {
            pair.set_lower(window, u64::from(rng.below(smallest + 1)) * rng.pick(&[0, 1, window as u64 / 2]));
        }
    }
    pair
}

/// Two windows with a bound each and every other figure as loose as it can be: the most rounds that there are. The least is what the
/// rate of the ceiling allows, or one on either side of that.
pub fn two_windows(rng: &mut Rng, horizon: usize) -> Pair {
    let mut pair = Pair::loose(horizon);
    let few = rng.length(1, horizon);
    let many = if rng.one_in(2) {
        horizon - rng.length(0, 3).min(horizon - 1)
    } else {
        rng.length(1, horizon)
    };
    let upper = rng.pick(&[1u64, 7, 4_000, 30_000]) * few as u64 + u64::from(rng.below(2));
    pair.set_upper(few, upper);
    pair.set_lower(
        many,
        (upper * many as u64 / few as u64 + u64::from(rng.below(2))).saturating_sub(u64::from(rng.below(3))),
    );
    pair
}

/// The pair with the most rounds of all: nine.
pub fn nine_rounds() -> Pair {
    let mut pair = Pair::loose(LONGEST_HORIZON);
    pair.set_upper(5, 200_000);
    pair.set_lower(253, 10_120_000);
    pair
}

/// Nothing but the smallest and the largest figures.
fn extremes(rng: &mut Rng, horizon: usize) -> Pair {
    let mut pair = Pair::loose(horizon);
    for window in 0..horizon {
        pair.upper[window] = rng.pick(&[LIMIT, LIMIT, LIMIT - 1, LIMIT / 2, 1, 0]);
        pair.lower[window] = rng.pick(&[0, 0, 0, 1, LIMIT / 2, LIMIT - 1, LIMIT]);
    }
    pair
}

/// Any figures at all.
fn anything(rng: &mut Rng, horizon: usize) -> Pair {
    let mut pair = Pair::filled(horizon, 0, 0);
    for window in 0..horizon {
        pair.upper[window] = rng.between(0, LIMIT);
        pair.lower[window] = rng.between(0, LIMIT) / rng.pick(&[1, 8, 300]);
    }
    pair
}

/// A closed pair with one figure a little off, either way.
fn nearly_closed(rng: &mut Rng, horizon: usize) -> Pair {
    let base = about_a_rate(rng, horizon);
    let mut pair = closed(&base);
    let window = rng.length(1, horizon);
    let step = u64::from(rng.between(1, 2));
    let (upper, lower) = (u64::from(pair.upper[window - 1]), u64::from(pair.lower[window - 1]));
    match rng.below(4) {
        0 => pair.set_upper(window, upper + step),
        1 => pair.set_upper(window, upper.saturating_sub(step)),
        2 => pair.set_lower(window, lower + step),
        _ => pair.set_lower(window, lower.saturating_sub(step)),
    }
    pair
}

/// A closure with exactly one figure higher or lower by one: that of the first window, of the last, or of any. It may pass the limit.
pub fn one_figure_off(rng: &mut Rng, horizon: usize) -> Pair {
    let mut pair = closure_of_any(rng, horizon);
    let list = if rng.one_in(2) { &mut pair.upper } else { &mut pair.lower };
    let between = rng.length(0, horizon - 1);
    let place = rng.pick(&[0, horizon - 1, between, between]);
    let less = list[place] > 0 && rng.one_in(2);
    list[place] = if less { list[place] - 1 } else { list[place] + 1 };
    pair
}

/// A closed pair with many figures made looser: closing has to find them again where they follow from the others.
fn loosened(rng: &mut Rng, horizon: usize) -> Pair {
    let base = if rng.one_in(3) {
        increasing(rng, horizon)
    } else {
        about_a_rate(rng, horizon)
    };
    let mut pair = closed(&base);
    let far = rng.pick(&[3, 30, 100_000]);
    for window in 1..=horizon {
        if rng.one_in(2) {
            let upper = u64::from(pair.upper[window - 1]);
            pair.set_upper(window, upper + u64::from(rng.below(far)));
        }
        if rng.one_in(2) {
            let lower = u64::from(pair.lower[window - 1]);
            pair.set_lower(window, lower.saturating_sub(u64::from(rng.below(far))));
        }
    }
    pair
}

/// One least above its ceiling as given.
fn crossing(rng: &mut Rng, horizon: usize) -> Pair {
    let mut pair = about_a_rate(rng, horizon);
    let window = rng.length(1, horizon);
    let upper = u64::from(pair.upper[window - 1]);
    pair.set_lower(window, upper + u64::from(rng.between(1, 4)));
    pair
}

/// A pair of any kind.
pub fn any(rng: &mut Rng, horizon: usize) -> Pair {
    match rng.below(16) {
        0..=2 => small(rng, horizon),
        3..=5 => about_a_rate(rng, horizon),
        6 => increasing(rng, horizon),
        7 => from_constraints(rng, horizon),
        8 => two_windows(rng, horizon),
        9 => extremes(rng, horizon),
        10 => anything(rng, horizon),
        11..=12 => nearly_closed(rng, horizon),
        13..=14 => loosened(rng, horizon),
        _ => crossing(rng, horizon),
    }
}

/// A closure; some have ceilings at the limit.
pub fn closure_of_any(rng: &mut Rng, horizon: usize) -> Pair {
    loop {
        let pair = match rng.below(8) {
            0 => any(rng, horizon),
            1 => two_windows(rng, horizon),
            2 => burst(rng, horizon),
            3 => one_least(rng, horizon),
            _ => lasting(rng, horizon),
        };
        if let Some(closed) = closure(&pair) {
            return closed;
        }
    }
}

/// A least for one window and no other bound: in the closure the ceiling of the horizon is still at the limit.
fn one_least(rng: &mut Rng, horizon: usize) -> Pair {
    let mut pair = Pair::loose(horizon);
    pair.lower[rng.length(0, horizon - 1)] = rng.below(9);
    pair
}

/// A pair on which some stream goes on for a while: for scripts.
pub fn lasting(rng: &mut Rng, horizon: usize) -> Pair {
    match rng.below(4) {
        0 => about_a_rate(rng, horizon),
        1 => increasing(rng, horizon),
        2 => loosened(rng, horizon),
        _ => from_constraints(rng, horizon),
    }
}

/// A pair that has a closure and is another: most of these let streams begin that cannot go on. There is none with one window.
pub fn unclosed(rng: &mut Rng, horizon: usize) -> Pair {
    loop {
        let pair = match rng.below(8) {
            0 => about_a_rate(rng, horizon),
            1 => increasing(rng, horizon),
            2 => from_constraints(rng, horizon),
            3 => two_windows(rng, horizon),
            4 => nearly_closed(rng, horizon),
            _ => loosened(rng, horizon),
        };
        if closure(&pair).is_some_and(|closed| closed != pair) {
            return pair;
        }
    }
}

/// A ceiling for the horizon and a least for a short window. After a burst, the least and no more can follow, and it is a long window
/// that tells so.
pub fn burst(rng: &mut Rng, horizon: usize) -> Pair {
    let mut pair = Pair::loose(horizon);
    let window = rng.length(1, 3.min(horizon));
    let lower = rng.between(1, 4);
    pair.lower[window - 1] = lower;
    pair.upper[horizon - 1] = lower * (1 + horizon / window) as u32 + rng.below(90);
    pair
}

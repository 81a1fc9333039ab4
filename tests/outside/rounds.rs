//! Closing by its rule: rounds that take every figure from the old ones, in 64 bits, until one changes nothing or some least is above
//! its ceiling. Those of a pair without ceilings are in `sums`.

use crate::pair::Pair;
use crate::subject::{answered, refused, LEAST_LIMIT, LIMIT, LONGEST_HORIZON};
use crate::sums;

/// Two curves; entry d is the window of d ticks, and entry 0 is not used.
#[derive(Clone, PartialEq)]
pub struct Curves {
    pub upper: Vec<i64>,
    pub lower: Vec<i64>,
}

/// The figures that the rounds stop at, and how many of them changed one.
pub struct Stop {
    pub curves: Curves,
    pub rounds: u32,
}

fn widened(figures: &[u32]) -> Vec<i64> {
    let mut list = vec![0];
    list.extend(figures.iter().map(|&figure| i64::from(figure)));
    list
}

/// The list without its entry 0. Only for curves of a closure, whose figures fit in 32 bits.
pub fn narrowed(curve: &[i64]) -> Vec<u32> {
    curve[1..].iter().map(|&figure| figure as u32).collect()
}

impl Curves {
    pub fn new(upper: &[u32], lower: &[u32]) -> Curves {
        Curves {
            upper: widened(upper),
            lower: widened(lower),
        }
    }

    pub fn horizon(&self) -> usize {
        self.upper.len() - 1
    }

    pub fn crosses(&self) -> bool {
        (1..=self.horizon()).any(|d| self.lower[d] > self.upper[d])
    }

    fn tighten_upper(&mut self, d: usize, candidate: i64) {
        self.upper[d] = self.upper[d].min(candidate);
    }

    fn tighten_lower(&mut self, d: usize, candidate: i64) {
        self.lower[d] = self.lower[d].max(candidate);
    }
}

fn round(old: &Curves) -> Curves {
    let horizon = old.horizon();
    let mut new = old.clone();
    for d in 1..=horizon {
        for a in 1..d {
            new.tighten_upper(d, old.upper[a] + old.upper[d - a]);
            new.tighten_lower(d, old.lower[a] + old.lower[d - a]);
        }
        for t in 1..=horizon - d {
            new.tighten_upper(d, old.upper[d + t] - old.lower[t]);
            new.tighten_lower(d, old.lower[d + t] - old.upper[t]);
        }
    }
    new
}

pub fn run(upper: &[u32], lower: &[u32]) -> Stop {
    let mut curves = Curves::new(upper, lower);
    let mut rounds = 0;
    while !curves.crosses() {
        let next = round(&curves);
        if next == curves {
            break;
        }
        curves = next;
        rounds += 1;
    }
    Stop { curves, rounds }
}

/// The closure and its count of changing rounds, or nothing where the figures cross.
pub fn close(upper: &[u32], lower: &[u32]) -> Option<Stop> {
    Some(run(upper, lower)).filter(|stop| !stop.curves.crosses())
}

/// What question 4 asks of a figure: closing asks less of the leasts of a pair without ceilings, so that those of its closure are within
/// the limit of a pair too.
pub fn closing_limit(pair: &Pair) -> u32 {
    if pair.unlimited() {
        LEAST_LIMIT
    } else {
        LIMIT
    }
}

/// Questions 1, 2 and 4, as an opening asks them; closing, with the lengths of its result lists, asks 3 before 4. 0 where all are
/// answered well.
pub fn opening(pair: &Pair, closed_lengths: Option<(usize, usize)>) -> u32 {
    let horizon = pair.horizon();
    if horizon < 1 || horizon > LONGEST_HORIZON {
        return 1;
    }
    if pair.lower.len() != horizon {
        return 2;
    }
    if closed_lengths.is_some_and(|lengths| lengths.0 < horizon || lengths.1 < horizon) {
        return 3;
    }
    if pair.is_over(closed_lengths.map_or(LIMIT, |_| closing_limit(pair))) {
        return 4;
    }
    0
}

/// Closing as a whole: the questions, then the closure into the first entries of the result lists; without ceilings into one of them.
pub fn close_into(pair: &Pair, closed_upper: &mut [u32], closed_lower: &mut [u32]) -> u64 {
    let number = opening(pair, Some((closed_upper.len(), closed_lower.len())));
    if number != 0 {
        return refused(number);
    }
    let horizon = pair.horizon();
    if pair.unlimited() {
        let closed = sums::over_parts(&pair.lower);
        closed_lower
            .iter_mut()
            .zip(&closed)
            .for_each(|(entry, &least)| *entry = least as u32);
        return answered(sums::run(&pair.lower).rounds, true);
    }
    match close(&pair.upper, &pair.lower) {
        None => refused(5),
        Some(closed) => {
            closed_upper[..horizon].copy_from_slice(&narrowed(&closed.curves.upper));
            closed_lower[..horizon].copy_from_slice(&narrowed(&closed.curves.lower));
            answered(closed.rounds, false)
        }
    }
}

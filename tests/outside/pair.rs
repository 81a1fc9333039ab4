//! A pair of curves with its mark, and its closure.

use crate::subject::LIMIT;
use crate::{rounds, sums};

#[derive(Clone)]
pub struct Pair {
    pub upper: Vec<u32>,
    pub lower: Vec<u32>,
    /// As a call takes it: any number but 0 says that there are no ceilings. The first list is then as long as the horizon, and what
    /// stands in it has no effect.
    pub mark: u32,
}

/// The same mark, horizon and figures. Ceilings count where there are any, and one number that sets the mark is as good as another.
impl PartialEq for Pair {
    fn eq(&self, other: &Pair) -> bool {
        let same_ceilings = if self.unlimited() {
            self.upper.len() == other.upper.len()
        } else {
            self.upper == other.upper
        };
        self.unlimited() == other.unlimited() && same_ceilings && self.lower == other.lower
    }
}

impl Pair {
    /// With ceilings.
    pub fn new(upper: &[u32], lower: &[u32]) -> Pair {
        Pair::marked(upper, lower, 0)
    }

    pub fn marked(upper: &[u32], lower: &[u32], mark: u32) -> Pair {
        Pair {
            upper: upper.to_vec(),
            lower: lower.to_vec(),
            mark,
        }
    }

    pub fn filled(horizon: usize, upper: u32, lower: u32) -> Pair {
        Pair::new(&vec![upper; horizon], &vec![lower; horizon])
    }

    /// The loosest figures that there are.
    pub fn loose(horizon: usize) -> Pair {
        Pair::filled(horizon, LIMIT, 0)
    }

    pub fn horizon(&self) -> usize {
        self.upper.len()
    }

    pub fn unlimited(&self) -> bool {
        self.mark != 0
    }

    /// The ceiling of a window, where there are any.
    pub fn ceiling(&self, window: usize) -> Option<u64> {
        (!self.unlimited()).then(|| u64::from(self.upper[window - 1]))
    }

    pub fn least(&self, window: usize) -> u64 {
        u64::from(self.lower[window - 1])
    }

    /// Whether some figure is above a limit; ceilings count where there are any.
    pub fn is_over(&self, limit: u32) -> bool {
        let above = |list: &[u32]| list.iter().any(|&figure| figure > limit);
        above(&self.lower) || (!self.unlimited() && above(&self.upper))
    }

    /// Whether question 4 of an opening is answered no.
    pub fn over_limit(&self) -> bool {
        self.is_over(LIMIT)
    }

    /// Whether some least is above its ceiling, among the windows that both lists have.
    pub fn crosses(&self) -> bool {
        let crossing = |(upper, lower): (&u32, &u32)| lower > upper;
        !self.unlimited() && self.upper.iter().zip(&self.lower).any(crossing)
    }

    pub fn set_upper(&mut self, window: usize, figure: u64) {
        self.upper[window - 1] = figure.min(u64::from(LIMIT)) as u32;
    }

    pub fn set_lower(&mut self, window: usize, figure: u64) {
        self.lower[window - 1] = figure.min(u64::from(LIMIT)) as u32;
    }

    /// As it is shown when something differs.
    pub fn shown(&self) -> String {
        format!("  upper {:?}\n  lower {:?}\n  mark {}", self.upper, self.lower, self.mark)
    }
}

/// The closure, where there is one. Without ceilings there always is; its leasts may be above the limit where those given are above
/// the one of closing, and fit all the same.
pub fn closure(pair: &Pair) -> Option<Pair> {
    if pair.unlimited() {
        let lower: Vec<u32> = sums::over_parts(&pair.lower).iter().map(|&least| least as u32).collect();
        return Some(Pair::marked(&pair.upper, &lower, pair.mark));
    }
    rounds::close(&pair.upper, &pair.lower)
        .map(|closed| Pair::new(&rounds::narrowed(&closed.curves.upper), &rounds::narrowed(&closed.curves.lower)))
}

/// Whether closing gives the pair back.
pub fn closes_to_itself(pair: &Pair) -> bool {
    closure(pair).is_some_and(|closed| closed == *pair)
}

/// The closure where there is one, else the pair itself.
pub fn closed(pair: &Pair) -> Pair {
    closure(pair).unwrap_or_else(|| pair.clone())
}

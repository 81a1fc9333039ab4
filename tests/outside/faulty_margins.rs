//! The margin with a fault. The faults of verdicts have no effect on it, so that each is told apart by what it does itself.

use std::ops::RangeInclusive;

use crate::faults::Fault::*;
use crate::faulty_closing::{Faulty, Figures};
use crate::faulty_monitor::Monitor;
use crate::faulty_streams::{History, BORDER, FAR};
use crate::streams::Margin;
use crate::subject::{LEAST_LIMIT, LIMIT, LOST, PASSED};

impl Faulty {
    /// The ceiling that a margin goes by. Without ceilings it is so far that the least is always nearer.
    fn margin_ceiling(&self, figures: &Figures, window: usize) -> i64 {
        match self.fault {
            MarginOfNoCeiling => figures.upper[window],
            MarginOfStandIns if figures.unlimited => window as i64 * i64::from(LEAST_LIMIT),
            _ if figures.unlimited => FAR,
            _ => figures.upper[window],
        }
    }

    fn window_margin(&self, history: &History, figures: &Figures, count: u32, window: usize) -> i64 {
        let whole = i64::from(count) + history.before(window - 1);
        let sum = match self.fault {
            MarginAtBorder => whole.min(BORDER),
            MarginOfCutCounts => i64::from(count.min(LIMIT)) + history.before(window - 1),
            _ => whole,
        };
        let (above, below) = (self.margin_ceiling(figures, window) - sum, sum - figures.lower[window]);
        match self.fault {
            MarginLarger => above.max(below),
            MarginUnsigned => (above as u64).min(below as u64) as i64,
            MarginByUpperOnly => above,
            MarginByLowerOnly => below,
            MarginCutOff => above.min(below).max(0),
            MarginHalfWidth => i64::from((above as i32).min(below as i32)),
            _ => above.min(below),
        }
    }

    /// The windows that are looked at. The one that a verdict names is 0 where it names none.
    fn margin_windows(&self, history: &History, named: usize) -> RangeInclusive<usize> {
        let last = history.horizon().min(history.held.len() + 1);
        match self.fault {
            MarginEmptyTicksBefore => 1..=history.horizon(),
            MarginWithoutLongest => 1..=(last - 1).max(1),
            MarginOfVerdict if named > 0 => named..=named,
            MarginUpToVerdict if named > 0 => 1..=named,
            _ => 1..=last,
        }
    }

    /// Whether a margin takes the place of one of a shorter window.
    fn takes_place(&self, margin: i64, found: i64) -> bool {
        match self.fault {
            MarginInLongest => margin <= found,
            MarginsUnsigned => (margin as u64) < found as u64,
            _ => margin < found,
        }
    }

    fn margin_by(&self, history: &History, figures: &Figures, count: u32, verdict: u32) -> Margin {
        let named = verdict % 1_000;
        let margins = self
            .margin_windows(history, named as usize)
            .map(|window| (self.window_margin(history, figures, count, window), window as u32));
        let smallest = margins.reduce(|found, next| if self.takes_place(next.0, found.0) { next } else { found });
        let (smallest, window) = smallest.unwrap_or_default();
        let window = match self.fault {
            MarginNamesVerdict if named > 0 => named,
            MarginFromZero => window - 1,
            _ => window,
        };
        Margin { smallest, window }
    }

    /// The margin that goes with a verdict.
    pub fn margin(&self, monitor: &Monitor, count: u32, verdict: u32) -> Margin {
        let by = |figures: &Figures| self.margin_by(&monitor.history, figures, count, verdict);
        let (given, closed) = (by(&monitor.history.given), by(&monitor.closed));
        match self.fault {
            MarginOfClosed => closed,
            MarginOfBoth if closed.smallest < given.smallest => closed,
            MarginOfClosedWhereLost if verdict == LOST => closed,
            NoMarginWhereLost if verdict == LOST => Margin::default(),
            NoMarginWherePassed if verdict == PASSED => Margin::default(),
            _ => given,
        }
    }
}

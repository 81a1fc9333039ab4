//! What request P5 says of a margin, by trying: other counts in the place of the one that came, and window by window. The margins
//! themselves are the reference's, as they are compared with the program's.

use std::cmp::Ordering;
use std::ops::RangeInclusive;

use crate::pair::Pair;
use crate::states::kind_and_window;
use crate::streams::{margin, sum, verdict, window_margin, Margin};
use crate::subject::{LOST, PASSED, TOO_FEW, TOO_MANY};
use crate::tally::{Tally, MARGIN_BY, MARGIN_CLOSED, MARGIN_CROSSING, MARGIN_LOST};
use crate::tally::{MARGIN_PAST, MARGIN_REJECTED, MARGIN_SHARED, MARGIN_WINDOW};

/// So many counts within a margin are tried.
const MOST_TRIED: i64 = 10_000;

/// A tick that was judged: the pairs, the stream with its count at the end, and what was answered.
pub struct Tick<'a> {
    pub given: &'a Pair,
    pub closed: &'a Pair,
    pub stream: &'a [u32],
    pub answer: u32,
    pub margin: Margin,
}

/// Which of the counts one past the margin are outside.
struct Past {
    more: bool,
    fewer: bool,
}

/// 0 for a negative margin, 1 for 0, 2 for a positive one.
pub fn sign(margin: i64) -> u32 {
    match margin.cmp(&0) {
        Ordering::Less => 0,
        Ordering::Equal => 1,
        Ordering::Greater => 2,
    }
}

impl Tick<'_> {
    fn windows(&self) -> RangeInclusive<usize> {
        1..=self.given.horizon().min(self.stream.len())
    }

    fn count(&self) -> i64 {
        i64::from(self.stream[self.stream.len() - 1])
    }

    /// The figures of a window, and its sum. Where there are no ceilings, a number stands for one that no sum and no margin comes near.
    fn figures_and_sum(&self, window: usize) -> (i64, i64, i64) {
        let most = self.given.ceiling(window).map_or(i64::MAX / 2, |most| most as i64);
        let total = sum(&self.stream[self.stream.len() - window..]) as i64;
        (most, self.given.least(window) as i64, total)
    }

    /// Whether another count in the place of the last would be too many or too few. A number that is no count is neither.
    fn is_outside_with(&self, count: i64) -> bool {
        let before = &self.stream[..self.stream.len() - 1];
        u32::try_from(count).is_ok_and(|count| verdict(self.given, &[before, &[count]].concat()) != PASSED)
    }

    /// Negative exactly for 'too many' and 'too few'. The window is then outside too, so it is not shorter than the verdict's.
    fn sign_is_right(&self) -> bool {
        let (kind, window) = kind_and_window(self.answer);
        let outside = matches!(kind * 1_000, TOO_MANY | TOO_FEW);
        outside == (self.margin.smallest < 0) && window <= self.margin.window
    }

    /// In a window whose figures do not cross: 0 exactly on a limit, negative exactly outside.
    fn limits_are_right(&self) -> bool {
        self.windows().all(|window| {
            let (most, least, total) = self.figures_and_sum(window);
            let found = window_margin(self.given, self.stream, window);
            least > most || ((found == 0) == (total == most || total == least) && (found < 0) == (total < least || total > most))
        })
    }

    fn past(&self) -> Past {
        let far = self.margin.smallest + 1;
        Past {
            more: self.is_outside_with(self.count() + far),
            fewer: far <= self.count() && self.is_outside_with(self.count() - far),
        }
    }

    /// So many more or fewer are neither too many nor too few, and with one beyond that, more or fewer, the tick is one of them. Where
    /// that would be fewer than none, it need not be: then the least of the window is the margin below its sum.
    fn reach_is_right(&self) -> bool {
        let Margin { smallest, window } = self.margin;
        if smallest < 0 {
            return true;
        }
        let (first, last) = ((self.count() - smallest).max(0), self.count() + smallest);
        // Where there are very many, every so many of them.
        let step = 1 + (last - first) / MOST_TRIED;
        let mut tried = (first..=last).step_by(step as usize).chain([last]);
        let all_inside = tried.all(|count| !self.is_outside_with(count));
        let (_, least, total) = self.figures_and_sum(window as usize);
        let past = self.past();
        let none_fewer = self.count() <= smallest && least + smallest == total;
        all_inside && (past.more || past.fewer || none_fewer)
    }

    pub fn check(&self) -> Result<(), String> {
        if self.sign_is_right() && self.limits_are_right() && self.reach_is_right() {
            return Ok(());
        }
        let (kind, window) = kind_and_window(self.answer);
        let answered = format!("{kind} in {window}, margin {} in {}", self.margin.smallest, self.margin.window);
        Err(format!(
            "what request P5 says does not hold of\n{}\n  stream {:?}\nanswered {answered}",
            self.given.shown(),
            self.stream
        ))
    }

    /// What came up in one tick.
    pub fn note(&self, tally: &mut Tally) {
        let Margin { smallest, window } = self.margin;
        let (kind, rejected) = kind_and_window(self.answer);
        tally.note(MARGIN_WINDOW, window);
        self.note_figures(tally);
        tally.note(MARGIN_CLOSED, sign(margin(self.closed, self.stream).smallest - smallest));
        if smallest < 0 {
            tally.note(MARGIN_REJECTED, u32::from(window != rejected));
        } else {
            let past = self.past();
            tally.note(MARGIN_PAST, u32::from(past.more) + 2 * u32::from(past.fewer));
        }
        if kind * 1_000 == LOST {
            tally.note(MARGIN_LOST, sign(smallest));
        }
    }

    /// By which figure of its window the margin is what it is, and whether other windows have it too.
    fn note_figures(&self, tally: &mut Tally) {
        let Margin { smallest, window } = self.margin;
        let (most, least, total) = self.figures_and_sum(window as usize);
        let (by_most, by_least) = (most - total == smallest, total - least == smallest);
        tally.note(MARGIN_BY, u32::from(by_most) + 2 * u32::from(by_least));
        let having = self
            .windows()
            .filter(|&other| window_margin(self.given, self.stream, other) == smallest);
        tally.note(MARGIN_SHARED, having.count().min(2) as u32);
        if least > most {
            tally.note(MARGIN_CROSSING, u32::from(total > most) + u32::from(total < least));
        }
    }
}

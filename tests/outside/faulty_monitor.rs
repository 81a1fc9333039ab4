//! The monitor with a fault: its opening, its ticks, and what it asks of a state. Its margin is in `faulty_margins`.

use std::ops::RangeInclusive;

use crate::faults::Fault::*;
use crate::faulty_closing::{Asker, Faulty, Figures, Lists};
use crate::faulty_streams::{lists_of, History, BORDER, FAR};
use crate::pair::Pair;
use crate::runs::{Course, Run};
use crate::states::State;
use crate::streams::Margin;
use crate::subject::{ALREADY_FAILED, LEAST_LIMIT, LIMIT, LOST, PASSED, REFUSED, TOO_FEW, TOO_MANY};
use crate::words::Kind;

/// From so many ticks on a list is long.
const LONG: usize = 1_000;

/// A history, the closed figures, and what a failed monitor failed with.
pub struct Monitor {
    pub history: History,
    pub closed: Figures,
    pub failed: u32,
}

impl Faulty {
    pub fn monitor(&self, given: Figures, closed: Figures, held: &[u32]) -> Monitor {
        Monitor {
            history: self.history(given, held),
            closed,
            failed: PASSED,
        }
    }

    /// On the words of a state that has its sizes. A generator's history is one of these too.
    pub fn monitor_of(&self, state: &State) -> Monitor {
        let (given, closed) = (Figures::new(lists_of(&state.given())), Figures::new(lists_of(&state.closed())));
        let failed = if state.failed { ALREADY_FAILED } else { PASSED };
        Monitor {
            failed,
            ..self.monitor(given, closed, state.stream())
        }
    }

    fn judged_windows(&self, history: &History) -> usize {
        if self.has(EmptyTicksBefore) {
            return history.horizon();
        }
        let second_of_two = history.is_full() && history.ran_full % 2 == 1;
        match self.fault {
            SecondOfTwoShort if second_of_two => history.held.len().max(1),
            _ => history.horizon().min(history.held.len() + 1),
        }
    }

    /// The windows that the closed figures are looked at in.
    fn closed_windows(&self, history: &History) -> RangeInclusive<usize> {
        let last = self.judged_windows(history);
        match self.fault {
            LostByFirstWindow => 1..=1,
            LostByLastWindow => last..=last,
            LostEmptyTicksBefore => 1..=history.horizon(),
            LostAtFirstTickOnly if last > 1 => 1..=0,
            LostWhileFillingOnly if last == history.horizon() => 1..=0,
            _ => 1..=last,
        }
    }

    fn window_sum(&self, history: &History, count: u32, window: usize) -> i64 {
        let whole = self.has(HeldOneTooMany) && window == history.horizon();
        let count = if self.has(CountsIn29Bits) {
            i64::from(count) % BORDER
        } else {
            i64::from(count)
        };
        let sum = count + history.before(if whole { window } else { window - 1 });
        if self.has(BorderOfTwoTicks) && sum == BORDER && count < BORDER {
            return 0;
        }
        self.kept(sum)
    }

    /// Whether some window has a sum above the border.
    fn over_border(&self, history: &History, count: u32) -> bool {
        self.window_sum(history, count, self.judged_windows(history)) > BORDER
    }

    /// The ceiling that a tick is judged by.
    fn judged_ceiling(&self, figures: &Figures, window: usize) -> i64 {
        match self.fault {
            CeilingJudged => figures.upper[window],
            StandInsJudged if figures.unlimited => window as i64 * i64::from(LEAST_LIMIT),
            CountsLimited if figures.unlimited && window == 1 => i64::from(LIMIT),
            _ if figures.unlimited => FAR,
            _ => figures.upper[window],
        }
    }

    /// The verdict of one window by itself.
    fn window_verdict(&self, history: &History, figures: &Figures, count: u32, window: usize) -> u32 {
        let sum = self.window_sum(history, count, window);
        let many = sum + i64::from(self.has(UpperItselfTooMany)) > self.judged_ceiling(figures, window);
        let few = sum - i64::from(self.has(LowerItselfTooFew)) < figures.lower[window];
        let named = window as u32 - u32::from(self.has(WindowFromZero));
        match (many, few) {
            (true, true) if self.has(TooFewFirst) => TOO_FEW + named,
            (true, _) => TOO_MANY + named,
            (_, true) => TOO_FEW + named,
            _ => PASSED,
        }
    }

    /// The windows that are outside the figures, as verdicts, the shortest first.
    fn outside(&self, history: &History, figures: &Figures, count: u32, windows: RangeInclusive<usize>) -> Vec<u32> {
        windows
            .map(|window| self.window_verdict(history, figures, count, window))
            .filter(|&verdict| verdict != PASSED)
            .collect()
    }

    fn verdict(&self, history: &History, figures: &Figures, count: u32) -> u32 {
        match self.fault {
            FirstTickOnly if !history.held.is_empty() => return PASSED,
            BorderPasses if self.over_border(history, count) => return PASSED,
            BorderStays if history.was_over => return PASSED,
            BorderRejects if self.over_border(history, count) => return TOO_MANY + self.judged_windows(history) as u32,
            _ => {}
        }
        let all = self.outside(history, figures, count, 1..=self.judged_windows(history));
        let mut outside = all.iter().copied();
        let found = match self.fault {
            LongestWindow => outside.next_back(),
            TooManyOverAll => outside.clone().find(|&verdict| verdict < TOO_FEW).or(outside.next()),
            _ => outside.next(),
        };
        found.unwrap_or(PASSED)
    }

    /// Whether the closed figures find the tick lost, and in which window.
    fn lost_in(&self, monitor: &Monitor, count: u32) -> Option<u32> {
        let history = &monitor.history;
        let without = history.given.unlimited && !self.has(LostWithoutCeilings);
        let never = match self.fault {
            NeverLost => true,
            FirstTickOnly => !history.held.is_empty(),
            ClosedShortOnly => history.ran >= LONG,
            _ => false,
        };
        if without || never {
            return None;
        }
        let anew = self.has(LostByClosingAnew).then(|| self.rounds(history.given.clone()).0);
        let figures = anew.as_ref().unwrap_or(&monitor.closed);
        self.outside(history, figures, count, self.closed_windows(history))
            .into_iter()
            .find(|&verdict| match self.fault {
                LostByUpperOnly => verdict < TOO_FEW,
                LostByLowerOnly => verdict >= TOO_FEW,
                _ => true,
            })
            .map(|verdict| verdict % 1_000)
    }

    /// The figures as given go first, then the closed ones.
    fn ruling(&self, monitor: &Monitor, count: u32) -> u32 {
        let figures = if self.has(ClosedAlone) {
            &monitor.closed
        } else {
            &monitor.history.given
        };
        let verdict = match self.fault {
            GivenShortOnly if monitor.history.ran >= LONG => PASSED,
            _ => self.verdict(&monitor.history, figures, count),
        };
        match self.lost_in(monitor, count) {
            Some(window) if verdict == PASSED => LOST + if self.has(LostNamesWindow) { window } else { 0 },
            Some(_) if self.has(LostFirst) => LOST,
            _ => verdict,
        }
    }

    fn monitor_tick(&self, monitor: &mut Monitor, count: u32) -> u32 {
        if monitor.failed != PASSED {
            return match self.fault {
                VerdictRepeated => monitor.failed,
                LostRepeated if monitor.failed == LOST => LOST,
                _ => ALREADY_FAILED,
            };
        }
        let verdict = self.ruling(monitor, count);
        let lost = verdict >= LOST;
        let held = match self.fault {
            RejectedHeld | RecoversAndHolds => true,
            LostHeld | LostGoesOn => lost,
            _ => false,
        };
        let goes_on = match self.fault {
            Recovers | RecoversAndHolds => true,
            LostNotMarked | LostGoesOn => lost,
            _ => false,
        };
        if verdict == PASSED || held {
            self.hold(&mut monitor.history, count);
        }
        if !goes_on {
            monitor.failed = verdict;
        }
        if verdict != PASSED && self.has(RejectionLosesMark) {
            monitor.history.given.unlimited = false;
        }
        verdict
    }

    /// The same with the margin, where it is asked for. It is that of the history before the tick.
    pub fn whole_tick(&self, monitor: &mut Monitor, count: u32, asked: bool) -> (u32, Margin) {
        let margin = match monitor.failed {
            _ if !asked => Margin::default(),
            PASSED => self.margin(monitor, count, self.ruling(monitor, count)),
            _ if self.has(MarginWhereFailed) => self.margin(monitor, count, PASSED),
            _ => Margin::default(),
        };
        (self.monitor_tick(monitor, count), margin)
    }

    /// The closed figures of a monitor that is opened, or the number of the refusal.
    fn closed_at_opening(&self, lists: Lists) -> Result<Figures, u32> {
        let number = self.opening(lists);
        if number == 4 && self.has(OpeningAsksFiveFirst) && self.given_crosses(lists) {
            return Err(5);
        }
        if number != 0 {
            return Err(number);
        }
        let given = Figures::new(lists);
        if lists.unlimited {
            return Ok(given);
        }
        let (figures, rounds, crosses) = self.rounds(given.clone());
        match self.fault {
            ClosesNothing => Ok(given),
            NeverFive => Ok(figures),
            FiveForGivenCrossing if !self.given_crosses(lists) => Ok(figures),
            FiveForUnclosed if rounds > 0 => Err(5),
            _ if crosses => Err(5),
            ClosesByOneRound if rounds > 1 => Ok(self.round(&given)),
            _ => Ok(figures),
        }
    }

    /// The figures of a monitor that is opened, with the closed ones, or the number of the refusal.
    pub fn monitor_opened(&self, given: Lists) -> Result<(Figures, Figures), u32> {
        let unlimited = given.unlimited && !self.has(MonitorIgnoresMark);
        let lists = Lists { unlimited, ..given };
        let closed = self.closed_at_opening(lists)?;
        Ok((Figures::new(lists), closed))
    }

    /// A stream on the monitor that an opening hands out, with the margins. A refused one leaves nothing that a margin could be of.
    pub fn course(&self, run: &Run) -> Course {
        let given = || Figures::new(lists_of(&run.pair));
        let (opening, figures) = match self.monitor_opened(lists_of(&run.pair)) {
            Err(opening) if self.has(RefusedHandsOutPair) => (opening, (given(), given())),
            Err(opening) => {
                let ticks = vec![(REFUSED + 12, Margin::default()); run.counts.len()];
                return Course { opening, ticks };
            }
            Ok(figures) => (0, figures),
        };
        let mut monitor = self.monitor(figures.0, figures.1, &[]);
        let ticks = run.counts.iter().map(|&count| self.whole_tick(&mut monitor, count, true)).collect();
        Course { opening, ticks }
    }

    fn closed_over_limit(&self, state: &State) -> bool {
        let over = |pair: &Pair| self.over_limit(lists_of(pair), Asker::State);
        match self.fault {
            _ if state.unlimited() && !self.has(TwelveAsksClosed) => false,
            ClosedNotLimited => false,
            ClosedLowerNotLimited => over(&Pair::new(&state.closed().upper, &[])),
            ClosedPastHorizonLimited => over(state.whole_closed()),
            _ => over(&state.closed()),
        }
    }

    /// Question 12, of words that are as many as they must be.
    pub fn is_bad(&self, kind: Kind, state: &State) -> bool {
        let over = |pair: Pair| self.over_limit(lists_of(&pair), Asker::State);
        !state.has_sizes() || over(state.given()) || (kind == Kind::Monitor && self.closed_over_limit(state))
    }
}

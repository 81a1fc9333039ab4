//! The generator with a fault, and what it shares with the monitor: a history with held ticks, as the rule describes it.

use crate::faults::Fault::{self, *};
use crate::faulty_closing::{Faulty, Figures, Lists};
use crate::pair::Pair;
use crate::subject::{LIMIT, NO_COUNT};

/// A ceiling that no window of counts reaches, nor any margin.
pub const FAR: i64 = 1 << 60;
/// Sums may be kept in another way above this.
pub const BORDER: i64 = 1 << 29;

/// A pair and the ticks held.
pub struct History {
    pub given: Figures,
    pub held: Vec<u32>,
    /// The ticks that are summed: those held, unless a fault took some for others when the list began.
    summed: Vec<u32>,
    /// The sums of the last of them, that of none first.
    sums: Vec<i64>,
    /// How many ticks of the list have run, how many of them with as many held as can be, and whether some sum was above the border.
    pub ran: usize,
    pub ran_full: usize,
    pub was_over: bool,
}

impl History {
    pub fn horizon(&self) -> usize {
        self.given.horizon()
    }

    /// The sum of the last held ticks, as many as there are up to `ticks`.
    pub fn before(&self, ticks: usize) -> i64 {
        self.sums[ticks.min(self.held.len())]
    }

    /// Whether as many ticks are held as can be.
    pub fn is_full(&self) -> bool {
        self.held.len() + 1 == self.horizon()
    }

    fn sum_up(&mut self) {
        self.sums = vec![0];
        for (place, &count) in self.summed.iter().rev().enumerate() {
            self.sums.push(self.sums[place] + i64::from(count));
        }
    }
}

impl Faulty {
    /// Where a list begins.
    pub fn history(&self, given: Figures, held: &[u32]) -> History {
        let mut summed = held.to_vec();
        match self.fault {
            OldestNotSummed => summed.iter_mut().take(1).for_each(|count| *count = 0),
            SumsBeginAnew => summed.fill(0),
            _ => {}
        }
        let mut history = History {
            given,
            held: held.to_vec(),
            summed,
            sums: Vec::new(),
            ran: 0,
            ran_full: 0,
            was_over: false,
        };
        history.sum_up();
        history
    }

    /// A sum as it is kept.
    pub fn kept(&self, sum: i64) -> i64 {
        match self.fault {
            SumsIn32Bits => sum % (1 << 32),
            SumsIn31Bits => sum % (1 << 31),
            SumsWithSign => i64::from(sum as i32),
            _ => sum,
        }
    }

    pub fn hold(&self, history: &mut History, count: u32) {
        let mut room = history.horizon() - 1;
        match self.fault {
            LastWindowNotJudged => room = room.saturating_sub(1),
            HeldOneTooMany => room += 1,
            _ => {}
        }
        if self.has(TickLosesMark) {
            history.given.unlimited = false;
        }
        for list in [&mut history.held, &mut history.summed] {
            list.push(count);
            list.drain(..list.len().saturating_sub(room));
        }
        history.sum_up();
        history.was_over |= history.before(history.held.len()) > BORDER;
    }

    /// The largest count that a generator sends where there are no ceilings.
    fn largest_sent(&self) -> i64 {
        match self.fault {
            HiOneLess => i64::from(LIMIT) - 1,
            HiOneMore => i64::from(LIMIT) + 1,
            HiLargestCount => i64::from(u32::MAX),
            _ => i64::from(LIMIT),
        }
    }

    /// The ceiling that hi goes by.
    fn sending_ceiling(&self, given: &Figures, window: usize) -> i64 {
        match self.fault {
            HiByCeilings => given.upper[window],
            HiLessHeld if given.unlimited => i64::from(LIMIT),
            _ if given.unlimited => FAR,
            _ => given.upper[window],
        }
    }

    pub fn range(&self, history: &History) -> (i64, i64) {
        let mut lo = 0;
        let mut hi = if history.given.unlimited {
            self.largest_sent()
        } else {
            i64::from(u32::MAX)
        };
        let all = if self.has(EmptyTicksBeforeSending) {
            history.horizon()
        } else {
            history.held.len() + 1
        };
        let windows = history.horizon().min(all);
        for window in 1..=windows {
            let before = self.kept(history.before(window - 1));
            hi = hi.min(self.sending_ceiling(&history.given, window) - before);
            if !self.has(LoIgnored) && (window == windows || !self.has(LowerOfOneWindowOnly)) {
                lo = lo.max(history.given.lower[window] - before);
            }
        }
        (lo, hi)
    }

    pub fn generator_tick(&self, history: &mut History, choice: u32) -> u32 {
        let (lo, hi) = self.range(history);
        if lo > hi || self.has(AlwaysNoCount) {
            if self.has(HoldsForNoCount) {
                self.hold(history, 0);
            }
            return if self.has(SendsZeroForNoCount) { 0 } else { NO_COUNT };
        }
        let more = match self.fault {
            RemainderWithoutOne => i64::from(choice) % (hi - lo).max(1),
            ChoiceCutOff => i64::from(choice).min(hi - lo),
            _ => i64::from(choice) % (hi - lo + 1),
        };
        let count = (lo + more) as u32;
        self.hold(history, count);
        count
    }

    /// Whether a generator takes a pair that keeps the questions 1, 2 and 4.
    fn takes(&self, given: &Figures) -> bool {
        let (closed, rounds, crosses) = self.rounds(given.clone());
        let stays_without = |fault: Fault| Faulty { fault }.round(given) == *given;
        let horizon = given.horizon();
        match self.fault {
            FifteenNotAsked if given.unlimited => true,
            FifteenByOneTick if given.unlimited => (1..horizon).all(|d| given.lower[1] + given.lower[d] <= given.lower[d + 1]),
            FifteenByHalves if given.unlimited => (1..=horizon / 2).all(|d| 2 * given.lower[d] <= given.lower[2 * d]),
            OpensOnAny => true,
            OpensOnNone => false,
            OpensOnCrossing if crosses && rounds == 0 => true,
            OpensUnlessCrossing => !crosses || rounds > 0,
            _ if crosses => false,
            OpensOnUnclosed | ClosesByItself => true,
            OwnUpperOnly => closed.upper == given.upper,
            OwnLowerOnly => closed.lower == given.lower,
            OwnSumsOnly => stays_without(NoDifferences),
            OwnDifferencesOnly => stays_without(NoSums),
            OwnButHorizon => closed.upper[..horizon] == given.upper[..horizon] && closed.lower[..horizon] == given.lower[..horizon],
            _ => closed == *given,
        }
    }

    /// The questions of a generator's opening.
    fn generator_opening(&self, lists: Lists) -> u32 {
        let number = self.opening(lists);
        let given = Figures::new(lists);
        match self.fault {
            FifteenForRefusals if number != 0 => 15,
            FifteenBeforeFour if number == 4 && !self.takes(&given) => 15,
            _ if number != 0 => number,
            GeneratorAsksFive if self.rounds(given.clone()).2 => 5,
            _ if self.takes(&given) => 0,
            _ => 15,
        }
    }

    /// The figures of a generator that is opened, or the number of the refusal. A fault may leave some with the number.
    pub fn generator_opened(&self, given: Lists) -> (u32, Option<Figures>) {
        let unlimited = given.unlimited && !self.has(GeneratorIgnoresMark);
        let lists = Lists { unlimited, ..given };
        let number = self.generator_opening(lists);
        let given = Figures::new(lists);
        let figures = match self.fault {
            ClosesByItself if number == 0 => Some(self.rounds(given).0),
            OpensAndRefuses if number == 15 => Some(given),
            _ => (number == 0).then_some(given),
        };
        (number, figures)
    }
}

/// The lists of a pair, with its mark.
pub fn lists_of(pair: &Pair) -> Lists<'_> {
    Lists {
        upper: &pair.upper,
        lower: &pair.lower,
        unlimited: pair.unlimited(),
    }
}

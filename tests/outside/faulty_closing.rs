//! Closing with a fault: the plain rounds again, kept apart from the reference so that a fault in one is not one in the other.

use crate::faults::Fault::{self, *};
use crate::subject::{refused, LEAST_LIMIT, LIMIT, LONGEST_HORIZON, UNLIMITED};

pub struct Faulty {
    pub fault: Fault,
}

/// The two lists of a pair as they are given, and whether its mark is set.
#[derive(Clone, Copy)]
pub struct Lists<'a> {
    pub upper: &'a [u32],
    pub lower: &'a [u32],
    pub unlimited: bool,
}

/// Two curves; entry d is the window of d ticks. Where the pair has no ceilings, the upper one has what stands in their place.
#[derive(Clone, PartialEq)]
pub struct Figures {
    pub upper: Vec<i64>,
    pub lower: Vec<i64>,
    pub unlimited: bool,
}

impl Figures {
    pub fn new(lists: Lists) -> Figures {
        let widened = |list: &[u32]| [0].into_iter().chain(list.iter().map(|&figure| i64::from(figure))).collect();
        Figures {
            upper: widened(lists.upper),
            lower: widened(lists.lower),
            unlimited: lists.unlimited,
        }
    }

    pub fn horizon(&self) -> usize {
        self.upper.len() - 1
    }
}

/// Who asks whether a figure is above the limit.
#[derive(Clone, Copy, PartialEq)]
pub enum Asker {
    Closing,
    Opening,
    State,
}

impl Faulty {
    pub fn has(&self, fault: Fault) -> bool {
        self.fault == fault
    }

    /// Whether a number sets the mark.
    fn sets_mark(&self, mark: u32) -> bool {
        match self.fault {
            OneAloneMarks => mark == 1,
            MarkCutOff => mark % 65_536 != 0,
            _ => mark != 0,
        }
    }

    pub fn lists<'a>(&self, upper: &'a [u32], lower: &'a [u32], mark: u32) -> Lists<'a> {
        let unlimited = self.sets_mark(mark);
        Lists { upper, lower, unlimited }
    }

    fn too_long(&self, horizon: usize) -> bool {
        let longest = LONGEST_HORIZON + usize::from(self.has(Horizon257Taken)) - usize::from(self.has(Horizon256Refused));
        horizon < 1 || horizon > longest
    }

    /// The largest figure that is not above the limit.
    fn limit(&self, unlimited: bool, asker: Asker) -> u32 {
        let usual = LIMIT + u32::from(self.has(LimitOneMore)) - u32::from(self.has(LimitOneLess));
        match (asker, self.fault) {
            _ if !unlimited => usual,
            (Asker::Closing, LeastLimitOneLess) => LEAST_LIMIT - 1,
            (Asker::Closing, LeastLimitOneMore) => LEAST_LIMIT + 1,
            (Asker::Closing, ClosingAsksOldLimit) => usual,
            (Asker::Closing, _) => LEAST_LIMIT,
            (Asker::Opening, OpeningAsksLeastLimit) => LEAST_LIMIT,
            (Asker::Opening, OpeningAsksNoLeast) => u32::MAX,
            (Asker::State, TwelveAsksLeastLimit) => LEAST_LIMIT,
            _ => usual,
        }
    }

    pub fn over_limit(&self, lists: Lists, asker: Asker) -> bool {
        let limit = self.limit(lists.unlimited, asker);
        let joined = |list: &[u32]| list.iter().fold(0, |bits, figure| bits | figure);
        let over = |list: &[u32]| match self.fault {
            JoinedLimited => joined(list) > limit,
            _ => list.iter().any(|&figure| figure > limit),
        };
        let ceilings_asked = match (asker, self.fault) {
            (Asker::Closing, ClosingAsksCeilings) | (Asker::Opening, OpeningAsksCeilings) | (Asker::State, TwelveAsksCeilings) => true,
            _ => !lists.unlimited,
        };
        (ceilings_asked && over(lists.upper)) || (!self.has(LowerNotLimited) && over(lists.lower))
    }

    /// In how many windows a crossing is seen, the shortest first.
    fn compared_windows(&self, horizon: usize) -> usize {
        horizon.saturating_sub(usize::from(self.has(HorizonNotCrossed)))
    }

    pub fn given_crosses(&self, lists: Lists) -> bool {
        let windows = self.compared_windows(lists.upper.len());
        let compared = !lists.unlimited || self.has(FiveWithoutCeilings);
        compared && lists.upper[..windows].iter().zip(lists.lower).any(|(upper, lower)| lower > upper)
    }

    /// The questions of closing in their order, or in another one.
    fn asked(&self, lists: Lists, closed_upper_length: usize, closed_lower_length: usize) -> u32 {
        let (horizon, leasts) = (lists.upper.len(), lists.lower.len());
        let upper_short = closed_upper_length < horizon && !(lists.unlimited && self.has(ThreeOfLeastsAlone));
        let short = upper_short || (closed_lower_length < horizon && !self.has(ClosedUpperOnlyAsked));
        let mut questions = [
            (1, self.too_long(horizon)),
            (2, leasts < horizon || (leasts > horizon && !self.has(LongerLowerTaken))),
            (3, short),
            (4, self.over_limit(lists, Asker::Closing)),
            (5, self.given_crosses(lists)),
        ];
        match self.fault {
            TwoBeforeOne => questions.swap(0, 1),
            ThreeBeforeTwo => questions.swap(1, 2),
            FourBeforeThree => questions.swap(2, 3),
            FiveBeforeFour => questions.swap(3, 4),
            _ => {}
        }
        questions.iter().find(|question| question.1).map_or(0, |question| question.0)
    }

    /// Questions 1, 2 and 4.
    pub fn opening(&self, lists: Lists) -> u32 {
        let over = !self.has(OpeningAsksNoLimit) && self.over_limit(lists, Asker::Opening);
        if self.too_long(lists.upper.len()) {
            return 1;
        }
        if over && self.has(OpeningAsksFourFirst) {
            return 4;
        }
        if lists.lower.len() != lists.upper.len() {
            return 2;
        }
        if over {
            return 4;
        }
        0
    }

    fn sums(&self, old: &Figures, new: &mut Figures, d: usize) {
        let end = if self.has(ShortSums) { d.saturating_sub(1) } else { d };
        for a in 1..end {
            if !old.unlimited && !self.has(NoSums) && !self.has(NoUpperSums) {
                new.upper[d] = new.upper[d].min(old.upper[a] + old.upper[d - a]);
            }
            if !self.has(NoSums) {
                new.lower[d] = new.lower[d].max(old.lower[a] + old.lower[d - a]);
            }
        }
    }

    fn differences(&self, old: &Figures, new: &mut Figures, d: usize) {
        let mut last = old.horizon() - d;
        match self.fault {
            ShortDifferences => last = last.saturating_sub(1),
            FarDifferences => last = last.min(128),
            NoDifferences => last = 0,
            _ => {}
        }
        for t in 1..=last {
            let difference = old.upper[d + t] - old.lower[t];
            new.upper[d] = new.upper[d].min(if self.has(CutOffAtOne) { difference.max(1) } else { difference });
            if !self.has(NoLowerDifferences) {
                new.lower[d] = new.lower[d].max(old.lower[d + t] - old.upper[t]);
            }
        }
    }

    pub fn round(&self, old: &Figures) -> Figures {
        let mut new = old.clone();
        for d in 1..=old.horizon() {
            let from = if self.has(RoundsInPlace) { new.clone() } else { old.clone() };
            self.sums(&from, &mut new, d);
            if !old.unlimited {
                self.differences(&from, &mut new, d);
            }
        }
        new
    }

    fn crosses(&self, figures: &Figures, rounds: u32) -> bool {
        if figures.unlimited || (rounds > 0 && self.has(GivenCrossingOnly)) {
            return false;
        }
        let equal = i64::from(self.has(CrossingAtEqual));
        let windows = self.compared_windows(figures.horizon());
        (1..=windows).any(|d| figures.lower[d] + equal > figures.upper[d])
    }

    /// After how many rounds a fault is stopped that would not stop by itself, or not soon.
    fn most_rounds(&self, unlimited: bool) -> u32 {
        match self.fault {
            OnePassOnly => 1,
            SumsOnce if unlimited => 1,
            SevenRoundsOfSums if unlimited => 7,
            EightRoundsOnly | GivenCrossingOnly => 8,
            HorizonNotCrossed => 40,
            _ => u32::MAX,
        }
    }

    /// The figures at which the rounds stop, their count, and whether they cross there.
    pub fn rounds(&self, given: Figures) -> (Figures, u32, bool) {
        let mut figures = given;
        let mut rounds = 0;
        while !self.crosses(&figures, rounds) && rounds < self.most_rounds(figures.unlimited) {
            let next = self.round(&figures);
            if next == figures {
                return (figures, rounds + u32::from(self.has(LastRoundCounted)), false);
            }
            figures = next;
            rounds += 1;
        }
        // No pair with a closure takes more than nine rounds. Where only the horizon's window crosses, unseen, some shorter one would
        // cross in a later round, however many that takes: so a stop here counts as a crossing. With H = 1 there is no shorter one.
        let crosses = self.crosses(&figures, rounds) || self.has(HorizonNotCrossed);
        (figures, rounds, crosses)
    }

    /// What is written in the place of ceilings, if anything is.
    fn closed_ceilings(&self, figures: &Figures) -> Option<Vec<u32>> {
        let given = || figures.upper[1..].iter().map(|&figure| figure as u32).collect();
        let windows = 1..=figures.horizon() as u32;
        match self.fault {
            ZerosAlways if !figures.unlimited => Some(windows.map(|_| 0).collect()),
            _ if !figures.unlimited => Some(given()),
            ClosedUpperCopied => Some(given()),
            ClosedUpperStandIns => Some(windows.map(|window| window * LEAST_LIMIT).collect()),
            _ => None,
        }
    }

    fn write(&self, figures: &Figures, closed_upper: &mut [u32], closed_lower: &mut [u32]) {
        if let Some(ceilings) = self.closed_ceilings(figures) {
            closed_upper[..ceilings.len()].copy_from_slice(&ceilings);
        }
        for (entry, figure) in closed_lower.iter_mut().zip(&figures.lower[1..]) {
            *entry = if self.has(ZerosAlways) { 0 } else { *figure as u32 };
        }
        if self.has(TailsCleared) {
            closed_upper[figures.horizon()..].fill(0);
            closed_lower[figures.horizon()..].fill(0);
        }
    }

    /// An answer that is a refusal, of a pair without ceilings maybe; with one fault it has the mark.
    pub fn refused(&self, number: u32, unlimited: bool, fault: Fault) -> u64 {
        let mark = if unlimited && self.has(fault) { UNLIMITED } else { 0 };
        refused(number) | mark
    }

    /// The mark in the answer of a closing.
    fn answered_mark(&self, unlimited: bool) -> u64 {
        match self.fault {
            ClosingAnswersNoMark => 0,
            ClosingAnswersMark => UNLIMITED,
            _ if unlimited => UNLIMITED,
            _ => 0,
        }
    }

    pub fn close_into(&self, given: Lists, closed_upper: &mut [u32], closed_lower: &mut [u32]) -> u64 {
        let unlimited = given.unlimited && !self.has(ClosingIgnoresMark);
        let lists = Lists { unlimited, ..given };
        let number = self.asked(lists, closed_upper.len(), closed_lower.len());
        match (number, self.fault) {
            (0, RefusesAll) => return refused(5),
            (0, RefusesAllWithFour) => return refused(4),
            (3 | 4, ThreeForFour) => return refused(7 - number),
            (0, _) => {}
            (_, _) => return self.refused(number, unlimited, RefusedClosingMarked),
        }
        let (figures, rounds, crosses) = self.rounds(Figures::new(lists));
        if !crosses || self.has(ResultsOnRefusal) {
            self.write(&figures, closed_upper, closed_lower);
        }
        match (crosses, self.fault) {
            (true, RoundsOnRefusal) => refused(5) | u64::from(rounds),
            (true, _) => refused(5),
            (false, NoRoundCounted | ZerosAlways) => self.answered_mark(unlimited),
            (false, _) => self.answered_mark(unlimited) + u64::from(rounds),
        }
    }
}

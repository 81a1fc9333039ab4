//! Openings, runs, previews and looks with a fault, on words: what is taken from them and what is written back. What a tick comes to in
//! between is in `faulty_monitor` and `faulty_streams`.

use crate::faults::Fault::*;
use crate::faulty_closing::{Faulty, Figures, Lists};
use crate::faulty_monitor::Monitor;
use crate::states::State;
use crate::streams::Margin;
use crate::subject::{ALREADY_FAILED, LONGEST_HORIZON, LOST, MONITOR_WORDS, NO_COUNT, PASSED};
use crate::words::{Kind, CLOSED_LOWER_WORDS, CLOSED_UPPER_WORDS, FAILED_WORD, FIGURE_WORDS, HELD_WORD, HORIZON_WORD};
use crate::words::{LOWER_WORDS, MARK_WORD, TICK_WORDS, UPPER_WORDS};

/// How many ticks late a fault may come.
const LATE: usize = 64;

/// How many counts of a preview a fault takes for all, or begins anew after: as many as the product tries at a time.
const TRIED: usize = 1_024;

/// The lists that are lent to a run, beside its state.
struct Lent<'a> {
    entries: &'a [u32],
    answers: &'a mut [u32],
    margins: &'a mut [i64],
}

fn put(words: &mut [u32], first: usize, figures: &[i64]) {
    let places = &mut words[first..first + LONGEST_HORIZON];
    places
        .iter_mut()
        .zip(&figures[1..])
        .for_each(|(word, &figure)| *word = figure as u32);
}

impl Faulty {
    /// Words that an opening leaves as they were.
    fn words_left(&self, horizon: usize) -> Vec<usize> {
        let past = |first: usize| first + horizon..first + LONGEST_HORIZON;
        match self.fault {
            PastHorizonLeft => FIGURE_WORDS.into_iter().flat_map(past).collect(),
            TicksLeft => (TICK_WORDS..TICK_WORDS + LONGEST_HORIZON).collect(),
            FailedLeft => vec![FAILED_WORD],
            _ => Vec::new(),
        }
    }

    /// The words of a state that is opened. A generator has no closed figures.
    fn opened_words(&self, given: &Figures, closed: Option<&Figures>, mark: u32, before: &[u32]) -> Vec<u32> {
        let mut words = vec![0; MONITOR_WORDS];
        words[HORIZON_WORD] = given.horizon() as u32;
        words[MARK_WORD] = if self.has(MarkWordAsGiven) {
            mark
        } else {
            u32::from(given.unlimited)
        };
        if !given.unlimited || self.has(CeilingsWritten) {
            put(&mut words, UPPER_WORDS, &given.upper);
        }
        put(&mut words, LOWER_WORDS, &given.lower);
        let shown = closed.filter(|_| !given.unlimited || self.has(ClosedWritten));
        if let Some(closed) = shown {
            put(&mut words, CLOSED_UPPER_WORDS, &closed.upper);
            put(&mut words, CLOSED_LOWER_WORDS, &closed.lower);
        }
        for place in self.words_left(given.horizon().min(LONGEST_HORIZON)) {
            words[place] = before.get(place).copied().unwrap_or(0);
        }
        words
    }

    /// What a monitor or a generator opens with: the number, and the words where there are any.
    fn opened(&self, kind: Kind, lists: Lists, mark: u32, before: &[u32]) -> (u32, Option<Vec<u32>>) {
        match kind {
            Kind::Generator => {
                let (number, figures) = self.generator_opened(lists);
                (number, figures.map(|given| self.opened_words(&given, None, mark, before)))
            }
            Kind::Monitor => match self.monitor_opened(lists) {
                Err(number) => (number, None),
                Ok((given, closed)) => (0, Some(self.opened_words(&given, Some(&closed), mark, before))),
            },
        }
    }

    pub fn open_into(&self, kind: Kind, lists: Lists, mark: u32, state: &mut [u32]) -> u32 {
        let longer = self.has(OpensOnLonger) && state.len() > kind.words();
        let as_long = state.len() == kind.words() || longer;
        if !as_long && self.has(TwelveFirst) {
            return 12;
        }
        let (number, words) = self.opened(kind, lists, mark, state);
        match words {
            Some(_) if !as_long => return 12,
            Some(words) => state[..kind.words()].copy_from_slice(&words[..kind.words()]),
            None if self.has(WordsClearedOnRefusal) => state.fill(0),
            None => {}
        }
        number
    }

    /// What a run takes words for, or nothing where it refuses them with 12.
    fn taken(&self, kind: Kind, words: &[u32]) -> Option<State> {
        let as_long = match self.fault {
            LongerTaken => words.len() >= kind.words(),
            ShorterTaken => words.len() <= kind.words(),
            MonitorSends => words.len() == kind.words() || words.len() == MONITOR_WORDS,
            _ => words.len() == kind.words(),
        };
        let mut read = words.to_vec();
        read.resize(words.len().max(MONITOR_WORDS), 0);
        match self.fault {
            MarkWordOne => read[MARK_WORD] = u32::from(read[MARK_WORD] == 1),
            FailedWordOne => read[FAILED_WORD] = u32::from(read[FAILED_WORD] == 1),
            _ => {}
        }
        let state = State::of_words(&read);
        (as_long && !self.is_bad(kind, &state)).then_some(state)
    }

    /// A run that is refused, or not as it should be.
    fn refuse_run(&self, kind: Kind, words: &[u32], ran: usize, lent: Lent) -> i64 {
        let failed = kind == Kind::Monitor && words.get(FAILED_WORD).is_some_and(|&word| word != 0);
        match self.fault {
            TwelveNotOfNone if ran == 0 => return 0,
            FailedBeforeTwelve if failed => {
                lent.answers[..ran].fill(ALREADY_FAILED);
                return ran as i64;
            }
            ClearsWithTwelve => lent.answers[..ran].fill(0),
            MarginWithTwelve => lent.margins.fill(0),
            _ => {}
        }
        -12
    }

    /// One tick, with its margin where it is a monitor's and asked for.
    fn tick(&self, kind: Kind, monitor: &mut Monitor, entry: u32, asked: bool) -> (u32, Margin) {
        let full = monitor.history.is_full();
        let came = match kind {
            Kind::Monitor => self.whole_tick(monitor, entry, asked),
            Kind::Generator => (self.generator_tick(&mut monitor.history, entry), Margin::default()),
        };
        monitor.history.ran += 1;
        monitor.history.ran_full += usize::from(full);
        came
    }

    /// Puts an answer and its margin into their places. A fault may come late, so many ticks after the first that did not pass.
    fn put_answer(&self, place: usize, answer: u32, margin: i64, first: Option<usize>, lent: &mut Lent) {
        let late = first.filter(|first| first + LATE <= place);
        let before = lent.answers[place];
        lent.answers[place] = answer;
        match (late, self.fault) {
            (Some(_), LateVerdictsLeft) => lent.answers[place] = before,
            (Some(first), RejectionFilled) => lent.answers[first] = ALREADY_FAILED,
            _ => {}
        }
        let left = match self.fault {
            FailedMarginsLeft => answer == ALREADY_FAILED,
            LateMarginsLeft => late.is_some(),
            _ => false,
        };
        if let Some(entry) = lent.margins.get_mut(place).filter(|_| !left) {
            *entry = margin;
        }
    }

    /// The ticks of a run: how many it says there were.
    fn run_ticks(&self, kind: Kind, monitor: &mut Monitor, ran: usize, lent: &mut Lent) -> i64 {
        let more = if self.has(AllEntriesRun) { lent.entries.len() } else { ran };
        if self.has(MarginsWholeOrNone) && lent.margins.len() < ran {
            lent.margins = &mut [];
        }
        let mut first = None;
        for place in 0..more {
            let (answer, margin) = self.tick(kind, monitor, lent.entries[place], place < lent.margins.len());
            if place >= ran {
                continue;
            }
            if kind == Kind::Monitor && answer != PASSED {
                first = first.or(Some(place));
            }
            self.put_answer(place, answer, margin.smallest, first, lent);
            match self.fault {
                NoCountEnds if answer == NO_COUNT => return place as i64 + 1,
                NoCountRefuses if answer == NO_COUNT => return -13,
                _ => {}
            }
        }
        match self.fault {
            AnswersPastCleared => lent.answers[ran..].fill(0),
            MarginsPastCleared => lent.margins.iter_mut().skip(ran).for_each(|entry| *entry = 0),
            LongerAnswered => return lent.entries.len().max(lent.answers.len()) as i64,
            _ => {}
        }
        ran as i64
    }

    /// The failed mark and the mark, where a run changes them.
    fn write_marks(&self, words: &mut [u32], monitor: &Monitor) {
        let failed = monitor.failed != PASSED && !self.has(FailedNotWritten);
        if failed && (words[FAILED_WORD] == 0 || self.has(FailedMadeOne)) {
            words[FAILED_WORD] = 1;
        }
        let lost = match self.fault {
            TickLosesMark | RejectionLosesMark => !monitor.history.given.unlimited,
            _ => false,
        };
        match self.fault {
            _ if lost => words[MARK_WORD] = 0,
            MarkMadeOne => words[MARK_WORD] = u32::from(words[MARK_WORD] != 0),
            _ => {}
        }
    }

    /// The held ticks, and what a fault does to the words that must stay.
    fn write_held(&self, words: &mut [u32], monitor: &Monitor) {
        let mut held = monitor.history.held.clone();
        if self.has(HeldReversed) {
            held.reverse();
        }
        words[HELD_WORD] = held.len() as u32;
        let end = TICK_WORDS + held.len();
        words[TICK_WORDS..end].copy_from_slice(&held);
        match self.fault {
            PastHeldZeroed => words[end..TICK_WORDS + LONGEST_HORIZON].fill(0),
            PastHorizonZeroed => {
                let horizon = monitor.history.horizon();
                FIGURE_WORDS
                    .iter()
                    .for_each(|first| words[first + horizon..first + LONGEST_HORIZON].fill(0));
            }
            _ => {}
        }
    }

    pub fn run_on(&self, kind: Kind, state: &mut [u32], entries: &[u32], answers: &mut [u32], margins: &mut [i64]) -> i64 {
        let ran = entries.len().min(answers.len());
        let mut lent = Lent { entries, answers, margins };
        let Some(taken) = self.taken(kind, state) else {
            return self.refuse_run(kind, state, ran, lent);
        };
        let mut monitor = self.monitor_of(&taken);
        let number = self.run_ticks(kind, &mut monitor, ran, &mut lent);
        if !self.has(StateNotWritten) {
            let mut words = state.to_vec();
            words.resize(state.len().max(MONITOR_WORDS), 0);
            self.write_held(&mut words, &monitor);
            if kind == Kind::Monitor {
                self.write_marks(&mut words, &monitor);
            }
            state.copy_from_slice(&words[..state.len()]);
        }
        number
    }

    /// What the counts of a preview are answered, on a copy of the state.
    fn tried(&self, taken: &State, counts: &[u32]) -> Vec<u32> {
        let fresh = || {
            let mut monitor = self.monitor_of(taken);
            if self.has(PreviewOfFailed) {
                monitor.failed = PASSED;
            }
            monitor
        };
        let mut monitor = fresh();
        let looked_at = if self.has(PreviewOfOnePiece) { TRIED } else { counts.len() };
        let tried = counts.iter().take(looked_at).enumerate().map(|(place, &count)| {
            let anew = match self.fault {
                PreviewAnewEachPiece => place % TRIED == 0,
                _ => self.has(PreviewEachAlone),
            };
            if anew {
                monitor = fresh();
            }
            self.tick(Kind::Monitor, &mut monitor, count, false).0
        });
        tried.collect()
    }

    pub fn preview_on(&self, state: &mut [u32], counts: &[u32], verdict: &mut u32) -> i64 {
        let Some(taken) = self.taken(Kind::Monitor, state) else {
            match self.fault {
                PreviewTwelveNotOfNone if counts.is_empty() => return 0,
                PreviewClearsWithTwelve => *verdict = PASSED,
                _ => {}
            }
            return -12;
        };
        let answers = self.tried(&taken, counts);
        if self.has(PreviewFeedsState) {
            self.run_on(Kind::Monitor, state, counts, &mut vec![0; counts.len()], &mut []);
        }
        let rejects = |&answer: &u32| answer != PASSED && !(self.has(PreviewOverLost) && answer == LOST);
        let place = match self.fault {
            PreviewLastPlace => answers.iter().rposition(rejects),
            _ => answers.iter().position(rejects),
        };
        let found = place.map_or(PASSED, |place| answers[place]);
        match self.fault {
            PreviewVerdictLeft if place.is_none() => {}
            PreviewEmptyFails if counts.is_empty() && taken.failed => *verdict = ALREADY_FAILED,
            PreviewWithoutWindow => *verdict = found - found % 1_000,
            _ => *verdict = found,
        }
        match place {
            Some(place) if self.has(PreviewFromOne) => place as i64 + 1,
            Some(place) => place as i64,
            None => counts.len() as i64,
        }
    }

    pub fn look_at(&self, state: &[u32]) -> i64 {
        let Some(taken) = self.taken(Kind::Generator, state) else {
            return -12;
        };
        let (lo, hi) = self.range(&self.monitor_of(&taken).history);
        match self.fault {
            LookTwelveForNone if lo > hi => -12,
            LookShowsNone => (hi << 32) + lo,
            LookSwapped if lo <= hi => (lo << 32) + hi,
            _ if lo > hi => -13,
            _ => (hi << 32) + lo,
        }
    }
}

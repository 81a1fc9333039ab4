//! Long lists: streams that pass for thousands of ticks, on figures that they just keep, and then break exactly one window by one message;
//! what comes after that is up to 130 ticks. States built by hand have it in the figures as given, in the closed ones or in both, so that
//! neither may be left out. And lists of choices as long, on closed pairs.

use crate::built::{self, state_words};
use crate::calls::check_preview;
use crate::pair::Pair;
use crate::pieces::List;
use crate::random::Rng;
use crate::reference::Reference;
use crate::script_cases::choices;
use crate::sendings::check_passed;
use crate::streams::sum;
use crate::subject::{Subject, GENERATOR_WORDS, LIMIT, LONGEST_HORIZON, LOST, PASSED, TOO_FEW, TOO_MANY};
use crate::tally::{
    horizon_end, Tally, AFTER_REJECTION, LONG_AFTER, LONG_FEW, LONG_LOST, LONG_MANY, LONG_PLACE, LONG_SENT, LONG_TOTAL, LONG_UNLIMITED,
    PREVIEW_PLACE, SEAMS,
};
use crate::window_sums::{extremes, figures};
use crate::words::Kind;
use crate::{pairs, unlimited_pairs};

fn horizon(rng: &mut Rng) -> usize {
    let (short, any) = (rng.length(1, 4), rng.length(1, LONGEST_HORIZON));
    rng.pick(&[LONGEST_HORIZON, LONGEST_HORIZON, 255, 16, 17, short, any])
}

fn length(rng: &mut Rng) -> usize {
    rng.length(1_300, 3_500)
}

/// Which figures the last tick breaks. The last are those of a state without ceilings.
#[derive(Clone, Copy, PartialEq)]
enum Broken {
    Given,
    Closed,
    Both,
    Leasts,
}

/// A stream whose counts repeat after a window's length, so that every sum of that window is the same, but for the last tick of the stream,
/// which is the one that is rejected.
struct Stream {
    counts: Vec<u32>,
    /// So many of them are held when the list begins.
    held: usize,
    horizon: usize,
    window: usize,
    /// What that window has before the last tick.
    sum: u32,
    /// Whether the last tick has one message more, or one fewer.
    more: bool,
}

impl Stream {
    fn new(rng: &mut Rng, horizon: usize, window: usize, more: bool, length: usize) -> Stream {
        // The largest are such that no window has more than the limit; with a short horizon all ticks have more than 2^32 together.
        let scale = rng.pick(&[1, 3, 50, LIMIT / horizon as u32 - 1]);
        let period: Vec<u32> = (0..window).map(|_| rng.between(1, scale)).collect();
        let mut counts: Vec<u32> = period.iter().copied().cycle().take(length).collect();
        counts[length - 1] = if more { counts[length - 1] + 1 } else { counts[length - 1] - 1 };
        let between = rng.length(0, horizon - 1);
        Stream {
            counts,
            held: rng.pick(&[0, horizon - 1, between]),
            horizon,
            window,
            sum: period.iter().sum(),
            more,
        }
    }

    fn drawn(rng: &mut Rng, more: bool) -> Stream {
        let horizon = horizon(rng);
        let any = rng.length(1, horizon);
        let window = rng.pick(&[1, 16, 255, 256, horizon, any]).min(horizon);
        let length = length(rng);
        Stream::new(rng, horizon, window, more, length)
    }

    /// Figures that the stream keeps, and next to none that it keeps by more than so many.
    fn kept(&self, rng: &mut Rng, slack: u32) -> Pair {
        let found = extremes(&self.counts, self.held, self.counts.len(), self.horizon);
        let mut pair = Pair::new(&figures(&found.largest), &figures(&found.smallest));
        for window in 1..=self.horizon {
            let (most, least) = (u64::from(pair.upper[window - 1]), pair.lower[window - 1]);
            pair.set_upper(window, most + u64::from(rng.below(slack + 1)));
            pair.lower[window - 1] = least.saturating_sub(rng.below(slack + 1));
        }
        pair
    }

    /// The same with what every sum of the window is before the last tick, so that this breaks it.
    fn broken(&self, rng: &mut Rng, slack: u32) -> Pair {
        let mut pair = self.kept(rng, slack);
        if self.more {
            pair.upper[self.window - 1] = self.sum;
        } else {
            pair.lower[self.window - 1] = self.sum;
        }
        pair
    }

    /// The words of a state whose figures the last tick breaks, and no tick before it.
    fn words(&self, rng: &mut Rng, broken: Broken) -> Vec<u32> {
        let slack = rng.pick(&[0, 0, 1, 9]);
        let mut given = match broken {
            Broken::Closed => self.kept(rng, slack),
            _ => self.broken(rng, slack),
        };
        let mut closed = match broken {
            Broken::Given => self.kept(rng, slack),
            _ => self.broken(rng, slack),
        };
        if broken == Broken::Leasts {
            given = Pair::marked(&rng.arbitrary(self.horizon), &given.lower, 7);
            closed = Pair::new(&rng.arbitrary(self.horizon), &closed.lower);
        }
        let mut words = state_words(given, closed, &self.counts[..self.held]);
        if rng.one_in(2) {
            built::fill_rest(rng, &mut words);
        }
        words
    }

    /// Where a tick of the list stands, if ticks are taken two at a time once all are held that can be: 0 first, 1 second, 2 alone.
    fn place_of_two(&self, tick: usize, after: u32) -> u32 {
        let second = (tick + 1 + self.held - self.horizon) % 2 == 1;
        match after {
            _ if second => 1,
            0 => 2,
            _ => 0,
        }
    }

    /// What the last tick must come to, and as what it is tallied.
    fn due(&self, broken: Broken) -> (u32, &'static str) {
        let window = self.window as u32;
        match broken {
            Broken::Closed => (LOST, LONG_LOST),
            Broken::Leasts => (TOO_FEW + window, LONG_UNLIMITED),
            _ if self.more => (TOO_MANY + window, LONG_MANY),
            _ => (TOO_FEW + window, LONG_FEW),
        }
    }

    /// The list in all ways in which it can be cut, or without the calls of single ticks.
    fn check(&self, subject: &dyn Subject, rng: &mut Rng, broken: Broken, ticks: bool, tally: &mut Tally) -> Result<(), String> {
        let words = self.words(rng, broken);
        let mut counts = self.counts[self.held..].to_vec();
        let last = counts.len() - 1;
        let after = rng.pick(&AFTER_REJECTION);
        counts.extend(rng.arbitrary(after as usize));
        tally.note(LONG_AFTER, after);
        tally.note(LONG_PLACE, self.place_of_two(last, after));
        let list = List::new(Kind::Monitor, &words, &counts)?;
        let (due, tallied) = self.due(broken);
        let (passed, rest) = list.trace.answers.split_at(last);
        if passed.iter().any(|&answer| answer != PASSED) || rest[0] != due {
            let lists = format!("words {words:?}\n  counts {counts:?}");
            return Err(format!("the reference does not say {due} of tick {last}\n  {lists}"));
        }
        tally.note(tallied, self.window as u32);
        tally.note(LONG_TOTAL, u32::from(sum(&counts[..last]) > u64::from(u32::MAX)));
        list.check_without_margins(subject, rng, tally)?;
        match ticks {
            true => list.check_cuts(subject, rng, tally),
            false => list.check_pieces(subject, rng, tally),
        }
    }
}

/// A list that is tried: all before the rejected tick, and then with it.
pub fn compare_preview(subject: &dyn Subject, rng: &mut Rng, tally: &mut Tally) -> Result<(), String> {
    let horizon = horizon(rng);
    let window = rng.length(1, horizon);
    let more = rng.one_in(2);
    let broken = if more { Broken::Both } else { Broken::Leasts };
    let broken = rng.pick(&[Broken::Given, Broken::Closed, broken]);
    let (held, place) = (rng.length(window - 1, horizon - 1), rng.pick(&SEAMS));
    let stream = Stream {
        held,
        ..Stream::new(rng, horizon, window, more, held + place as usize + 1)
    };
    let words = stream.words(rng, broken);
    let mut counts = stream.counts[held..].to_vec();
    let after = rng.pick(&AFTER_REJECTION);
    counts.extend(rng.arbitrary(after as usize));
    tally.note(PREVIEW_PLACE, place);
    let (due, passing) = (stream.due(broken).0, place as usize);
    check_preview(subject, &words, &counts[..passing], Some((passing, PASSED)))?;
    check_preview(subject, &words, &counts, Some((passing, due)))
}

pub fn compare_monitor(subject: &dyn Subject, rng: &mut Rng, tally: &mut Tally) -> Result<(), String> {
    let more = rng.one_in(2);
    let last = if more { Broken::Both } else { Broken::Leasts };
    let broken = rng.pick(&[Broken::Given, Broken::Closed, Broken::Both, last]);
    Stream::drawn(rng, more).check(subject, rng, broken, true, tally)
}

/// Every window of the longest horizon in turn, on lists that are shorter.
pub fn compare_every_window(subject: &dyn Subject, rng: &mut Rng, tally: &mut Tally) -> Result<(), String> {
    for window in 1..=LONGEST_HORIZON {
        let kinds = [
            (Broken::Given, true),
            (Broken::Given, false),
            (Broken::Closed, rng.one_in(2)),
            (Broken::Leasts, false),
        ];
        for (broken, more) in kinds {
            let length = rng.length(600, 601);
            Stream::new(rng, LONGEST_HORIZON, window, more, length).check(subject, rng, broken, false, tally)?;
        }
    }
    Ok(())
}

pub fn compare_generator(subject: &dyn Subject, rng: &mut Rng, tally: &mut Tally) -> Result<(), String> {
    let horizon = horizon(rng);
    let pair = match rng.one_in(4) {
        true => unlimited_pairs::closure_of_any(rng, horizon),
        false => pairs::closure_of_any(rng, horizon),
    };
    let mut words = [0; GENERATOR_WORDS];
    Kind::Generator.open(&Reference, &pair, &mut words);
    let length = length(rng);
    let choices = choices(rng, length);
    let list = List::new(Kind::Generator, &words, &choices)?;
    tally.note(LONG_SENT, horizon_end(horizon));
    list.check_cuts(subject, rng, tally)?;
    check_passed(subject, &pair, &list.trace.answers)
}

//! Sums about 2^29, 2^30, 2^31 and 2^32, where 32 bits end and where sums may be kept in another way: in the ticks held and in the list, by
//! single counts and by several together. Only without ceilings does a stream go on after them, so these states have none.

use crate::built::{self, state_words, HUGE};
use crate::pair::Pair;
use crate::pieces::List;
use crate::random::Rng;
use crate::streams::range;
use crate::subject::{Subject, LIMIT, LONGEST_HORIZON, PASSED, TOO_FEW};
use crate::tally::{Tally, BORDER_COUNT, BORDER_FEW, BORDER_HELD, BORDER_LIST, BORDER_SENT, BORDER_SENT_AFTER};
use crate::window_sums::{extremes, figures};
use crate::words::Kind;

/// A sum at a border, one less or one more.
#[derive(Clone, Copy)]
struct Border {
    exponent: u32,
    /// 0 for one less, 1 for itself, 2 for one more.
    side: u32,
}

impl Border {
    fn drawn(rng: &mut Rng, highest: u32) -> Border {
        Border {
            exponent: rng.between(29, highest),
            side: rng.below(3),
        }
    }

    fn sum(self) -> u64 {
        (1 << self.exponent) + u64::from(self.side) - 1
    }

    /// As it is tallied.
    fn number(self) -> u32 {
        10 * self.exponent + self.side
    }
}

/// So many counts, none above a bound, that have this sum together: one after the other takes a share, even or not, of what is left.
fn split(rng: &mut Rng, sum: u64, parts: usize, bound: u32) -> Vec<u32> {
    let mut left = sum;
    let even = rng.one_in(2);
    (1..=parts as u64)
        .rev()
        .map(|share| {
            let fewest = left.saturating_sub((share - 1) * u64::from(bound));
            let most = left.min(u64::from(bound));
            let count = if even {
                left / share
            } else {
                fewest + rng.number() % (most - fewest + 1)
            };
            left -= count;
            count as u32
        })
        .collect()
}

/// How many counts a sum is split into: as few as there can be, as many as the horizon has, or between.
fn parts(rng: &mut Rng, sum: u64, bound: u32, horizon: usize) -> Option<usize> {
    let fewest = sum.div_ceil(u64::from(bound)) as usize;
    let between = rng.length(fewest.min(horizon), horizon);
    (fewest <= horizon).then(|| rng.pick(&[fewest, horizon, between, between]))
}

fn horizon(rng: &mut Rng) -> usize {
    let (short, any) = (rng.length(1, 12), rng.length(1, LONGEST_HORIZON));
    rng.pick(&[LONGEST_HORIZON, 255, 16, short, short, any])
}

/// How many ticks are held: none, as many as there can be, or between.
fn held_ticks(rng: &mut Rng, horizon: usize) -> usize {
    let between = rng.length(0, horizon - 1);
    rng.pick(&[0, horizon - 1, horizon - 1, between])
}

/// Puts a sum at a border, or a single count, into a stream at a place.
fn put(rng: &mut Rng, stream: &mut [u32], place: usize, horizon: usize, tallied: &mut Vec<(usize, usize, Border)>) {
    let border = Border::drawn(rng, 32);
    let room = horizon.min(stream.len() - place);
    match parts(rng, border.sum(), u32::MAX, room) {
        Some(parts) if !rng.one_in(3) => {
            stream[place..place + parts].copy_from_slice(&split(rng, border.sum(), parts, u32::MAX));
            tallied.push((place, place + parts, border));
        }
        _ => stream[place] = rng.pick(&HUGE),
    }
}

/// A stream with some such sums among small counts that are not 0, but maybe the last; and how many of its ticks are held at first.
struct Course {
    horizon: usize,
    stream: Vec<u32>,
    held: usize,
    /// From where to where each sum at a border reaches. A later one may have overwritten it.
    sums: Vec<(usize, usize, Border)>,
}

fn course(rng: &mut Rng) -> Course {
    let horizon = horizon(rng);
    let held = held_ticks(rng, horizon);
    let any = rng.length(1, 700);
    let length = held + rng.pick(&[1, 40, 700, any]);
    let scale = rng.pick(&[1, 9, 60_000]);
    let mut stream: Vec<u32> = (0..length).map(|_| rng.between(1, scale)).collect();
    let mut sums = Vec::new();
    for _ in 0..rng.length(1, 1 + length / 100) {
        let end = rng.pick(&[held.max(1), length]);
        let place = rng.length(0, end - 1);
        put(rng, &mut stream, place, horizon, &mut sums);
    }
    if rng.one_in(2) {
        stream[length - 1] = 0;
    }
    Course {
        horizon,
        stream,
        held,
        sums,
    }
}

impl Course {
    /// Leasts that the stream just keeps; and where its last tick can break one alone, what it does then.
    fn leasts(&self, rng: &mut Rng) -> (Vec<u32>, u32) {
        let last = self.stream.len() - 1;
        let before = figures(&extremes(&self.stream, self.held, last, self.horizon).smallest);
        let at_last = figures(&extremes(&self.stream, last, last + 1, self.horizon).smallest);
        let mut lower: Vec<u32> = before.iter().zip(&at_last).map(|(one, other)| *one.min(other)).collect();
        let judged = self.horizon.min(last + 1);
        let breakable: Vec<usize> = (0..judged).filter(|&place| at_last[place] < before[place]).collect();
        if breakable.is_empty() || rng.one_in(4) {
            return (lower, PASSED);
        }
        let place = rng.pick(&breakable);
        lower[place] = rng.between(at_last[place] + 1, before[place]);
        (lower, TOO_FEW + place as u32 + 1)
    }

    fn note(&self, tally: &mut Tally) {
        for &(from, to, border) in &self.sums {
            let stands = self.stream[from..to].iter().map(|&count| u64::from(count)).sum::<u64>() == border.sum();
            match () {
                _ if !stands => {}
                _ if to <= self.held => tally.note(BORDER_HELD, border.number()),
                _ => tally.note(BORDER_LIST, border.number()),
            }
        }
        let last = self.stream.len() - 1;
        let between = self.stream.get(self.held + 1..last).unwrap_or_default();
        between
            .iter()
            .filter(|count| HUGE.contains(count))
            .for_each(|&count| tally.note(BORDER_COUNT, count));
    }
}

/// What has no effect where there are no ceilings, and the words of a state without them.
fn unlimited_words(rng: &mut Rng, lower: &[u32], held: &[u32]) -> Vec<u32> {
    let rubbish = |rng: &mut Rng| rng.arbitrary(lower.len());
    let (given, closed) = (Pair::marked(&rubbish(rng), lower, 1), Pair::new(&rubbish(rng), &rubbish(rng)));
    let mut words = state_words(given, closed, held);
    if rng.one_in(2) {
        built::fill_rest(rng, &mut words);
    }
    words
}

pub fn compare_monitor(subject: &dyn Subject, rng: &mut Rng, tally: &mut Tally) -> Result<(), String> {
    let course = course(rng);
    let (lower, due) = course.leasts(rng);
    let words = unlimited_words(rng, &lower, &course.stream[..course.held]);
    let counts = &course.stream[course.held..];
    let list = List::new(Kind::Monitor, &words, counts)?;
    let (last, before) = list.trace.answers.split_last().ok_or("a list without a tick")?;
    if *last != due || before.iter().any(|&answer| answer != PASSED) {
        return Err(format!(
            "the reference does not say {due} of the last tick\n  words {words:?}\n  counts {counts:?}"
        ));
    }
    course.note(tally);
    tally.note(BORDER_FEW, due.saturating_sub(TOO_FEW));
    list.check_cuts(subject, rng, tally)
}

/// Leasts for a generator: at a rate up to the limit, for one window alone, or any.
fn generator_leasts(rng: &mut Rng, horizon: usize) -> Vec<u32> {
    let rate = rng.pick(&[1, 9, 60_000, 65_535]);
    let any = rng.length(1, horizon);
    let window = rng.pick(&[horizon, any]);
    let kind = rng.below(3);
    let least = |ticks: usize| match kind {
        0 => rate * ticks as u32,
        1 if ticks == window => rng.between(1, LIMIT),
        1 => 0,
        _ => rng.below(rate + 1) * ticks as u32,
    };
    (1..=horizon).map(least).collect()
}

/// Choices with which a generator sends these counts, as far as it can: the smallest that it can send where that is more.
fn choices_for(lower: &[u32], held: &[u32], counts: &[u32]) -> Vec<u32> {
    let pair = Pair::marked(lower, lower, 1);
    let mut stream = held.to_vec();
    let mut choices = Vec::new();
    for &count in counts {
        let lo = range(&pair, &stream).map_or(0, |(lo, _)| lo);
        stream.push(count.max(lo));
        choices.push(count.max(lo) - lo);
    }
    choices
}

/// Counts to send: small ones, and some that have a sum at a border together, each at most what a generator sends.
fn to_send(rng: &mut Rng, horizon: usize, sums: &mut Vec<Border>) -> Vec<u32> {
    let mut counts = Vec::new();
    for _ in 0..rng.length(1, 3) {
        counts.extend((0..rng.length(0, 40)).map(|_| rng.below(3)));
        let border = Border::drawn(rng, 31);
        if let Some(parts) = parts(rng, border.sum(), LIMIT, horizon) {
            counts.extend(split(rng, border.sum(), parts, LIMIT));
            sums.push(border);
        }
    }
    counts
}

pub fn compare_generator(subject: &dyn Subject, rng: &mut Rng, tally: &mut Tally) -> Result<(), String> {
    let horizon = horizon(rng);
    let lower = generator_leasts(rng, horizon);
    let mut held: Vec<u32> = (0..held_ticks(rng, horizon)).map(|_| rng.below(9)).collect();
    let (mut before, mut sums) = (Vec::new(), Vec::new());
    if !held.is_empty() && !rng.one_in(3) {
        let place = rng.length(0, held.len() - 1);
        put(rng, &mut held, place, horizon, &mut before);
    }
    let counts = to_send(rng, horizon, &mut sums);
    let choices = choices_for(&lower, &held, &counts);
    let words = unlimited_words(rng, &lower, &held);
    let list = List::new(Kind::Generator, &words[..Kind::Generator.words()], &choices)?;
    before.iter().for_each(|sum| tally.note(BORDER_SENT_AFTER, sum.2.number()));
    if list.trace.answers == counts {
        sums.iter().for_each(|border| tally.note(BORDER_SENT, border.number()));
    }
    list.check_cuts(subject, rng, tally)
}

//! The operations as a plain Rust program would have them: for each window its candidates, one after the other, in 32 bits; states
//! that go in and come out by value and are asked about at each tick, also where a list has many; one pass over the text. No loop that
//! matters has a bounds check.

use crate::contender::{Preview, State};
use crate::subject::{
    answered, refusal_of, refused, ALREADY_FAILED, HEADER, LIMIT, LONGEST_HORIZON, LONGEST_TEXT, LOST, NO_COUNT, PASSED, TEXT_LIMIT,
    TOO_FEW, TOO_MANY,
};

pub fn opening(upper: &[u32], lower: &[u32]) -> u32 {
    match upper.len() {
        1..=LONGEST_HORIZON if lower.len() != upper.len() => 2,
        1..=LONGEST_HORIZON if upper.iter().chain(lower).any(|&figure| figure > LIMIT) => 4,
        1..=LONGEST_HORIZON => 0,
        _ => 1,
    }
}

/// The new figures of one window: over the places to cut it, then over the ways to make it longer. A difference below 0 is cut off
/// there: the window that is subtracted crosses in the same round then (tests/outside/faults.rs says why).
fn figures(upper: &[u32], lower: &[u32], d: usize) -> (u32, u32) {
    let (mut new_upper, mut new_lower) = (upper[d - 1], lower[d - 1]);
    for a in 1..d {
        // SAFETY: both parts of a cut are windows shorter than d.
        let (upper_sum, lower_sum) = unsafe {
            let (one, other) = (a - 1, d - a - 1);
            (
                upper.get_unchecked(one) + upper.get_unchecked(other),
                lower.get_unchecked(one) + lower.get_unchecked(other),
            )
        };
        new_upper = new_upper.min(upper_sum);
        new_lower = new_lower.max(lower_sum);
    }
    let longer = upper[d..].iter().zip(&lower[d..]).zip(upper.iter().zip(lower));
    for ((upper_whole, lower_whole), (upper_rest, lower_rest)) in longer {
        new_upper = new_upper.min(upper_whole.saturating_sub(*lower_rest));
        new_lower = new_lower.max(lower_whole.saturating_sub(*upper_rest));
    }
    (new_upper, new_lower)
}

fn crosses(upper: &[u32], lower: &[u32]) -> bool {
    upper.iter().zip(lower).any(|(upper, lower)| lower > upper)
}

pub fn close(upper: &[u32], lower: &[u32], closed_upper: &mut [u32], closed_lower: &mut [u32]) -> u64 {
    let horizon = upper.len();
    match opening(upper, lower) {
        0 | 4 if closed_upper.len() < horizon || closed_lower.len() < horizon => return refused(3),
        0 => {}
        number => return refused(number),
    }
    let (mut old_upper, mut old_lower) = ([0; LONGEST_HORIZON], [0; LONGEST_HORIZON]);
    old_upper[..horizon].copy_from_slice(upper);
    old_lower[..horizon].copy_from_slice(lower);
    let mut rounds = 0;
    loop {
        if crosses(&old_upper[..horizon], &old_lower) {
            return refused(5);
        }
        let (mut new_upper, mut new_lower) = ([0; LONGEST_HORIZON], [0; LONGEST_HORIZON]);
        for d in 1..=horizon {
            (new_upper[d - 1], new_lower[d - 1]) = figures(&old_upper[..horizon], &old_lower[..horizon], d);
        }
        if new_upper == old_upper && new_lower == old_lower {
            break;
        }
        (old_upper, old_lower) = (new_upper, new_lower);
        rounds += 1;
    }
    closed_upper[..horizon].copy_from_slice(&old_upper[..horizon]);
    closed_lower[..horizon].copy_from_slice(&old_lower[..horizon]);
    rounds
}

/// What a generator's state is, and a monitor's has, as it goes in and comes out. The last tick is held first.
#[derive(Clone)]
struct History {
    upper: [u32; LONGEST_HORIZON],
    lower: [u32; LONGEST_HORIZON],
    held: [u32; LONGEST_HORIZON],
    horizon: usize,
    held_ticks: usize,
}

/// Every figure is compared even after one that is too great, which the compiler turns into wide instructions.
fn within_limit(list: &[u32]) -> bool {
    !list.iter().fold(false, |over, &figure| over | (figure > LIMIT))
}

impl History {
    fn open(upper: &[u32], lower: &[u32]) -> History {
        let nothing = [0; LONGEST_HORIZON];
        let mut history = History {
            upper: nothing,
            lower: nothing,
            held: nothing,
            horizon: upper.len(),
            held_ticks: 0,
        };
        history.upper[..upper.len()].copy_from_slice(upper);
        history.lower[..lower.len()].copy_from_slice(lower);
        history
    }

    fn well_formed(&self) -> bool {
        (1..=LONGEST_HORIZON).contains(&self.horizon)
            && self.held_ticks < self.horizon
            && within_limit(&self.upper[..self.horizon])
            && within_limit(&self.lower[..self.horizon])
    }

    fn push(&mut self, count: u32) {
        let kept = self.held_ticks.min(self.horizon.saturating_sub(2));
        self.held.copy_within(..kept, 1);
        self.held[0] = count;
        self.held_ticks = (self.held_ticks + 1).min(self.horizon - 1);
    }

    fn hold(mut self, count: u32) -> History {
        self.push(count);
        self
    }

    /// What the figures of one pair say of a count: windows one after the other, up to the first that is outside.
    fn verdict(&self, upper: &[u32; LONGEST_HORIZON], lower: &[u32; LONGEST_HORIZON], count: u32) -> u32 {
        let mut sum = u64::from(count);
        let windows = self.held_ticks + 1;
        for place in 0..windows {
            // SAFETY: there are fewer held ticks than the horizon, which is at most 256.
            let (upper, lower, held) = unsafe {
                (
                    *upper.get_unchecked(place),
                    *lower.get_unchecked(place),
                    *self.held.get_unchecked(place),
                )
            };
            if sum > u64::from(upper) {
                return TOO_MANY + 1 + place as u32;
            }
            if sum < u64::from(lower) {
                return TOO_FEW + 1 + place as u32;
            }
            // After the last window this adds a tick that is not held, and the sum is not used any more.
            sum += u64::from(held);
        }
        PASSED
    }

    /// The smallest margin of the windows that end with a count.
    fn margin(&self, count: u32) -> i64 {
        let (mut sum, mut smallest) = (i64::from(count), i64::MAX);
        for place in 0..self.held_ticks + 1 {
            // SAFETY: as for a verdict.
            let (upper, lower, held) = unsafe {
                (
                    *self.upper.get_unchecked(place),
                    *self.lower.get_unchecked(place),
                    *self.held.get_unchecked(place),
                )
            };
            smallest = smallest.min(i64::from(upper) - sum).min(sum - i64::from(lower));
            sum += i64::from(held);
        }
        smallest
    }

    fn range(&self) -> (i64, i64) {
        let (mut before, mut lo, mut hi) = (0, 0, i64::from(u32::MAX));
        for place in 0..self.held_ticks + 1 {
            // SAFETY: as for a verdict.
            let (upper, lower, held) = unsafe {
                (
                    *self.upper.get_unchecked(place),
                    *self.lower.get_unchecked(place),
                    *self.held.get_unchecked(place),
                )
            };
            hi = hi.min(i64::from(upper) - before);
            lo = lo.max(i64::from(lower) - before);
            before += i64::from(held);
        }
        (lo, hi)
    }

    fn generator_tick(self, choice: u32) -> (History, u32) {
        if !self.well_formed() {
            return (self, 12);
        }
        let (lo, hi) = self.range();
        if lo > hi {
            return (self, NO_COUNT);
        }
        let count = lo as u32 + (u64::from(choice) % (hi - lo + 1) as u64) as u32;
        (self.hold(count), count)
    }
}

#[derive(Clone)]
pub struct Monitor {
    history: History,
    closed_upper: [u32; LONGEST_HORIZON],
    closed_lower: [u32; LONGEST_HORIZON],
    failed: bool,
}

impl Monitor {
    fn well_formed(&self) -> bool {
        self.history.well_formed()
            && within_limit(&self.closed_upper[..self.history.horizon])
            && within_limit(&self.closed_lower[..self.history.horizon])
    }

    /// By the figures as given, then by the closed ones.
    fn verdict(&self, count: u32) -> u32 {
        let history = &self.history;
        match history.verdict(&history.upper, &history.lower, count) {
            PASSED if history.verdict(&self.closed_upper, &self.closed_lower, count) != PASSED => LOST,
            verdict => verdict,
        }
    }

    fn margin(&self, count: u32) -> i64 {
        if self.failed {
            0
        } else {
            self.history.margin(count)
        }
    }

    fn hold(mut self, count: u32) -> Monitor {
        self.history.push(count);
        self
    }

    fn tick(self, count: u32) -> (Monitor, u32) {
        if !self.well_formed() {
            return (self, 12);
        }
        if self.failed {
            return (self, ALREADY_FAILED);
        }
        let verdict = self.verdict(count);
        if verdict == PASSED {
            (self.hold(count), PASSED)
        } else {
            (Monitor { failed: true, ..self }, verdict)
        }
    }
}

impl State for Monitor {
    fn run(&mut self, counts: &[u32], verdicts: &mut [u32], margins: &mut [i64]) {
        let mut monitor = self.clone();
        for (place, (count, entry)) in counts.iter().zip(verdicts).enumerate() {
            if let Some(margin) = margins.get_mut(place) {
                *margin = monitor.margin(*count);
            }
            (monitor, *entry) = monitor.tick(*count);
        }
        *self = monitor;
    }

    /// A tick takes the state by value in a list too.
    fn run_each(&mut self, counts: &[u32], verdicts: &mut [u32]) {
        self.run(counts, verdicts, &mut []);
    }
}

impl Preview for Monitor {
    fn preview(&mut self, counts: &[u32]) -> (usize, u32) {
        let mut monitor = self.clone();
        let mut verdict = PASSED;
        for (place, count) in counts.iter().enumerate() {
            (monitor, verdict) = monitor.tick(*count);
            if verdict != PASSED {
                return (place, verdict);
            }
        }
        (counts.len(), verdict)
    }
}

pub fn open_monitor(upper: &[u32], lower: &[u32]) -> Result<Box<Monitor>, u32> {
    let (mut closed_upper, mut closed_lower) = ([0; LONGEST_HORIZON], [0; LONGEST_HORIZON]);
    // The result lists are long enough for every horizon, so that this asks what the opening asks.
    let number = refusal_of(close(upper, lower, &mut closed_upper, &mut closed_lower));
    if number != 0 {
        return Err(number);
    }
    Ok(Box::new(Monitor {
        history: History::open(upper, lower),
        closed_upper,
        closed_lower,
        failed: false,
    }))
}

/// A round that changes no figure.
fn is_own_closure(upper: &[u32], lower: &[u32]) -> bool {
    let stays = |d: usize| figures(upper, lower, d) == (upper[d - 1], lower[d - 1]);
    !crosses(upper, lower) && (1..=upper.len()).all(stays)
}

impl State for History {
    fn run(&mut self, choices: &[u32], counts: &mut [u32], _: &mut [i64]) {
        let mut generator = self.clone();
        for (choice, entry) in choices.iter().zip(counts) {
            (generator, *entry) = generator.generator_tick(*choice);
        }
        *self = generator;
    }

    fn run_each(&mut self, choices: &[u32], counts: &mut [u32]) {
        self.run(choices, counts, &mut []);
    }
}

pub fn open_generator(upper: &[u32], lower: &[u32]) -> Result<Box<dyn State>, u32> {
    match opening(upper, lower) {
        0 if is_own_closure(upper, lower) => Ok(Box::new(History::open(upper, lower))),
        0 => Err(15),
        number => Err(number),
    }
}

/// The number that stands before `end`, and what follows it.
fn field<'a>(text: &'a [u8], end: &[u8]) -> Option<(u32, &'a [u8])> {
    let mut value = 0;
    for (place, byte) in text.iter().enumerate() {
        match byte {
            b'0'..=b'9' if place < 5 && !(place == 1 && value == 0) => value = 10 * value + u32::from(byte - b'0'),
            _ if place > 0 && text[place..].starts_with(end) => return Some((value, &text[place + end.len()..])),
            _ => return None,
        }
    }
    // The last record may end with the text.
    if end == b"\r\n" && !text.is_empty() {
        Some((value, &[]))
    } else {
        None
    }
}

/// What stands for a most that is missing.
const NO_MOST: u32 = u32::MAX;

/// The last field, which may be empty.
fn last_field(text: &[u8]) -> Option<(u32, &[u8])> {
    match text {
        [] => Some((NO_MOST, text)),
        [b'\r', b'\n', rest @ ..] => Some((NO_MOST, rest)),
        _ => field(text, b"\r\n"),
    }
}

fn record(text: &[u8]) -> Option<(u32, u32, u32, &[u8])> {
    let (window, rest) = field(text, b",")?;
    let (least, rest) = field(rest, b",")?;
    let (most, rest) = last_field(rest)?;
    Some((window, least, most, rest))
}

fn after_header(text: &[u8]) -> Option<&[u8]> {
    match text.strip_prefix(HEADER)? {
        [] => Some(&[]),
        rest => rest.strip_prefix(b"\r\n"),
    }
}

pub fn read(text: &[u8], upper: &mut [u32], lower: &mut [u32]) -> u64 {
    let Some(mut rest) = after_header(text).filter(|_| text.len() <= LONGEST_TEXT) else {
        return refused(6);
    };
    let mut figures = [None; LONGEST_HORIZON];
    let (mut horizon, mut smallest) = (0, u32::MAX);
    while !rest.is_empty() {
        let Some((window, least, most, next)) = record(rest) else {
            return refused(7);
        };
        if window < 1 || window as usize > LONGEST_HORIZON || least > TEXT_LIMIT || (most > TEXT_LIMIT && most != NO_MOST) {
            return refused(8);
        }
        if figures[window as usize - 1].replace((least, most)).is_some() {
            return refused(9);
        }
        horizon = horizon.max(window as usize);
        smallest = smallest.min(most);
        rest = next;
    }
    if horizon == 0 {
        return refused(10);
    }
    if upper.len() < horizon || lower.len() < horizon {
        return refused(11);
    }
    let unlimited = smallest == NO_MOST;
    for (place, named) in figures[..horizon].iter().enumerate() {
        let (least, most) = named.unwrap_or((0, NO_MOST));
        lower[place] = least;
        if !unlimited {
            upper[place] = if most == NO_MOST { (place as u32 + 1) * smallest } else { most };
        }
    }
    answered(horizon as u32, unlimited)
}

//! Words built by hand: states that no opening and no run leaves, with anything in the words that have no effect, and damaged ones, which
//! are no states. All are a monitor's; the first of them are a generator's.

use crate::pair::{closed, Pair};
use crate::random::Rng;
use crate::script_cases::{choices, horizon};
use crate::states::{drawn_state, State};
use crate::streams::{chosen, range, sent};
use crate::subject::{LIMIT, LONGEST_HORIZON, REFUSED};
use crate::words::{CLOSED_LOWER_WORDS, CLOSED_UPPER_WORDS, FAILED_WORD, HELD_WORD, HORIZON_WORD};
use crate::words::{LOWER_WORDS, MARK_WORD, TICK_WORDS, UPPER_WORDS};
use crate::{pairs, unlimited_pairs};

/// The first words of the lists that a state has, and whether they hold figures.
const LISTS: [(usize, bool); 5] = [
    (UPPER_WORDS, true),
    (LOWER_WORDS, true),
    (CLOSED_UPPER_WORDS, true),
    (CLOSED_LOWER_WORDS, true),
    (TICK_WORDS, false),
];

/// Numbers that set a mark.
const MARKS: [u32; 5] = [1, 7, 256, 65_536, u32::MAX];

/// Counts that sums of 32 bits are spoilt by.
pub const HUGE: [u32; 8] = [
    LIMIT,
    LIMIT + 1,
    536_870_911,
    536_870_912,
    536_870_913,
    1 << 31,
    u32::MAX - 1,
    u32::MAX,
];

/// The words of a state with these figures and ticks, of which there are fewer than the horizon.
pub fn state_words(given: Pair, closed: Pair, held: &[u32]) -> Vec<u32> {
    let mut words = State::fresh(given, closed).words();
    words[HELD_WORD] = held.len() as u32;
    words[TICK_WORDS..TICK_WORDS + held.len()].copy_from_slice(held);
    words
}

/// Closed figures that have nothing to do with those as given, or that are theirs.
fn any_closed(rng: &mut Rng, given: &Pair) -> Pair {
    match rng.below(4) {
        0 => pairs::any(rng, given.horizon()),
        1 => Pair::loose(given.horizon()),
        2 => pairs::lasting(rng, given.horizon()),
        _ => closed(given),
    }
}

/// Ticks that keep the pair as far as there are any, or any small ones; huge ones among them now and then.
fn any_held(rng: &mut Rng, given: &Pair) -> Vec<u32> {
    let length = rng.length(0, given.horizon() - 1);
    let kept = choices(rng, length);
    let mut held = if rng.one_in(3) { rng.arbitrary(length) } else { sent(given, &kept) };
    for count in &mut held {
        if *count >= REFUSED || rng.one_in(3) {
            *count %= 6;
        }
        if rng.one_in(30) {
            *count = rng.pick(&HUGE);
        }
    }
    held
}

/// A state on any pair, closed or not.
fn on_any_pair(rng: &mut Rng) -> Vec<u32> {
    let horizon = horizon(rng);
    let given = match rng.below(3) {
        0 => unlimited_pairs::to_open(rng, horizon),
        1 => pairs::any(rng, horizon),
        _ => pairs::lasting(rng, horizon),
    };
    let closed = any_closed(rng, &given);
    let held = any_held(rng, &given);
    state_words(given, closed, &held)
}

/// Puts something into the words past the horizon and past the held ticks, which have no effect.
pub fn fill_rest(rng: &mut Rng, words: &mut [u32]) {
    let (horizon, held) = (words[HORIZON_WORD] as usize, words[HELD_WORD] as usize);
    for (first, figures) in LISTS {
        let used = if figures { horizon } else { held };
        for word in words[first..first + LONGEST_HORIZON].iter_mut().skip(used) {
            *word = rng.any();
        }
    }
}

/// One word that is at a limit or past it: a size, a figure inside the horizon or past it, a tick, or a mark.
fn damage(rng: &mut Rng, words: &mut [u32]) {
    let horizon = words[HORIZON_WORD].clamp(1, LONGEST_HORIZON as u32);
    let (first, figures) = rng.pick(&LISTS);
    let inside = first + rng.below(horizon) as usize;
    match rng.below(13) {
        0 => words[HORIZON_WORD] = rng.pick(&[0, 257, u32::MAX]),
        1 => words[HORIZON_WORD] = rng.between(1, LONGEST_HORIZON as u32),
        2 => words[HELD_WORD] = rng.pick(&[horizon, horizon, u32::MAX]),
        3 => words[HELD_WORD] = horizon - 1,
        4..=7 if figures => words[inside] = rng.pick(&[LIMIT, LIMIT + 1, u32::MAX]),
        8 if horizon < LONGEST_HORIZON as u32 => words[first + horizon as usize] = rng.pick(&[LIMIT + 1, u32::MAX]),
        9 => words[MARK_WORD] = rng.pick(&MARKS),
        10 => words[FAILED_WORD] = rng.pick(&MARKS),
        // A least above its ceiling, so that a sum may be too many and too few.
        11 => words[LOWER_WORDS + inside - first] = words[UPPER_WORDS + inside - first].saturating_add(rng.between(1, 20)),
        _ => words[inside] = rng.pick(&HUGE),
    }
}

/// Words of any of these kinds.
pub fn any(rng: &mut Rng) -> Vec<u32> {
    let mut words = if rng.one_in(3) {
        drawn_state(rng.number() >> 32, rng.one_in(2)).words()
    } else {
        on_any_pair(rng)
    };
    if rng.one_in(2) {
        fill_rest(rng, &mut words);
    }
    for _ in 0..rng.pick(&[0, 0, 0, 1, 1, 2]) {
        damage(rng, &mut words);
    }
    words
}

/// Counts for a monitor with these words: most keep the figures as given as far as some do, so that the closed ones have a say.
pub fn counts(rng: &mut Rng, words: &[u32]) -> Vec<u32> {
    let state = State::of_words(words);
    let mut list = Vec::new();
    if !state.has_sizes() {
        let length = rng.length(0, 4);
        return rng.arbitrary(length);
    }
    let (given, mut stream) = (state.given(), state.stream().to_vec());
    for _ in 0..rng.length(0, 14) {
        let kept = range(&given, &stream).filter(|_| !rng.one_in(12));
        let count = match kept {
            Some((lo, hi)) => chosen(lo, hi, rng.any() >> rng.pick(&[0, 16, 31])),
            None if rng.one_in(4) => rng.pick(&HUGE),
            None => rng.below(9),
        };
        stream.push(count);
        list.push(count);
    }
    list
}

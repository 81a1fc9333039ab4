//! Scripts of choices through a generator: on which pairs it opens, and what is true of all that it sends.

use crate::extensions::Extensions;
use crate::pair::Pair;
use crate::paths;
use crate::random::Rng;
use crate::rounds;
use crate::script_cases::for_generator;
use crate::scripts::{check, generate, note_faults, spoil_sometimes};
use crate::streams::conforms;
use crate::subject::{Subject, LIMIT, PASSED, REFUSED};
use crate::tally::{horizon_end, Tally, AT_LIMIT, GENERATOR, LO, LOOSE_LOWER, LOOSE_UPPER, NOT_OWN, NOT_OWN_ROUNDS, OPENING, SENT};

/// A search over the pasts of a pair tries no more counts than this, all in all.
const MOST_TRIED: u64 = 1_000;

/// A generator opens exactly on the pairs that closing gives back after no round.
fn check_given_back(subject: &dyn Subject, pair: &Pair, opens: bool) -> Result<(), String> {
    let mut closed = Pair::filled(pair.horizon(), u32::MAX, u32::MAX);
    let answer = subject.close(&pair.upper, &pair.lower, pair.mark, &mut closed.upper, &mut closed.lower);
    if (answer == 0 && closed == *pair) == opens {
        return Ok(());
    }
    Err(format!(
        "a generator opens: {opens}; but closing answers {answer} on\n{}",
        pair.shown()
    ))
}

/// Whether a pair is its own closure, without rounds: by each window and its parts, and by shortest paths. A difference here is inside
/// the reference.
fn check_own_closure(pair: &Pair, own: bool) -> Result<(), String> {
    let by_parts = paths::keeps_parts(&pair.upper, &pair.lower) == own;
    let found = |(upper, lower)| pair.upper == upper && pair.lower == lower;
    if by_parts && (pair.horizon() > 12 || paths::close(&pair.upper, &pair.lower).is_some_and(found) == own) {
        return Ok(());
    }
    Err(format!("its own closure: {own}, by the rounds alone, is\n{}", pair.shown()))
}

/// No entry is refused, and what is sent keeps the pair, by the sum of every window.
pub fn check_sent(pair: &Pair, list: &[u32]) -> Result<(), String> {
    if list.iter().all(|&count| count < REFUSED) && (pair.horizon() > 12 || conforms(pair, list)) {
        return Ok(());
    }
    Err(format!("what is sent is refused or does not conform\n{}\n  {list:?}", pair.shown()))
}

/// What is sent begins an unbounded conforming stream, by a search where that is short.
fn check_extendable(pair: &Pair, list: &[u32]) -> Result<(), String> {
    let tried = (u64::from(pair.upper[0]) + 1).saturating_pow(pair.horizon() as u32);
    if tried > MOST_TRIED || Extensions::new(pair).is_extendable(list) {
        return Ok(());
    }
    Err(format!("what is sent is not extendable\n{}\n  {list:?}", pair.shown()))
}

/// A monitor on the same pair passes all that is sent.
pub fn check_passed(subject: &dyn Subject, pair: &Pair, list: &[u32]) -> Result<(), String> {
    let mut verdicts = list.to_vec();
    let number = subject.judge(&pair.upper, &pair.lower, pair.mark, &mut verdicts);
    if number == 0 && verdicts.iter().all(|&verdict| verdict == PASSED) {
        return Ok(());
    }
    Err(format!(
        "a monitor on\n{}\nanswers {number} {verdicts:?} to what a generator sent\n  {list:?}",
        pair.shown()
    ))
}

/// Which window settled the smallest count that could be sent last, 0 where none did.
pub fn lo_window(pair: &Pair, stream: &[u32]) -> u32 {
    let before = |window: usize| {
        stream[stream.len() + 1 - window..]
            .iter()
            .map(|&count| i64::from(count))
            .sum::<i64>()
    };
    let windows = 1..=pair.horizon().min(stream.len() + 1);
    let lo = |window: &usize| i64::from(pair.lower[*window - 1]) - before(*window);
    windows.filter(|window| lo(window) > 0).max_by_key(lo).unwrap_or(0) as u32
}

fn note_sent(pair: &Pair, list: &[u32], tally: &mut Tally) {
    if let [before @ .., _] = list {
        tally.note(SENT, horizon_end(pair.horizon()));
        tally.note(LO, lo_window(pair, before));
    }
}

/// The windows whose figures differ, from 1.
fn differing(one: &[u32], other: &[u32]) -> Vec<u32> {
    let windows = (1..).zip(one.iter().zip(other));
    windows.filter(|(_, (one, other))| one != other).map(|(window, _)| window).collect()
}

/// What closing makes of a pair that is not its own closure.
fn note_not_own(pair: &Pair, tally: &mut Tally) {
    let Some(stop) = rounds::close(&pair.upper, &pair.lower) else {
        tally.note(NOT_OWN, if pair.crosses() { 4 } else { 5 });
        return;
    };
    tally.note(NOT_OWN_ROUNDS, stop.rounds);
    let upper = differing(&pair.upper, &rounds::narrowed(&stop.curves.upper));
    let lower = differing(&pair.lower, &rounds::narrowed(&stop.curves.lower));
    tally.note(NOT_OWN, u32::from(!upper.is_empty()) + 2 * u32::from(!lower.is_empty()));
    match (upper.as_slice(), lower.as_slice()) {
        ([window], []) => tally.note(LOOSE_UPPER, *window),
        ([], [window]) => tally.note(LOOSE_LOWER, *window),
        _ => {}
    }
}

/// Of the windows that both lists have.
fn common_parts_kept(pair: &Pair) -> bool {
    let windows = pair.upper.len().min(pair.lower.len());
    paths::keeps_parts(&pair.upper[..windows], &pair.lower[..windows])
}

/// What is true of a pair that passed the questions 1, 2 and 4, and was opened on or refused with 15.
fn check_asked(subject: &dyn Subject, pair: &Pair, number: u32, tally: &mut Tally) -> Result<(), String> {
    if pair.upper.iter().chain(&pair.lower).any(|&figure| figure == LIMIT) {
        tally.note(AT_LIMIT, number);
    }
    check_own_closure(pair, number == 0)?;
    check_given_back(subject, pair, number == 0)
}

pub fn compare(subject: &dyn Subject, rng: &mut Rng, tally: &mut Tally) -> Result<(), String> {
    let (mut pair, script) = for_generator(rng);
    spoil_sometimes(rng, &mut pair);
    note_faults(OPENING, &pair, (15, !common_parts_kept(&pair)), tally);
    let (number, list) = check(subject, "generate", generate, &pair, &script)?;
    tally.note(GENERATOR, number);
    match number {
        0 => {
            note_sent(&pair, &list, tally);
            check_sent(&pair, &list)?;
            check_extendable(&pair, &list)?;
            check_passed(subject, &pair, &list)?;
        }
        15 => note_not_own(&pair, tally),
        _ => return Ok(()),
    }
    check_asked(subject, &pair, number, tally)
}

//! Scripts on pairs without ceilings: streams of counts through a monitor, which closes nothing and rejects a tick for too few alone, and
//! lists of choices through a generator, which sends any count from lo up to the limit.

use crate::pair::{closed, Pair};
use crate::random::Rng;
use crate::script_cases::{choices, counts, horizon, spoil, LONGEST_SCRIPT};
use crate::scripts::{check, check_on_closure, generate, judge, note_faults};
use crate::sendings::{check_passed, check_sent, lo_window};
use crate::streams::{conforms, range, sent};
use crate::subject::{refused, Subject, ALREADY_FAILED, LEAST_LIMIT, LIMIT, PASSED, TOO_FEW, UNLIMITED};
use crate::tally::{Tally, UNLIMITED_FEW, UNLIMITED_GENERATOR, UNLIMITED_LO, UNLIMITED_MONITOR, UNLIMITED_ON_CLOSURE};
use crate::tally::{UNLIMITED_OPENING, UNLIMITED_OPEN_AT, UNLIMITED_OVER, UNLIMITED_SENT, UNLIMITED_VERDICT};
use crate::{sums, unlimited_pairs};

/// A pair with a fault now and then, or with a least at a limit.
fn pair(rng: &mut Rng) -> Pair {
    let horizon = horizon(rng);
    let mut pair = unlimited_pairs::to_open(rng, horizon);
    if rng.one_in(10) {
        for _ in 0..rng.between(1, 2) {
            match rng.below(3) {
                0 => spoil(rng, &mut pair),
                _ => unlimited_pairs::at_limit(rng, &mut pair),
            }
        }
    }
    pair
}

/// A pair with a least for its longest window alone, and choices so small that it tells.
fn long_window(rng: &mut Rng) -> (Pair, Vec<u32>) {
    let pair = unlimited_pairs::longest_window(rng);
    let length = pair.horizon() + rng.length(0, 60);
    let script = (0..length).map(|_| rng.below(4)).collect();
    (pair, script)
}

/// A pair, and counts for a monitor on it.
pub fn for_monitor(rng: &mut Rng) -> (Pair, Vec<u32>) {
    if rng.one_in(10) {
        let (pair, script) = long_window(rng);
        let mut counts = sent(&pair, &script);
        let place = rng.length(0, counts.len() - 1);
        counts[place] = counts[place].saturating_sub(1);
        return (pair, counts);
    }
    let pair = pair(rng);
    let length = rng.length(0, LONGEST_SCRIPT);
    // Counts that keep a pair are found for pairs that are one.
    let script = match pair.lower.len() == pair.horizon() {
        true => counts(rng, &pair, length),
        false => choices(rng, length),
    };
    (pair, script)
}

/// A pair, and choices for a generator on it, of which some are those that the largest count, and the smallest again, stand for.
pub fn for_generator(rng: &mut Rng) -> (Pair, Vec<u32>) {
    if rng.one_in(10) {
        return long_window(rng);
    }
    let pair = pair(rng);
    let length = rng.length(0, LONGEST_SCRIPT);
    let mut script = choices(rng, length);
    let least = pair.lower.first().copied().unwrap_or(0).min(LIMIT);
    for choice in &mut script {
        if rng.one_in(6) {
            *choice = rng.pick(&[LIMIT, LIMIT + 1, LIMIT - least, LIMIT - least + 1, u32::MAX]);
        }
    }
    (pair, script)
}

/// Of the windows that both lists have.
fn parts_kept(pair: &Pair) -> bool {
    let windows = pair.upper.len().min(pair.lower.len());
    sums::keeps_parts(&pair.lower[..windows])
}

fn note_opening(pair: &Pair, number: u32, tally: &mut Tally) {
    note_faults(UNLIMITED_OPENING, pair, (15, !parts_kept(pair)), tally);
    let largest = pair.lower.iter().copied().max().unwrap_or(0);
    if matches!(number, 0 | 4) && [LEAST_LIMIT, LEAST_LIMIT + 1, LIMIT, LIMIT + 1].contains(&largest) {
        tally.note(UNLIMITED_OPEN_AT, largest);
    }
}

/// The passed ticks are the longest start that conforms, by the sum of every window; the tick after them has too few, and each later
/// one finds the monitor failed. A difference here is inside the reference.
fn check_start(pair: &Pair, counts: &[u32], verdicts: &[u32]) -> Result<(), String> {
    let passed = verdicts.iter().take_while(|&&verdict| verdict == PASSED).count();
    let few = verdicts.get(passed).is_none_or(|&verdict| verdict / 1_000 * 1_000 == TOO_FEW);
    let rest_failed = verdicts.iter().skip(passed + 1).all(|&verdict| verdict == ALREADY_FAILED);
    let next_breaks = passed == counts.len() || !conforms(pair, &counts[..passed + 1]);
    if conforms(pair, &counts[..passed]) && next_breaks && few && rest_failed {
        return Ok(());
    }
    Err(format!(
        "the verdicts and conformance disagree on\n{}\n  {counts:?}\n  {verdicts:?}",
        pair.shown()
    ))
}

fn note_verdicts(counts: &[u32], verdicts: &[u32], tally: &mut Tally) {
    for (&count, &verdict) in counts.iter().zip(verdicts) {
        tally.note(UNLIMITED_VERDICT, verdict / 1_000);
        if verdict / 1_000 * 1_000 == TOO_FEW {
            tally.note(UNLIMITED_FEW, verdict - TOO_FEW);
        }
        if count > LIMIT && verdict != ALREADY_FAILED {
            tally.note(UNLIMITED_OVER, verdict);
        }
    }
}

pub fn compare_monitor(subject: &dyn Subject, rng: &mut Rng, tally: &mut Tally) -> Result<(), String> {
    let (pair, script) = for_monitor(rng);
    let (number, verdicts) = check(subject, "judge", judge, &pair, &script)?;
    tally.note(UNLIMITED_MONITOR, number);
    note_opening(&pair, number, tally);
    if number != 0 {
        return Ok(());
    }
    note_verdicts(&script, &verdicts, tally);
    if pair.horizon() <= 12 {
        check_start(&pair, &script, &verdicts)?;
    }
    // Closing rules nothing out, so a monitor on the closure says the same, if it opens: leasts above the limit of closing may make
    // one above the limit of a pair.
    let closed = closed(&pair);
    tally.note(UNLIMITED_ON_CLOSURE, if closed.over_limit() { 4 } else { 0 });
    if closed.over_limit() || (pair.horizon() > 64 && !rng.one_in(4)) {
        return Ok(());
    }
    check_on_closure(subject, &closed, &script, &verdicts)
}

/// A generator opens exactly on the leasts that closing gives back after no round, if it closes them at all.
fn check_given_back(subject: &dyn Subject, pair: &Pair, opens: bool) -> Result<(), String> {
    let mut lists = (vec![3; pair.horizon()], vec![3; pair.horizon()]);
    let answer = subject.close(&pair.upper, &pair.lower, pair.mark, &mut lists.0, &mut lists.1);
    let as_due = match pair.is_over(LEAST_LIMIT) {
        true => answer == refused(4),
        false => (answer == UNLIMITED && lists.1 == pair.lower) == opens,
    };
    if as_due {
        return Ok(());
    }
    Err(format!(
        "a generator opens: {opens}; but closing answers {answer} on\n{}",
        pair.shown()
    ))
}

fn note_sent(pair: &Pair, list: &[u32], tally: &mut Tally) {
    if let [before @ .., last] = list {
        let (lo, hi) = range(pair, before).unwrap_or((0, 0));
        tally.note(
            UNLIMITED_SENT,
            match *last {
                count if count == lo => 0,
                count if count == hi => 1,
                _ => 2,
            },
        );
        tally.note(UNLIMITED_LO, lo_window(pair, before));
    }
}

pub fn compare_generator(subject: &dyn Subject, rng: &mut Rng, tally: &mut Tally) -> Result<(), String> {
    let (pair, script) = for_generator(rng);
    let (number, list) = check(subject, "generate", generate, &pair, &script)?;
    tally.note(UNLIMITED_GENERATOR, number);
    note_opening(&pair, number, tally);
    match number {
        0 => {
            note_sent(&pair, &list, tally);
            check_sent(&pair, &list)?;
            check_passed(subject, &pair, &list)?;
        }
        15 => {}
        _ => return Ok(()),
    }
    if (number == 0) != sums::keeps_parts(&pair.lower) {
        return Err(format!("its own closure, by the search over parts alone, is\n{}", pair.shown()));
    }
    check_given_back(subject, &pair, number == 0)
}

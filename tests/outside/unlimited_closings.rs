//! Closings of pairs without ceilings: the subject against the search over parts, and that against rounds of sums and against all splits.

use crate::closings::{check_outcome, result_length, Case, Outcome};
use crate::pair::Pair;
use crate::pairs::long_horizon;
use crate::random::Rng;
use crate::reference::Reference;
use crate::subject::{refusal_of, value_of, Subject, LEAST_LIMIT, LIMIT};
use crate::tally::{Tally, UNLIMITED_AGAIN, UNLIMITED_AT, UNLIMITED_CEILINGS, UNLIMITED_CLOSING, UNLIMITED_FAULTS, UNLIMITED_ROUNDS};
use crate::{sums, unlimited_pairs};

/// All splits of a window are tried where they are so few.
const SPLIT_HORIZON: usize = 9;

/// One fault that a question 1 to 4 is about, or a least that is just right.
fn spoil(rng: &mut Rng, pair: &mut Pair, lengths: &mut (usize, usize)) {
    let horizon = pair.horizon();
    match rng.below(6) {
        0 => {
            let length = rng.pick(&[0, 257, 300]);
            pair.upper.resize(length, 0);
            if rng.one_in(2) {
                pair.lower.resize(length, 0);
            }
        }
        1 => {
            let length = rng.pick(&[0, horizon.saturating_sub(1), horizon + 1, 257]);
            pair.lower.resize(length, 0);
        }
        2 => lengths.0 = rng.length(0, horizon),
        3 => lengths.1 = rng.length(0, horizon),
        _ => unlimited_pairs::at_limit(rng, pair),
    }
}

fn make(rng: &mut Rng, horizon: usize) -> Case {
    let mut pair = unlimited_pairs::to_close(rng, horizon);
    let mut lengths = (result_length(rng, horizon), result_length(rng, horizon));
    if rng.one_in(6) {
        for _ in 0..rng.between(1, 2) {
            spoil(rng, &mut pair, &mut lengths);
        }
    }
    Case::new(rng, pair, lengths.0, lengths.1)
}

/// The search over parts against the rounds, which are no more than it takes to double one part to the horizon; where there are few
/// splits, against all of them. A difference here is one inside the reference.
fn check_reference(case: &Case, expected: &Outcome) -> Result<(), String> {
    let lower = &case.pair.lower;
    let stop = sums::run(lower);
    let found: Vec<u64> = expected.leasts(lower.len()).iter().map(|&least| u64::from(least)).collect();
    let splits = (1..=lower.len().min(SPLIT_HORIZON)).all(|window| sums::over_all_splits(lower, window) == found[window - 1]);
    let doublings = lower.len().next_power_of_two().trailing_zeros();
    if found == stop.lower && splits && stop.rounds <= doublings {
        return Ok(());
    }
    Err(format!("the rounds, the parts and the splits disagree on\n{}", case.input()))
}

/// Closing once more: nothing changes, unless a least is above the limit now, which closing does not take.
fn check_again(subject: &dyn Subject, pair: &Pair, closed: &[u32], tally: &mut Tally) -> Result<(), String> {
    let mut again = (vec![5; closed.len()], vec![5; closed.len()]);
    let answer = subject.close(&pair.upper, closed, pair.mark, &mut again.0, &mut again.1);
    tally.note(UNLIMITED_AGAIN, refusal_of(answer));
    let over = closed.iter().any(|&least| least > LEAST_LIMIT);
    let as_due = match refusal_of(answer) {
        0 => !over && value_of(answer) == 0 && again.1 == closed,
        number => over && number == 4,
    };
    if as_due {
        return Ok(());
    }
    Err(format!(
        "closing the leasts\n  {closed:?}\nagain, without ceilings, answers {answer}"
    ))
}

fn note(case: &Case, answer: u64, tally: &mut Tally) {
    match refusal_of(answer) {
        0 => tally.note(UNLIMITED_ROUNDS, value_of(answer)),
        number => tally.note(UNLIMITED_CLOSING, number),
    }
    case.note_faults(UNLIMITED_FAULTS, tally);
    if matches!(refusal_of(answer), 0 | 4) {
        let largest = case.pair.lower.iter().copied().max().unwrap_or(0);
        if [LEAST_LIMIT, LEAST_LIMIT + 1, LIMIT, LIMIT + 1].contains(&largest) {
            tally.note(UNLIMITED_AT, largest);
        }
        let over = case.pair.upper.iter().any(|&figure| figure > LIMIT);
        let below = case.pair.upper.iter().zip(&case.pair.lower).any(|(upper, lower)| upper < lower);
        tally.note(UNLIMITED_CEILINGS, 10 * u32::from(over) + u32::from(below));
    }
}

pub fn compare(subject: &dyn Subject, rng: &mut Rng, tally: &mut Tally) -> Result<(), String> {
    let horizon = match rng.below(50) {
        0 => long_horizon(rng),
        1..=3 => rng.length(13, 64),
        _ => rng.length(1, 12),
    };
    let case = make(rng, horizon);
    let expected = case.put_to(&Reference);
    note(&case, expected.answer, tally);
    if refusal_of(expected.answer) == 0 {
        check_reference(&case, &expected)?;
    }
    check_outcome(subject, &case, &expected)?;
    if refusal_of(expected.answer) == 0 && rng.one_in(4) {
        check_again(subject, &case.pair, expected.leasts(case.pair.horizon()), tally)?;
    }
    Ok(())
}

//! Closings: the subject against the rounds, and the rounds against shortest paths and against rates. Those of pairs without ceilings are
//! put to the subject here too, and made in `unlimited_closings`.

use crate::pair::Pair;
use crate::random::Rng;
use crate::reference::Reference;
use crate::subject::{refusal_of, shown, value_of, Subject, LIMIT, LONGEST_HORIZON};
use crate::tally::{Tally, CLOSING, ROUNDS, TWO_FAULTS};
use crate::{pairs, paths, rounds};

/// Entries on either side of a result list. They lie outside the list, so no call may touch them.
const MARGIN: usize = 4;

pub struct Case {
    pub pair: Pair,
    /// Each with a margin before and after the list itself.
    closed_upper: Vec<u32>,
    closed_lower: Vec<u32>,
}

#[derive(PartialEq)]
pub struct Outcome {
    pub answer: u64,
    closed_upper: Vec<u32>,
    closed_lower: Vec<u32>,
}

impl Outcome {
    /// The first entries of the list for leasts.
    pub fn leasts(&self, horizon: usize) -> &[u32] {
        &self.closed_lower[MARGIN..MARGIN + horizon]
    }

    fn shown(&self) -> String {
        format!(
            "{}\n  closed upper {:?}\n  closed lower {:?}",
            shown(self.answer),
            self.closed_upper,
            self.closed_lower
        )
    }
}

impl Case {
    /// The result lists have the lengths given.
    pub fn new(rng: &mut Rng, pair: Pair, closed_upper_length: usize, closed_lower_length: usize) -> Case {
        Case {
            pair,
            closed_upper: rng.arbitrary(closed_upper_length + 2 * MARGIN),
            closed_lower: rng.arbitrary(closed_lower_length + 2 * MARGIN),
        }
    }

    /// The lengths of the result lists.
    fn lengths(&self) -> (usize, usize) {
        (self.closed_upper.len() - 2 * MARGIN, self.closed_lower.len() - 2 * MARGIN)
    }

    pub fn put_to(&self, subject: &dyn Subject) -> Outcome {
        let (mut closed_upper, mut closed_lower) = (self.closed_upper.clone(), self.closed_lower.clone());
        let (closed_upper_length, closed_lower_length) = self.lengths();
        let answer = subject.close(
            &self.pair.upper,
            &self.pair.lower,
            self.pair.mark,
            &mut closed_upper[MARGIN..MARGIN + closed_upper_length],
            &mut closed_lower[MARGIN..MARGIN + closed_lower_length],
        );
        Outcome {
            answer,
            closed_upper,
            closed_lower,
        }
    }

    pub fn input(&self) -> String {
        let (closed_upper_length, closed_lower_length) = self.lengths();
        format!(
            "close\n{}\n  closed upper before {:?}\n  closed lower before {:?}\n",
            self.pair.shown(),
            &self.closed_upper[MARGIN..MARGIN + closed_upper_length],
            &self.closed_lower[MARGIN..MARGIN + closed_lower_length]
        )
    }

    /// Which of the questions 1 to 5 has the answer no, each asked by itself; of 5 only whether the given figures cross.
    fn faults(&self) -> Vec<u32> {
        let horizon = self.pair.horizon();
        let (closed_upper_length, closed_lower_length) = self.lengths();
        let asked = [
            (1, horizon < 1 || horizon > LONGEST_HORIZON),
            (2, self.pair.lower.len() != horizon),
            (3, closed_upper_length < horizon || closed_lower_length < horizon),
            (4, self.pair.is_over(rounds::closing_limit(&self.pair))),
            (5, self.pair.crosses()),
        ];
        asked.iter().filter(|question| question.1).map(|question| question.0).collect()
    }

    /// The first question with the answer no, and each other one.
    pub fn note_faults(&self, kind: &'static str, tally: &mut Tally) {
        let faults = self.faults();
        for other in faults.iter().skip(1) {
            tally.note(kind, 10 * faults[0] + other);
        }
    }
}

pub fn result_length(rng: &mut Rng, horizon: usize) -> usize {
    match rng.below(8) {
        0..=3 => horizon,
        4..=5 => horizon + rng.length(1, 5),
        6 => LONGEST_HORIZON.max(horizon),
        _ => 300,
    }
}

/// One fault that a question 1 to 4 is about.
fn spoil(rng: &mut Rng, pair: &mut Pair, closed_upper_length: &mut usize, closed_lower_length: &mut usize) {
    match rng.below(5) {
        0 => {
            let length = rng.pick(&[0, 257, 258, 300, 512]);
            pair.upper.resize(length, LIMIT);
            if rng.one_in(2) {
                pair.lower.resize(length, 0);
            }
        }
        1 => {
            let horizon = pair.upper.len();
            let length = rng.pick(&[0, horizon.saturating_sub(1), horizon + 1, 1, 256, 257]);
            pair.lower.resize(length, 0);
        }
        2 => *closed_upper_length = rng.length(0, pair.upper.len()),
        3 => *closed_lower_length = rng.length(0, pair.upper.len()),
        _ => {
            let over = rng.pick(&[LIMIT + 1, LIMIT + 1, LIMIT + 2, 1 << 31, u32::MAX]);
            let list = if rng.one_in(2) { &mut pair.upper } else { &mut pair.lower };
            if !list.is_empty() {
                let place = rng.length(0, list.len() - 1);
                list[place] = over;
            }
        }
    }
}

fn make(rng: &mut Rng, mut pair: Pair) -> Case {
    let (mut closed_upper_length, mut closed_lower_length) = (result_length(rng, pair.horizon()), result_length(rng, pair.horizon()));
    if rng.one_in(8) {
        for _ in 0..rng.between(1, 2) {
            spoil(rng, &mut pair, &mut closed_upper_length, &mut closed_lower_length);
        }
    }
    Case::new(rng, pair, closed_upper_length, closed_lower_length)
}

/// No pair takes more rounds: twice as many steps of a walk are made one in each; and where they arrive, each of them changes a figure by
/// one at least.
fn rounds_bound(case: &Case, arrives: bool) -> u64 {
    let doublings = 1 + u64::from(case.pair.horizon().next_power_of_two().trailing_zeros());
    if !arrives {
        return doublings;
    }
    let figures = case.pair.upper.iter().zip(&case.pair.lower);
    let widths = figures.map(|(upper, lower)| u64::from(upper.saturating_sub(*lower)));
    widths.sum::<u64>().min(doublings)
}

/// The rounds against the two methods without rounds. A difference here is one inside the reference.
fn check_reference(case: &Case, expected: &Outcome, paths_too: bool) -> Result<(), String> {
    let Pair { upper, lower, .. } = &case.pair;
    let none = refusal_of(expected.answer) == 5;
    if none != paths::rates_conflict(upper, lower) {
        return Err(format!("the rounds and the rates disagree on\n{}", case.input()));
    }
    let rounds = rounds::run(upper, lower).rounds;
    if u64::from(rounds) > rounds_bound(case, !none) {
        return Err(format!("{rounds} rounds are more than there can be on\n{}", case.input()));
    }
    if !paths_too {
        return Ok(());
    }
    let found = MARGIN..MARGIN + upper.len();
    let agrees = match paths::close(upper, lower) {
        None => none,
        Some((upper, lower)) => !none && upper == expected.closed_upper[found.clone()] && lower == expected.closed_lower[found],
    };
    if agrees {
        Ok(())
    } else {
        Err(format!("the rounds and the paths disagree on\n{}", case.input()))
    }
}

fn note(case: &Case, answer: u64, tally: &mut Tally) {
    match refusal_of(answer) {
        0 => tally.note(ROUNDS, value_of(answer)),
        number => tally.note(CLOSING, number),
    }
    case.note_faults(TWO_FAULTS, tally);
}

/// What the subject answers and leaves in the lists, against what it must.
pub fn check_outcome(subject: &dyn Subject, case: &Case, expected: &Outcome) -> Result<(), String> {
    let came = case.put_to(subject);
    if came == *expected {
        return Ok(());
    }
    let note = format!("(result lists are shown with the {MARGIN} entries before and after them)");
    Err(format!(
        "{}expected {}\ncame {}\n{note}",
        case.input(),
        expected.shown(),
        came.shown()
    ))
}

/// One case of a pair with ceilings: what the subject answers against what the reference does.
pub fn check(subject: &dyn Subject, case: &Case, paths_too: bool, tally: &mut Tally) -> Result<(), String> {
    let expected = case.put_to(&Reference);
    note(case, expected.answer, tally);
    if matches!(refusal_of(expected.answer), 0 | 5) {
        check_reference(case, &expected, paths_too)?;
    }
    check_outcome(subject, case, &expected)
}

pub fn compare(subject: &dyn Subject, rng: &mut Rng, tally: &mut Tally) -> Result<(), String> {
    let horizon = if rng.one_in(25) { rng.length(13, 64) } else { rng.length(1, 12) };
    let pair = pairs::any(rng, horizon);
    let paths_too = horizon <= 12 || rng.one_in(8);
    check(subject, &make(rng, pair), paths_too, tally)
}

/// The same for long horizons, where a case takes long.
pub fn compare_long(subject: &dyn Subject, rng: &mut Rng, tally: &mut Tally) -> Result<(), String> {
    let horizon = pairs::long_horizon(rng);
    let pair = if rng.one_in(4) {
        pairs::two_windows(rng, horizon)
    } else {
        pairs::any(rng, horizon)
    };
    check(subject, &make(rng, pair), false, tally)
}

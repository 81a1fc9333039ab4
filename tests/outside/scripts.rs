//! Scripts: streams of counts through a monitor, and what they share with lists of choices through a generator (`sendings`).

use crate::pair::{closed, Pair};
use crate::paths;
use crate::random::Rng;
use crate::reference::Reference;
use crate::script_cases::{for_monitor, spoil};
use crate::streams::{conforms, verdict};
use crate::subject::{Subject, ALREADY_FAILED, LONGEST_HORIZON, LOST, PASSED, TOO_FEW, TOO_MANY};
use crate::tally::{horizon_end, Tally, FAILED, FEW, MANY, MONITOR, OPENING, REJECTED, VERDICT};
use crate::tally::{LOST_BETWEEN, LOST_BY, LOST_FIRST, LOST_LAST, LOST_WINDOW};

/// Entries on either side of a script, which no call may touch.
const MARGIN: usize = 4;

type Operation = fn(&dyn Subject, &Pair, &mut [u32]) -> u32;

pub fn judge(subject: &dyn Subject, pair: &Pair, script: &mut [u32]) -> u32 {
    subject.judge(&pair.upper, &pair.lower, pair.mark, script)
}

pub fn generate(subject: &dyn Subject, pair: &Pair, script: &mut [u32]) -> u32 {
    subject.generate(&pair.upper, &pair.lower, pair.mark, script)
}

fn put_to(subject: &dyn Subject, operation: Operation, pair: &Pair, script: &[u32]) -> (u32, Vec<u32>) {
    let mut list = vec![77; script.len() + 2 * MARGIN];
    let end = MARGIN + script.len();
    list[MARGIN..end].copy_from_slice(script);
    let number = operation(subject, pair, &mut list[MARGIN..end]);
    (number, list)
}

/// What the subject gives back and leaves in a script, if it is what the reference does.
pub fn check(subject: &dyn Subject, name: &str, operation: Operation, pair: &Pair, script: &[u32]) -> Result<(u32, Vec<u32>), String> {
    let expected = put_to(&Reference, operation, pair, script);
    let came = put_to(subject, operation, pair, script);
    if came == expected {
        return Ok((expected.0, expected.1[MARGIN..MARGIN + script.len()].to_vec()));
    }
    let input = format!("{name}\n{}\n  script {script:?}", pair.shown());
    let lists = format!("expected {} {:?}\ncame {} {:?}", expected.0, expected.1, came.0, came.1);
    Err(format!(
        "{input}\n{lists}\n(scripts are shown with the {MARGIN} entries before and after them)"
    ))
}

fn note_verdicts(list: &[u32], tally: &mut Tally) {
    for &verdict in list {
        let kind = verdict / 1_000;
        tally.note(VERDICT, kind);
        match kind * 1_000 {
            TOO_MANY => tally.note(MANY, verdict - TOO_MANY),
            TOO_FEW => tally.note(FEW, verdict - TOO_FEW),
            _ => {}
        }
    }
}

/// What the closed figures say of a rejected tick: the only ones that it breaks, or in a shorter window than those as given.
fn note_rejected(pair: &Pair, closed: &Pair, stream: &[u32], found: u32, tally: &mut Tally) {
    let by_closed = verdict(closed, stream);
    if found != LOST {
        tally.note(REJECTED, u32::from(by_closed != found));
        return;
    }
    let kind = match stream.len() {
        1 => LOST_FIRST,
        ticks if ticks + 1 == pair.horizon() => LOST_LAST,
        _ => LOST_BETWEEN,
    };
    tally.note(kind, horizon_end(pair.horizon()));
    tally.note(LOST_WINDOW, by_closed % 1_000);
    tally.note(LOST_BY, by_closed / 1_000);
}

/// The passed ticks are the longest start that conforms to the closure, which is found by shortest paths here; the tick after them is
/// lost exactly where the stream with it conforms to the pair as given, and then the horizon is not filled yet: by the sum of every
/// window. A difference here is inside the reference.
fn check_start(pair: &Pair, counts: &[u32], verdicts: &[u32]) -> Result<(), String> {
    let passed = verdicts.iter().take_while(|&&verdict| verdict == PASSED).count();
    let rest_failed = verdicts.iter().skip(passed + 1).all(|&verdict| verdict == ALREADY_FAILED);
    let lost = verdicts.get(passed) == Some(&LOST);
    let keeps = |pair: &Pair, ticks: usize| ticks <= counts.len() && conforms(pair, &counts[..ticks]);
    let longest = paths::close(&pair.upper, &pair.lower)
        .map(|(upper, lower)| Pair::new(&upper, &lower))
        .is_some_and(|closed| keeps(&closed, passed) && !keeps(&closed, passed + 1));
    let next_keeps = keeps(pair, passed + 1);
    if longest && next_keeps == lost && (!lost || passed + 1 < pair.horizon()) && rest_failed {
        return Ok(());
    }
    Err(format!("the verdicts and conformance disagree on\n{}\n  {counts:?}", pair.shown()))
}

/// A monitor on the closure rejects the same tick, and never as lost.
pub fn check_on_closure(subject: &dyn Subject, closed: &Pair, counts: &[u32], verdicts: &[u32]) -> Result<(), String> {
    let (number, on_closure) = check(subject, "judge", judge, closed, counts)?;
    let same_tick = on_closure
        .iter()
        .zip(verdicts)
        .all(|(one, other)| (*one == PASSED) == (*other == PASSED));
    if number == 0 && same_tick && !on_closure.contains(&LOST) {
        return Ok(());
    }
    Err(format!(
        "a monitor on the closure\n{}\ngiven {counts:?}\nanswers {on_closure:?}, on the pair {verdicts:?}",
        closed.shown()
    ))
}

/// Early or late: in the first ten ticks, the first hundred, the first three hundred, or after.
fn age(tick: usize) -> u32 {
    [10, 100, 300].iter().filter(|&&end| tick >= end).count() as u32
}

pub fn spoil_sometimes(rng: &mut Rng, pair: &mut Pair) {
    if rng.one_in(10) {
        for _ in 0..rng.between(1, 2) {
            spoil(rng, pair);
        }
    }
}

/// Which of the questions 1, 2 and 4 of an opening, and of its last one, have the answer no, each asked by itself.
pub fn note_faults(kind: &'static str, pair: &Pair, last: (u32, bool), tally: &mut Tally) {
    let asked = [
        (1, pair.upper.is_empty() || pair.upper.len() > LONGEST_HORIZON),
        (2, pair.lower.len() != pair.upper.len()),
        (4, pair.over_limit()),
        last,
    ];
    let mut faults = asked.iter().filter(|question| question.1).map(|question| question.0);
    if let Some(first) = faults.next() {
        faults.for_each(|other| tally.note(kind, 100 * first + other));
    }
}

pub fn compare_monitor(subject: &dyn Subject, rng: &mut Rng, tally: &mut Tally) -> Result<(), String> {
    let (mut pair, script) = for_monitor(rng);
    spoil_sometimes(rng, &mut pair);
    note_faults(OPENING, &pair, (5, pair.crosses()), tally);
    let (number, verdicts) = check(subject, "judge", judge, &pair, &script)?;
    tally.note(MONITOR, number);
    if number != 0 {
        return Ok(());
    }
    let closed = closed(&pair);
    note_verdicts(&verdicts, tally);
    if let Some(failed) = verdicts.iter().position(|&verdict| verdict != PASSED) {
        tally.note(FAILED, age(failed));
        note_rejected(&pair, &closed, &script[..failed + 1], verdicts[failed], tally);
    }
    if pair.horizon() <= 12 {
        check_start(&pair, &script, &verdicts)?;
    }
    if pair.horizon() <= 64 || rng.one_in(4) {
        check_on_closure(subject, &closed, &script, &verdicts)?;
    }
    Ok(())
}

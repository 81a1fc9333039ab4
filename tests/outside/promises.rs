//! What a closure is for, on small pairs, against all streams that there are: it is refused exactly where there is no unbounded stream;
//! a start conforms to it exactly when it is extendable; each of its figures is met; a generator on it opens and is never refused, and a
//! monitor on it never says 'lost'. A generator opens on no other pair. What a monitor on the pair itself says is told in `lost`.

use crate::extensions::Extensions;
use crate::pair::Pair;
use crate::random::Rng;
use crate::streams::{conforms, verdict};
use crate::subject::{mark_of, refusal_of, Subject, LIMIT, LOST, PASSED, REFUSED};
use crate::tally::{Tally, EQUAL, EXTENDABLE, OPENED, START};
use crate::{lost, unlimited_pairs};

/// Figures so small that every past can be tried.
fn small_pair(rng: &mut Rng, horizon: usize) -> Pair {
    let most = rng.pick(&[1, 2, 3, 4]);
    let free = rng.one_in(3);
    let mut pair = Pair::new(&[], &[]);
    for window in 1..=horizon as u32 {
        let upper = (rng.below(most + 1) + if free { 0 } else { rng.below(window) }).min(4);
        let crossed = u32::from(rng.one_in(8));
        pair.upper.push(upper);
        pair.lower.push(if rng.one_in(2) { 0 } else { rng.below(upper + 1 + crossed) });
    }
    pair
}

/// The subject's closure with the mark that it answers, or nothing where it is refused with 5.
fn closure(subject: &dyn Subject, pair: &Pair) -> Result<Option<Pair>, String> {
    let mut closed = Pair::filled(pair.horizon(), 0, 0);
    let answer = subject.close(&pair.upper, &pair.lower, pair.mark, &mut closed.upper, &mut closed.lower);
    closed.mark = mark_of(answer);
    match refusal_of(answer) {
        0 => Ok(Some(closed)),
        5 => Ok(None),
        number => Err(format!("close\n{}\nrefused with {number}", pair.shown())),
    }
}

/// After every past of an extendable stream, the closure passes exactly the counts with which it stays extendable. With that, from the
/// empty start on, the same holds of starts of every length.
fn check_pasts(pair: &Pair, closed: &Pair, extensions: &Extensions) -> Result<(), String> {
    for past in extensions.reached() {
        let passes = |count: u32| verdict(closed, &[past.as_slice(), &[count]].concat()) == PASSED;
        let differing = (0..=extensions.top + 1).find(|&count| passes(count) != extensions.goes_on(&past, count));
        if let Some(count) = differing {
            return Err(format!(
                "after {past:?} and with {count}: whether the closure\n{}\npasses it differs from whether a stream goes on that keeps\n{}",
                closed.shown(),
                pair.shown()
            ));
        }
    }
    Ok(())
}

/// All starts up to a length, by the words of the promise. One that neither conforms nor is extendable begins no other that is.
fn check_starts(pair: &Pair, closed: &Pair, extensions: &Extensions, start: &mut Vec<u32>, tally: &mut Tally) -> Result<(), String> {
    let extendable = extensions.is_extendable(start);
    tally.note(START, u32::from(extendable));
    if extendable && !conforms(pair, start) {
        return Err(format!("{start:?} is extendable and does not conform to\n{}", pair.shown()));
    }
    if conforms(closed, start) != extendable {
        return Err(format!(
            "whether {start:?} is extendable and whether it conforms to the closure differ\n{}\n{}",
            pair.shown(),
            closed.shown()
        ));
    }
    if !extendable || start.len() > pair.horizon() {
        return Ok(());
    }
    for count in 0..=extensions.top + 1 {
        start.push(count);
        check_starts(pair, closed, extensions, start, tally)?;
        start.pop();
    }
    Ok(())
}

/// The smallest and the largest sum of an extendable start of so many ticks.
fn extremes(extensions: &Extensions, start: &mut Vec<u32>, ticks: usize) -> (u32, u32) {
    if start.len() == ticks {
        return (start.iter().sum(), start.iter().sum());
    }
    let mut found = (u32::MAX, 0);
    for count in extensions.counts_after(&extensions.past_of(start)) {
        start.push(count);
        let (smallest, largest) = extremes(extensions, start, ticks);
        found = (found.0.min(smallest), found.1.max(largest));
        start.pop();
    }
    found
}

/// Whether the figures of a window are met, and not passed. A stream without its first ticks conforms too, so a window anywhere can be
/// tried at the start.
fn is_met(pair: &Pair, extensions: &Extensions, window: usize) -> bool {
    let (smallest, largest) = extremes(extensions, &mut Vec::new(), window);
    u64::from(smallest) == pair.least(window) && pair.ceiling(window).is_none_or(|most| u64::from(largest) == most)
}

/// Each figure of the closure is met.
fn check_met(pair: &Pair, closed: &Pair, extensions: &Extensions) -> Result<(), String> {
    match (1..=pair.horizon()).find(|&window| !is_met(closed, extensions, window)) {
        None => Ok(()),
        Some(window) => Err(format!(
            "a figure of window {window} of the closure is not met\n{}\n{}",
            pair.shown(),
            closed.shown()
        )),
    }
}

/// A generator opens on the pair exactly where there is an unbounded stream and each figure is met; else it is 15 and the choices stay.
fn check_opens_where_met(subject: &dyn Subject, pair: &Pair, extensions: &Extensions, tally: &mut Tally) -> Result<(), String> {
    let own = extensions.any_stream() && (1..=pair.horizon()).all(|window| is_met(pair, extensions, window));
    let choices = [3, 1, 4, 1, 5];
    let mut sent = choices;
    let number = subject.generate(&pair.upper, &pair.lower, pair.mark, &mut sent);
    tally.note(OPENED, number);
    let as_due = if own {
        number == 0 && extensions.is_extendable(&sent)
    } else {
        number == 15 && sent == choices
    };
    if as_due {
        return Ok(());
    }
    Err(format!(
        "a generator on\n{}\nanswers {number} {sent:?}; all figures are met: {own}",
        pair.shown()
    ))
}

/// A generator on the closure, with any choices: it always sends, what it sends is extendable, and a monitor on the closure passes it.
/// And the last count could have been each one with which the stream stays extendable.
fn check_generator(subject: &dyn Subject, rng: &mut Rng, pair: &Pair, closed: &Pair, extensions: &Extensions) -> Result<(), String> {
    let choices: Vec<u32> = (0..rng.length(1, 30)).map(|_| rng.any()).collect();
    let mut sent = choices.clone();
    let number = subject.generate(&closed.upper, &closed.lower, closed.mark, &mut sent);
    let mut judged = sent.clone();
    let other = subject.judge(&closed.upper, &closed.lower, closed.mark, &mut judged);
    let stopped = sent.iter().any(|&count| count >= REFUSED);
    if number != 0 || other != 0 || stopped || !extensions.is_extendable(&sent) || judged.iter().any(|&verdict| verdict != PASSED) {
        let lists = format!("choices {choices:?}\nsent {number} {sent:?}\njudged {other} {judged:?}");
        return Err(format!("on the closure of\n{}\n{}\n{lists}", pair.shown(), closed.shown()));
    }
    let counts = last_counts(subject, closed, &choices, extensions, &sent[..sent.len() - 1]);
    if counts.0 == counts.1 {
        return Ok(());
    }
    Err(format!(
        "the generator on the closure\n{}\nsends {:?} after the same counts, not {:?}, of\n{}",
        closed.shown(),
        counts.0,
        counts.1,
        pair.shown()
    ))
}

/// What is sent last where other choices take the place of the last one; and what must be. Without ceilings that is every count from the
/// smallest on up to the limit, so the ends are tried, and the choices that begin again.
fn last_counts(subject: &dyn Subject, closed: &Pair, choices: &[u32], extensions: &Extensions, before: &[u32]) -> (Vec<u32>, Vec<u32>) {
    let with_last = |choice: u32| {
        let mut again = choices.to_vec();
        again[choices.len() - 1] = choice;
        subject.generate(&closed.upper, &closed.lower, closed.mark, &mut again);
        again[choices.len() - 1]
    };
    let after = extensions.counts_after(&extensions.past_of(before));
    if closed.unlimited() {
        let lo = after[0];
        let ends = [0, 1, LIMIT - lo, LIMIT - lo + 1, LIMIT - lo + 2].map(with_last);
        return (ends.to_vec(), vec![lo, lo + 1, LIMIT, lo, lo + 1]);
    }
    let mut last: Vec<u32> = (0..=extensions.top).map(with_last).collect();
    last.sort_unstable();
    last.dedup();
    (last, after)
}

/// A monitor on the closure rejects the first tick with which the stream is not extendable any more, as too many or too few.
fn check_monitor(subject: &dyn Subject, rng: &mut Rng, pair: &Pair, closed: &Pair, extensions: &Extensions) -> Result<(), String> {
    let counts: Vec<u32> = (0..rng.length(0, 12)).map(|_| rng.below(extensions.top + 2)).collect();
    let mut judged = counts.clone();
    subject.judge(&closed.upper, &closed.lower, closed.mark, &mut judged);
    let passed = judged.iter().take_while(|&&verdict| verdict == PASSED).count();
    let longest = (0..=counts.len()).filter(|&end| extensions.is_extendable(&counts[..end])).max();
    if longest != Some(passed) || judged[passed..].contains(&PASSED) || judged.contains(&LOST) {
        return Err(format!(
            "a monitor on the closure of\n{}\n{}\ngiven {counts:?}\nanswers {judged:?}",
            pair.shown(),
            closed.shown()
        ));
    }
    Ok(())
}

/// All that is promised of a closure, for one pair.
fn compare_pair(subject: &dyn Subject, rng: &mut Rng, pair: &Pair, tally: &mut Tally) -> Result<(), String> {
    let extensions = Extensions::new(pair);
    tally.note(EXTENDABLE, u32::from(extensions.any_stream()));
    let closed = closure(subject, pair)?;
    if closed.is_some() != extensions.any_stream() {
        return Err(format!(
            "close\n{}\na closure: {}, an unbounded stream: {}",
            pair.shown(),
            closed.is_some(),
            extensions.any_stream()
        ));
    }
    lost::check(subject, rng, pair, &extensions, tally)?;
    check_opens_where_met(subject, pair, &extensions, tally)?;
    let Some(closed) = closed else { return Ok(()) };
    check_pasts(pair, &closed, &extensions)?;
    check_starts(pair, &closed, &extensions, &mut Vec::new(), tally)?;
    check_met(pair, &closed, &extensions)?;
    check_generator(subject, rng, pair, &closed, &extensions)?;
    check_monitor(subject, rng, pair, &closed, &extensions)?;
    compare_two(subject, rng, pair, &closed, tally)
}

pub fn compare(subject: &dyn Subject, rng: &mut Rng, tally: &mut Tally) -> Result<(), String> {
    let horizon = rng.length(1, 4);
    let pair = small_pair(rng, horizon);
    compare_pair(subject, rng, &pair, tally)
}

/// The same of pairs without ceilings.
pub fn compare_unlimited(subject: &dyn Subject, rng: &mut Rng, tally: &mut Tally) -> Result<(), String> {
    let horizon = rng.length(1, 4);
    let pair = unlimited_pairs::tiny(rng, horizon);
    compare_pair(subject, rng, &pair, tally)
}

/// Another pair with the same horizon: any, or one with a figure of the closure made looser, which often closes to the same.
fn other_pair(rng: &mut Rng, closed: &Pair) -> Pair {
    if rng.one_in(3) {
        return match closed.unlimited() {
            true => unlimited_pairs::tiny(rng, closed.horizon()),
            false => small_pair(rng, closed.horizon()),
        };
    }
    let mut pair = closed.clone();
    let window = rng.length(0, closed.horizon() - 1);
    if !closed.unlimited() && rng.one_in(2) {
        pair.upper[window] += rng.between(1, 2);
    } else {
        pair.lower[window] = pair.lower[window].saturating_sub(rng.between(1, 2));
    }
    pair
}

/// The same unbounded streams: the same pasts, and after each of them the same counts.
fn same_streams(one: &Pair, other: &Pair) -> bool {
    let (one, other) = Extensions::of_both(one, other);
    one.any_stream() == other.any_stream()
        && one
            .reached()
            .iter()
            .all(|past| past.iter().all(|&count| count <= other.top) && one.counts_after(past) == other.counts_after(past))
}

/// Two closures are equal exactly when the two pairs have the same unbounded streams.
fn compare_two(subject: &dyn Subject, rng: &mut Rng, pair: &Pair, closed: &Pair, tally: &mut Tally) -> Result<(), String> {
    let other = other_pair(rng, closed);
    let other_extensions = Extensions::new(&other);
    check_opens_where_met(subject, &other, &other_extensions, tally)?;
    let Some(other_closed) = closure(subject, &other)? else {
        return Ok(());
    };
    let equal = *closed == other_closed;
    tally.note(EQUAL, u32::from(equal));
    if equal == same_streams(pair, &other) {
        return Ok(());
    }
    Err(format!(
        "closures equal: {equal}, against the streams of\n{}\nand of\n{}",
        pair.shown(),
        other.shown()
    ))
}

//! The verdict 'lost' in the words of its request, on small pairs and against all streams that there are. A monitor opened on the pair
//! itself says it for the first tick after which the stream conforms to the pair and begins no unbounded stream that does; what is asked
//! is the search over continuations, and no closed figure.
//!
//! Nothing is lost once there are H ticks. Take a tick before which the stream keeps the closure and with which it keeps the pair, and the
//! shortest window, of d ticks, that breaks its closed ceiling there. That is lower than the one given, so it is the cost of a walk of
//! two steps or more (`paths`), of which one goes up by an a other than d; and steps may be taken in any order. Where a is below d, the
//! closed ceiling of d is U a and the closed one of d - a: the first a ticks of the window keep the former, and the rest the latter, as
//! it is shorter. Where a is above d, it is U a less the closed least of a - d: the window of a ticks keeps U a, and its ticks before the
//! last d keep that least, if the stream has them all, and with H ticks it does. So no closed ceiling is broken; and no least, likewise.

use crate::extensions::Extensions;
use crate::pair::Pair;
use crate::random::Rng;
use crate::streams::{conforms, verdict};
use crate::subject::{Subject, ALREADY_FAILED, LOST, PASSED};
use crate::tally::{Tally, JUDGED};

/// What is due for a tick after those that passed.
fn due(pair: &Pair, extensions: &Extensions, passed: &[u32], count: u32) -> u32 {
    let stream = [passed, &[count]].concat();
    if !conforms(pair, &stream) {
        verdict(pair, &stream)
    } else if extensions.goes_on(passed, count) {
        PASSED
    } else {
        LOST
    }
}

fn all_due(pair: &Pair, extensions: &Extensions, counts: &[u32]) -> Vec<u32> {
    let mut list: Vec<u32> = Vec::new();
    while list.len() < counts.len() && list.last().is_none_or(|&last| last == PASSED) {
        let tick = list.len();
        list.push(due(pair, extensions, &counts[..tick], counts[tick]));
    }
    list.resize(counts.len(), ALREADY_FAILED);
    list
}

/// One stream through a monitor on the pair; where there is no unbounded stream, the opening is refused and the counts stay.
fn check_stream(subject: &dyn Subject, pair: &Pair, extensions: &Extensions, counts: &[u32], tally: &mut Tally) -> Result<(), String> {
    let mut judged = counts.to_vec();
    let number = subject.judge(&pair.upper, &pair.lower, pair.mark, &mut judged);
    let (expected, due) = match extensions.any_stream() {
        true => (0, all_due(pair, extensions, counts)),
        false => (5, counts.to_vec()),
    };
    let input = format!("a monitor on\n{}\ngiven {counts:?}", pair.shown());
    if number != expected || judged != due {
        return Err(format!("{input}\nexpected {expected} {due:?}\ncame {number} {judged:?}"));
    }
    if number != 0 {
        return Ok(());
    }
    let rejected = judged.iter().position(|&verdict| verdict != PASSED);
    let found = rejected.map_or(PASSED, |tick| judged[tick]);
    tally.note(JUDGED, found / 1_000);
    if found == LOST && rejected.is_some_and(|tick| tick + 1 >= pair.horizon()) {
        return Err(format!("{input}\nlost with as many ticks as the horizon has"));
    }
    Ok(())
}

/// Every stream up to the tick that is rejected, or to one tick more than the horizon; and a tick after that.
fn check_all(subject: &dyn Subject, pair: &Pair, extensions: &Extensions, start: &mut Vec<u32>, tally: &mut Tally) -> Result<(), String> {
    if start.len() > pair.horizon() || !extensions.is_extendable(start) {
        return check_stream(subject, pair, extensions, &[start.as_slice(), &[0]].concat(), tally);
    }
    for count in 0..=extensions.top + 1 {
        start.push(count);
        check_all(subject, pair, extensions, start, tally)?;
        start.pop();
    }
    Ok(())
}

/// A stream that goes on for a while with counts after which it is extendable, then with any.
fn any_counts(rng: &mut Rng, pair: &Pair, extensions: &Extensions) -> Vec<u32> {
    let steady = if rng.one_in(3) {
        rng.length(0, 30)
    } else {
        rng.length(0, pair.horizon())
    };
    let mut counts = Vec::new();
    while extensions.any_stream() && counts.len() < steady {
        counts.push(rng.pick(&extensions.counts_after(&extensions.past_of(&counts))));
    }
    for _ in 0..rng.length(1, 9) {
        let huge = rng.one_in(40);
        counts.push(if huge {
            u32::MAX - rng.below(2)
        } else {
            rng.below(extensions.top + 2)
        });
    }
    counts
}

fn check_some(subject: &dyn Subject, rng: &mut Rng, pair: &Pair, extensions: &Extensions, tally: &mut Tally) -> Result<(), String> {
    for _ in 0..10 {
        let counts = any_counts(rng, pair, extensions);
        check_stream(subject, pair, extensions, &counts, tally)?;
    }
    Ok(())
}

/// All that is promised of a monitor on one pair, so small that every start can be tried.
pub fn check(subject: &dyn Subject, rng: &mut Rng, pair: &Pair, extensions: &Extensions, tally: &mut Tally) -> Result<(), String> {
    check_all(subject, pair, extensions, &mut Vec::new(), tally)?;
    check_some(subject, rng, pair, extensions, tally)
}

/// A longer horizon, and so few counts for a tick that every past can be tried: figures about a common rate, some much looser.
fn narrow_pair(rng: &mut Rng) -> Pair {
    let (horizon, top) = rng.pick(&[(5, 3), (6, 2), (7, 2), (8, 1), (9, 1)]);
    let ticks = rng.between(1, 8);
    let events = rng.below(top * ticks + 1);
    let mut pair = Pair::loose(horizon as usize);
    for window in 1..=horizon {
        let share = window * events;
        let far = rng.pick(&[1, 2, 2, 9]);
        pair.upper[window as usize - 1] = share.div_ceil(ticks) + rng.below(far);
        pair.lower[window as usize - 1] = (share / ticks).saturating_sub(rng.below(far));
    }
    pair.upper[0] = pair.upper[0].min(top);
    pair
}

/// The same on such a pair, with some streams.
pub fn compare(subject: &dyn Subject, rng: &mut Rng, tally: &mut Tally) -> Result<(), String> {
    let pair = narrow_pair(rng);
    check_some(subject, rng, &pair, &Extensions::new(&pair), tally)
}

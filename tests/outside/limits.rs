//! The lines that the program `limits` has to write: lists at the limits, pairs of many rounds, states built by hand, and streams on
//! monitors as an opening hands them out. Its numbers are drawn here as they are drawn there; what comes of them is computed by the
//! reference.

use crate::margins::{sign, Tick};
use crate::pair::{closed, Pair};
use crate::pairs;
use crate::reference::Reference;
use crate::runs::{self, Course, Run};
use crate::states::{self, digest, drawn, is_judged, kind_and_window, Judged, State, CASES};
use crate::streams::{sum, verdict};
use crate::subject::{mark_of, value_of, Subject, ALREADY_FAILED, LEAST_LIMIT, LIMIT, LONGEST_HORIZON, LOST, PASSED, REFUSED};
use crate::tally::{Tally, BOTH, BUILT, BUILT_LOOSER, BUILT_MARGIN, BUILT_REJECTED, BUILT_SENT, BUILT_TWELVE};
use crate::tally::{RUN, RUN_MARGIN, RUN_TICK, UNLIMITED_BUILT, UNLIMITED_BUILT_SENT, UNLIMITED_LARGEST, UNLIMITED_MARGIN};
use crate::tally::{UNLIMITED_NO_EFFECT, UNLIMITED_RUN, UNLIMITED_RUN_TICK};

/// As the run prints it.
pub const NAME: &str = "lines of limits";

/// One line on a pair of lists with the same figures throughout.
fn lists_line(n: usize, upper_figure: u32, lower_figure: u32, mark: u32) -> String {
    let (upper, lower) = (vec![upper_figure; n], vec![lower_figure; n]);
    let (mut closed_upper, mut closed_lower) = ([7; LONGEST_HORIZON + 1], [7; LONGEST_HORIZON + 1]);
    let answer = Reference.close(&upper, &lower, mark, &mut closed_upper, &mut closed_lower);
    let mut counts = [LIMIT, LIMIT + 1];
    let judged = Reference.judge(&upper, &lower, mark, &mut counts);
    let mut choices = [LIMIT, LIMIT + 1];
    let sent = Reference.generate(&upper, &lower, mark, &mut choices);
    let results = format!("{answer} {} {}", digest(&closed_upper), digest(&closed_lower));
    format!(
        "lists {n} {upper_figure} {lower_figure} {mark} {results} {judged} {} {sent} {}",
        digest(&counts),
        digest(&choices)
    )
}

/// One line on a pair of many rounds: what closing it answers, and the result lists after it.
fn rounds_line(upper: &[u32], lower: &[u32], mark: u32) -> String {
    let (mut closed_upper, mut closed_lower) = ([7; LONGEST_HORIZON], [7; LONGEST_HORIZON]);
    let answer = Reference.close(upper, lower, mark, &mut closed_upper, &mut closed_lower);
    format!(
        "rounds {} {answer} {} {}",
        upper.len(),
        digest(&closed_upper),
        digest(&closed_lower)
    )
}

/// The same on the pair of a text, with its mark. Where that is set, the ceilings are the largest numbers still.
fn text_line(text: &[u8]) -> String {
    let (mut upper, mut lower) = ([u32::MAX; LONGEST_HORIZON], [0; LONGEST_HORIZON]);
    let answer = Reference.read(text, &mut upper, &mut lower);
    let horizon = value_of(answer) as usize;
    rounds_line(&upper[..horizon], &lower[..horizon], mark_of(answer))
}

fn state_line(case: u64) -> String {
    let (state, count) = drawn(case);
    format!("state {case} {} {}", state.judged_line(count), state.sent_line(count))
}

/// All lines, in order.
fn lines() -> Vec<String> {
    let figures = [
        (LIMIT, 0, 0),
        (LIMIT, LIMIT, 0),
        (LIMIT + 1, 0, 0),
        (LIMIT, LIMIT + 1, 0),
        (u32::MAX, 0, 1),
        (0, LEAST_LIMIT, 2),
        (u32::MAX, LEAST_LIMIT + 1, 65_536),
        (LIMIT + 1, LIMIT, u32::MAX),
        (LIMIT, LIMIT + 1, 1),
    ];
    let lengths = [0, 1, LONGEST_HORIZON, LONGEST_HORIZON + 1];
    let lists = lengths
        .iter()
        .flat_map(|&n| figures.iter().map(move |&(upper, lower, mark)| lists_line(n, upper, lower, mark)));
    let nine = pairs::nine_rounds();
    let longest = [
        text_line(b"window,least,most\r\n2,0,2\r\n255,255,65535\r\n"),
        text_line(b"window,least,most\r\n2,0,2\r\n255,256,65535\r\n"),
        rounds_line(&nine.upper, &nine.lower, 0),
        text_line(b"window,least,most\r\n1,65535,\r\n256,0,\r\n"),
        text_line(b"window,least,most\r\n1,0,65535\r\n256,5,\r\n"),
    ];
    let stuck = format!("stuck {}", states::stuck().sent_line(0));
    let full = [false, true].map(|unlimited| format!("full {}", states::full(unlimited).judged_line(u32::MAX)));
    let states = (1..=CASES).map(state_line);
    let runs = (0..=runs::CASES).map(runs::line);
    lists.chain(longest).chain([stuck]).chain(full).chain(states).chain(runs).collect()
}

/// Whether the tick is outside both ways, so that the order of comparing matters: in one window, or in different ones. In a script it
/// never is, since a stream that a monitor passed can go on.
pub fn note_both(kind: &'static str, pair: &Pair, stream: &[u32], tally: &mut Tally) {
    let (mut many, mut few) = (None, None);
    for window in (1..=pair.horizon().min(stream.len())).rev() {
        let total = sum(&stream[stream.len() - window..]);
        if total > u64::from(pair.upper[window - 1]) {
            many = Some(window);
        }
        if total < u64::from(pair.lower[window - 1]) {
            few = Some(window);
        }
    }
    if many.is_some() && few.is_some() {
        tally.note(kind, u32::from(many == few));
    }
}

fn looser_somewhere(closed: &Pair, given: &Pair) -> bool {
    let upper_looser = closed.upper.iter().zip(&given.upper).any(|(closed, given)| closed > given);
    upper_looser || closed.lower.iter().zip(&given.lower).any(|(closed, given)| closed < given)
}

/// What came up in one state.
fn note(state: &State, count: u32, tally: &mut Tally) {
    let answer = state.judged(count).answer;
    tally.note(BUILT, kind_and_window(answer).0);
    tally.note(BUILT_SENT, state.sent(count).answer.saturating_sub(REFUSED));
    if !state.has_sizes() {
        tally.note(BUILT_TWELVE, 0);
        return;
    }
    let (given, closed, stream) = (state.given(), state.closed(), state.stream_with(count));
    match answer {
        REFUSED.. => tally.note(BUILT_TWELVE, if given.over_limit() { 1 } else { 2 }),
        ALREADY_FAILED => {}
        PASSED | LOST if looser_somewhere(&closed, &given) => tally.note(BUILT_LOOSER, answer / 1_000),
        PASSED | LOST => {}
        _ => {
            tally.note(BUILT_REJECTED, u32::from(verdict(&closed, &stream) != PASSED));
            note_both(BOTH, &given, &stream, tally);
        }
    }
}

/// The same of one without ceilings; and where a tick is judged, what of that which has no effect would have had one.
fn note_unlimited(state: &State, count: u32, tally: &mut Tally) {
    let answer = state.judged(count).answer;
    tally.note(UNLIMITED_BUILT, kind_and_window(answer).0);
    tally.note(UNLIMITED_BUILT_SENT, state.sent(count).answer.saturating_sub(REFUSED));
    if !is_judged(answer) {
        return;
    }
    let (given, closed, stream) = (Pair { mark: 0, ..state.given() }, state.closed(), state.stream_with(count));
    let effects = [
        given.over_limit(),
        verdict(&given, &stream) != answer,
        closed.over_limit(),
        answer == PASSED && verdict(&closed, &stream) != PASSED,
    ];
    (0..)
        .zip(effects)
        .filter(|effect| effect.1)
        .for_each(|effect| tally.note(UNLIMITED_NO_EFFECT, effect.0));
    if state.stream().contains(&u32::MAX) {
        tally.note(UNLIMITED_LARGEST, kind_and_window(answer).0);
    }
}

/// One state: what came up, and what its margin says of other counts.
fn check_state(state: &State, count: u32, tally: &mut Tally) -> Result<(), String> {
    match state.unlimited() {
        true => note_unlimited(state, count, tally),
        false => note(state, count, tally),
    }
    let Judged { answer, margin, .. } = state.judged(count);
    if !is_judged(answer) {
        return Ok(());
    }
    let tick = Tick {
        given: &state.given(),
        closed: &state.closed(),
        stream: &state.stream_with(count),
        answer,
        margin,
    };
    if state.unlimited() {
        tally.note(UNLIMITED_MARGIN, sign(margin.smallest));
    } else {
        tally.note(BUILT_MARGIN, sign(margin.smallest));
        tick.note(tally);
    }
    tick.check()
}

/// The same of a run, tick by tick.
fn check_run(run: &Run, tally: &mut Tally) -> Result<(), String> {
    let Course { opening, ticks } = run.course();
    let closed = closed(&run.pair);
    let kinds = if run.pair.unlimited() {
        [UNLIMITED_RUN, UNLIMITED_RUN_TICK, UNLIMITED_MARGIN]
    } else {
        [RUN, RUN_TICK, RUN_MARGIN]
    };
    tally.note(kinds[0], opening);
    for (place, &(answer, margin)) in ticks.iter().enumerate() {
        tally.note(kinds[1], kind_and_window(answer).0);
        if !is_judged(answer) {
            continue;
        }
        let tick = Tick {
            given: &run.pair,
            closed: &closed,
            stream: &run.counts[..=place],
            answer,
            margin,
        };
        tally.note(kinds[2], sign(margin.smallest));
        if !run.pair.unlimited() {
            tick.note(tally);
        }
        tick.check()?;
    }
    Ok(())
}

fn check_all(tally: &mut Tally) -> Result<(), String> {
    runs::check_example()?;
    check_state(&states::full(false), u32::MAX, tally)?;
    check_state(&states::full(true), u32::MAX, tally)?;
    for case in 1..=CASES {
        let (state, count) = drawn(case);
        check_state(&state, count, tally)?;
    }
    (0..=runs::CASES).try_for_each(|case| check_run(&runs::drawn(case), tally))
}

/// The lines that are stored for the program, against those computed. Gives back how many there are.
pub fn compare(stored: &str, tally: &mut Tally) -> Result<usize, String> {
    let text = std::fs::read_to_string(stored).map_err(|error| format!("{stored}: {error}"))?;
    let expected = lines();
    for (place, line) in expected.iter().enumerate() {
        let found = text.lines().nth(place).unwrap_or("nothing");
        if found != line {
            return Err(format!("{stored}, line {}:\n  expected {line}\n  found    {found}", place + 1));
        }
    }
    check_all(tally)?;
    match text.lines().count() == expected.len() {
        true => Ok(expected.len()),
        false => Err(format!("{stored}: more than the {} lines expected", expected.len())),
    }
}

/// The first run that comes to something else than it must.
pub fn told_apart(course: impl Fn(&Run) -> Course) -> Option<(&'static str, u64)> {
    (0..=runs::CASES)
        .find(|&case| {
            let run = runs::drawn(case);
            course(&run) != run.course()
        })
        .map(|case| ("runs of limits", case))
}

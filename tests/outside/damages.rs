//! Runs, previews and looks on words built by hand, damaged ones among them, and on lists of other lengths: what must be refused with 12
//! is, first of all and for an empty list too, and then nothing changes; and all else is what the reference comes to.

use crate::calls::{self, check_look, check_preview, Run};
use crate::limits::note_both;
use crate::random::Rng;
use crate::script_cases::choices;
use crate::states::State;
use crate::subject::{Subject, GENERATOR_WORDS, LIMIT, LONGEST_HORIZON, NO_COUNT};
use crate::tally::{Tally, BUILT_BOTH, BUILT_COUNT, BUILT_LATER, BUILT_LOOK, BUILT_RUN, BUILT_TAKEN, BUILT_VERDICT, BUILT_WHY};
use crate::tally::{GENERATOR_LENGTH, MONITOR_LENGTH, PREVIEW_BUILT};
use crate::trace::Trace;
use crate::words::{Kind, CLOSED_LOWER_WORDS, CLOSED_UPPER_WORDS, FAILED_WORD, FIGURE_WORDS, LOWER_WORDS, MARK_WORD, UPPER_WORDS};
use crate::{built, pairs};

/// What question 12 finds first in words that are as many as they must be.
fn why(kind: Kind, state: &State) -> Option<u32> {
    if state.is_legal(kind) {
        return None;
    }
    Some(match state.horizon() {
        0 => 1,
        horizon if horizon > LONGEST_HORIZON as u64 => 2,
        _ if !state.has_sizes() => 3,
        _ if state.given().over_limit() => 4,
        _ => 5,
    })
}

/// What a legal state has that might be taken for a reason to refuse it, or to take a mark for none.
fn note_taken(words: &[u32], state: &State, tally: &mut Tally) {
    let horizon = state.horizon() as usize;
    let over = |first: usize, from: usize, to: usize| words[first + from..first + to].iter().any(|&figure| figure > LIMIT);
    let past = |first: usize| over(first, horizon, LONGEST_HORIZON);
    let closed_inside = || over(CLOSED_UPPER_WORDS, 0, horizon) || over(CLOSED_LOWER_WORDS, 0, horizon);
    let joined = |first: usize| words[first..first + horizon].iter().fold(0, |bits, figure| bits | figure) > LIMIT;
    let found = [
        past(UPPER_WORDS) || past(LOWER_WORDS),
        past(CLOSED_UPPER_WORDS) || past(CLOSED_LOWER_WORDS),
        state.unlimited() && over(UPPER_WORDS, 0, horizon),
        state.unlimited() && closed_inside(),
        words[MARK_WORD] > 1,
        words[FAILED_WORD] > 1,
        !state.unlimited() && FIGURE_WORDS.into_iter().any(joined),
    ];
    let seen = (0..).zip(found).filter(|(_, found)| *found);
    seen.for_each(|(number, _)| tally.note(BUILT_TAKEN, number));
}

/// Of what is sent: the first entry, a later count, the first entry without one, and those after that.
fn note_answers(kind: Kind, answers: &[u32], tally: &mut Tally) {
    for (place, &answer) in answers.iter().enumerate() {
        let none = answer == NO_COUNT;
        let (at, number) = match (kind, place) {
            (Kind::Monitor, 0) => (BUILT_VERDICT, answer / 1_000),
            (Kind::Monitor, _) => (BUILT_LATER, answer / 1_000),
            (Kind::Generator, 0) => (BUILT_COUNT, u32::from(none)),
            (Kind::Generator, _) if answers[place - 1] == NO_COUNT => (BUILT_COUNT, 4),
            (Kind::Generator, _) => (BUILT_COUNT, 2 + u32::from(none)),
        };
        tally.note(at, number);
    }
}

/// Whether the first tick is too many and too few at once.
fn note_first(run: &Run, state: &State, tally: &mut Tally) {
    if run.ticks() > 0 && !state.failed && !state.unlimited() {
        note_both(BUILT_BOTH, &state.given(), &state.stream_with(run.entries[0]), tally);
    }
}

fn note_refused(run: &Run, state: &State, tally: &mut Tally) {
    let right = run.words.len() == run.kind.words();
    let found = if right { why(run.kind, state).unwrap_or(0) } else { 0 };
    tally.note(BUILT_WHY, found + if run.ticks() == 0 { 10 } else { 0 });
    if !right {
        let lengths = if run.kind == Kind::Monitor {
            MONITOR_LENGTH
        } else {
            GENERATOR_LENGTH
        };
        tally.note(lengths, run.words.len() as u32);
    }
}

/// One run on words of a length that may be another, with room that may be too little.
fn check_run(subject: &dyn Subject, rng: &mut Rng, kind: Kind, words: &[u32], list: &[u32], tally: &mut Tally) -> Result<(), String> {
    let mut lent = words.to_vec();
    lent.resize(calls::length(rng, kind), 0);
    let room = if rng.one_in(4) { rng.length(0, list.len() + 3) } else { list.len() };
    let run = Run {
        kind,
        words: &lent,
        entries: list,
        room,
        margins: rng.length(0, room + 2),
    };
    let mut came = run.check(subject)?;
    let state = State::of_words(&lent);
    tally.note(BUILT_RUN, if came.number < 0 { -came.number as u32 } else { 0 });
    if came.number < 0 {
        note_refused(&run, &state, tally);
    } else {
        note_answers(kind, &came.answers()[..run.ticks()], tally);
        if kind == Kind::Monitor {
            note_taken(&lent, &state, tally);
            note_first(&run, &state, tally);
        }
    }
    Ok(())
}

/// A preview on words of a length that may be another, of the counts or of none.
fn check_tried(subject: &dyn Subject, rng: &mut Rng, words: &[u32], counts: &[u32], tally: &mut Tally) -> Result<(), String> {
    let mut lent = words.to_vec();
    lent.resize(calls::length(rng, Kind::Monitor), 0);
    let counts = if rng.one_in(4) { &[] } else { counts };
    let due = Trace::new(Kind::Monitor, &lent, counts, 0).map(|trace| trace.first_rejected(0, counts.len()));
    let (empty, failed) = (counts.is_empty(), State::of_words(&lent).failed);
    tally.note(
        PREVIEW_BUILT,
        match due {
            None => 20 + 10 * u32::from(empty),
            Some(_) if empty => 10 + u32::from(failed),
            Some((_, verdict)) => verdict / 1_000,
        },
    );
    check_preview(subject, &lent, counts, due)
}

pub fn compare(subject: &dyn Subject, rng: &mut Rng, tally: &mut Tally) -> Result<(), String> {
    let words = built::any(rng);
    let counts = built::counts(rng, &words);
    check_run(subject, rng, Kind::Monitor, &words, &counts, tally)?;
    check_tried(subject, rng, &words, &counts, tally)?;
    let length = rng.length(0, 14);
    let choices = choices(rng, length);
    check_run(subject, rng, Kind::Generator, &words, &choices, tally)?;
    let mut lent = words;
    lent.resize(calls::length(rng, Kind::Generator), 0);
    let look = check_look(subject, &lent)?;
    tally.note(BUILT_LOOK, if look < 0 { -look as u32 } else { 0 });
    check_stuck(subject, rng, tally)
}

/// A generator on a pair that is not closed, built by hand: it sends until there is no count, and is then asked on.
fn check_stuck(subject: &dyn Subject, rng: &mut Rng, tally: &mut Tally) -> Result<(), String> {
    let horizon = rng.length(2, 12);
    let given = pairs::unclosed(rng, horizon);
    let words = built::state_words(given.clone(), given, &[]);
    let length = rng.length(1, 30);
    let list = choices(rng, length);
    check_run(subject, rng, Kind::Generator, &words[..GENERATOR_WORDS], &list, tally)
}

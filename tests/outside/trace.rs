//! What a list comes to on the words of a state, by the reference: from the stream of the ticks held and of all that are added, in which
//! every window is summed anew at each tick. A trace knows no seams, so what a list in pieces must come to is what it says of the whole.

use crate::pair::Pair;
use crate::states::State;
use crate::streams::{chosen, margin, range, ruling};
use crate::subject::{ALREADY_FAILED, NO_COUNT, PASSED};
use crate::words::{Kind, FAILED_WORD, HELD_WORD, TICK_WORDS};

pub struct Trace {
    /// The words as they were.
    before: Vec<u32>,
    pub given: Pair,
    pub closed: Pair,
    /// The ticks held, and those added.
    stream: Vec<u32>,
    /// How many ticks the stream has after so many entries of the list.
    lengths: Vec<usize>,
    /// The entry at which a monitor rejects a tick, if it does. Where it had failed before this is the first.
    rejected: Option<usize>,
    pub answers: Vec<u32>,
    /// Of as many ticks as was asked for.
    pub margins: Vec<i64>,
}

impl Trace {
    /// Nothing where question 12 refuses the words. So many margins are found as there is room for.
    pub fn new(kind: Kind, words: &[u32], entries: &[u32], margins: usize) -> Option<Trace> {
        let state = State::of_words(words);
        if words.len() != kind.words() || !state.is_legal(kind) {
            return None;
        }
        let stream = state.stream().to_vec();
        let mut trace = Trace {
            before: words.to_vec(),
            given: state.given(),
            closed: state.closed(),
            lengths: vec![stream.len()],
            stream,
            rejected: (kind == Kind::Monitor && state.failed).then_some(0),
            answers: Vec::new(),
            margins: Vec::new(),
        };
        for &entry in entries {
            match kind {
                Kind::Monitor => trace.judge(entry, margins),
                Kind::Generator => trace.send(entry),
            }
            trace.lengths.push(trace.stream.len());
        }
        Some(trace)
    }

    /// A monitor's tick. One that is rejected is not held.
    fn judge(&mut self, count: u32, margins: usize) {
        let wanted = self.margins.len() < margins;
        if self.rejected.is_some() {
            self.answers.push(ALREADY_FAILED);
            self.margins.extend(wanted.then_some(0));
            return;
        }
        self.stream.push(count);
        let answer = ruling(&self.given, &self.closed, &self.stream);
        self.margins.extend(wanted.then(|| margin(&self.given, &self.stream).smallest));
        if answer != PASSED {
            self.stream.pop();
            self.rejected = Some(self.answers.len());
        }
        self.answers.push(answer);
    }

    /// A generator's tick. Where there is no count the stream stays as it was.
    fn send(&mut self, choice: u32) {
        let count = range(&self.given, &self.stream).map(|(lo, hi)| chosen(lo, hi, choice));
        self.stream.extend(count);
        self.answers.push(count.unwrap_or(NO_COUNT));
    }

    /// Of so many entries from a place on, the first that is rejected, counted from there, and its verdict; or how many they are, and 0.
    pub fn first_rejected(&self, from: usize, entries: usize) -> (usize, u32) {
        let answers = self.answers[from..from + entries].iter().copied();
        answers
            .enumerate()
            .find(|&(_, answer)| answer != PASSED)
            .unwrap_or((entries, PASSED))
    }

    /// The stream after so many entries.
    pub fn stream_after(&self, entries: usize) -> &[u32] {
        &self.stream[..self.lengths[entries]]
    }

    /// The words after so many entries: the last ticks are held, fewer than the horizon, and a failed mark that was set stays as it was.
    pub fn words_after(&self, entries: usize) -> Vec<u32> {
        let mut words = self.before.clone();
        let stream = self.stream_after(entries);
        let held = stream.len().min(self.given.horizon() - 1);
        words[HELD_WORD] = held as u32;
        words[TICK_WORDS..TICK_WORDS + held].copy_from_slice(&stream[stream.len() - held..]);
        if self.rejected.is_some_and(|place| place < entries) && words[FAILED_WORD] == 0 {
            words[FAILED_WORD] = 1;
        }
        words
    }

    /// What a look at a generator's state answers after so many entries.
    pub fn look_after(&self, entries: usize) -> i64 {
        range(&self.given, self.stream_after(entries)).map_or(-13, |(lo, hi)| (i64::from(hi) << 32) + i64::from(lo))
    }
}

/// A run as a whole: as many ticks as the shorter of the two lists has entries.
pub fn run_on(kind: Kind, state: &mut [u32], entries: &[u32], answers: &mut [u32], margins: &mut [i64]) -> i64 {
    let ran = entries.len().min(answers.len());
    let Some(trace) = Trace::new(kind, state, &entries[..ran], margins.len()) else {
        return -12;
    };
    answers[..ran].copy_from_slice(&trace.answers);
    margins[..trace.margins.len()].copy_from_slice(&trace.margins);
    state.copy_from_slice(&trace.words_after(ran));
    ran as i64
}

/// The place of the first count that does not pass, and its verdict; where all do, their number and that of a pass.
pub fn preview_on(state: &[u32], counts: &[u32], verdict: &mut u32) -> i64 {
    let Some(trace) = Trace::new(Kind::Monitor, state, counts, 0) else {
        return -12;
    };
    let (place, found) = trace.first_rejected(0, counts.len());
    *verdict = found;
    place as i64
}

pub fn look_at(state: &[u32]) -> i64 {
    Trace::new(Kind::Generator, state, &[], 0).map_or(-12, |trace| trace.look_after(0))
}

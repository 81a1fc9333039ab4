//! States built by hand, drawn as the program `limits` draws them, and what a tick on each must come to, by the reference. Anything may
//! stand in a state: sizes and figures that are refused, and closed figures that have nothing to do with those as given. The last of them
//! have no ceilings, and what stands in their place, and in that of the closed figures, is mostly above the limit.

use crate::draws::{draw, draw_count, draw_counts, draw_odd, draw_size};
use crate::pair::Pair;
use crate::streams::{chosen, margin, range, ruling, Margin};
use crate::subject::{ALREADY_FAILED, LONGEST_HORIZON, MONITOR_WORDS, NO_COUNT, PASSED, REFUSED};
use crate::words::{Kind, CLOSED_LOWER_WORDS, CLOSED_UPPER_WORDS, FAILED_WORD, HELD_WORD, HORIZON_WORD};
use crate::words::{LOWER_WORDS, MARK_WORD, TICK_WORDS, UPPER_WORDS};

pub const CASES: u64 = 600;
/// The states after this one have no ceilings.
const LIMITED_CASES: u64 = 400;

/// Each list has 256 entries, whatever the horizon is.
pub struct State {
    horizon: u64,
    held: u64,
    pub failed: bool,
    /// With the mark of the state.
    given: Pair,
    closed: Pair,
    ticks: Vec<u32>,
}

/// A state and the count, or the choice, that it gets.
pub fn drawn(case: u64) -> (State, u32) {
    (drawn_state(case, case <= LIMITED_CASES), draw_count(case, 2, 12, 4))
}

pub fn drawn_state(case: u64, limited: bool) -> State {
    let closed_odd = draw_odd(case, 12, 8, limited);
    State {
        horizon: draw_size(case, 4, 11),
        held: draw_size(case, 6, 1 + draw(case, 8, 10)),
        failed: draw(case, 1, 4) == 0,
        given: Pair {
            upper: draw_counts(case, 1_024, draw_odd(case, 3, 4, limited), 1 + draw(case, 9, 90)),
            lower: draw_counts(case, 2_048, draw_odd(case, 3, 4, true), 1 + draw(case, 10, 9)),
            mark: u32::from(!limited),
        },
        closed: Pair::new(
            &draw_counts(case, 4_096, closed_odd, 1 + draw(case, 13, 90)),
            &draw_counts(case, 5_120, closed_odd, 1 + draw(case, 14, 9)),
        ),
        ticks: draw_counts(case, 3_072, 24, 1 + draw(case, 11, 6)),
    }
}

/// With entries of 0 up to the longest horizon.
fn padded(numbers: &[u32]) -> Vec<u32> {
    [numbers, &[0; LONGEST_HORIZON][numbers.len()..]].concat()
}

/// The published pair as it is read, after 0, 2, 1, 0, 2, 0. No generator opens on it, and no count can follow.
pub fn stuck() -> State {
    let none = padded(&[]);
    State {
        horizon: 5,
        held: 4,
        failed: false,
        given: Pair::new(&padded(&[3, 6, 3, 12, 9]), &padded(&[0, 0, 0, 0, 5])),
        closed: Pair::new(&none, &none),
        ticks: padded(&[1, 0, 2, 0]),
    }
}

/// As many ticks as a monitor can hold, each with the largest count, over ceilings of 0. With one more of them no sum is larger, and no
/// margin smaller; without ceilings one more passes.
pub fn full(unlimited: bool) -> State {
    let none = Pair::filled(LONGEST_HORIZON, 0, 0);
    let mark = u32::from(unlimited);
    State {
        horizon: LONGEST_HORIZON as u64,
        held: LONGEST_HORIZON as u64 - 1,
        failed: false,
        given: Pair { mark, ..none.clone() },
        closed: none,
        ticks: vec![u32::MAX; LONGEST_HORIZON],
    }
}

/// What a monitor's tick comes to.
pub struct Judged {
    /// As a run answers it.
    pub answer: u32,
    pub margin: Margin,
    pub failed: bool,
    /// The ticks that are held then, or nothing where the state comes back as it was, but for its having failed.
    pub held: Option<Vec<u32>>,
}

/// What a generator's tick comes to, with the same fields. Unlike one after an opening, it may be refused, with 12 or 13.
pub struct Sent {
    pub answer: u32,
    pub held: Option<Vec<u32>>,
}

pub fn digest(numbers: &[u32]) -> u64 {
    numbers.iter().fold(1, |sum, &number| (sum * 31 + u64::from(number)) % (1 << 31))
}

/// The kind of a monitor's answer, 0 to 4 for a verdict or the number of a refusal, and the window that it names.
pub fn kind_and_window(answer: u32) -> (u32, u32) {
    match answer {
        REFUSED.. => (answer - REFUSED, 0),
        _ => (answer / 1_000, answer % 1_000),
    }
}

/// Whether the windows were looked at for an answer: not where the monitor had failed before, nor for a refusal.
pub fn is_judged(answer: u32) -> bool {
    answer != ALREADY_FAILED && answer < REFUSED
}

/// A tick's answer as the program `limits` writes it: the kind and the window of the verdict, the margin and its window.
pub fn answer_line(answer: u32, margin: Margin) -> String {
    let (kind, window) = kind_and_window(answer);
    format!("{kind} {window} {} {}", margin.smallest, margin.window)
}

fn digests(pair: &Pair) -> String {
    format!("{} {}", digest(&pair.upper), digest(&pair.lower))
}

impl State {
    /// Without a tick. The figures of both pairs are those up to the horizon, and all others are 0.
    pub fn fresh(given: Pair, closed: Pair) -> State {
        let padded_pair = |pair: &Pair| Pair::marked(&padded(&pair.upper), &padded(&pair.lower), pair.mark);
        State {
            horizon: given.horizon() as u64,
            held: 0,
            failed: false,
            given: padded_pair(&given),
            closed: padded_pair(&closed),
            ticks: padded(&[]),
        }
    }

    /// What a monitor's words say, or a generator's, or any others: those that are missing are 0, and those too many have no effect.
    pub fn of_words(words: &[u32]) -> State {
        let mut all = words.to_vec();
        all.resize(MONITOR_WORDS, 0);
        let list = |first: usize| all[first..first + LONGEST_HORIZON].to_vec();
        let pair = |upper: usize, lower: usize, mark: u32| Pair::marked(&list(upper), &list(lower), mark);
        State {
            horizon: u64::from(all[HORIZON_WORD]),
            held: u64::from(all[HELD_WORD]),
            failed: all[FAILED_WORD] != 0,
            given: pair(UPPER_WORDS, LOWER_WORDS, all[MARK_WORD]),
            closed: pair(CLOSED_UPPER_WORDS, CLOSED_LOWER_WORDS, 0),
            ticks: list(TICK_WORDS),
        }
    }

    /// As a monitor's words, of which the first are a generator's. A size that no word holds becomes the largest that one does.
    pub fn words(&self) -> Vec<u32> {
        let size = |size: u64| u32::try_from(size).unwrap_or(u32::MAX);
        let parts: [&[u32]; 8] = [
            &[size(self.horizon), self.given.mark],
            &self.given.upper,
            &self.given.lower,
            &[size(self.held)],
            &self.ticks,
            &self.closed.upper,
            &self.closed.lower,
            &[u32::from(self.failed)],
        ];
        parts.concat()
    }

    /// Question 12. A generator has no closed figures.
    pub fn is_legal(&self, kind: Kind) -> bool {
        self.has_sizes()
            && match kind {
                Kind::Monitor => !self.over_limit(),
                Kind::Generator => !self.given().over_limit(),
            }
    }

    /// What question 12 asks of the horizon and the held ticks. The figures and the stream are those of a state that has this.
    pub fn has_sizes(&self) -> bool {
        1 <= self.horizon && self.horizon <= LONGEST_HORIZON as u64 && self.held < self.horizon
    }

    pub fn horizon(&self) -> u64 {
        self.horizon
    }

    /// The closed figures past the horizon too.
    pub fn whole_closed(&self) -> &Pair {
        &self.closed
    }

    pub fn given(&self) -> Pair {
        self.up_to_horizon(&self.given)
    }

    pub fn closed(&self) -> Pair {
        self.up_to_horizon(&self.closed)
    }

    pub fn unlimited(&self) -> bool {
        self.given.unlimited()
    }

    fn up_to_horizon(&self, pair: &Pair) -> Pair {
        let horizon = self.horizon as usize;
        Pair::marked(&pair.upper[..horizon], &pair.lower[..horizon], pair.mark)
    }

    /// What question 12 asks of the figures: of the closed ones too, where there are ceilings.
    fn over_limit(&self) -> bool {
        self.given().over_limit() || (!self.unlimited() && self.closed().over_limit())
    }

    pub fn stream(&self) -> &[u32] {
        &self.ticks[..self.held as usize]
    }

    pub fn stream_with(&self, count: u32) -> Vec<u32> {
        [self.stream(), &[count]].concat()
    }

    fn held_with(&self, count: u32) -> Vec<u32> {
        let stream = self.stream_with(count);
        let held = stream.len().min(self.horizon as usize - 1);
        stream[stream.len() - held..].to_vec()
    }

    pub fn judged(&self, count: u32) -> Judged {
        let unjudged = |answer: u32| Judged {
            answer,
            margin: Margin::default(),
            failed: self.failed,
            held: None,
        };
        if !self.is_legal(Kind::Monitor) {
            return unjudged(REFUSED + 12);
        }
        if self.failed {
            return unjudged(ALREADY_FAILED);
        }
        let (given, stream) = (self.given(), self.stream_with(count));
        let answer = ruling(&given, &self.closed(), &stream);
        Judged {
            answer,
            margin: margin(&given, &stream),
            failed: answer != PASSED,
            held: (answer == PASSED).then(|| self.held_with(count)),
        }
    }

    /// What a view has of a state's ceilings, or of its closed figures: nothing where there are no ceilings.
    fn viewed(&self, figures: &[u32]) -> Vec<u32> {
        let shown = if self.unlimited() { 0 } else { self.horizon as usize };
        figures[..shown].to_vec()
    }

    /// The history that comes back: what a view has of it where a tick was added, else every entry.
    fn history_line(&self, held: Option<Vec<u32>>) -> String {
        let (pair, length, ticks) = match held {
            Some(held) => {
                let pair = Pair::new(&self.viewed(&self.given.upper), &self.given().lower);
                (pair, held.len() as u64, held)
            }
            None => (self.given.clone(), self.held, self.ticks.clone()),
        };
        let mark = self.given.mark;
        format!("{} {length} {mark} {} {}", self.horizon, digests(&pair), digest(&ticks))
    }

    /// What is answered, whether it has failed then, the history, and the closed figures.
    pub fn judged_line(&self, count: u32) -> String {
        let judged = self.judged(count);
        let closed = if judged.held.is_some() {
            Pair::new(&self.viewed(&self.closed.upper), &self.viewed(&self.closed.lower))
        } else {
            self.closed.clone()
        };
        let answered = answer_line(judged.answer, judged.margin);
        let history = self.history_line(judged.held);
        format!("{answered} {} {history} {}", u8::from(judged.failed), digests(&closed))
    }

    fn range(&self) -> Option<(u32, u32)> {
        range(&self.given(), self.stream())
    }

    /// A generator on the same history. It has no closed figures.
    pub fn sent(&self, choice: u32) -> Sent {
        let refused = |answer: u32| Sent { answer, held: None };
        if !self.is_legal(Kind::Generator) {
            return refused(REFUSED + 12);
        }
        self.range().map_or(refused(NO_COUNT), |(lo, hi)| {
            let answer = chosen(lo, hi, choice);
            let held = Some(self.held_with(answer));
            Sent { answer, held }
        })
    }

    /// Lo and hi, what is sent, and the history. A look is refused with the same number as a tick.
    pub fn sent_line(&self, choice: u32) -> String {
        let Sent { answer, held, .. } = self.sent(choice);
        let history = self.history_line(held);
        if answer >= REFUSED {
            let number = answer - REFUSED;
            return format!("{number} 0 {number} 0 {history}");
        }
        let (lo, hi) = self.range().expect("a count that is sent lies in a range");
        format!("{lo} {hi} 0 {answer} {history}")
    }
}

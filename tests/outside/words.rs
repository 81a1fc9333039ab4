//! The words of a state: where each part stands, and what a monitor's and a generator's have in common.

use crate::pair::Pair;
use crate::subject::{Subject, GENERATOR_WORDS, MONITOR_WORDS};

/// The place of a single word, or of the first of 256.
pub const HORIZON_WORD: usize = 0;
pub const MARK_WORD: usize = 1;
pub const UPPER_WORDS: usize = 2;
pub const LOWER_WORDS: usize = 258;
pub const HELD_WORD: usize = 514;
pub const TICK_WORDS: usize = 515;
/// These stand in a monitor's alone; what is before them is a generator's.
pub const CLOSED_UPPER_WORDS: usize = 771;
pub const CLOSED_LOWER_WORDS: usize = 1_027;
pub const FAILED_WORD: usize = 1_283;

/// The first of each 256 words that hold figures.
pub const FIGURE_WORDS: [usize; 4] = [UPPER_WORDS, LOWER_WORDS, CLOSED_UPPER_WORDS, CLOSED_LOWER_WORDS];

/// Which of the two states, so that the same can be put to both.
#[derive(Clone, Copy, PartialEq)]
pub enum Kind {
    Monitor,
    Generator,
}

impl Kind {
    pub fn words(self) -> usize {
        match self {
            Kind::Monitor => MONITOR_WORDS,
            Kind::Generator => GENERATOR_WORDS,
        }
    }

    pub fn name(self) -> &'static str {
        match self {
            Kind::Monitor => "a monitor",
            Kind::Generator => "a generator",
        }
    }

    pub fn open(self, subject: &dyn Subject, pair: &Pair, state: &mut [u32]) -> u32 {
        match self {
            Kind::Monitor => subject.open_monitor(&pair.upper, &pair.lower, pair.mark, state),
            Kind::Generator => subject.open_generator(&pair.upper, &pair.lower, pair.mark, state),
        }
    }

    /// A generator has no margins: what is lent for them is not handed on.
    pub fn run(self, subject: &dyn Subject, state: &mut [u32], entries: &[u32], answers: &mut [u32], margins: &mut [i64]) -> i64 {
        match self {
            Kind::Monitor => subject.run_monitor(state, entries, answers, margins),
            Kind::Generator => subject.run_generator(state, entries, answers),
        }
    }
}

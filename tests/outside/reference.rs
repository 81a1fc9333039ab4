//! The independent implementation as a subject, so that the same call can be put to it and to what is tested.

use crate::pair::Pair;
use crate::subject::Subject;
use crate::words::Kind;
use crate::{openings, rounds, text, trace};

pub struct Reference;

impl Subject for Reference {
    fn close(&self, upper: &[u32], lower: &[u32], mark: u32, closed_upper: &mut [u32], closed_lower: &mut [u32]) -> u64 {
        rounds::close_into(&Pair::marked(upper, lower, mark), closed_upper, closed_lower)
    }

    fn read(&self, text: &[u8], upper: &mut [u32], lower: &mut [u32]) -> u64 {
        text::read_into(text, upper, lower)
    }

    fn report(&self, text: &[u8], output: &mut [u8]) -> usize {
        text::report_into(text, output)
    }

    fn render(&self, upper: &[u32], lower: &[u32], mark: u32, output: &mut [u8]) -> i64 {
        text::render_into(&Pair::marked(upper, lower, mark), output)
    }

    fn open_monitor(&self, upper: &[u32], lower: &[u32], mark: u32, state: &mut [u32]) -> u32 {
        openings::open_into(Kind::Monitor, &Pair::marked(upper, lower, mark), state)
    }

    fn open_generator(&self, upper: &[u32], lower: &[u32], mark: u32, state: &mut [u32]) -> u32 {
        openings::open_into(Kind::Generator, &Pair::marked(upper, lower, mark), state)
    }

    fn run_monitor(&self, state: &mut [u32], counts: &[u32], verdicts: &mut [u32], margins: &mut [i64]) -> i64 {
        trace::run_on(Kind::Monitor, state, counts, verdicts, margins)
    }

    fn preview(&self, state: &mut [u32], counts: &[u32], verdict: &mut u32) -> i64 {
        trace::preview_on(state, counts, verdict)
    }

    fn run_generator(&self, state: &mut [u32], choices: &[u32], counts: &mut [u32]) -> i64 {
        trace::run_on(Kind::Generator, state, choices, counts, &mut [])
    }

    fn look(&self, state: &[u32]) -> i64 {
        trace::look_at(state)
    }
}

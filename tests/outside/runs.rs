//! Streams on monitors as an opening hands them out, a refused one too, drawn as the program `limits` draws them, and what each tick must
//! be answered, by the reference. The window of a margin does not cross the C boundary; here it is seen, while the held ticks fill up and
//! once the oldest are let go.

use crate::draws::draw;
use crate::pair::Pair;
use crate::reference::Reference;
use crate::states::{answer_line, is_judged};
use crate::streams::{margin, Margin};
use crate::subject::{Subject, REFUSED};

/// Case 0 is the README's example, the others are drawn. Those after the last with ceilings have none.
pub const CASES: u64 = 160;
const LIMITED_CASES: u64 = 120;
const TICKS: u64 = 12;

/// The example's line, worked out beforehand, so that the reference is held to something outside itself.
const EXAMPLE: &str = "run 0 3 0 0 0 0 5 1 0 0 4 1 0 0 3 3 0 0 1 3 0 0 0 3 1 1 -6 3 3 0 0 0";

/// A pair to open a monitor on, and the counts that it gets.
pub struct Run {
    pub pair: Pair,
    pub counts: Vec<u32>,
}

/// What opening answers, and what each tick does.
#[derive(PartialEq)]
pub struct Course {
    pub opening: u32,
    pub ticks: Vec<(u32, Margin)>,
}

/// Some streams pass whole, others are rejected early or late, and some pairs are refused.
pub fn drawn(case: u64) -> Run {
    if case == 0 {
        return Run {
            pair: Pair::new(&[10, 16, 20], &[0, 2, 4]),
            counts: vec![5, 6, 6, 7, 7, 12, 1],
        };
    }
    let horizon = 1 + draw(case, 20, 8);
    let list = |length: u64, k: u64, first: u64, step: u64, choices: u64| -> Vec<u32> {
        (0..length)
            .map(|i| (first + i * step + draw(case, k ^ i, choices)) as u32)
            .collect()
    };
    Run {
        pair: Pair {
            upper: list(horizon, 6_144, 4, 2, 9),
            lower: list(horizon, 7_168, 0, 1, 5),
            mark: u32::from(case > LIMITED_CASES),
        },
        counts: list(TICKS, 14_336, 1, 0, 5),
    }
}

impl Run {
    /// The stream up to a tick that is judged is the counts up to it, as all before it passed. What a refused opening hands out refuses
    /// each tick with 12.
    pub fn course(&self) -> Course {
        let mut answers = self.counts.clone();
        let opening = Reference.judge(&self.pair.upper, &self.pair.lower, self.pair.mark, &mut answers);
        if opening != 0 {
            answers.fill(REFUSED + 12);
        }
        let margin_at = |tick: usize| match is_judged(answers[tick]) {
            true => margin(&self.pair, &self.counts[..=tick]),
            false => Margin::default(),
        };
        let ticks = (0..answers.len()).map(|tick| (answers[tick], margin_at(tick))).collect();
        Course { opening, ticks }
    }
}

pub fn line(case: u64) -> String {
    let run = drawn(case);
    let Course { opening, ticks } = run.course();
    let answers: Vec<String> = ticks.iter().map(|&(answer, margin)| answer_line(answer, margin)).collect();
    let Pair { upper, mark, .. } = &run.pair;
    format!("run {case} {} {mark} {opening} {}", upper.len(), answers.join(" "))
}

/// The example by the reference.
pub fn check_example() -> Result<(), String> {
    if line(0) == EXAMPLE {
        return Ok(());
    }
    Err(format!("the example of a margin:\n  expected {EXAMPLE}\n  found    {}", line(0)))
}

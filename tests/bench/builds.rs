//! The fastest forms as contenders: built for any machine, and built with wider instructions.

use crate::contender::{hold, Contender, Preview, State};
use crate::fastest::{close_core, generate_core, generator_core, judge_core, monitor, preview_core, read_core, Generator, Monitor};
use crate::plain;
use crate::subject::{refusal_of, LONGEST_HORIZON};

/// What the questions refuse is not timed.
fn taken(upper: &[u32], lower: &[u32]) -> bool {
    plain::opening(upper, lower) == 0
}

pub fn close(upper: &[u32], lower: &[u32], closed_upper: &mut [u32], closed_lower: &mut [u32]) -> u64 {
    if !taken(upper, lower) || closed_upper.len().min(closed_lower.len()) < upper.len() {
        return plain::close(upper, lower, closed_upper, closed_lower);
    }
    close_core(upper, lower, closed_upper, closed_lower)
}

pub fn read(text: &[u8], upper: &mut [u32], lower: &mut [u32]) -> u64 {
    read_core(text, upper, lower)
}

/// A state with the build that it is run by.
struct Judge {
    state: Monitor,
    run: fn(&mut Monitor, &[u32], &mut [u32], &mut [i64]),
}

struct Tester {
    state: Monitor,
    run: fn(&Monitor, &[u32]) -> (usize, u32),
}

struct Sender {
    state: Generator,
    run: fn(&mut Generator, &[u32], &mut [u32]),
}

impl State for Judge {
    fn run(&mut self, counts: &[u32], verdicts: &mut [u32], margins: &mut [i64]) {
        (self.run)(&mut self.state, counts, verdicts, margins);
    }
}

impl Preview for Tester {
    fn preview(&mut self, counts: &[u32]) -> (usize, u32) {
        (self.run)(&self.state, counts)
    }
}

impl State for Sender {
    fn run(&mut self, choices: &[u32], counts: &mut [u32], _: &mut [i64]) {
        (self.run)(&mut self.state, choices, counts);
    }
}

/// No opening of a monitor is timed, so all builds have the same.
fn opened(upper: &[u32], lower: &[u32]) -> Result<Monitor, u32> {
    let (mut closed_upper, mut closed_lower) = ([0; LONGEST_HORIZON], [0; LONGEST_HORIZON]);
    match refusal_of(close(upper, lower, &mut closed_upper, &mut closed_lower)) {
        0 => Ok(monitor(upper, lower, &closed_upper[..upper.len()], &closed_lower[..upper.len()])),
        number => Err(number),
    }
}

fn judge(state: &mut Monitor, counts: &[u32], verdicts: &mut [u32], margins: &mut [i64]) {
    judge_core(state, counts, verdicts, margins);
}

fn generate(state: &mut Generator, choices: &[u32], counts: &mut [u32]) {
    generate_core(state, choices, counts);
}

pub fn open_monitor(upper: &[u32], lower: &[u32]) -> Result<Box<dyn State>, u32> {
    let state = opened(upper, lower)?;
    Ok(Box::new(Judge { state, run: judge }))
}

fn preview(state: &Monitor, counts: &[u32]) -> (usize, u32) {
    preview_core(state, counts)
}

/// What is held is run by the same build, whatever the preview's: it is not timed.
fn tester(upper: &[u32], lower: &[u32], held: &[u32], run: fn(&Monitor, &[u32]) -> (usize, u32)) -> Result<Box<dyn Preview>, u32> {
    let state = opened(upper, lower)?;
    let mut judge = Judge { state, run: judge };
    hold(&mut judge, held);
    Ok(Box::new(Tester { state: judge.state, run }))
}

pub fn open_preview(upper: &[u32], lower: &[u32], held: &[u32]) -> Result<Box<dyn Preview>, u32> {
    tester(upper, lower, held, preview)
}

pub fn open_generator(upper: &[u32], lower: &[u32]) -> Result<Box<dyn State>, u32> {
    match plain::opening(upper, lower) {
        0 => {
            let state = generator_core(upper, lower).ok_or(15u32)?;
            Ok(Box::new(Sender { state, run: generate }))
        }
        number => Err(number),
    }
}

#[cfg(target_arch = "x86_64")]
mod wide {
    use super::{close_core, generate_core, generator_core, judge_core, preview_core, read_core, Generator, Monitor};

    #[target_feature(enable = "avx2")]
    pub fn close(upper: &[u32], lower: &[u32], closed_upper: &mut [u32], closed_lower: &mut [u32]) -> u64 {
        close_core(upper, lower, closed_upper, closed_lower)
    }

    #[target_feature(enable = "avx2")]
    pub fn judge(state: &mut Monitor, counts: &[u32], verdicts: &mut [u32], margins: &mut [i64]) {
        judge_core(state, counts, verdicts, margins);
    }

    #[target_feature(enable = "avx2")]
    pub fn preview(state: &Monitor, counts: &[u32]) -> (usize, u32) {
        preview_core(state, counts)
    }

    #[target_feature(enable = "avx2")]
    pub fn open(upper: &[u32], lower: &[u32]) -> Option<Generator> {
        generator_core(upper, lower)
    }

    #[target_feature(enable = "avx2")]
    pub fn generate(state: &mut Generator, choices: &[u32], counts: &mut [u32]) {
        generate_core(state, choices, counts);
    }

    #[target_feature(enable = "avx2")]
    pub fn read(text: &[u8], upper: &mut [u32], lower: &mut [u32]) -> u64 {
        read_core(text, upper, lower)
    }
}

/// The build with wider instructions, where the machine has them. The pairs that are opened on pass the questions 1, 2 and 4.
#[cfg(target_arch = "x86_64")]
pub fn with_avx2() -> Option<Contender> {
    if !std::arch::is_x86_feature_detected!("avx2") {
        return None;
    }
    // SAFETY: the machine has the instructions, as was just asked.
    Some(Contender {
        name: "with avx2",
        close: |upper, lower, closed_upper, closed_lower| unsafe { wide::close(upper, lower, closed_upper, closed_lower) },
        monitor: |upper, lower| {
            let run = |state: &mut Monitor, counts: &[u32], verdicts: &mut [u32], margins: &mut [i64]| unsafe {
                wide::judge(state, counts, verdicts, margins)
            };
            let state = opened(upper, lower)?;
            Ok(Box::new(Judge { state, run }))
        },
        preview: |upper, lower, held| {
            let run = |state: &Monitor, counts: &[u32]| unsafe { wide::preview(state, counts) };
            tester(upper, lower, held, run)
        },
        generator: |upper, lower| {
            let run = |state: &mut Generator, choices: &[u32], counts: &mut [u32]| unsafe { wide::generate(state, choices, counts) };
            let state = unsafe { wide::open(upper, lower) }.ok_or(15u32)?;
            Ok(Box::new(Sender { state, run }))
        },
        read: |text, upper, lower| unsafe { wide::read(text, upper, lower) },
    })
}

#[cfg(not(target_arch = "x86_64"))]
pub fn with_avx2() -> Option<Contender> {
    None
}

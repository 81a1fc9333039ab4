//! What is timed. Each case gives back all that it got, so that the contenders' results can be compared.

use std::hint::black_box;
use std::time::{Duration, Instant};

use crate::contender::{Contender, State};
use crate::product::Product;
use crate::subject::{Subject, LIMIT};

/// How many ticks a list has, and how many are called one by one.
const TICKS: usize = 200_000;
const SINGLE_TICKS: usize = 20_000;
/// How often a burst is tried.
const BURSTS: usize = 2_000;

pub struct Case {
    pub name: &'static str,
    /// How many operations one run has: calls, or ticks.
    pub calls: usize,
    pub run: fn(&Case, &Contender) -> Outcome,
    upper: Vec<u32>,
    lower: Vec<u32>,
    /// Counts that a monitor has run before it tries the list.
    held: Vec<u32>,
    list: Vec<u32>,
    text: Vec<u8>,
}

/// What came of a run, and what it took.
pub struct Outcome {
    pub results: Vec<u32>,
    pub time: Duration,
}

fn timed(work: impl FnOnce()) -> Duration {
    let start = Instant::now();
    work();
    start.elapsed()
}

fn close(case: &Case, contender: &Contender) -> Outcome {
    let horizon = case.upper.len();
    let (mut results, mut closed_lower) = (vec![0; horizon], vec![0; horizon]);
    let mut rounds = 0;
    let time = timed(|| {
        for _ in 0..case.calls {
            rounds = (contender.close)(&case.upper, &case.lower, &mut results, &mut closed_lower);
        }
    });
    results.extend(closed_lower);
    results.push(rounds as u32);
    Outcome { results, time }
}

/// A list on a state that was opened before, which is not timed: what is answered, or the number of the refusal.
fn run_list(case: &Case, opened: Result<Box<dyn State>, u32>, margins: usize) -> Outcome {
    let (mut results, mut margins) = (vec![0; case.list.len()], vec![0; margins]);
    let time = match opened {
        Ok(mut state) => timed(|| state.run(&case.list, &mut results, &mut margins)),
        Err(number) => {
            results = vec![number];
            Duration::ZERO
        }
    };
    results.extend(margins.iter().map(|&margin| margin as u32));
    Outcome { results, time }
}

fn judge(case: &Case, contender: &Contender) -> Outcome {
    run_list(case, (contender.monitor)(&case.upper, &case.lower), 0)
}

fn judge_with_margins(case: &Case, contender: &Contender) -> Outcome {
    run_list(case, (contender.monitor)(&case.upper, &case.lower), case.list.len())
}

/// A list that is tried so many times on a state that was opened before.
fn preview(case: &Case, contender: &Contender, times: usize) -> Outcome {
    let mut found = (0, 0);
    let time = match (contender.preview)(&case.upper, &case.lower, &case.held) {
        Ok(mut state) => timed(|| (0..times).for_each(|_| found = state.preview(black_box(&case.list)))),
        Err(number) => {
            found.1 = number;
            Duration::ZERO
        }
    };
    Outcome {
        results: vec![found.0 as u32, found.1],
        time,
    }
}

/// By the tick: one call.
fn preview_list(case: &Case, contender: &Contender) -> Outcome {
    preview(case, contender, 1)
}

/// By the call.
fn preview_burst(case: &Case, contender: &Contender) -> Outcome {
    preview(case, contender, case.calls)
}

fn generate(case: &Case, contender: &Contender) -> Outcome {
    run_list(case, (contender.generator)(&case.upper, &case.lower), 0)
}

/// The same, one tick after the other, each on the state that came back. What is opened on here is not refused.
fn run_each(case: &Case, opened: Result<Box<dyn State>, u32>) -> Outcome {
    let mut results = vec![0; case.list.len()];
    let time = opened.map_or(Duration::ZERO, |mut state| timed(|| state.run_each(&case.list, &mut results)));
    Outcome { results, time }
}

fn judge_each(case: &Case, contender: &Contender) -> Outcome {
    run_each(case, (contender.monitor)(&case.upper, &case.lower))
}

fn generate_each(case: &Case, contender: &Contender) -> Outcome {
    run_each(case, (contender.generator)(&case.upper, &case.lower))
}

/// A generator opened again and again, without a tick: what the questions take.
fn open_generator(case: &Case, contender: &Contender) -> Outcome {
    let mut results = vec![1; case.calls];
    let time = timed(|| {
        for entry in &mut results {
            *entry = (contender.generator)(&case.upper, &case.lower).err().unwrap_or(0);
        }
    });
    Outcome { results, time }
}

fn read(case: &Case, contender: &Contender) -> Outcome {
    let (mut results, mut lower) = (vec![0; 256], vec![0; 256]);
    let mut horizon = 0;
    let time = timed(|| {
        for _ in 0..case.calls {
            horizon = (contender.read)(&case.text, &mut results, &mut lower);
        }
    });
    results.extend(lower);
    results.push(horizon as u32);
    Outcome { results, time }
}

fn closing(name: &'static str, upper: Vec<u32>, lower: Vec<u32>) -> Case {
    Case {
        name,
        calls: 20,
        run: close,
        upper,
        lower,
        held: Vec::new(),
        list: Vec::new(),
        text: Vec::new(),
    }
}

/// Two windows with a bound each: nine rounds, the most that there are.
fn closing_nine_rounds() -> Case {
    let (mut upper, mut lower) = (vec![LIMIT; 256], vec![0; 256]);
    upper[4] = 200_000;
    lower[252] = 10_120_000;
    closing("closing, 256, 9 rounds", upper, lower)
}

/// Ten constraints, as engineers write them: three rounds.
fn closing_a_text() -> Case {
    let text = b"window,least,most\r\n1,0,12\r\n2,0,20\r\n5,10,45\r\n10,40,80\r\n20,100,150\r\n40,220,290\r\n80,460,560\r\n\
                 128,750,880\r\n192,1140,1310\r\n256,1530,1740\r\n";
    let (mut upper, mut lower) = (vec![0; 256], vec![0; 256]);
    assert_eq!(Product.read(text, &mut upper, &mut lower), 256);
    let (mut closed_upper, mut closed_lower) = (upper.clone(), lower.clone());
    assert_eq!(Product.close(&upper, &lower, 0, &mut closed_upper, &mut closed_lower), 3);
    closing("closing, 256, 3 rounds", upper, lower)
}

/// Curves that are closed already: the one round that finds nothing to change.
fn closing_closed_curves() -> Case {
    let (upper, lower) = curves(256);
    closing("closing, 256, closed", upper, lower)
}

/// Closed curves about 5 in 2 ticks, with room for a burst: each tick has several counts to choose from.
fn curves(horizon: u32) -> (Vec<u32>, Vec<u32>) {
    let upper: Vec<u32> = (1..=horizon).map(|window| 5 * window / 2 + 9).collect();
    let lower: Vec<u32> = (1..=horizon).map(|window| (5 * window / 2).saturating_sub(9)).collect();
    let (mut closed_upper, mut closed_lower) = (upper.clone(), lower.clone());
    Product.close(&upper, &lower, 0, &mut closed_upper, &mut closed_lower);
    (closed_upper, closed_lower)
}

/// The one round that finds nothing to change, and a state.
fn opening() -> Case {
    let mut case = closing_closed_curves();
    case.name = "generator opening, 256";
    case.run = open_generator;
    case
}

fn choices() -> Vec<u32> {
    (0..TICKS as u32).map(|tick| tick.wrapping_mul(2_654_435_761) >> 7).collect()
}

fn generator(name: &'static str, horizon: u32) -> Case {
    let (upper, lower) = curves(horizon);
    Case {
        name,
        calls: TICKS,
        run: generate,
        upper,
        lower,
        held: Vec::new(),
        list: choices(),
        text: Vec::new(),
    }
}

/// The stream that a generator sends on the same curves, so that every tick is passed and every window judged.
fn monitor(name: &'static str, horizon: u32) -> Case {
    let mut case = generator(name, horizon);
    Product.generate(&case.upper, &case.lower, 0, &mut case.list);
    case.run = judge;
    case
}

/// The same stream, tried.
fn tried(mut case: Case) -> Case {
    case.run = preview_list;
    case
}

/// Ten counts of it and one that is too many for these curves, behind as many as a monitor can hold.
fn burst(mut case: Case) -> Case {
    case.held = case.list[..case.upper.len()].to_vec();
    case.list = case.list[case.upper.len()..][..10].to_vec();
    case.list.push(LIMIT);
    case.calls = BURSTS;
    case.run = preview_burst;
    case
}

/// With the margin of each tick.
fn with_margins(mut case: Case) -> Case {
    case.run = judge_with_margins;
    case
}

/// The first ticks of a case, each by a call of its own.
fn each(mut case: Case, run: fn(&Case, &Contender) -> Outcome) -> Case {
    case.list.truncate(SINGLE_TICKS);
    case.calls = SINGLE_TICKS;
    case.run = run;
    case
}

/// Pairs that no generator opens on: with a ceiling that is loose, or a least, and two without a closure.
pub fn not_closed() -> Vec<Case> {
    let pairs: [(&str, [u32; 3], [u32; 3]); 4] = [
        ("generator, a loose ceiling", [1, 2, 4], [0, 0, 0]),
        ("generator, a loose least", [1, 2, 3], [1, 2, 2]),
        ("generator, crossing", [1, 2, 3], [0, 3, 0]),
        ("generator, no closure", [2, 2, 5], [0, 0, 4]),
    ];
    let case = |(name, upper, lower): (&'static str, [u32; 3], [u32; 3])| Case {
        name,
        calls: 1,
        run: generate,
        upper: upper.to_vec(),
        lower: lower.to_vec(),
        held: Vec::new(),
        list: vec![1, 2],
        text: Vec::new(),
    };
    pairs.into_iter().map(case).collect()
}

/// Each window with a least, and with a most or without one.
fn reading(name: &'static str, with_most: bool) -> Case {
    let mut text = b"window,least,most\r\n".to_vec();
    for window in 1..=256u32 {
        let most = if with_most {
            (250 * window + 99).to_string()
        } else {
            String::new()
        };
        text.extend(format!("{window},{},{most}\r\n", 200 * window).bytes());
    }
    Case {
        name,
        calls: 400,
        run: read,
        upper: Vec::new(),
        lower: Vec::new(),
        held: Vec::new(),
        list: Vec::new(),
        text,
    }
}

/// Streams that a monitor rejects, one for each verdict that is no pass: on the ceilings 5, 3 and the leasts 0, 2 one tick has 3 at most.
pub fn rejected() -> Vec<Case> {
    let streams: [(&str, &[u32]); 4] = [
        ("monitor, too many in 1", &[1, 2, 6, 0]),
        ("monitor, too many in 2", &[3, 1, 0]),
        ("monitor, too few", &[0, 1, 2]),
        ("monitor, lost", &[4, 0]),
    ];
    let case = |(name, counts): (&'static str, &[u32])| Case {
        name,
        calls: counts.len(),
        run: judge_with_margins,
        upper: vec![5, 3],
        lower: vec![0, 2],
        held: Vec::new(),
        list: counts.to_vec(),
        text: Vec::new(),
    };
    streams.into_iter().map(case).collect()
}

pub fn all() -> Vec<Case> {
    vec![
        closing_nine_rounds(),
        closing_a_text(),
        closing_closed_curves(),
        opening(),
        monitor("monitor list, 256", 256),
        monitor("monitor list, 16", 16),
        tried(monitor("preview of a list, 256", 256)),
        tried(monitor("preview of a list, 16", 16)),
        burst(monitor("preview of a burst, 256", 256)),
        burst(monitor("preview of a burst, 16", 16)),
        with_margins(monitor("monitor with margins, 256", 256)),
        with_margins(monitor("monitor with margins, 16", 16)),
        generator("generator list, 256", 256),
        generator("generator list, 16", 16),
        each(monitor("monitor one tick, 256", 256), judge_each),
        each(monitor("monitor one tick, 16", 16), judge_each),
        each(generator("generator one tick, 256", 256), generate_each),
        each(generator("generator one tick, 16", 16), generate_each),
        reading("reading, 256 records", true),
        reading("reading, 256, no most", false),
    ]
}
